// What a program for erim is written with: freestanding C for x86-64, integers alone.
//
// A program has ordinary functions and data, and what the macros below put into its trusted part.
// With one domain: TRUSTED before a function or SECRET before a variable puts it there, and ENTRY
// makes a gate that ordinary code calls. With up to four domains that don't trust each other the
// DOMAIN macros do the same for one of them. `build.sh` has the options.
#ifndef ERIM_H
#define ERIM_H

#include "gate.h"

typedef unsigned char u8;
typedef unsigned int u32;
typedef unsigned long u64;

// ---- domains: each is a key, 1 to 4, or a macro that stands for one

// A function of a domain. Only other functions of this domain call it, or a gate.
#define DOMAIN_CODE(domain) \
    __attribute__((section(".domain" GATE_WORD(domain) ".text"), noinline))

// A variable of a domain. Its page has the domain's key.
#define DOMAIN_DATA(domain) __attribute__((section(".domain" GATE_WORD(domain) ".data")))

// The gate NAME, which calls the function FUNCTION of a domain with up to six numbers and gives
// back its answer. It is for ordinary code: a domain that called it would still be open there.
#define DOMAIN_ENTRY(domain, name, function) DOMAIN_GATE(GATE_WORD(domain), #name, #function)

// All may read the variables of this domain; still only its own functions write them.
#define INTEGRITY(domain) INTEGRITY_MARK(GATE_WORD(domain))

// ---- the trusted part of a program with one domain: its key is 1

// A function of the trusted part. Only other trusted functions call it, or a gate.
#define TRUSTED DOMAIN_CODE(1)

// A variable of the trusted part. Its page has key 1.
#define SECRET DOMAIN_DATA(1)

// The gate NAME, which calls the trusted function FUNCTION with up to six numbers and gives back
// its answer. A program with DOMAIN_ENTRY or INTEGRITY has no such gate.
#define ENTRY(name, function) GATE(#name, #function)

// The heap of domain 1, of the given number of bytes, a multiple of 4,096. talloc gives out its
// blocks.
#define HEAP(bytes) \
    __asm__(".pushsection .trusted.heap, \"aw\", @nobits\n" \
            ".globl erim_heap\n" \
            "erim_heap: .skip " #bytes "\n" \
            ".popsection\n" \
            ".pushsection .note.erim.record, \"\", @note\n" \
            ".long 4, 1\n" \
            ".quad erim_heap, " #bytes "\n" \
            ".popsection")

// ---- system calls; an error is its number, negated

// These are inlined where they are called, at -O0 too, so that a domain's code doesn't leave its
// text.
#define HERE static inline __attribute__((always_inline))

HERE long call(long number, long a, long b, long c, long d) {
    register long fourth __asm__("r10") = d;
    long answer;
    __asm__ volatile("syscall"
                     : "=a"(answer)
                     : "a"(number), "D"(a), "S"(b), "d"(c), "r"(fourth)
                     : "rcx", "r11", "memory");
    return answer;
}

#define PROT_READ 1
#define PROT_WRITE 2
#define PROT_EXEC 4
#define MAP_ANYWHERE 0x22
#define MAP_AT 0x32

HERE long write(int fd, const void *bytes, u64 count) {
    return call(1, fd, (long)bytes, (long)count, 0);
}
HERE void *mmap(void *at, u64 bytes, int prot, int flags) {
    return (void *)call(9, (long)at, (long)bytes, prot, flags);
}
HERE long mprotect(void *at, u64 bytes, int prot) {
    return call(10, (long)at, (long)bytes, prot, 0);
}
HERE long munmap(void *at, u64 bytes) { return call(11, (long)at, (long)bytes, 0, 0); }
HERE long sched_yield(void) { return call(24, 0, 0, 0, 0); }
HERE long gettid(void) { return call(186, 0, 0, 0, 0); }
HERE long pkey_mprotect(void *at, u64 bytes, int prot, int key) {
    return call(329, (long)at, (long)bytes, prot, key);
}
HERE long pkey_alloc(u32 flags, u32 rights) { return call(330, flags, rights, 0, 0); }
HERE long pkey_free(int key) { return call(331, key, 0, 0, 0); }

// For functions of domain 1 alone.
HERE void *talloc(u64 bytes) { return (void *)call(1000, (long)bytes, 0, 0, 0); }
HERE long tfree(void *block) { return call(1001, (long)block, 0, 0, 0); }

HERE void __attribute__((noreturn)) exit_group(int status) {
    for (;;) {
        call(231, status, 0, 0, 0);
    }
}

// A thread that calls FUNCTION with ARGUMENT and then ends; its stack ends at STACK, a multiple of
// 16. Answers its number.
long spawn(void (*function)(void *), void *argument, void *stack);

// ---- what else programs need

// Writes a text.
static inline void print(const char *text) {
    u64 count = 0;
    while (text[count] != 0) {
        count++;
    }
    write(1, text, count);
}

// Writes a number in 16 hexadecimal digits, and a line's end.
void print_number(u64 number);

int main(void);

#endif
