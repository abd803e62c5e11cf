// The gates of trusted functions, which ordinary code calls.
//
// Six numbers pass as the compiler hands them over; RDX and RCX, which the gate clears for WRPKRU,
// wait in R10 and R11. The address after WRPKRU is an entry, and gets its record in the trust
// note. Where a program has DOMAIN_ENTRY or INTEGRITY, the entry begins with a check: whoever jumps
// to the WRPKRU with another value than that of this domain ends the program. A domain's code runs
// on a stack of its own, in its data, so that nobody else can change where it returns, and one
// thread is in a domain at a time. After the last instruction of the gate out all keys are closed,
// or the check has ended the program. Registers that may hold something secret are cleared.
//
// The linker script computes `erim_closed`, which closes all domains, and `erim_open_1` to
// `erim_open_4`, of which each opens one.
#ifndef ERIM_GATE_H
#define ERIM_GATE_H

#define GATE_WORD(word) GATE_WORD_OF(word)
#define GATE_WORD_OF(word) #word

#define GATE_IN(domain) \
    "mov %rdx, %r10\n" \
    "mov %rcx, %r11\n" \
    "xor %ecx, %ecx\n" \
    "xor %edx, %edx\n" \
    "mov $erim_open_" domain ", %eax\n" \
    "wrpkru\n"

// The record of an entry: kind 3, the domain's key, its address, and no length.
#define ENTRY_RECORD(domain, label) \
    ".pushsection .note.erim.record, \"\", @note\n" \
    ".long 3, " domain "\n" \
    ".quad " label ", 0\n" \
    ".popsection\n"

// Ends the program unless PKRU has this value. The first instruction is `cmp $value, %eax`, for
// which an assembler has a choice of bytes where it doesn't know the value yet.
#define GATE_CHECK(value, label) \
    ".byte 0x3D\n" \
    ".long " value "\n" \
    "je " label "\n" \
    "mov $231, %eax\n" \
    "syscall\n" label ":\n"

#define GATE_CALL(domain, name, function) \
    "mov $1, %eax\n" \
    ".Llock_" name ":\n" \
    "xchg %eax, erim_lock_" domain "(%rip)\n" \
    "test %eax, %eax\n" \
    "jnz .Llock_" name "\n" \
    "mov %rsp, erim_caller_stack_" domain "(%rip)\n" \
    "lea erim_stack_end_" domain "(%rip), %rsp\n" \
    "mov %r10, %rdx\n" \
    "mov %r11, %rcx\n" \
    "call " function "\n" \
    "mov erim_caller_stack_" domain "(%rip), %rsp\n" \
    "movl $0, erim_lock_" domain "(%rip)\n" \
    "mov %rax, %r10\n"

#define GATE_OUT(name) \
    "xor %esi, %esi\n" \
    "xor %edi, %edi\n" \
    "xor %r8d, %r8d\n" \
    "xor %r9d, %r9d\n" \
    "xor %r11d, %r11d\n" \
    "xor %ecx, %ecx\n" \
    "xor %edx, %edx\n" \
    "mov $erim_closed, %eax\n" \
    "wrpkru\n" GATE_CHECK("erim_closed", ".Lclosed_" name) \
    "mov %r10, %rax\n" \
    "ret\n"

// The gate NAME of FUNCTION, in the domain's text. CHECK follows its entry.
#define GATE_TO(domain, name, function, check) \
    __asm__(".pushsection .domain" domain ".text, \"ax\", @progbits\n" \
            ".globl " name "\n" \
            ".type " name ", @function\n" name ":\n" GATE_IN(domain) \
            ".Lentry_" name ":\n" ENTRY_RECORD(domain, ".Lentry_" name) check \
            GATE_CALL(domain, name, function) GATE_OUT(name) \
            ".popsection")

// The linker script looks whether one of these words is set.
#define SET_WORD(word) ".weak " word "\n.set " word ", 1\n"

#define GATE(name, function) GATE_TO("1", name, function, SET_WORD("erim_one_domain"))

#define DOMAIN_GATE(domain, name, function) \
    GATE_TO(domain, name, function, \
            SET_WORD("erim_domains") GATE_CHECK("erim_open_" domain, ".Lopen_" name))

// The record of kind 5, which has no start and no length.
#define INTEGRITY_MARK(domain) \
    __asm__(SET_WORD("erim_domains") \
            ".globl erim_integrity_" domain "\n" \
            ".set erim_integrity_" domain ", 1\n" \
            ".pushsection .note.erim.record, \"\", @note\n" \
            ".long 5, " domain "\n" \
            ".quad 0, 0\n" \
            ".popsection")

#endif
