// Three instructions that hide a WRPKRU: a number that is moved into a register, the distance of a
// jump back over a mebibyte, and a MOV that ends with 0F before an ADD. `run` ends the program at
// its first page; of the image that `rewrite` makes of it `inspect` finds nothing unsafe, and `run`
// prints what this program prints on Linux.
#include "erim.h"

// The bytes of the number are 0F 01 EF 00.
__attribute__((noinline)) static u64 mixed(u64 seed) {
    u64 number;
    asm("mov $0x00EF010F, %k0" : "=r"(number));
    return (seed ^ number) * 3;
}

// The jump back has the distance -1,113,841, whose bytes are 0F 01 EF FF.
__attribute__((noinline)) static u64 gone_far(u64 count) {
    asm volatile("jmp 2f\n"
                 "1: add $1, %0\n"
                 ".byte 0xE9\n"
                 ".long 3f - . - 4\n"
                 "nop\n" // an even number of zeros is left, which are instructions of two bytes
                 "4: .skip 1113841 - 5 - (4b - 1b)\n"
                 "2: .byte 0xE9\n"
                 ".long 1b - . - 4\n"
                 "3:"
                 : "+r"(count));
    return count;
}

// The immediate ends with 0F, and the ADD after it is 01 EF.
__attribute__((noinline)) static u64 added(u64 seed) {
    register u64 sum asm("rdi") = seed;
    u64 high;
    asm volatile("push %%rbp\n"
                 "mov $5, %%ebp\n"
                 "mov $0x0F000000, %%eax\n"
                 "add %%ebp, %%edi\n"
                 "pop %%rbp"
                 : "+r"(sum), "=a"(high));
    return sum + high;
}

int main(void) {
    u64 sum = 0;
    for (u64 round = 1; round <= 100; round++) {
        sum += mixed(round);
        sum = gone_far(sum);
        sum = added(sum & 0xFFFFFF);
    }
    print("sum ");
    print_number(sum);
    return sum & 0x7F;
}
