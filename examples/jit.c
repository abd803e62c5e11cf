// A small just-in-time compiler: a page asks for reading, writing and execution; it writes a
// formula's code there, calls it, and writes the next one, 1,000 times, without any other call. The
// machine judges the page each time that it is executed after it was written, and it is never
// writable and executable at once.
#include "erim.h"

// Code that leaves the formula's value in EAX, of x in EDI: mov, imul, add, sub, ret. It is
// volatile, so that no compiler makes one store of 16 bits out of two.
static volatile u8 *with_number(volatile u8 *code, u32 number) {
    for (int i = 0; i < 4; i++) {
        *code++ = (u8)(number >> 8 * i);
    }
    return code;
}

static volatile u8 *with_operation(volatile u8 *code, char operation, u32 number) {
    if (operation == '*') {
        *code++ = 0x69; // imul eax, eax, number
        *code++ = 0xC0;
    } else {
        *code++ = operation == '+' ? 0x05 : 0x2D; // add or sub eax, number
    }
    return with_number(code, number);
}

// Compiles a formula in x, as `*3+4-n`, in which `n` stands for a number.
static void compile(volatile u8 *code, const char *formula, u32 n) {
    *code++ = 0x89; // mov eax, edi
    *code++ = 0xF8;
    while (*formula != 0) {
        char operation = *formula++;
        u32 number = 0;
        if (*formula == 'n') {
            number = n;
            formula++;
        }
        while (*formula >= '0' && *formula <= '9') {
            number = 10 * number + (u32)(*formula++ - '0');
        }
        code = with_operation(code, operation, number);
    }
    *code = 0xC3; // ret
}

int main(void) {
    u8 *page = mmap(0, 4096, PROT_READ | PROT_WRITE | PROT_EXEC, MAP_ANYWHERE);
    u32 (*formula)(u32) = (u32(*)(u32))page;
    u64 sum = 0;
    for (u32 n = 1; n <= 1000; n++) {
        compile(page, n % 2 == 0 ? "*n+4*5" : "*3-n", n);
        sum += formula(n + 100);
    }
    print("1,000 formulas, sum ");
    print_number(sum);
    return munmap(page, 4096) == 0 ? 0 : 2;
}
