// The parts of a C library that a compiler calls by itself, and printing.
#include "erim.h"

void *memcpy(void *to, const void *from, u64 count) {
    for (u64 i = 0; i < count; i++) {
        ((u8 *)to)[i] = ((const u8 *)from)[i];
    }
    return to;
}

void *memmove(void *to, const void *from, u64 count) {
    if (to <= from) {
        return memcpy(to, from, count);
    }
    for (u64 i = count; i > 0; i--) {
        ((u8 *)to)[i - 1] = ((const u8 *)from)[i - 1];
    }
    return to;
}

void *memset(void *to, int byte, u64 count) {
    for (u64 i = 0; i < count; i++) {
        ((u8 *)to)[i] = (u8)byte;
    }
    return to;
}

int memcmp(const void *one, const void *other, u64 count) {
    for (u64 i = 0; i < count; i++) {
        int difference = ((const u8 *)one)[i] - ((const u8 *)other)[i];
        if (difference != 0) {
            return difference;
        }
    }
    return 0;
}

void print_number(u64 number) {
    char digits[17];
    for (int i = 15; i >= 0; i--) {
        u32 digit = number & 15;
        digits[i] = (char)(digit < 10 ? '0' + digit : 'a' + digit - 10);
        number >>= 4;
    }
    digits[16] = '\n';
    write(1, digits, sizeof digits);
}
