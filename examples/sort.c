// Sorts 10,000 numbers below 4,096 by counting, looks whether they are in order, and writes the
// first, the middle and the last of them.
#include "erim.h"

#define COUNT 10000
#define RANGE 4096

static u32 numbers[COUNT], sorted[COUNT], places[RANGE];

int main(void) {
    u32 state = 1;
    for (u32 i = 0; i < COUNT; i++) {
        state = state * 1664525 + 1013904223;
        numbers[i] = state >> 20;
        places[numbers[i]]++;
    }
    u32 before = 0;
    for (u32 i = 0; i < RANGE; i++) {
        u32 here = places[i];
        places[i] = before;
        before += here;
    }
    for (u32 i = 0; i < COUNT; i++) {
        sorted[places[numbers[i]]++] = numbers[i];
    }
    for (u32 i = 1; i < COUNT; i++) {
        if (sorted[i - 1] > sorted[i]) {
            return 1;
        }
    }
    print_number(sorted[0]);
    print_number(sorted[COUNT / 2]);
    print_number(sorted[COUNT - 1]);
    return 0;
}
