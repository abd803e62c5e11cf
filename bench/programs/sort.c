// Sorts numbers in place (Shell sort), and writes each 16th of them and their count of inversions, which is 0.
#include "system.h"

#define COUNT 512
static u64 numbers[COUNT];

static void sort(u64 *xs, u64 count) {
    for (u64 gap = count / 2; gap > 0; gap /= 2) {
        for (u64 i = gap; i < count; i++) {
            u64 x = xs[i], j = i;
            while (j >= gap && xs[j - gap] > x) {
                xs[j] = xs[j - gap];
                j -= gap;
            }
            xs[j] = x;
        }
    }
}

void _start(void) {
    u64 state = 88172645463325252u;
    int inversions = 0;
    for (u64 i = 0; i < COUNT; i++) {
        numbers[i] = next_number(&state);
    }
    sort(numbers, COUNT);
    for (u64 i = 1; i < COUNT; i++) {
        inversions += numbers[i - 1] > numbers[i];
    }
    for (u64 i = 0; i < COUNT; i += 16) {
        put(&numbers[i], 8);
    }
    leave(inversions);
}
