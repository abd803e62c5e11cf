// Takes 1,000 blocks of the trusted heap through a gate, gives every second one back, takes as many
// again, and gives all back; writes where the last one was. Built by examples/build.sh.
#include "erim.h"

#define BLOCKS 1000

HEAP(65536);

SECRET static void *blocks[BLOCKS];

TRUSTED u64 use_heap(void) {
    for (int i = 0; i < BLOCKS; i++) {
        blocks[i] = talloc(48);
    }
    for (int i = 0; i < BLOCKS; i += 2) {
        tfree(blocks[i]);
    }
    for (int i = 0; i < BLOCKS; i += 2) {
        blocks[i] = talloc(48);
    }
    for (int i = 0; i < BLOCKS; i++) {
        tfree(blocks[i]);
    }
    return (u64)blocks[BLOCKS - 1];
}

u64 use(void);
ENTRY(use, use_heap);

int main(void) {
    print_number(use());
    return 0;
}
