// Four threads that count together, under a lock of their own: each adds 1 to one number 500 times.
// The last one to be done writes the number, and the program ends with it.
#include "erim.h"

static volatile u32 lock, count, running = 4;
static u8 stacks[3][2048] __attribute__((aligned(16)));

static void take(void) {
    while (__atomic_exchange_n(&lock, 1, __ATOMIC_SEQ_CST) != 0) {
        sched_yield();
    }
}

static void give(void) { __atomic_store_n(&lock, 0, __ATOMIC_SEQ_CST); }

static void work(void *rounds) {
    for (u64 i = 0; i < (u64)rounds; i++) {
        take();
        count = count + 1;
        give();
    }
    take();
    running = running - 1;
    u32 left = running;
    give();
    if (left == 0) {
        print("counted ");
        print_number(count);
        exit_group(0);
    }
}

int main(void) {
    for (int i = 0; i < 3; i++) {
        if (spawn(work, (void *)500, stacks[i] + sizeof stacks[i]) < 0) {
            return 1;
        }
    }
    work((void *)500);
    // The others end the program.
    for (;;) {
        sched_yield();
    }
}
