// What the programs here ask of the system, and how they begin: Linux' calls write (1) and exit_group (231).
typedef unsigned char u8;
typedef unsigned int u32;
typedef unsigned long u64;

static long system_call(long number, long first, long second, long third) {
    long answer;
    __asm__ volatile("syscall"
                     : "=a"(answer)
                     : "a"(number), "D"(first), "S"(second), "d"(third)
                     : "rcx", "r11", "memory");
    return answer;
}

static void put(const void *bytes, u64 count) { system_call(1, 1, (long)bytes, (long)count); }

static __attribute__((noreturn)) void leave(int status) {
    for (;;) {
        system_call(231, status, 0, 0);
    }
}

// The next of a row of numbers that looks random (xorshift).
static inline u64 next_number(u64 *state) {
    u64 x = *state;
    x ^= x << 13;
    x ^= x >> 7;
    x ^= x << 17;
    *state = x;
    return x;
}
