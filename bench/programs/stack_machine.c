// A small stack machine that computes the Fibonacci numbers below 2^63 and counts the primes below 500; writes its stack.
#include "system.h"

enum { PUSH, ADD, SUB, DUP, SWAP, OVER, LOAD, STORE, JUMP, JUMP_ZERO, LESS, PUT, DROP, STOP };

static long stack[64], cells[512];

static long run(const long *code) {
    long *top = stack;
    for (u64 at = 0;;) {
        long x;
        switch (code[at++]) {
        case PUSH: *top++ = code[at++]; break;
        case ADD: top--; top[-1] += top[0]; break;
        case SUB: top--; top[-1] -= top[0]; break;
        case DUP: *top = top[-1]; top++; break;
        case SWAP: x = top[-1]; top[-1] = top[-2]; top[-2] = x; break;
        case OVER: *top = top[-2]; top++; break;
        case LOAD: top[-1] = cells[top[-1]]; break;
        case STORE: top -= 2; cells[top[1]] = top[0]; break;
        case JUMP: at = (u64)code[at]; break;
        case JUMP_ZERO: at = *--top == 0 ? (u64)code[at] : at + 1; break;
        case LESS: top--; top[-1] = top[-1] < top[0]; break;
        case PUT: put(&top[-1], 8); break;
        case DROP: top--; break;
        default: return top - stack;
        }
    }
}

// 1, 1, 2, 3 .. while they don't wrap
static const long fibonacci[] = {PUSH, 1, PUSH, 1, PUT, SWAP, OVER, ADD, DUP, PUSH, 0, LESS, JUMP_ZERO, 4, STOP};

static long primes_below(long limit) {
    long count = 0;
    for (long i = 0; i < limit; i++) {
        cells[i] = 1;
    }
    for (long i = 2; i < limit; i++) {
        if (cells[i]) {
            count++;
            for (long j = i * i; j < limit; j += i) {
                cells[j] = 0;
            }
        }
    }
    return count;
}

void _start(void) {
    long depth = run(fibonacci), primes = primes_below(500);
    put(&primes, 8);
    put(stack, 32);
    leave((int)depth);
}
