// CRC-32 (ISO-HDLC) of a page of numbers, by a table that it makes first; writes the four bytes of the sum. With more
// ROUNDS the sum of each goes into the page of the next.
#include "system.h"

#ifndef ROUNDS
#define ROUNDS 1
#endif

static u32 table[256];
static u64 page[512];

static void make_table(void) {
    for (u32 i = 0; i < 256; i++) {
        u32 sum = i;
        for (int bit = 0; bit < 8; bit++) {
            sum = sum & 1 ? (sum >> 1) ^ 0xEDB88320u : sum >> 1;
        }
        table[i] = sum;
    }
}

static u32 sum_of(const u8 *bytes, u64 count) {
    u32 sum = 0xFFFFFFFFu;
    for (u64 i = 0; i < count; i++) {
        sum = table[(sum ^ bytes[i]) & 255] ^ (sum >> 8);
    }
    return ~sum;
}

void _start(void) {
    u64 state = 2463534242u;
    make_table();
    for (int i = 0; i < 512; i++) {
        page[i] = next_number(&state);
    }
    u32 check = sum_of((const u8 *)"123456789", 9), whole = 0;
    for (u64 round = 0; round < ROUNDS; round++) {
        page[round % 512] += whole;
        whole = sum_of((const u8 *)page, sizeof page);
    }
    put(&check, 4);
    put(&whole, 4);
    leave(check == 0xCBF43926u ? 0 : 1);
}
