// A vault: it keeps a key behind its gate and signs messages with it. Ordinary code calls `sign`,
// and never sees the key; the two functions below TRUSTED are all that can read it.
#include "erim.h"

SECRET static u64 key[2] = {0x0706050403020100, 0x0f0e0d0c0b0a0908};

TRUSTED static u64 mixed(u64 sum, u64 word) {
    sum = (sum ^ word) * 0x9e3779b97f4a7c15;
    return sum ^ (sum >> 29);
}

TRUSTED u64 sign_message(const u8 *message, u64 count) {
    u64 sum = key[0];
    for (u64 i = 0; i < count; i++) {
        sum = mixed(sum, message[i]);
    }
    return mixed(sum, key[1]);
}

u64 sign(const u8 *message, u64 count);
ENTRY(sign, sign_message);

int main(void) {
    static const u8 message[] = "pay 10 to alice";
    print("signature ");
    print_number(sign(message, sizeof message - 1));
    return 0;
}
