// The same vault with an attacker in its ordinary part. First he asks for a signature, as anybody
// may. Then he reads the key past the gate: its page has key 1, which is closed to ordinary code,
// so the read ends the program with a fault.
#include "erim.h"

SECRET u64 key[2] = {0x0706050403020100, 0x0f0e0d0c0b0a0908};

TRUSTED u64 sign_number(u64 number) {
    u64 sum = (key[0] ^ number) * 0x9e3779b97f4a7c15;
    return (sum ^ (sum >> 29)) + key[1];
}

u64 sign(u64 number);
ENTRY(sign, sign_number);

int main(void) {
    print("signature ");
    print_number(sign(42));
    print("key ");
    print_number(*(volatile u64 *)&key[0]);
    return 0;
}
