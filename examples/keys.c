// Two domains that don't trust each other. The key store signs with a key that nobody else reads.
// The parser reads requests from outside, and keeps what it found on pages of its own. A request
// that takes over the parser still doesn't get the key, and what the parser found can't be written
// by the key store either. Ordinary code asks first the one and then the other, through gates.
#include "erim.h"

#define STORE 1
#define PARSER 2

// ---- the key store

DOMAIN_DATA(STORE) static u64 key[2] = {0x0706050403020100, 0x0f0e0d0c0b0a0908};

DOMAIN_CODE(STORE) static u64 mixed(u64 sum, u64 word) {
    sum = (sum ^ word) * 0x9e3779b97f4a7c15;
    return sum ^ (sum >> 29);
}

DOMAIN_CODE(STORE) u64 sign_payment(u64 amount, u64 receiver) {
    return mixed(mixed(mixed(key[0], amount), receiver), key[1]);
}

u64 sign(u64 amount, u64 receiver);
DOMAIN_ENTRY(STORE, sign, sign_payment);

// ---- the parser, of requests as `10 alice`: up to 8 digits, a blank, up to 8 letters

enum { AMOUNT, RECEIVER, GOOD, BAD };

DOMAIN_DATA(PARSER) static u8 buffer[32];
DOMAIN_DATA(PARSER) static u64 found[4];

DOMAIN_CODE(PARSER) u64 parse_request(const u8 *text) {
    u32 i = 0;
    for (; i < sizeof buffer - 1 && text[i] != 0; i++) {
        buffer[i] = text[i];
    }
    buffer[i] = 0;
    u64 amount = 0, receiver = 0;
    for (i = 0; buffer[i] >= '0' && buffer[i] <= '9' && amount < 10000000; i++) {
        amount = amount * 10 + (buffer[i] - '0');
    }
    u64 good = buffer[i++] == ' ' && amount != 0;
    for (; good && buffer[i] >= 'a' && buffer[i] <= 'z' && receiver < 1ul << 56; i++) {
        receiver = receiver << 8 | buffer[i];
    }
    good = good && buffer[i] == 0 && receiver != 0;
    found[AMOUNT] = amount;
    found[RECEIVER] = receiver;
    found[good ? GOOD : BAD]++;
    return good;
}

DOMAIN_CODE(PARSER) u64 tell_found(u64 which) { return found[which & 3]; }

u64 parse(const char *text), tell(u64 which);
DOMAIN_ENTRY(PARSER, parse, parse_request);
DOMAIN_ENTRY(PARSER, tell, tell_found);

// ---- ordinary code

int main(void) {
    static const char *const requests[] = {"10 alice", "250 bob", "all eve", "7 carol; 9 eve"};
    for (u32 i = 0; i < sizeof requests / sizeof requests[0]; i++) {
        print(requests[i]);
        if (parse(requests[i])) {
            print("\nsignature ");
            print_number(sign(tell(AMOUNT), tell(RECEIVER)));
        } else {
            print("\nrefused\n");
        }
    }
    print("good ");
    print_number(tell(GOOD));
    print("bad ");
    print_number(tell(BAD));
    return 0;
}
