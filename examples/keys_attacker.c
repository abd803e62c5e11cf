// The same two domains, where a request has taken over the parser: its code reads the key. The
// parser's gate opened the pages of the parser and no others, so the read ends the program with a
// fault.
#include "erim.h"

#define STORE 1
#define PARSER 2

DOMAIN_DATA(STORE) u64 key = 0x0706050403020100;

DOMAIN_CODE(STORE) u64 sign_number(u64 number) {
    u64 sum = (key ^ number) * 0x9e3779b97f4a7c15;
    return sum ^ (sum >> 29);
}

DOMAIN_DATA(PARSER) static u64 requests;

DOMAIN_CODE(PARSER) u64 parse_request(const char *text) {
    requests++;
    return *text == '!' ? *(volatile u64 *)&key : (u64)(*text - '0');
}

u64 sign(u64 number), parse(const char *text);
DOMAIN_ENTRY(STORE, sign, sign_number);
DOMAIN_ENTRY(PARSER, parse, parse_request);

int main(void) {
    print("signature ");
    print_number(sign(parse("7")));
    print("key ");
    print_number(parse("!"));
    return 0;
}
