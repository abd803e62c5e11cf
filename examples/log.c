// A log that all may read and one part alone may write. The log is an integrity domain: ordinary
// code reads its pages as they are, and so does the call `write` here, without a gate. A line is
// added only by the log's gate. The write at the end, by ordinary code, ends the program with a
// fault.
#include "erim.h"

#define LOG 1
INTEGRITY(LOG);

DOMAIN_DATA(LOG) static char text[1024];
DOMAIN_DATA(LOG) static volatile u64 length;
DOMAIN_DATA(LOG) static u64 lines;

DOMAIN_CODE(LOG) static void add(char byte) {
    if (length < sizeof text) {
        text[length] = byte;
        length = length + 1;
    }
}

// Adds a line with its number, of at most 40 bytes of the words. Answers the number.
DOMAIN_CODE(LOG) u64 add_line(const char *words) {
    lines++;
    add((char)('0' + (lines >> 3 & 7)));
    add((char)('0' + (lines & 7)));
    add(' ');
    for (u32 i = 0; i < 40 && words[i] != 0; i++) {
        add(words[i]);
    }
    add('\n');
    return lines;
}

u64 log_line(const char *words);
DOMAIN_ENTRY(LOG, log_line, add_line);

int main(void) {
    log_line("alice came");
    log_line("bob came");
    log_line("alice paid 10 to bob");
    write(1, text, length);
    u32 sum = 0;
    for (u64 i = 0; i < length; i++) {
        sum = sum * 31 + (u8)text[i];
    }
    print("sum ");
    print_number(sum);
    *(volatile char *)&text[length - 10] = '9'; // so that she paid 90
    print("not reached\n");
    return 0;
}
