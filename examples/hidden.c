// A harmless comparison with a harmless number, whose bytes are 0F 01 EF 00: a jump into the middle
// of the instruction executes WRPKRU. `inspect` names the place, and `run` ends the program at the
// page.
#include "erim.h"

int main(void) {
    volatile u32 version = 7;
    if (version == 0x00EF010F) {
        print("an old version\n");
    }
    return 0;
}
