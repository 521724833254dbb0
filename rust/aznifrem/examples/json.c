/* Prints the blocks of one contract as JSON: the C call with a text at work. */
#include "aznifrem.h"

#include <stdio.h>

#define ROOM 32768

static uint8_t w[AZNIFREM_WORK(512)], p[ROOM], s[ROOM], t[ROOM], r[ROOM], q[ROOM], out[ROOM], text[ROOM];

int main(void) {
    /* PUSH1 5, PUSH1 7, JUMP; 5: JUMPDEST, STOP; 7: JUMPDEST, JUMP. */
    static const uint8_t code[] = {0x60, 5, 0x60, 7, 0x56, 0x5b, 0x00, 0x5b, 0x56};
    uint64_t got = aznifrem_json(AZNIFREM_HIGHEST_LIMIT, AZNIFREM_WITHOUT_NUMBERS, AZNIFREM_PLAIN,
                                 code, sizeof code, w, sizeof w, p, sizeof p, s, sizeof s,
                                 t, sizeof t, r, sizeof r, q, sizeof q, out, sizeof out,
                                 text, sizeof text);
    if (AZNIFREM_REFUSED(got)) {
        printf("refused %u\n", (unsigned)got);
        return 1;
    }
    printf("%.*s\n", (int)AZNIFREM_TEXT_BYTES(got), (const char *)text);
    return 0;
}
