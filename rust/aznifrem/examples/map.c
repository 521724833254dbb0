/* Prints the map of one contract, an entry a line in hex: the C call at work. */
#include "aznifrem.h"

#include <stdio.h>

#define ROOM 32768

static uint8_t w[AZNIFREM_WORK(512)], p[ROOM], s[ROOM], t[ROOM], r[ROOM], q[ROOM], out[ROOM];

static uint32_t body_length(const uint8_t *entry) {
    return entry[0] | entry[1] << 8 | entry[2] << 16 | (uint32_t)entry[3] << 24;
}

int main(void) {
    /* PUSH1 5, PUSH1 7, JUMP; 5: JUMPDEST, STOP; 7: JUMPDEST, JUMP. */
    static const uint8_t code[] = {0x60, 5, 0x60, 7, 0x56, 0x5b, 0x00, 0x5b, 0x56};
    uint64_t got = aznifrem_map(AZNIFREM_HIGHEST_LIMIT, AZNIFREM_WITHOUT_NUMBERS, AZNIFREM_PLAIN,
                                code, sizeof code, w, sizeof w, p, sizeof p, s, sizeof s,
                                t, sizeof t, r, sizeof r, q, sizeof q, out, sizeof out);
    if (AZNIFREM_REFUSED(got)) {
        printf("refused %u\n", (unsigned)got);
        return 1;
    }
    for (uint64_t at = 0; at < got;) {
        uint64_t end = at + 6 + body_length(out + at);
        for (; at < end; at++) printf("%02x", out[at]);
        printf("\n");
    }
    return 0;
}
