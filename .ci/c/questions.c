/* Answers bench questions from standard input, one answer a line. A question is a 4-byte length, that many bytes of cycle, and speed tolerance,
 * time tolerance, allowance, position and speed, 4 bytes each; all numbers big-endian. */
#include <stdio.h>

#include "paperwhelk.h"

static uint8_t cycle[65536];

static int number(uint32_t *n) {
    uint8_t b[4];
    if (fread(b, 1, 4, stdin) != 4) return 0;
    *n = (uint32_t)b[0] << 24 | (uint32_t)b[1] << 16 | (uint32_t)b[2] << 8 | b[3];
    return 1;
}

int main(void) {
    uint32_t length, n[5];
    while (number(&length)) {
        if (length > sizeof cycle || fread(cycle, 1, length, stdin) != length) return 1;
        for (int k = 0; k < 5; k++)
            if (!number(&n[k])) return 1;
        printf("%d\n", paperwhelk_verdict(cycle, length, n[0], n[1], n[2], n[3], n[4]));
    }
    return 0;
}
