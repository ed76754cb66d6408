/* Asks the bench controller's question again and again, for speed/run:
 *
 *     ask < FILE            the questions of a file as `second questions` writes it, one answer a line, as `second answers` prints them
 *     ask verdict T W N     N questions on one cycle of T seconds with time tolerance W, at positions all over it
 *     ask refused T W N     the same, each at a position past the end: refused right after the test of the cycle
 *
 * The last two print how often each answer was given. */
#include <stdio.h>
#include <stdlib.h>
#include <string.h>

#include "paperwhelk.h"

enum { SPEED_TOLERANCE = 30, ALLOWANCE = 300, TOP = 900, MOST_SECONDS = 2400 };

static uint32_t number(const uint8_t *b) { return (uint32_t)b[0] << 24 | (uint32_t)b[1] << 16 | (uint32_t)b[2] << 8 | b[3]; }

/* all of standard input; its number of bytes */
static size_t read_all(uint8_t **bytes) {
    size_t size = 0, room = 1 << 20, got;
    *bytes = malloc(room);
    while (*bytes && (got = fread(*bytes + size, 1, room - size, stdin)) > 0)
        if ((size += got) == room) *bytes = realloc(*bytes, room *= 2);
    return *bytes ? size : 0;
}

static void print_answer(int32_t answer) {
    if (answer < 0) putchar('-');
    putchar('0' + abs(answer));
    putchar('\n');
}

static int answer_file(void) {
    uint8_t *bytes;
    size_t left = read_all(&bytes);
    for (const uint8_t *at = bytes; left > 0;) {
        size_t length = left < 4 ? 0 : number(at);
        if (left < 24 || left - 24 < length) return 1;
        const uint8_t *n = at + 4 + length;
        print_answer(paperwhelk_verdict(at + 4, length, number(n), number(n + 4), number(n + 8), number(n + 12), number(n + 16)));
        at += 24 + length;
        left -= 24 + length;
    }
    return 0;
}

/* up to TOP and down again, 2.0 km/h each second */
static uint32_t point(uint32_t second) { return (uint32_t)abs((int)(second * 20 % (2 * TOP)) - TOP); }

static size_t write_cycle(uint8_t *cycle, uint32_t seconds) {
    size_t length = 0;
    cycle[length++] = 1;
    cycle[length++] = (uint8_t)(seconds >> 8);
    cycle[length++] = (uint8_t)seconds;
    for (uint32_t k = 0; k <= seconds; k++) {
        cycle[length++] = (uint8_t)(point(k) >> 8);
        cycle[length++] = (uint8_t)point(k);
    }
    return length;
}

static int ask_often(uint32_t from, uint32_t seconds, uint32_t time_tolerance, uint32_t count) {
    static uint8_t cycle[3 + 2 * (MOST_SECONDS + 1)];
    uint32_t given[9] = {0};
    if (seconds < 2 || seconds > MOST_SECONDS) return 1;
    size_t length = write_cycle(cycle, seconds);
    for (uint32_t k = 0; k < count; k++) {
        uint32_t position = (uint32_t)((uint64_t)k * 7919 % (20 * seconds)); /* 7919 is prime */
        uint32_t speed = point(position / 20) + k % 100;                     /* inside and above */
        int32_t answer = paperwhelk_verdict(cycle, length, SPEED_TOLERANCE, time_tolerance, ALLOWANCE, from + position, speed);
        if (answer < -6 || answer > 2) return 1;
        given[answer + 6]++;
    }
    for (int answer = -6; answer <= 2; answer++)
        if (given[answer + 6]) printf("%d: %u\n", answer, given[answer + 6]);
    return 0;
}

int main(int words, char **word) {
    if (words == 1) return answer_file();
    if (words != 5) return 2;
    uint32_t seconds = (uint32_t)atoi(word[2]);
    return ask_often(strcmp(word[1], "refused") ? 0 : 20 * seconds, seconds, (uint32_t)atoi(word[3]), (uint32_t)atoi(word[4]));
}
