/* The test card's rows for the bench controller's question, each with the answer that document 01 gives it. */
#include <stdio.h>
#include <string.h>

#include "paperwhelk.h"

_Static_assert(PAPERWHELK_VERSION >= 1, "the header names its version");

static uint8_t bytes[8192];

/* the bytes of a cycle of one phase, T seconds and level points; how many they are */
static size_t level(unsigned seconds, unsigned point) {
    size_t n = 0;
    bytes[n++] = 1;
    bytes[n++] = (uint8_t)(seconds >> 8);
    bytes[n++] = (uint8_t)seconds;
    for (unsigned k = 0; k <= seconds; k++) {
        bytes[n++] = (uint8_t)(point >> 8);
        bytes[n++] = (uint8_t)point;
    }
    return n;
}

static int wrong;

static void ask(const char *what, const uint8_t *cycle, size_t length, uint32_t s, uint32_t w, uint32_t a, uint32_t p, uint32_t v, int32_t is) {
    int32_t answer = paperwhelk_verdict(cycle, length, s, w, a, p, v);
    printf("%s: %d\n", what, answer);
    if (answer != is) {
        printf("    document 01 gives %d\n", is);
        wrong = 1;
    }
}

static void row(const char *what, size_t length, uint32_t s, uint32_t w, uint32_t a, uint32_t p, uint32_t v, int32_t is) {
    ask(what, bytes, length, s, w, a, p, v, is);
}

int main(void) {
    static const uint8_t peak[] = {1, 0, 2, 0, 0, 0, 100, 0, 0};
    memcpy(bytes, peak, sizeof peak);
    row("0 100 0, p 10, w 0, 20", 9, 30, 0, 300, 10, 20, 0);
    row("0 100 0, p 10, w 0, 80", 9, 30, 0, 300, 10, 80, 0);
    row("0 100 0, p 10, w 0, 19", 9, 30, 0, 300, 10, 19, 1);
    row("0 100 0, p 10, w 0, 81", 9, 30, 0, 300, 10, 81, 2);
    row("0 100 0, p 20, w 5, 45", 9, 30, 5, 300, 20, 45, 0);
    row("0 100 0, p 20, w 5, 130", 9, 30, 5, 300, 20, 130, 0);
    row("0 100 0, p 20, w 5, 44", 9, 30, 5, 300, 20, 44, 1);
    row("0 100 0, p 20, w 5, 131", 9, 30, 5, 300, 20, 131, 2);
    row("0 100 0, p 10, w 20, 0", 9, 30, 20, 300, 10, 0, 0);
    row("0 100 0, p 10, w 20, 130", 9, 30, 20, 300, 10, 130, 0);
    row("0 100 0, p 10, w 20, 131", 9, 30, 20, 300, 10, 131, 2);

    row("no bytes", 0, 30, 20, 300, 0, 0, -2);
    ask("no bytes, NULL", NULL, 0, 30, 20, 300, 0, 0, -2);
    ask("no bytes, NULL, every other fault", NULL, 0, 101, 41, 1201, UINT32_MAX, UINT32_MAX, -2);
    row("one byte short", 8, 30, 20, 300, 0, 0, -2);
    row("one byte more", 10, 30, 20, 300, 0, 0, -2);
    size_t one = level(1, 100);
    printf("T = 1 makes %zu bytes\n", one);
    row("T = 1", one, 30, 20, 300, 0, 100, -2);
    row("T = 2401", level(2401, 100), 30, 20, 300, 0, 100, -2);
    row("T = 2400", level(2400, 100), 30, 20, 300, 47999, 100, 0);
    row("T = 2400, a point of 1501", level(2400, 1501), 30, 20, 300, 0, 100, -2);
    size_t two = level(2, 1500);
    row("T = 2, points of 1500", two, 30, 20, 300, 39, 1500, 0);

    row("speed tolerance 100", two, 100, 20, 300, 0, 1500, 0);
    row("speed tolerance 101", two, 101, 20, 300, 0, 1500, -3);
    row("time tolerance 40", two, 30, 40, 300, 0, 1500, 0);
    row("time tolerance 41", two, 30, 41, 300, 0, 1500, -3);
    row("allowance 1200", two, 30, 20, 1200, 0, 1500, 0);
    row("allowance 1201", two, 30, 20, 1201, 0, 1500, -3);
    row("position 39", two, 30, 20, 300, 39, 1500, 0);
    row("position 40", two, 30, 20, 300, 40, 1500, -6);
    row("the last position there is", two, 30, 20, 300, UINT32_MAX, 1500, -6);
    row("speed 1501", two, 30, 20, 300, 0, 1501, -5);
    row("the greatest speed there is", two, 30, 20, 300, 0, UINT32_MAX, -5);

    row("2 before 3", 8, 101, 20, 300, 0, 0, -2);
    row("2 before 6", 8, 30, 20, 300, 40, 0, -2);
    row("2 before 5", 8, 30, 20, 300, 0, 1501, -2);
    row("3 before 6", two, 30, 41, 300, 40, 0, -3);
    row("3 before 5", two, 30, 20, 1201, 0, 1501, -3);
    row("6 before 5", two, 30, 20, 300, 40, 1501, -6);
    return wrong;
}
