/* A bench controller's drive: one question for each sample, and what was answered.
 * Built and run by `.ci/c/run`, which compares what it prints with examples/bench.stdout. */
#include <stdio.h>

#include "paperwhelk.h"

/* two seconds, one phase: from 0 to 10 km/h and back */
static const uint8_t cycle[] = {1, 0, 2, 0, 0, 0, 100, 0, 0};

enum { SPEED_TOLERANCE = 30, TIME_TOLERANCE = 5, ALLOWANCE = 300 };

static const char *words(int32_t answer) {
    switch (answer) {
    case PAPERWHELK_INSIDE: return "inside";
    case PAPERWHELK_BELOW: return "below";
    case PAPERWHELK_ABOVE: return "above";
    case PAPERWHELK_BAD_CYCLE: return "refused: not a cycle";
    case PAPERWHELK_BAD_TOLERANCE: return "refused: tolerance outside its limits";
    case PAPERWHELK_BAD_POSITION: return "refused: no such position";
    case PAPERWHELK_BAD_SPEED: return "refused: speed outside its limits";
    default: return "no such answer";
    }
}

static void ask(uint32_t position, uint32_t speed) {
    int32_t answer = paperwhelk_verdict(cycle, sizeof cycle, SPEED_TOLERANCE, TIME_TOLERANCE, ALLOWANCE, position, speed);
    printf("position %2u, speed %4u: %s\n", position, speed, words(answer));
}

int main(void) {
    /* a driver who sets off late, catches up, overshoots, and is asked about a sample too many */
    static const uint32_t speeds[] = {0, 0, 0, 0, 10, 55, 100, 131, 120, 90, 40, 10};
    for (uint32_t k = 0; k < sizeof speeds / sizeof speeds[0]; k++) ask(4 * k, speeds[k]);
    ask(39, 1501);
    return 0;
}
