/*
 * The time of a C text, specified or fast, on one vector: all processors, one after another.
 *
 * Compile with -DTEXT='"file.c"', -DSIZE=N, -DPROCS=P and -DPHASES='phase0, phase1' as the text has them.
 */
#include "../examples/tune/least.h"

#include TEXT

/* Volatile, so that no run is folded into the one before it. */
static void (*volatile phases[])(uint64_t) = {PHASES};

static void run(void) {
    for (size_t k = 0; k < sizeof phases / sizeof *phases; k++)
        for (uint64_t q = 0; q < PROCS; q++)
            phases[k](q);
}

int main(void) {
    double least;
    for (size_t k = 0; k < SIZE; k++)
        X[k] = (k * k + 1) % M;
    LEAST(least, run());
    /* So that what the phases leave is of use. */
    volatile uint64_t sum = 0;
    for (size_t k = 0; k < SIZE; k++)
        sum += Y[k];
    printf("%.1f\n", least);
    return 0;
}
