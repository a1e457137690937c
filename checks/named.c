/*
 * Runs two functions of `spiral-fast --name` for one transform, each in a thread of its own over arrays of its own, and
 * then the first one phase by phase, with a thread for each processor. Reads vectors of numbers from standard input, and
 * writes the line of each result. The three results have to be the same, where each byte of the
 * arrays but the input is BEFORE at first.
 *
 * checks/compile_named.sh says with which macros it is compiled.
 */
#include <inttypes.h>
#include <pthread.h>
#include <stdalign.h>
#include <stdio.h>
#include <stdlib.h>
#include <string.h>

#include FIRST_HEADER
#include SECOND_HEADER

static alignas(64) FIRST_WORD in[ARRAY_WORDS], out[ARRAY_WORDS], work[WORK];
static alignas(64) FIRST_WORD phased[ARRAY_WORDS], phase_work[WORK];
static alignas(64) SECOND_WORD second_in[ARRAY_WORDS], second_out[ARRAY_WORDS], second_work[WORK];

static void *run_first(void *unused) {
    (void)unused;
    FIRST(out, in, work);
    return NULL;
}

static void *run_second(void *unused) {
    (void)unused;
    SECOND(second_out, second_in, second_work);
    return NULL;
}

struct turn {
    uint64_t phase, processor;
};

static void *run_turn(void *given) {
    const struct turn *turn = given;
    FIRST_PHASE(turn->phase, turn->processor, phased, in, phase_work);
    return NULL;
}

static void start(pthread_t *thread, void *(*run)(void *), void *given) {
    if (pthread_create(thread, NULL, run, given) != 0)
        exit(EXIT_FAILURE);
}

static void run_functions(void) {
    pthread_t first, second;
    start(&first, run_first, NULL);
    start(&second, run_second, NULL);
    pthread_join(first, NULL);
    pthread_join(second, NULL);
}

/* All threads of a phase have ended before those of the next one begin. */
static void run_phases(void) {
    for (uint64_t k = 0; k < PHASES; k++) {
        pthread_t threads[PROCS];
        struct turn turns[PROCS];
        for (uint64_t q = 0; q < PROCS; q++) {
            turns[q] = (struct turn){k, q};
            start(&threads[q], run_turn, &turns[q]);
        }
        for (uint64_t q = 0; q < PROCS; q++)
            pthread_join(threads[q], NULL);
    }
}

/* 1: a vector was read, 0: the input has ended, -1: it ended inside a vector or is no number. */
static int read_vector(void) {
    for (size_t k = 0; k < SIZE; k++) {
        uint64_t value;
        if (scanf("%" SCNu64, &value) != 1)
            return k == 0 && feof(stdin) ? 0 : -1;
        in[k] = value % MODULUS;
        second_in[k] = value % MODULUS;
    }
    return 1;
}

/* Words that are no residues, where the header says that any may stand; else 0. */
static void spoil(void) {
    memset(out, BEFORE, sizeof out);
    memset(phased, BEFORE, sizeof phased);
    memset(second_out, BEFORE, sizeof second_out);
    memset(work, BEFORE, sizeof work);
    memset(phase_work, BEFORE, sizeof phase_work);
    memset(second_work, BEFORE, sizeof second_work);
}

static int are_same(void) {
    for (size_t k = 0; k < SIZE; k++)
        if (out[k] != second_out[k] || out[k] != phased[k])
            return 0;
    return 1;
}

int main(void) {
    int read;
    while ((read = read_vector()) == 1) {
        spoil();
        run_functions();
        run_phases();
        if (!are_same()) {
            fprintf(stderr, "the functions differ\n");
            return EXIT_FAILURE;
        }
        for (size_t k = 0; k < SIZE; k++)
            printf("%" PRIu64 "%c", (uint64_t)out[k], k + 1 < SIZE ? ' ' : '\n');
    }
    return read == 0 ? EXIT_SUCCESS : EXIT_FAILURE;
}
