/*
 * One transform on FORWARD_PROCS threads, by the function's phases.
 *
 * Reads vectors of FORWARD_SIZE numbers and writes the transform of each. forward.h is a header of
 * examples/library.py, or of `spiral-fast --name` with words of 64 bits.
 */
#include "forward.h"

#include <inttypes.h>
#include <pthread.h>
#include <stdio.h>
#include <stdlib.h>

static _Alignas(64) uint64_t in[FORWARD_WORDS], out[FORWARD_WORDS], work[FORWARD_WORK];
static pthread_barrier_t barrier;

/* Processor q of one transform. */
static void *processor(void *number) {
    for (uint64_t k = 0; k < FORWARD_PHASES; k++) {
        forward_phase(k, (uint64_t)(uintptr_t)number, out, in, work);
        pthread_barrier_wait(&barrier);
    }
    return NULL;
}

/* The calling thread is processor 0. */
static int transform(void) {
    pthread_t threads[FORWARD_PROCS];
    for (uintptr_t q = 1; q < FORWARD_PROCS; q++)
        if (pthread_create(&threads[q], NULL, processor, (void *)q) != 0)
            return 0;
    processor(NULL);
    for (size_t q = 1; q < FORWARD_PROCS; q++)
        pthread_join(threads[q], NULL);
    return 1;
}

/* 1: a vector was read, 0: the input has ended, -1: it ended inside a vector or is no number. */
static int read_vector(void) {
    for (size_t k = 0; k < FORWARD_SIZE; k++) {
        uint64_t value;
        if (scanf("%" SCNu64, &value) != 1)
            return k == 0 && feof(stdin) ? 0 : -1;
        in[k] = value % FORWARD_MODULUS;
    }
    return 1;
}

int main(void) {
    int read;
    if (pthread_barrier_init(&barrier, NULL, FORWARD_PROCS) != 0)
        return EXIT_FAILURE;
    while ((read = read_vector()) == 1) {
        if (!transform())
            return EXIT_FAILURE;
        for (size_t k = 0; k < FORWARD_SIZE; k++)
            printf("%" PRIu64 "%c", out[k], k + 1 < FORWARD_SIZE ? ' ' : '\n');
    }
    return read == 0 ? EXIT_SUCCESS : EXIT_FAILURE;
}
