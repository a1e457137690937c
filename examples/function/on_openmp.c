/*
 * One transform on FORWARD_PROCS threads, by OpenMP: its threads live on from one transform to the next.
 *
 * Reads vectors of FORWARD_SIZE numbers and writes the transform of each. forward.h is a header of
 * examples/library.py, or of `spiral-fast --name`; -DWORD=T is the type of its words, uint64_t if it is not given.
 */
#include "forward.h"

#include <inttypes.h>
#include <omp.h>
#include <stdio.h>
#include <stdlib.h>

#ifndef WORD
#define WORD uint64_t
#endif

static _Alignas(64) WORD in[FORWARD_WORDS], out[FORWARD_WORDS], work[FORWARD_WORK];

/* Where there are fewer threads than processors, a thread does the work of several. */
static void transform(void) {
#pragma omp parallel num_threads(FORWARD_PROCS)
    for (uint64_t k = 0; k < FORWARD_PHASES; k++) {
        for (int q = omp_get_thread_num(); q < FORWARD_PROCS; q += omp_get_num_threads())
            forward_phase(k, (uint64_t)q, out, in, work);
#pragma omp barrier
    }
}

/* 1: a vector was read, 0: the input has ended, -1: it ended inside a vector or is no number. */
static int read_vector(void) {
    for (size_t k = 0; k < FORWARD_SIZE; k++) {
        uint64_t value;
        if (scanf("%" SCNu64, &value) != 1)
            return k == 0 && feof(stdin) ? 0 : -1;
        in[k] = (WORD)(value % FORWARD_MODULUS);
    }
    return 1;
}

int main(void) {
    int read;
    while ((read = read_vector()) == 1) {
        transform();
        for (size_t k = 0; k < FORWARD_SIZE; k++)
            printf("%" PRIu64 "%c", (uint64_t)out[k], k + 1 < FORWARD_SIZE ? ' ' : '\n');
    }
    return read == 0 ? EXIT_SUCCESS : EXIT_FAILURE;
}
