/*
 * Two functions in one program, a transform and its inverse, called by two threads at once.
 *
 * Reads vectors of FORWARD_SIZE numbers and writes the transform of each. The status is 1 where the inverse of a
 * transform is not the vector again. forward.h and back.h are headers of examples/library.py, or of
 * `spiral-fast --name` with words of 64 bits.
 */
#include "back.h"
#include "forward.h"

#include <inttypes.h>
#include <pthread.h>
#include <stdio.h>
#include <stdlib.h>
#include <string.h>

enum { SIZE = FORWARD_SIZE, WORDS = FORWARD_WORDS };

/* What a thread has of its own. Each array begins at a multiple of 64 bytes. */
struct worker {
    _Alignas(64) uint64_t in[WORDS];
    _Alignas(64) uint64_t out[WORDS];
    _Alignas(64) uint64_t again[WORDS];
    _Alignas(64) uint64_t work[FORWARD_WORK];
    int is_same;
};

static struct worker workers[2];

static void *transformed(void *own) {
    struct worker *worker = own;
    forward(worker->out, worker->in, worker->work);
    back(worker->again, worker->out, worker->work);
    worker->is_same = memcmp(worker->again, worker->in, SIZE * sizeof(uint64_t)) == 0;
    return NULL;
}

/* 1: a vector was read, 0: the input has ended, -1: it ended inside a vector or is no number. */
static int read_vector(uint64_t *in) {
    for (size_t k = 0; k < SIZE; k++) {
        uint64_t value;
        if (scanf("%" SCNu64, &value) != 1)
            return k == 0 && feof(stdin) ? 0 : -1;
        in[k] = value % FORWARD_MODULUS;
    }
    return 1;
}

/* Reads up to two vectors, and gives how many; -1 where the input has a fault. */
static int read_vectors(void) {
    const int first = read_vector(workers[0].in), second = first == 1 ? read_vector(workers[1].in) : 0;
    return first < 0 || second < 0 ? -1 : first + second;
}

int main(void) {
    int count;
    while ((count = read_vectors()) > 0) {
        pthread_t threads[2];
        for (int t = 0; t < count; t++)
            if (pthread_create(&threads[t], NULL, transformed, &workers[t]) != 0)
                return EXIT_FAILURE;
        for (int t = 0; t < count; t++)
            pthread_join(threads[t], NULL);
        for (int t = 0; t < count; t++) {
            for (size_t k = 0; k < SIZE; k++)
                printf("%" PRIu64 "%c", workers[t].out[k], k + 1 < SIZE ? ' ' : '\n');
            if (!workers[t].is_same)
                return EXIT_FAILURE;
        }
    }
    return count == 0 ? EXIT_SUCCESS : EXIT_FAILURE;
}
