/*
 * The time of a function to link on one vector: prints its least nanoseconds and the sum of its results.
 *
 * Compile with the folder of forward.h in the path of headers, -DWORD=T as the type of its words, and forward.c.
 */
#include "least.h"

#include "forward.h"

static _Alignas(64) WORD in[FORWARD_WORDS], out[FORWARD_WORDS], work[FORWARD_WORK];

int main(void) {
    double least;
    for (size_t k = 0; k < FORWARD_SIZE; k++)
        in[k] = (WORD)((k * k + 1) % FORWARD_MODULUS);
    LEAST(least, forward(out, in, work));
    uint64_t sum = 0;
    for (size_t k = 0; k < FORWARD_SIZE; k++)
        sum += out[k] * (2 * k + 1);
    printf("%.1f %llu\n", least, (unsigned long long)sum);
}
