/*
 * Products of polynomials modulo x^N + 1: reads two vectors of N numbers for each, and writes the line of the product.
 *
 * forward.h and back.h are headers of `spiral-fast --name` for the two listings of negacyclic.py, and forward_times.h is
 * that of `spiral-fast --name forward --times`. With -DKYBER there are only the first two, for what `spiral compile`
 * makes of kyber.py's formulas. -DWORD=T is the type of their words. build.sh compiles all.
 */
#include "back.h"
#include "forward.h"
#ifndef KYBER
#include "forward_times.h"
#endif

#include <inttypes.h>
#include <stdio.h>
#include <stdlib.h>

enum { SIZE = FORWARD_SIZE };

struct product {
    _Alignas(64) WORD terms[FORWARD_WORDS];
    _Alignas(64) WORD one[FORWARD_WORDS];
    _Alignas(64) WORD other[FORWARD_WORDS];
    _Alignas(64) WORD work[FORWARD_WORK];
};

#ifdef KYBER

static WORD times(WORD a, WORD b) {
    return (WORD)((uint32_t)a * b % FORWARD_MODULUS);
}

/* The powers 17^(2 * r(i) + 1) modulo 3329, where r turns the seven bits of i round. */
static WORD gamma_of(size_t i) {
    size_t turned = 0;
    for (int bit = 0; bit < 7; bit++)
        turned |= (i >> bit & 1) << (6 - bit);
    WORD power = 17;
    for (size_t k = 0; k < turned; k++)
        power = times(power, 17 * 17);
    return power;
}

/* Each two words are a remainder modulo x^2 - gamma. a becomes the products of the remainders (MultiplyNTTs). */
static void multiply_transforms(WORD *a, const WORD *b) {
    for (size_t i = 0; i < SIZE / 2; i++) {
        const WORD a0 = a[2 * i], a1 = a[2 * i + 1], b0 = b[2 * i], b1 = b[2 * i + 1];
        a[2 * i] = (WORD)((times(a0, b0) + times(times(a1, b1), gamma_of(i))) % FORWARD_MODULUS);
        a[2 * i + 1] = (WORD)((times(a0, b1) + times(a1, b0)) % FORWARD_MODULUS);
    }
}

#else

static void multiply_transforms(WORD *a, const WORD *b) {
    forward_times(a, a, b);
}

#endif

/* terms becomes the product of the polynomials a and b, whose terms are below the modulus. */
static void multiply(struct product *product, const WORD *a, const WORD *b) {
    forward(product->one, a, product->work);
    forward(product->other, b, product->work);
    multiply_transforms(product->one, product->other);
    back(product->terms, product->one, product->work);
}

/* 1: a vector was read, 0: the input has ended, -1: it ended inside a vector or is no number. */
static int read_vector(WORD *terms) {
    for (size_t k = 0; k < SIZE; k++) {
        uint64_t value;
        if (scanf("%" SCNu64, &value) != 1)
            return k == 0 && feof(stdin) ? 0 : -1;
        terms[k] = (WORD)(value % FORWARD_MODULUS);
    }
    return 1;
}

int main(void) {
    static _Alignas(64) WORD a[FORWARD_WORDS], b[FORWARD_WORDS];
    static struct product product;
    int read;
    while ((read = read_vector(a)) == 1) {
        if (read_vector(b) != 1)
            return EXIT_FAILURE;
        multiply(&product, a, b);
        for (size_t k = 0; k < SIZE; k++)
            printf("%" PRIu64 "%c", (uint64_t)product.terms[k], k + 1 < SIZE ? ' ' : '\n');
    }
    return read == 0 ? EXIT_SUCCESS : EXIT_FAILURE;
}
