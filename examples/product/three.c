/*
 * Exact products of integers by transforms modulo three primes of 50 bits. Another program includes this file and calls
 * start_products(), multiply() as often as it likes, one call at a time, and then stop_products().
 *
 * The digits of a number are its limbs of 64 bits. A sum of SIZE products of digits is below the product of the primes,
 * so it is known by its remainders: each place has r0 + p0 * (r1 + p1 * r2), with r1 and r2 by Garner's rule.
 * Where the processor multiplies 52-bit numbers (AVX-512 IFMA), eight places go side by side.
 *
 * Compile with -DSIZE=N and the six functions of `spiral-fast --name`: forward0, forward1 and forward2, the transforms,
 * and back0, back1 and back2 by the inverse roots, not divided by SIZE. build_three.sh does so.
 */
#include <stdint.h>
#include <string.h>

#include "back0.h"
#include "back1.h"
#include "back2.h"
#include "forward0.h"
#include "forward1.h"
#include "forward2.h"

__extension__ typedef unsigned __int128 double_word;

typedef void transform(uint64_t *out, const uint64_t *in, uint64_t *work);

enum { PRIMES = 3, LIMB = 64, LANES = 8, PADDED = (SIZE + LANES - 1) / LANES * LANES };

_Static_assert(SIZE <= 1 << 20, "a sum of products is below the product of the primes");
_Static_assert(FORWARD0_MODULUS >> 50 == 0 && FORWARD1_MODULUS >> 50 == 0 && FORWARD2_MODULUS >> 50 == 0,
               "four times a prime is below 2^52");

static const uint64_t prime[PRIMES] = {FORWARD0_MODULUS, FORWARD1_MODULUS, FORWARD2_MODULUS};
static transform *const forward[PRIMES] = {forward0, forward1, forward2};
static transform *const back[PRIMES] = {back0, back1, back2};

/* A factor modulo a prime, with the quotient of factor * 2^DIGIT by the prime. */
struct factor {
    uint64_t value, quotient;
};

/* The factor 1, and 2^DIGIT / SIZE, which undoes the division of each product by 2^DIGIT and divides by the size. */
static struct factor one_of[PRIMES], scale_of[PRIMES];
static uint64_t negative_inverse[PRIMES]; /* -1 / p modulo 2^DIGIT */
static struct factor p0_modulo_p1, p0_modulo_p2, p1_modulo_p2; /* their inverses */

static _Alignas(64) uint64_t given[PADDED], left[PADDED], right[PADDED], sums[PRIMES][PADDED], work[2 * SIZE];

static struct factor factor(uint64_t value, uint64_t p);

/* What is done at each place: take(), multiply_places() and carry_sums(). */
#ifdef __AVX512IFMA__
#include "three_lanes.h"
#else
#include "three_words.h"
#endif

static uint64_t power(uint64_t base, uint64_t exponent, uint64_t p) {
    uint64_t value = 1;
    for (base %= p; exponent > 0; exponent /= 2) {
        if (exponent % 2 == 1)
            value = (uint64_t)((double_word)value * base % p);
        base = (uint64_t)((double_word)base * base % p);
    }
    return value;
}

static struct factor factor(uint64_t value, uint64_t p) {
    return (struct factor){value, (uint64_t)(((double_word)value << DIGIT) / p)};
}

static struct factor inverse(uint64_t value, uint64_t p) {
    return factor(power(value, p - 2, p), p);
}

static uint64_t negative_inverse_of(uint64_t odd) {
    uint64_t value = odd; /* right in 3 bits; each step doubles them */
    for (int bits = 3; bits < 64; bits *= 2)
        value *= 2 - odd * value;
    return -value;
}

/* 1: products can be made. */
int start_products(void) {
    for (int k = 0; k < PRIMES; k++) {
        const uint64_t p = prime[k], digit = (uint64_t)(((double_word)1 << DIGIT) % p);
        one_of[k] = factor(1, p);
        scale_of[k] = factor((uint64_t)((double_word)power(SIZE, p - 2, p) * digit % p), p);
        negative_inverse[k] = negative_inverse_of(p) << (LIMB - DIGIT) >> (LIMB - DIGIT);
    }
    p0_modulo_p1 = inverse(prime[0], prime[1]);
    p0_modulo_p2 = inverse(prime[0], prime[2]);
    p1_modulo_p2 = inverse(prime[1], prime[2]);
    return 1;
}

void stop_products(void) {}

/*
 * The product of two numbers of 64-bit limbs, the least first, into limbs + other_limbs of them. 0: they are too long
 * for SIZE.
 */
int multiply(uint64_t *product, const uint64_t *one, size_t limbs, const uint64_t *other, size_t other_limbs) {
    if (limbs > SIZE || other_limbs > SIZE - limbs)
        return 0;
    for (int k = 0; k < PRIMES; k++) {
        take(one, limbs, one_of[k], k);
        forward[k](left, given, work);
        take(other, other_limbs, scale_of[k], k);
        forward[k](right, given, work);
        multiply_places(k);
        back[k](sums[k], left, work);
    }
    carry_sums(product, limbs + other_limbs);
    return 1;
}
