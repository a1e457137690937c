/* Places eight side by side, by products of 52-bit numbers (AVX-512 IFMA): a part of three.c. */
#include <immintrin.h>

enum { DIGIT = 52 };

#define DIGIT_MASK (((uint64_t)1 << DIGIT) - 1)

typedef uint64_t lanes __attribute__((vector_size(LANES * sizeof(uint64_t))));

static inline lanes load(const uint64_t *words) {
    return (lanes)_mm512_load_si512(words);
}

static inline void store(uint64_t *words, lanes values) {
    _mm512_store_si512(words, (__m512i)values);
}

static inline lanes all(uint64_t word) {
    return (lanes)_mm512_set1_epi64((long long)word);
}

/* The sum and the low 52 bits of the product of numbers below 2^52. */
static inline lanes add_low(lanes sum, lanes one, lanes other) {
    return (lanes)_mm512_madd52lo_epu64((__m512i)sum, (__m512i)one, (__m512i)other);
}

/* The sum and the bits from 52 on. */
static inline lanes add_high(lanes sum, lanes one, lanes other) {
    return (lanes)_mm512_madd52hi_epu64((__m512i)sum, (__m512i)one, (__m512i)other);
}

/* A number below 2 * p, modulo p: where it is below p, the difference is the greater word. */
static inline lanes below(lanes value, uint64_t p) {
    return (lanes)_mm512_min_epu64((__m512i)value, (__m512i)(value - p));
}

/* The product of numbers below 2^52 by the factor, modulo p, or p more. */
static inline lanes near_times(lanes value, struct factor by, uint64_t p) {
    const lanes quotient = add_high(all(0), value, all(by.quotient));
    return (add_low(all(0), value, all(by.value)) - add_low(all(0), quotient, all(p))) & DIGIT_MASK;
}

static inline lanes times(lanes value, struct factor by, uint64_t p) {
    return below(near_times(value, by, p), p);
}

/* one * other / 2^DIGIT modulo p (Montgomery). */
static inline lanes product_over_digit(lanes one, lanes other, uint64_t p, uint64_t negative) {
    const lanes low = add_low(all(0), one, other);
    const lanes times_p = add_low(all(0), low, all(negative));
    const lanes carry = (lanes)(low != 0) & 1;
    return below(add_high(add_high(carry, one, other), times_p, all(p)), p);
}

/* Takes the limbs modulo prime k, each times the factor. */
static void take(const uint64_t *limbs, size_t count, struct factor by, int k) {
    const uint64_t p = prime[k];
    const struct factor half = factor((uint64_t)1 << LIMB / 2, p);
    memcpy(given, limbs, count * sizeof *limbs);
    memset(given + count, 0, sizeof given - count * sizeof *limbs);
    for (size_t i = 0; i < count; i += LANES) {
        const lanes limb = load(given + i);
        store(given + i, times(near_times(limb >> LIMB / 2, half, p) + (limb & UINT32_MAX), by, p));
    }
}

static void multiply_places(int k) {
    for (size_t i = 0; i < SIZE; i += LANES)
        store(left + i, product_over_digit(load(left + i), load(right + i), prime[k], negative_inverse[k]));
}

/* Sums of products at eight places, in digits of 52 bits and a little more, the least first. */
struct digits {
    _Alignas(64) uint64_t first[LANES], second[LANES], third[LANES];
};

/* The sums from place i on, by their remainders. */
static inline struct digits sums_at(size_t i) {
    const uint64_t p0 = prime[0], p1 = prime[1], p2 = prime[2];
    const lanes r0 = load(sums[0] + i);
    const lanes r1 = times(load(sums[1] + i) + 2 * p1 - r0, p0_modulo_p1, p1);
    const lanes without_r0 = times(load(sums[2] + i) + 2 * p2 - r0, p0_modulo_p2, p2);
    const lanes r2 = times(without_r0 + 2 * p2 - r1, p1_modulo_p2, p2);
    const lanes begin = add_low(r1, all(p1), r2), low = begin & DIGIT_MASK;
    const lanes high = add_high(begin >> DIGIT, all(p1), r2);
    struct digits digits;
    store(digits.first, add_low(r0, all(p0), low));
    store(digits.second, add_low(add_high(all(0), all(p0), low), all(p0), high));
    store(digits.third, add_high(all(0), all(p0), high));
    return digits;
}

/* Adds up the sums, each 64 bits above the one before it. */
static void carry_sums(uint64_t *product, size_t count) {
    double_word carry = 0;
    for (size_t i = 0; i < count; i += LANES) {
        const struct digits here = sums_at(i);
        for (size_t l = 0; l < LANES && i + l < count; l++) {
            const double_word low = here.first[l] + ((double_word)here.second[l] << DIGIT);
            const double_word whole = low + ((double_word)here.third[l] << 2 * DIGIT);
            carry += whole;
            const uint64_t top = (here.third[l] >> (2 * LIMB - 2 * DIGIT)) + (whole < low) + (carry < whole);
            product[i + l] = (uint64_t)carry;
            carry = carry >> LIMB | (double_word)top << LIMB;
        }
    }
}
