/* Places one by one, by products of 64-bit words: a part of three.c. */
enum { DIGIT = 64 };

static inline uint64_t below(uint64_t value, uint64_t p) {
    return value >= p ? value - p : value;
}

/* The product of any word by the factor, modulo p. */
static inline uint64_t times(uint64_t word, struct factor by, uint64_t p) {
    return below(word * by.value - (uint64_t)(((double_word)word * by.quotient) >> 64) * p, p);
}

/* one * other / 2^DIGIT modulo p (Montgomery). */
static inline uint64_t product_over_digit(uint64_t one, uint64_t other, uint64_t p, uint64_t negative) {
    const double_word whole = (double_word)one * other;
    const uint64_t times_p = (uint64_t)whole * negative;
    const uint64_t carry = (uint64_t)whole != 0;
    return below((uint64_t)(whole >> 64) + (uint64_t)(((double_word)times_p * p) >> 64) + carry, p);
}

/* Takes the limbs modulo prime k, each times the factor. */
static void take(const uint64_t *limbs, size_t count, struct factor by, int k) {
    const uint64_t p = prime[k];
    for (size_t i = 0; i < count; i++)
        given[i] = times(limbs[i], by, p);
    memset(given + count, 0, (SIZE - count) * sizeof *given);
}

static void multiply_places(int k) {
    const uint64_t p = prime[k], negative = negative_inverse[k];
    for (size_t i = 0; i < SIZE; i++)
        left[i] = product_over_digit(left[i], right[i], p, negative);
}

/* A number of three limbs. */
struct sum {
    double_word low;
    uint64_t high;
};

/* The sum of products at a place, by its remainders. */
static inline struct sum sum_at(size_t i) {
    const uint64_t p0 = prime[0], p1 = prime[1], p2 = prime[2];
    const uint64_t r0 = sums[0][i];
    const uint64_t r1 = times(sums[1][i] + 2 * p1 - r0, p0_modulo_p1, p1);
    const uint64_t without_r0 = times(sums[2][i] + 2 * p2 - r0, p0_modulo_p2, p2);
    const uint64_t r2 = times(without_r0 + 2 * p2 - r1, p1_modulo_p2, p2);
    const double_word pair = (double_word)p0 * p1, low = (double_word)r1 * p0 + r0;
    const double_word first = (double_word)r2 * (uint64_t)pair;
    const double_word second = (double_word)r2 * (uint64_t)(pair >> 64) + (uint64_t)(first >> 64);
    const double_word whole = low + (second << 64 | (uint64_t)first);
    return (struct sum){whole, (uint64_t)(second >> 64) + (whole < low)};
}

/* Adds up the sums, each 64 bits above the one before it. */
static void carry_sums(uint64_t *product, size_t count) {
    struct sum carry = {0, 0};
    for (size_t i = 0; i < count; i++) {
        const struct sum here = sum_at(i);
        carry.low += here.low;
        carry.high += here.high + (carry.low < here.low);
        product[i] = (uint64_t)carry.low;
        carry.low = carry.low >> LIMB | (double_word)carry.high << LIMB;
        carry.high = 0;
    }
}
