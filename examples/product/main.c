/*
 * Reads numbers and writes their products: integers of hexadecimal digits, or polynomials.
 *
 * It includes product.c, or three.c with -DTHREE, which multiplies integers alone.
 */
#include <inttypes.h>
#include <stdarg.h>
#include <stdio.h>
#include <stdlib.h>
#include <string.h>

#ifdef THREE
#include "three.c"
#define USAGE "integers"
#else
#include "product.c"
#define USAGE "integers|polynomials|negacyclic"
#endif

static const char *program;

/* One line on standard error says why; the status is that of a failure. */
static __attribute__((format(printf, 1, 2))) int failed(const char *why, ...) {
    va_list words;
    va_start(words, why);
    fprintf(stderr, "%s: ", program);
    vfprintf(stderr, why, words);
    fprintf(stderr, "\n");
    va_end(words);
    return EXIT_FAILURE;
}

/* What is wrong with the output at the end, if anything. */
static int ended(void) {
    return fflush(stdout) != 0 || ferror(stdout) ? failed("write failed") : EXIT_SUCCESS;
}

struct number {
    uint64_t *limbs;
    size_t count;
};

enum reading { READ, END, NO_NUMBER, NO_MEMORY, FAULT };

/* Reads a line of hexadecimal digits. */
static enum reading read_number(struct number *number) {
    char *line = NULL;
    size_t room = 0;
    ssize_t length = getline(&line, &room, stdin);
    enum reading found = length >= 0 ? NO_NUMBER : ferror(stdin) ? FAULT : feof(stdin) ? END : NO_MEMORY;
    while (length > 0 && (line[length - 1] == '\n' || line[length - 1] == '\r'))
        length--;
    if (length > 0 && strspn(line, "0123456789abcdefABCDEF") == (size_t)length) {
        number->count = ((size_t)length + 15) / 16;
        number->limbs = calloc(number->count, sizeof *number->limbs);
        found = number->limbs ? READ : NO_MEMORY;
    }
    for (size_t k = 0; found == READ && k < number->count; k++) {
        char piece[17] = {0};
        const size_t end = (size_t)length - 16 * k, begin = end > 16 ? end - 16 : 0;
        memcpy(piece, line + begin, end - begin);
        number->limbs[k] = strtoull(piece, NULL, 16);
    }
    free(line);
    return found;
}

static void write_number(const uint64_t *limbs, size_t count) {
    while (count > 1 && limbs[count - 1] == 0)
        count--;
    printf("%" PRIx64, limbs[count - 1]);
    while (--count > 0)
        printf("%016" PRIx64, limbs[count - 1]);
    printf("\n");
}

/* Says why a line gave no number. */
static int bad_line(enum reading found, size_t line) {
    switch (found) {
    case END:
        return failed("line %zu has no second factor after it", line - 1);
    case NO_NUMBER:
        return failed("line %zu is not of hexadecimal digits alone", line);
    case NO_MEMORY:
        return failed("out of memory at line %zu", line);
    default:
        return failed("read failed at line %zu", line);
    }
}

/* Writes the product of the numbers in this line and the next. */
static int write_product(const struct number *one, const struct number *other, size_t line) {
    uint64_t *product = malloc((one->count + other->count) * sizeof *product);
    if (!product)
        return failed("out of memory at line %zu", line);
    const int fits = multiply(product, one->limbs, one->count, other->limbs, other->count);
    if (fits)
        write_number(product, one->count + other->count);
    free(product);
    return fits ? EXIT_SUCCESS : failed("the product of lines %zu and %zu is too long for this size", line, line + 1);
}

/* For each two lines of hexadecimal digits the line of their product. */
static int integers(void) {
    for (size_t line = 1;; line += 2) {
        struct number one = {NULL, 0}, other = {NULL, 0};
        const enum reading first = read_number(&one);
        if (first == END)
            return ended();
        const enum reading second = first == READ ? read_number(&other) : READ;
        int status = EXIT_FAILURE;
        if (first != READ)
            bad_line(first, line);
        else if (second != READ)
            bad_line(second, line + 1);
        else
            status = write_product(&one, &other, line);
        free(one.limbs);
        free(other.limbs);
        if (status != EXIT_SUCCESS)
            return status;
    }
}

#ifndef THREE

/* Reads decimal digits between white space: a number below 2^64. */
static enum reading read_value(uint64_t *value) {
    char text[24];
    const int found = scanf("%23s", text);
    if (found != 1)
        return ferror(stdin) ? FAULT : END;
    const size_t length = strlen(text);
    *value = strtoull(text, NULL, 10);
    const int is_number = strspn(text, "0123456789") == length && length <= 20;
    return is_number && (length < 20 || strcmp(text, "18446744073709551615") <= 0) ? READ : NO_NUMBER;
}

/* For each two vectors of SIZE numbers the line of their product. */
static int polynomials(void (*product_of)(uint64_t *, const uint64_t *, const uint64_t *)) {
    static uint64_t both[2 * SIZE], product[SIZE];
    for (size_t first = 1;; first += 2 * SIZE) {
        for (size_t k = 0; k < 2 * SIZE; k++) {
            const enum reading found = read_value(&both[k]);
            if (found == END && k == 0)
                return ended();
            if (found == END)
                return failed("the input ends with %zu of %d numbers", k, 2 * SIZE);
            if (found == FAULT)
                return failed("read failed at number %zu", first + k);
            if (found != READ)
                return failed("number %zu is none below 2^64", first + k);
        }
        product_of(product, both, both + SIZE);
        for (size_t k = 0; k < SIZE; k++)
            printf("%" PRIu64 "%c", product[k], k + 1 < SIZE ? ' ' : '\n');
    }
}

#endif

/* The status of the work that the word names; 2 where it names none. */
static int worked(const char *word) {
    if (strcmp(word, "integers") == 0)
        return integers();
#ifndef THREE
    if (strcmp(word, "polynomials") == 0)
        return polynomials(convolve);
    if (strcmp(word, "negacyclic") == 0)
        return polynomials(negacyclic);
#endif
    return 2;
}

int main(int count, char **words) {
    program = words[0];
    if (count == 2 && !start_products())
        return failed("the threads cannot be started");
    const int status = count == 2 ? worked(words[1]) : 2;
    if (count == 2)
        stop_products();
    if (status == 2)
        fprintf(stderr, "usage: %s " USAGE "\n", program);
    return status;
}
