/*
 * Runs the phases of a C text, one processor after another, and logs the address of each load and store in the arrays. No line
 * of LINE bytes that one processor writes in a phase may be touched by another.
 *
 * The text is compiled with -fsanitize=thread, by which the compiler calls a function before each access. This file has these
 * functions in place of the sanitizer's own: it is compiled without the flag, and linked with the text without it.
 * ARRAYS and PHASE_OF are what checks/lines.py writes beside the text: where the arrays are, and a call of one phase.
 */
#include <inttypes.h>
#include <stdint.h>
#include <stdio.h>
#include <stdlib.h>
#include <string.h>

#define MOST_LINES (1 << 20)

struct array {
    char *first;
    size_t bytes;
};

/* Of the text. */
extern struct array arrays[];
extern const size_t array_count, procs, phases;
void find_arrays(void);
void do_phase(uint64_t phase, uint64_t processor);

/* For each line which processors write it in this phase, and which touch it: a bit for each of 16. */
static uint16_t writers[MOST_LINES], touchers[MOST_LINES];
static uint64_t accessed;
static uint64_t processor;

static size_t line_of(size_t array, const char *place) {
    size_t before = 0;
    for (size_t k = 0; k < array; k++)
        before += arrays[k].bytes / LINE + 1;
    return before + (size_t)(place - arrays[array].first) / LINE;
}

static void note_line(size_t line, int writes) {
    if (line >= MOST_LINES) {
        fprintf(stderr, "too many lines\n");
        exit(EXIT_FAILURE);
    }
    touchers[line] |= (uint16_t)(1u << processor);
    if (writes)
        writers[line] |= (uint16_t)(1u << processor);
}

static void note_access(const void *place, size_t bytes, int writes) {
    const char *at = place;
    for (size_t array = 0; array < array_count; array++)
        if (at >= arrays[array].first && at < arrays[array].first + arrays[array].bytes) {
            accessed += bytes;
            for (size_t line = line_of(array, at); line <= line_of(array, at + bytes - 1); line++)
                note_line(line, writes);
        }
}

#define ACCESSES(bytes)                                                               \
    void __tsan_read##bytes(void *place) { note_access(place, bytes, 0); }            \
    void __tsan_write##bytes(void *place) { note_access(place, bytes, 1); }           \
    void __tsan_unaligned_read##bytes(void *place) { note_access(place, bytes, 0); }  \
    void __tsan_unaligned_write##bytes(void *place) { note_access(place, bytes, 1); }
ACCESSES(1)
ACCESSES(2)
ACCESSES(4)
ACCESSES(8)
ACCESSES(16)
void __tsan_read_range(void *place, size_t bytes) { note_access(place, bytes, 0); }
void __tsan_write_range(void *place, size_t bytes) { note_access(place, bytes, 1); }
void *__tsan_memcpy(void *to, const void *from, size_t bytes) {
    note_access(from, bytes, 0);
    note_access(to, bytes, 1);
    return memcpy(to, from, bytes);
}
void *__tsan_memset(void *to, int byte, size_t bytes) {
    note_access(to, bytes, 1);
    return memset(to, byte, bytes);
}
void __tsan_init(void) {}
void __tsan_func_entry(void *caller) { (void)caller; }
void __tsan_func_exit(void) {}

/* How many lines one processor writes and another touches. */
static size_t shared_lines(void) {
    size_t shared = 0;
    for (size_t line = 0; line < MOST_LINES; line++)
        shared += writers[line] != 0 && (writers[line] & (writers[line] - 1) || touchers[line] != writers[line]);
    return shared;
}

int main(void) {
    size_t shared = 0;
    find_arrays();
    for (size_t array = 0; array < array_count; array++)
        if ((uintptr_t)arrays[array].first % LINE != 0) {
            fprintf(stderr, "an array does not begin at a line\n");
            return EXIT_FAILURE;
        }
    for (uint64_t phase = 0; phase < phases; phase++) {
        memset(writers, 0, sizeof writers);
        memset(touchers, 0, sizeof touchers);
        for (processor = 0; processor < procs; processor++)
            do_phase(phase, processor);
        shared += shared_lines();
    }
    printf("%zu lines shared, %" PRIu64 " bytes accessed\n", shared, accessed);
    return EXIT_SUCCESS;
}
