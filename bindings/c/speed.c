/* What calls take through the binding, and a whole sheet in one call beside the by-value function.
 *
 * speed: the calls on a full board; each time is the least of many runs.
 * speed SHEET..: each sheet's text made by pirozhkan_wave and by bench_wave, which is `wave::wave` behind an exported function, in turn, so
 * that both meet the same load: the sheet, its bytes, and both least times.
 * speed binding|value SHEET CALLS: one side alone, for a count of instructions. */
#include "pirozhkan.h"
#include <stdio.h>
#include <stdlib.h>
#include <string.h>
#include <time.h>

#define W PIROZHKAN_WORDS

/* of the crate wave_probe */
uint64_t bench_wave(const uint8_t *sheet, size_t bytes, uint8_t *out, size_t room);

static void need(bool yes, const char *what) {
    if (!yes) {
        fprintf(stderr, "speed: %s\n", what);
        exit(1);
    }
}

static double now(void) {
    struct timespec t;
    clock_gettime(CLOCK_MONOTONIC, &t);
    return (double)t.tv_sec * 1e9 + (double)t.tv_nsec;
}

#define TIME(what, call)                                                                                                              \
    do {                                                                                                                              \
        double best = 1e18;                                                                                                           \
        for (int run = 0; run < 1000; run++) {                                                                                        \
            double from = now();                                                                                                      \
            for (uint32_t i = 0; i < 50; i++) need(pirozhkan_refused(call) == 0, what);                                               \
            double each = (now() - from) / 50;                                                                                        \
            if (each < best) best = each;                                                                                             \
        }                                                                                                                             \
        printf("%-46s %8.0f ns\n", what, best);                                                                                       \
    } while (0)

static uint64_t state[W];

static void full(int marks) {
    pirozhkan_new(state, W);
    for (uint32_t i = 0; i < 64; i++) pirozhkan_add_variable(state, W, 1000 + 1000 * i, (int32_t)i, (int32_t)i + (i % 3 == 0 ? 127 : 90));
    for (int i = 0; i < marks; i++) need(pirozhkan_mark(state, W) == 0, "mark");
}

static uint64_t trial(void) {
    uint64_t code = pirozhkan_mark(state, W);
    return code != 0 ? code : pirozhkan_restore(state, W);
}

static void calls(void) {
    const uint32_t list[] = {1000, 2000, 3000, 4000, 5000, 6000};
    uint32_t kinds[256], ids[256];
    int32_t values[256];
    full(0);
    TIME("remove_value, 64 destinations", pirozhkan_remove_value(state, W, 1000 + 1000 * (i % 64), (int32_t)(i + (uint32_t)run)));
    TIME("domain_size", pirozhkan_domain_size(state, W, 1000 + 1000 * (i % 64)));
    TIME("propagate_alldiff, 6 ids", pirozhkan_propagate_alldiff(state, W, list, 6));
    TIME("ready, 6 ids", pirozhkan_ready(state, W, list, 6));
    TIME("mark and restore", trial());
    for (uint32_t i = 0; i < 256; i++) kinds[i] = PIROZHKAN_REMOVE, ids[i] = 1000 + 1000 * (i % 64), values[i] = (int32_t)i;
    TIME("batch of 256 closings", pirozhkan_batch(state, W, kinds, 256, ids, 256, values, 256));
    full(8);
    TIME("remove_value, 64 destinations, 8 marks open", pirozhkan_remove_value(state, W, 1000 + 1000 * (i % 64), (int32_t)(i + (uint32_t)run)));
    uint64_t bits[PIROZHKAN_BIT_WORDS];
    pirozhkan_bit_new(bits, PIROZHKAN_BIT_WORDS, 0, 127);
    TIME("bit_remove", pirozhkan_bit_remove(bits, PIROZHKAN_BIT_WORDS, (int32_t)(i % 128)));
    uint32_t set[PIROZHKAN_SPARSE_CELLS], ind[64], val[64];
    pirozhkan_sparse_new(set, PIROZHKAN_SPARSE_CELLS, ind, 64, val, 64, 0, 63);
    TIME("sparse_contains, 64 values", pirozhkan_sparse_contains(set, PIROZHKAN_SPARSE_CELLS, ind, 64, val, 64, (int32_t)(i % 64)));
}

static uint8_t text[32769], out[PIROZHKAN_TEXT], other[PIROZHKAN_TEXT];

static size_t sheet(const char *name) {
    FILE *file = fopen(name, "rb");
    need(file != NULL, name);
    size_t bytes = fread(text, 1, sizeof text, file);
    fclose(file);
    return bytes;
}

/* what one of so many calls takes */
static double binding(size_t bytes, int count) {
    double from = now();
    for (int i = 0; i < count; i++) need(pirozhkan_refused(pirozhkan_wave(text, bytes, out, sizeof out)) == 0, "pirozhkan_wave");
    return (now() - from) / count;
}

static double value(size_t bytes, int count) {
    double from = now();
    for (int i = 0; i < count; i++) need(bench_wave(text, bytes, other, sizeof other) <= sizeof other, "bench_wave");
    return (now() - from) / count;
}

static void beside(const char *name) {
    size_t bytes = sheet(name);
    double ours = 1e18, theirs = 1e18;
    for (int run = 0; run < 500; run++) {
        double a = binding(bytes, 5), b = value(bytes, 5);
        if (a < ours) ours = a;
        if (b < theirs) theirs = b;
    }
    need(memcmp(out, other, sizeof out) == 0, "the texts differ");
    printf("%s %zu %.0f %.0f\n", name, bytes, ours, theirs);
}

int main(int words, char **word) {
    if (words == 4 && strcmp(word[1], "binding") == 0) return binding(sheet(word[2]), atoi(word[3])) < 0;
    if (words == 4 && strcmp(word[1], "value") == 0) return value(sheet(word[2]), atoi(word[3])) < 0;
    if (words == 1) calls();
    for (int i = 1; i < words; i++) beside(word[i]);
    return 0;
}
