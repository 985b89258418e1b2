/* The dearest answer: a terminal state of 19 full layers of 1,024 candidates, 20 rows, 32 columns. Once with weights
 * as they come, once with three times the weight at each layer up, so that a candidate that is taken in
 * passes by nearly all that are there; and both again with keys that all have one remainder by 16,381, so
 * that none of them can be told to be new by its mark.
 *   cc -O2 -D_POSIX_C_SOURCE=200809L -I bindings/c bindings/bench/worst.c target/staticlib/libunivmon_c.a -o target/bindings/worst && target/bindings/worst
 * Writes the processor time of one cardinality and one sum of squares, the least and the greatest of 20 turns. */
#include <inttypes.h>
#include <stdio.h>
#include <stdlib.h>
#include <time.h>

#include "univmon.h"
#include "../mixed.h"

enum { HEAP = 1024, ROWS = 20, COLS = 32, LAYERS = 19, TURNS = 20 };

static int64_t counters[UNIVMON_COUNTERS(ROWS, COLS, LAYERS)];
static uint64_t norms[UNIVMON_NORMS(ROWS, LAYERS)];
static uint64_t entries[UNIVMON_ENTRIES(HEAP, LAYERS)];
static int64_t counts[UNIVMON_COUNTS(HEAP, LAYERS)];

#define ALL \
    counters, UNIVMON_COUNTERS(ROWS, COLS, LAYERS), norms, UNIVMON_NORMS(ROWS, LAYERS), \
        entries, UNIVMON_ENTRIES(HEAP, LAYERS), counts, UNIVMON_COUNTS(HEAP, LAYERS)

static double seconds(void) {
    struct timespec t;
    clock_gettime(CLOCK_PROCESS_CPUTIME_ID, &t);
    return (double)t.tv_sec + 1e-9 * (double)t.tv_nsec;
}

static void report(const char *what, univmon_header header, uint64_t g) {
    double least = 1e9, greatest = 0;
    univmon_answer a = {0, 0};
    for (int turn = 0; turn < TURNS; turn++) {
        double start = seconds();
        a = univmon_estimate_g_sum(header, ALL, g, true);
        double took = seconds() - start;
        least = took < least ? took : least;
        greatest = took > greatest ? took : greatest;
    }
    printf("%s: refusal %" PRIu64 ", value %g, %.1f to %.1f ms\n", what, a.refusal, a.value, 1e3 * least, 1e3 * greatest);
}

/* 19 full layers; each layer's weights are `times` those of the layer below it, the keys are `apart`. */
static int full(const char *what, int64_t times, uint64_t apart) {
    univmon_answered a = univmon_new(HEAP, ROWS, COLS, LAYERS, ALL);
    int64_t scale[LAYERS];
    scale[LAYERS - 1] = 1;
    for (int l = LAYERS - 1; l > 0; l--) {
        scale[l - 1] = scale[l] * times;
    }
    for (uint64_t i = 0; a.refusal == 0 && i < (uint64_t)LAYERS * HEAP; i++) {
        uint64_t record[UNIVMON_RECORD(LAYERS)], list[UNIVMON_LIST(LAYERS)];
        uint64_t layer = i % LAYERS;
        record[0] = i * apart;
        /* bits 1 to layer are 1, the next is 0: this layer is the key's bottom */
        record[1] = (mixed(i, 0) & ~((UINT64_C(2) << (layer + 1)) - 1)) | ((UINT64_C(2) << layer) - 2);
        for (size_t k = 2; k < UNIVMON_RECORD(LAYERS); k++) {
            record[k] = mixed(i, k);
        }
        a = univmon_update_weighted_terminal(a.header, ALL, record, UNIVMON_RECORD(LAYERS), scale[layer] * (int64_t)(1 + mixed(i, 99) % 1000), list,
            UNIVMON_LIST(LAYERS));
    }
    for (int l = 0; l < LAYERS; l++) {
        if (a.refusal != 0 || a.header.lens[l] != HEAP) {
            fprintf(stderr, "worst: the state is not full (refusal %" PRIu64 ")\n", a.refusal);
            return 1;
        }
    }
    printf("%s\n", what);
    report("  cardinality", a.header, UNIVMON_G_ONE);
    report("  sum of squares", a.header, UNIVMON_G_SQUARE);
    return 0;
}

int main(void) {
    return full("weights as they come", 1, 1) || full("three times the weight at each layer up", 3, 1)
        || full("weights as they come, keys of one mark", 1, 16381) || full("three times the weight, keys of one mark", 3, 16381);
}
