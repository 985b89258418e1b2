/* A relay's loop in C: two branches count their streams and say who left their lists, one is marked and
 * carried home as text, the two are merged there, and the panel's numbers are shown. relay.rs is the same in
 * Rust and writes the same lines. */
#include <inttypes.h>
#include <stdio.h>
#include <stdlib.h>

#include "univmon.h"

enum { HEAP = 32, ROWS = 5, COLS = 256, LAYERS = 6 };

/* One branch: a header and its arrays. */
typedef struct branch {
    univmon_header header;
    int64_t counters[UNIVMON_COUNTERS(ROWS, COLS, LAYERS)];
    uint64_t norms[UNIVMON_NORMS(ROWS, LAYERS)];
    uint64_t entries[UNIVMON_ENTRIES(HEAP, LAYERS)];
    int64_t counts[UNIVMON_COUNTS(HEAP, LAYERS)];
} branch;

#define MUT(b) \
    (b)->counters, UNIVMON_COUNTERS(ROWS, COLS, LAYERS), (b)->norms, UNIVMON_NORMS(ROWS, LAYERS), \
        (b)->entries, UNIVMON_ENTRIES(HEAP, LAYERS), (b)->counts, UNIVMON_COUNTS(HEAP, LAYERS)

/* Takes over the header of an accepted call; a refused one ends the program, unless it is expected. */
static void accept(branch *b, univmon_answered a, const char *what) {
    if (a.refusal != 0) {
        fprintf(stderr, "relay: %s refused %" PRIu64 "\n", what, a.refusal);
        exit(1);
    }
    b->header = a.header;
}

/* Hashing is the relay's own: here a mixer (splitmix64) with a seed for each place of the record. */
static uint64_t mixed(uint64_t key, uint64_t seed) {
    uint64_t z = key + (seed + 1) * UINT64_C(0x9E3779B97F4A7C15);
    z = (z ^ (z >> 30)) * UINT64_C(0xBF58476D1CE4E5B9);
    z = (z ^ (z >> 27)) * UINT64_C(0x94D049BB133111EB);
    return z ^ (z >> 31);
}

static void record_of(uint64_t key, uint64_t record[UNIVMON_RECORD(LAYERS)]) {
    record[0] = key;
    for (size_t i = 1; i < UNIVMON_RECORD(LAYERS); i++) {
        record[i] = mixed(key, i);
    }
}

/* A stream of 3000 arrivals, in which small keys come more often. A driver whose receiver leaves layer 0's
 * candidates is phoned: here the first is named, and all are counted. */
static void count_stream(const char *name, branch *b, uint64_t seed, uint64_t keys) {
    uint64_t calls = 0;
    for (uint64_t i = 0; i < 3000; i++) {
        uint64_t r = mixed(i, seed);
        uint64_t key = (r % keys) * ((r >> 32) % keys) / keys;
        uint64_t record[UNIVMON_RECORD(LAYERS)], list[UNIVMON_LIST(LAYERS)];
        record_of(key, record);
        accept(b, univmon_update_weighted(b->header, MUT(b), record, UNIVMON_RECORD(LAYERS), 1 + (int64_t)(r >> 60),
            list, UNIVMON_LIST(LAYERS)), "update");
        if (list[0] == UNIVMON_DISPLACED && calls++ == 0) {
            printf("%s: %" PRIu64 " pushes %" PRIu64 " out\n", name, key, list[1]);
        }
    }
    printf("%s: %" PRIu64 " pushed out\n", name, calls);
}

/* What a merge did in each layer: how many keys have a seat at first, pushed another out, were turned away. */
static void show_merge(const uint64_t list[UNIVMON_MERGE_LIST(HEAP, LAYERS)]) {
    for (size_t l = 0; l < LAYERS; l++) {
        unsigned did[5] = {0};
        for (size_t place = 2 * HEAP * l; place < 2 * HEAP * (l + 1); place++) {
            did[list[2 * place]]++;
        }
        printf("layer %zu: seated %u displaced %u turned away %u\n", l, did[UNIVMON_SEATED], did[UNIVMON_DISPLACED],
            did[UNIVMON_TURNED_AWAY]);
    }
}

static void show(const char *name, const branch *b) {
    univmon_panel p = univmon_panel_answer(b->header, MUT(b));
    if (p.refusal != 0) {
        fprintf(stderr, "relay: panel refused %" PRIu64 "\n", p.refusal);
        exit(1);
    }
    printf("%s: l1 %.0f l2 %.6f keys %.0f flags ", name, p.l1, p.l2, p.cardinality);
    for (size_t l = 0; l < b->header.layers; l++) {
        putchar(b->header.flags[l] ? '1' : '0');
    }
    printf(" updates %" PRIu64 "\n", b->header.updates);
}

int main(void) {
    static branch east, west;
    accept(&east, univmon_new(HEAP, ROWS, COLS, LAYERS, MUT(&east)), "new");
    accept(&west, univmon_new(HEAP, ROWS, COLS, LAYERS, MUT(&west)), "new");

    count_stream("east", &east, 100, 60);
    count_stream("west", &west, 200, 90);
    show("east", &east);
    show("west", &west);

    /* West knows that it lost arrivals of layer 2. */
    accept(&west, univmon_mark_layer_candidates_incomplete(west.header, 2), "mark");

    /* A refused call changes nothing. */
    uint64_t record[UNIVMON_RECORD(LAYERS)];
    static uint64_t list[UNIVMON_MERGE_LIST(HEAP, LAYERS)];
    record_of(7, record);
    univmon_answered refused =
        univmon_update_weighted(east.header, MUT(&east), record, UNIVMON_RECORD(LAYERS), -1, list, UNIVMON_LIST(LAYERS));
    printf("weight -1: refused %" PRIu64 "\n", refused.refusal);
    show("east", &east);

    /* West has no link: its state is written as text.. */
    static uint8_t text[UNIVMON_TEXT_MAX(HEAP, ROWS, COLS, LAYERS)];
    univmon_written written = univmon_write_state(west.header, MUT(&west), text, sizeof text);
    if (written.refusal != 0) {
        fprintf(stderr, "relay: write refused %" PRIu64 "\n", written.refusal);
        return 1;
    }
    printf("west as text: %zu bytes\n", written.bytes);

    /* ..and read at home into other arrays, whatever these held. A text that lost its end is no state's. */
    static branch home;
    printf("cut short: refused %" PRIu64 "\n", univmon_read_state(text, written.bytes - 1, MUT(&home)).refusal);
    accept(&home, univmon_read_state(text, written.bytes, MUT(&home)), "read");
    show("home", &home);

    accept(&east, univmon_merge(east.header, MUT(&east), home.header, MUT(&home), list, UNIVMON_MERGE_LIST(HEAP, LAYERS)), "merge");
    show_merge(list);
    show("both", &east);

    univmon_answer squares = univmon_estimate_g_sum(east.header, MUT(&east), UNIVMON_G_SQUARE, false);
    printf("sum of squares: %.0f\n", squares.value);
    return 0;
}
