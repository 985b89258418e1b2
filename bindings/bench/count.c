/* Calls of each kind on one stream, for callgrind to count: `bindings/bench/count` builds and runs it.
 *   count HEAP      5 rows, 2,048 columns, 8 layers; 5,000 updates of 2,000 keys; the same with two tiers, the first
 *                   8 of 16 layers of 3 rows and 2,048 columns, the others of 3 and 512 */
#include <stdint.h>
#include <stdio.h>
#include <stdlib.h>

#include "univmon.h"
#include "../mixed.h"

enum { HEAP = 1024, ROWS = 5, COLS = 2048, LAYERS = 8, UPDATES = 5000, KEYS = 2000 };

struct state {
    univmon_header header;
    int64_t counters[UNIVMON_COUNTERS(ROWS, COLS, LAYERS)];
    uint64_t norms[UNIVMON_NORMS(ROWS, LAYERS)];
    uint64_t entries[UNIVMON_ENTRIES(HEAP, LAYERS)];
    int64_t counts[UNIVMON_COUNTS(HEAP, LAYERS)];
};

static struct state first, second;

enum { WIDE_ROWS = 3, WIDE_COLS = 2048, MOUSE_COLS = 512, ELEPHANTS = 8, WIDE_LAYERS = 16 };

struct wide_state {
    univmon_two_tier_header header;
    int64_t counters[UNIVMON_TWO_TIER_COUNTERS(ELEPHANTS, WIDE_ROWS, WIDE_COLS, WIDE_ROWS, MOUSE_COLS, WIDE_LAYERS)];
    uint64_t norms[UNIVMON_TWO_TIER_NORMS(ELEPHANTS, WIDE_ROWS, WIDE_ROWS, WIDE_LAYERS)];
    uint64_t entries[UNIVMON_ENTRIES(HEAP, WIDE_LAYERS)];
    int64_t counts[UNIVMON_COUNTS(HEAP, WIDE_LAYERS)];
};

static struct wide_state third, fourth;
static uint64_t list[UNIVMON_MERGE_LIST(HEAP, WIDE_LAYERS)];
static size_t heap;

#define SLICES(s) \
    (s)->counters, UNIVMON_COUNTERS(ROWS, COLS, LAYERS), (s)->norms, UNIVMON_NORMS(ROWS, LAYERS), \
        (s)->entries, UNIVMON_ENTRIES(heap, LAYERS), (s)->counts, UNIVMON_COUNTS(heap, LAYERS)

#define RECORD record, UNIVMON_RECORD(LAYERS)
#define LIST list, UNIVMON_LIST(LAYERS)

static void must(uint64_t refusal, uint64_t expected, const char *what) {
    if (refusal != expected) {
        fprintf(stderr, "count: %s answered %llu\n", what, (unsigned long long)refusal);
        exit(1);
    }
}

static void fresh(struct state *s) {
    univmon_answered a = univmon_new(heap, ROWS, COLS, LAYERS, SLICES(s));
    must(a.refusal, 0, "new");
    s->header = a.header;
}

static void record_of(uint64_t i, uint64_t *record, size_t words) {
    uint64_t key = mixed(i, 77) % KEYS;
    record[0] = key;
    for (size_t k = 1; k < words; k++) {
        record[k] = mixed(key, k);
    }
}

static int64_t weight_of(uint64_t i) { return (int64_t)(1 + mixed(i, 99) % 1500); }

static void by_value(struct state *s, int terminal) {
    uint64_t record[UNIVMON_RECORD(LAYERS)];
    fresh(s);
    for (uint64_t i = 0; i < UPDATES; i++) {
        record_of(i, record, UNIVMON_RECORD(LAYERS));
        univmon_answered a = terminal
            ? univmon_update_weighted_terminal(s->header, SLICES(s), RECORD, weight_of(i), LIST)
            : univmon_update_weighted(s->header, SLICES(s), RECORD, weight_of(i), LIST);
        must(a.refusal, 0, "an update");
        s->header = a.header;
    }
}

static void lent(struct state *s, int terminal) {
    uint64_t record[UNIVMON_RECORD(LAYERS)];
    univmon_shape shape = {heap, ROWS, COLS, LAYERS};
    fresh(s);
    for (uint64_t i = 0; i < UPDATES; i++) {
        record_of(i, record, UNIVMON_RECORD(LAYERS));
        univmon_step a = terminal
            ? univmon_update_weighted_terminal_lent(shape, s->header.weight, s->header.updates, s->header.mode, s->header.lens, UNIVMON_MAX_LAYERS, s->header.flags,
                  UNIVMON_MAX_LAYERS, SLICES(s), RECORD, weight_of(i), LIST)
            : univmon_update_weighted_lent(shape, s->header.weight, s->header.updates, s->header.mode, s->header.lens, UNIVMON_MAX_LAYERS, s->header.flags,
                  UNIVMON_MAX_LAYERS, SLICES(s), RECORD, weight_of(i), LIST);
        must(a.refusal, 0, "a lent update");
        s->header.weight = a.weight;
        s->header.updates = a.updates;
        s->header.mode = a.mode;
    }
}

#define WIDE(s) \
    (s)->counters, sizeof (s)->counters / 8, (s)->norms, sizeof (s)->norms / 8, (s)->entries, UNIVMON_ENTRIES(heap, WIDE_LAYERS), \
        (s)->counts, UNIVMON_COUNTS(heap, WIDE_LAYERS)
#define WIDE_RECORD record, UNIVMON_RECORD(WIDE_LAYERS)
#define WIDE_LIST list, UNIVMON_LIST(WIDE_LAYERS)

/* The updates of two tiers, with the header by value and with lengths and flags lent. */
static void wide(struct wide_state *s, int terminal, int lent) {
    uint64_t record[UNIVMON_RECORD(WIDE_LAYERS)];
    univmon_two_tier_shape shape = {heap, WIDE_LAYERS, ELEPHANTS, WIDE_ROWS, WIDE_COLS, WIDE_ROWS, MOUSE_COLS};
    univmon_two_tier_answered a =
        univmon_two_tier_new(heap, ELEPHANTS, WIDE_ROWS, WIDE_COLS, WIDE_ROWS, MOUSE_COLS, WIDE_LAYERS, WIDE(s));
    must(a.refusal, 0, "new of two tiers");
    s->header = a.header;
    for (uint64_t i = 0; i < UPDATES; i++) {
        univmon_two_tier_header *h = &s->header;
        record_of(i, record, UNIVMON_RECORD(WIDE_LAYERS));
        if (!lent) {
            a = terminal ? univmon_two_tier_update_weighted_terminal(*h, WIDE(s), WIDE_RECORD, weight_of(i), WIDE_LIST)
                         : univmon_two_tier_update_weighted(*h, WIDE(s), WIDE_RECORD, weight_of(i), WIDE_LIST);
            must(a.refusal, 0, "an update of two tiers");
            *h = a.header;
            continue;
        }
        univmon_step b = terminal
            ? univmon_two_tier_update_weighted_terminal_lent(shape, h->weight, h->updates, h->mode, h->lens, UNIVMON_MAX_LAYERS, h->flags,
                  UNIVMON_MAX_LAYERS, WIDE(s), WIDE_RECORD, weight_of(i), WIDE_LIST)
            : univmon_two_tier_update_weighted_lent(shape, h->weight, h->updates, h->mode, h->lens, UNIVMON_MAX_LAYERS, h->flags,
                  UNIVMON_MAX_LAYERS, WIDE(s), WIDE_RECORD, weight_of(i), WIDE_LIST);
        must(b.refusal, 0, "a lent update of two tiers");
        h->weight = b.weight;
        h->updates = b.updates;
        h->mode = b.mode;
    }
}

int main(int argc, char **argv) {
    heap = argc > 1 ? strtoull(argv[1], NULL, 10) : 32;
    if (heap < 1 || heap > HEAP) {
        return 2;
    }
    uint64_t record[UNIVMON_RECORD(LAYERS)];
    by_value(&first, 1);
    lent(&first, 1);
    by_value(&first, 0);
    lent(&first, 0);
    by_value(&second, 0);
    for (uint64_t i = 0; i < UPDATES; i++) {
        record_of(i, record, UNIVMON_RECORD(LAYERS));
        univmon_answered a = univmon_apply_delta(first.header, SLICES(&first), RECORD, i % LAYERS, i % ROWS,
            mixed(i, 5) % COLS, (int32_t)(1 + i % 100), 0, LIST);
        must(a.refusal, 0, "a delta");
        first.header = a.header;
    }
    univmon_answered m = univmon_merge(first.header, SLICES(&first), second.header, SLICES(&second), list, UNIVMON_MERGE_LIST(heap, LAYERS));
    must(m.refusal, 0, "a merge");
    for (int kind = 0; kind < 4; kind++) {
        wide(&third, kind % 2, kind / 2);
    }
    wide(&fourth, 1, 1);
    univmon_two_tier_answered n =
        univmon_two_tier_merge(third.header, WIDE(&third), fourth.header, WIDE(&fourth), list, UNIVMON_MERGE_LIST(heap, WIDE_LAYERS));
    must(n.refusal, 0, "a merge of two tiers");
    return 0;
}
