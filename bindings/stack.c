/* The greatest stack of each call of univmon.h, measured.
 *   cc -std=c11 -O2 -I bindings/c bindings/stack.c target/staticlib/lib*.a -o target/bindings/stack && target/bindings/stack
 * Each call runs on painted memory of its own, in states whose every layer is full: 19 layers of 1,024 candidates, by
 * 20 rows of 32 columns, 9 rows of 4,096 and 5 rows of 2,048 (five rows have code of their own), in standard and in
 * terminal mode, with known keys, new keys and keys that push others out; the calls on two tiers with one of these in
 * the first 9 layers and another in the others. Counted is from the top of the memory to
 * the deepest byte that changed: the call with its arguments and its answer, and a caller that does nothing else.
 * Writes a line a call, the greatest of all that was measured. Fails where one is above 128 KiB. */
#define _GNU_SOURCE
#include <inttypes.h>
#include <stdio.h>
#include <stdlib.h>
#include <string.h>
#include <sys/mman.h>
#include <ucontext.h>
#include <unistd.h>

#include "univmon.h"
#include "mixed.h"

enum { MOST = 128 << 10, ROOM = 1 << 20, HEAP = UNIVMON_MAX_HEAP_SIZE, LAYERS = UNIVMON_MAX_LAYERS, TURNS = 6 };

static void stop(const char *what) {
    fprintf(stderr, "stack: %s\n", what);
    exit(2);
}

/* ---- painted memory */

static unsigned char *room;
static ucontext_t outside, inside;
static void (*current)(void);

/* Below the room lies a page that faults, so that a call that needs more cannot go unseen. */
static void make_room(void) {
    size_t page = (size_t)sysconf(_SC_PAGESIZE);
    unsigned char *all = mmap(NULL, page + ROOM, PROT_READ | PROT_WRITE, MAP_PRIVATE | MAP_ANONYMOUS, -1, 0);
    if (all == MAP_FAILED || mprotect(all, page, PROT_NONE) != 0) {
        stop("no memory for a stack");
    }
    room = all + page;
}

static void enter(void) {
    current();
}

/* Runs a call on the room; answers how many of its bytes were reached. */
static size_t reached(void (*call)(void), unsigned char paint) {
    memset(room, paint, ROOM);
    current = call;
    if (getcontext(&inside) != 0) {
        stop("getcontext");
    }
    inside.uc_stack.ss_sp = room;
    inside.uc_stack.ss_size = ROOM;
    inside.uc_link = &outside;
    makecontext(&inside, enter, 0);
    if (swapcontext(&outside, &inside) != 0) {
        stop("swapcontext");
    }
    size_t low = 0;
    while (low < ROOM && room[low] == paint) {
        low++;
    }
    return ROOM - low;
}

/* ---- states */

typedef struct dims {
    size_t rows, cols;
} dims;

static const dims SHAPES[] = {{20, 32}, {9, 4096}, {5, 2048}};
enum { MOST_COUNTERS = 9 * 4096, MOST_ROWS = UNIVMON_MAX_ROWS, ELEPHANTS = 9 };

/* Arrays with a header of one tier or of two. */
typedef struct state {
    univmon_header header;
    univmon_two_tier_header wide;
    int64_t counters[UNIVMON_COUNTERS(1, MOST_COUNTERS, LAYERS)];
    uint64_t norms[UNIVMON_NORMS(MOST_ROWS, LAYERS)];
    uint64_t entries[UNIVMON_ENTRIES(HEAP, LAYERS)];
    int64_t counts[UNIVMON_COUNTS(HEAP, LAYERS)];
} state;

static int tiers;
static dims shape, mice; /* the first layers' and, with two tiers, the others' */
static uint64_t mode;
static state one, two;
static uint8_t text[UNIVMON_TEXT_MAX(HEAP, 9, 4096, LAYERS)];
static size_t text_len;
static uint64_t record[UNIVMON_RECORD(LAYERS)];
static uint64_t list[UNIVMON_MERGE_LIST(HEAP, LAYERS)];
static int64_t weight;
static int turn;

#define ALL(s) \
    (s).counters, UNIVMON_COUNTERS(shape.rows, shape.cols, LAYERS), (s).norms, UNIVMON_NORMS(shape.rows, LAYERS), \
        (s).entries, UNIVMON_ENTRIES(HEAP, LAYERS), (s).counts, UNIVMON_COUNTS(HEAP, LAYERS)
#define WIDE(s) \
    (s).counters, UNIVMON_TWO_TIER_COUNTERS(ELEPHANTS, shape.rows, shape.cols, mice.rows, mice.cols, LAYERS), (s).norms, \
        UNIVMON_TWO_TIER_NORMS(ELEPHANTS, shape.rows, mice.rows, LAYERS), (s).entries, UNIVMON_ENTRIES(HEAP, LAYERS), \
        (s).counts, UNIVMON_COUNTS(HEAP, LAYERS)
#define RECORD record, UNIVMON_RECORD(LAYERS)
#define LIST list, UNIVMON_LIST(LAYERS)

/* The record of a key whose bottom is this layer: bits 1 to it are 1, the next is 0. */
static void set_record(uint64_t key, uint64_t bottom) {
    record[0] = key;
    record[1] = (mixed(key, 0) & ~((UINT64_C(2) << (bottom + 1)) - 1)) | ((UINT64_C(2) << bottom) - 2);
    for (size_t i = 2; i < UNIVMON_RECORD(LAYERS); i++) {
        record[i] = mixed(key, i);
    }
}

/* A fresh state, and the record counted in a state: by one tier or two; the refusal. */
static uint64_t start(state *s) {
    if (tiers == 2) {
        univmon_two_tier_answered b =
            univmon_two_tier_new(HEAP, ELEPHANTS, shape.rows, shape.cols, mice.rows, mice.cols, LAYERS, WIDE(*s));
        s->wide = b.header;
        return b.refusal;
    }
    univmon_answered a = univmon_new(HEAP, shape.rows, shape.cols, LAYERS, ALL(*s));
    s->header = a.header;
    return a.refusal;
}

static uint64_t add(state *s, int64_t w) {
    int terminal = mode == UNIVMON_TERMINAL;
    if (tiers == 2) {
        univmon_two_tier_answered b = terminal ? univmon_two_tier_update_weighted_terminal(s->wide, WIDE(*s), RECORD, w, LIST)
                                               : univmon_two_tier_update_weighted(s->wide, WIDE(*s), RECORD, w, LIST);
        s->wide = b.header;
        return b.refusal;
    }
    univmon_answered a = terminal ? univmon_update_weighted_terminal(s->header, ALL(*s), RECORD, w, LIST)
                                  : univmon_update_weighted(s->header, ALL(*s), RECORD, w, LIST);
    s->header = a.header;
    return a.refusal;
}

/* A state in which every layer has 1,024 candidates and lost more. */
static void fill(state *s, uint64_t first_key) {
    uint64_t refused = start(s);
    uint64_t keys = (uint64_t)(HEAP + 50) * (mode == UNIVMON_TERMINAL ? LAYERS : 1);
    for (uint64_t i = 0; refused == 0 && i < keys; i++) {
        set_record(first_key + i, mode == UNIVMON_TERMINAL ? i % LAYERS : LAYERS - 1);
        refused = add(s, 1 + (int64_t)(mixed(i, 99) % 1000));
    }
    const size_t *lens = tiers == 2 ? s->wide.lens : s->header.lens;
    const bool *flags = tiers == 2 ? s->wide.flags : s->header.flags;
    for (int l = 0; l < LAYERS; l++) {
        if (refused != 0 || lens[l] != HEAP || flags[l]) {
            stop("the state is not full");
        }
    }
}

/* ---- the calls; each leaves its refusal */

static uint64_t refusal;

static void keep(const univmon_answered *a) {
    refusal = a->refusal;
    one.header = a->header;
}

static void run_check_shape(void) {
    refusal = univmon_check_shape(HEAP, shape.rows, shape.cols, LAYERS);
}

static void run_bottom_layer_for_hash(void) {
    refusal = univmon_bottom_layer_for_hash(record[1], LAYERS).refusal;
}

static void run_update_weighted(void) {
    univmon_answered a = univmon_update_weighted(one.header, ALL(one), RECORD, weight, LIST);
    keep(&a);
}

static void run_update_weighted_terminal(void) {
    univmon_answered a = univmon_update_weighted_terminal(one.header, ALL(one), RECORD, weight, LIST);
    keep(&a);
}

static void keep_step(univmon_step s) {
    refusal = s.refusal;
    one.header.weight = s.weight;
    one.header.updates = s.updates;
    one.header.mode = s.mode;
}

#define LENT \
    (univmon_shape){HEAP, shape.rows, shape.cols, LAYERS}, one.header.weight, one.header.updates, one.header.mode, \
        one.header.lens, UNIVMON_MAX_LAYERS, one.header.flags, UNIVMON_MAX_LAYERS, ALL(one)

static void run_update_weighted_lent(void) {
    keep_step(univmon_update_weighted_lent(LENT, RECORD, weight, LIST));
}

static void run_update_weighted_terminal_lent(void) {
    keep_step(univmon_update_weighted_terminal_lent(LENT, RECORD, weight, LIST));
}

static void run_apply_delta(void) {
    size_t layer = turn % 2 ? 0 : LAYERS - 1;
    univmon_answered a = univmon_apply_delta(one.header, ALL(one), RECORD, layer, shape.rows - 1, shape.cols - 1, 100000, turn / 3, LIST);
    keep(&a);
}

static void run_merge(void) {
    univmon_answered a = univmon_merge(one.header, ALL(one), two.header, ALL(two), list, UNIVMON_MERGE_LIST(HEAP, LAYERS));
    keep(&a);
}

static void run_set_total_weight(void) {
    univmon_answered a = univmon_set_total_weight(one.header, one.header.weight);
    /* terminal mode refuses it with 6 */
    refusal = mode == UNIVMON_TERMINAL && a.refusal == 6 ? 0 : a.refusal;
}

static void run_mark_candidates_incomplete(void) {
    univmon_answered a = univmon_mark_candidates_incomplete(one.header);
    keep(&a);
}

static void run_mark_layer_candidates_incomplete(void) {
    univmon_answered a = univmon_mark_layer_candidates_incomplete(one.header, LAYERS - 1);
    keep(&a);
}

static void run_estimate_l1(void) {
    refusal = univmon_estimate_l1(one.header).refusal;
}

static void run_estimate_l2(void) {
    refusal = univmon_estimate_l2(one.header, one.norms, UNIVMON_NORMS(shape.rows, LAYERS)).refusal;
}

static void run_estimate_g_sum(void) {
    refusal = univmon_estimate_g_sum(one.header, ALL(one), (uint64_t)turn % 3, turn / 3).refusal;
}

static void run_estimate_cardinality(void) {
    refusal = univmon_estimate_cardinality(one.header, ALL(one)).refusal;
}

static void run_panel_answer(void) {
    refusal = univmon_panel_answer(one.header, ALL(one)).refusal;
}

static void run_check_state(void) {
    refusal = !univmon_check_state(one.header, ALL(one));
}

static void run_write_state(void) {
    univmon_written w = univmon_write_state(one.header, ALL(one), text, sizeof text);
    refusal = w.refusal;
    text_len = w.bytes;
}

/* What run_write_state wrote, over what is there. */
static void run_read_state(void) {
    univmon_answered a = univmon_read_state(text, text_len, ALL(one));
    keep(&a);
}

static void run_clear(void) {
    univmon_answered a = univmon_clear(one.header, ALL(one));
    keep(&a);
}

static void run_new(void) {
    univmon_answered a = univmon_new(HEAP, shape.rows, shape.cols, LAYERS, ALL(one));
    keep(&a);
}

/* ---- the same with two tiers */

static void keep_wide(const univmon_two_tier_answered *a) {
    refusal = a->refusal;
    one.wide = a->header;
}

static void run_two_tier_check_shape(void) {
    refusal = univmon_two_tier_check_shape(HEAP, ELEPHANTS, shape.rows, shape.cols, mice.rows, mice.cols, LAYERS);
}

static void run_two_tier_update_weighted(void) {
    univmon_two_tier_answered a = univmon_two_tier_update_weighted(one.wide, WIDE(one), RECORD, weight, LIST);
    keep_wide(&a);
}

static void run_two_tier_update_weighted_terminal(void) {
    univmon_two_tier_answered a = univmon_two_tier_update_weighted_terminal(one.wide, WIDE(one), RECORD, weight, LIST);
    keep_wide(&a);
}

static void keep_wide_step(univmon_step s) {
    refusal = s.refusal;
    one.wide.weight = s.weight;
    one.wide.updates = s.updates;
    one.wide.mode = s.mode;
}

#define WIDE_LENT \
    (univmon_two_tier_shape){HEAP, LAYERS, ELEPHANTS, shape.rows, shape.cols, mice.rows, mice.cols}, one.wide.weight, \
        one.wide.updates, one.wide.mode, one.wide.lens, UNIVMON_MAX_LAYERS, one.wide.flags, UNIVMON_MAX_LAYERS, WIDE(one)

static void run_two_tier_update_weighted_lent(void) {
    keep_wide_step(univmon_two_tier_update_weighted_lent(WIDE_LENT, RECORD, weight, LIST));
}

static void run_two_tier_update_weighted_terminal_lent(void) {
    keep_wide_step(univmon_two_tier_update_weighted_terminal_lent(WIDE_LENT, RECORD, weight, LIST));
}

static void run_two_tier_merge(void) {
    univmon_two_tier_answered a =
        univmon_two_tier_merge(one.wide, WIDE(one), two.wide, WIDE(two), list, UNIVMON_MERGE_LIST(HEAP, LAYERS));
    keep_wide(&a);
}

static void run_two_tier_estimate_l1(void) {
    refusal = univmon_two_tier_estimate_l1(one.wide).refusal;
}

static void run_two_tier_estimate_l2(void) {
    refusal = univmon_two_tier_estimate_l2(one.wide, one.norms, UNIVMON_TWO_TIER_NORMS(ELEPHANTS, shape.rows, mice.rows, LAYERS)).refusal;
}

static void run_two_tier_estimate_g_sum(void) {
    refusal = univmon_two_tier_estimate_g_sum(one.wide, WIDE(one), (uint64_t)turn % 3, turn / 3).refusal;
}

static void run_two_tier_estimate_cardinality(void) {
    refusal = univmon_two_tier_estimate_cardinality(one.wide, WIDE(one)).refusal;
}

static void run_two_tier_clear(void) {
    univmon_two_tier_answered a = univmon_two_tier_clear(one.wide, WIDE(one));
    keep_wide(&a);
}

static void run_two_tier_new(void) {
    univmon_two_tier_answered a =
        univmon_two_tier_new(HEAP, ELEPHANTS, shape.rows, shape.cols, mice.rows, mice.cols, LAYERS, WIDE(one));
    keep_wide(&a);
}

/* In which modes a call is made. */
enum { IN_STANDARD = 1 << UNIVMON_STANDARD, IN_TERMINAL = 1 << UNIVMON_TERMINAL, IN_BOTH = IN_STANDARD | IN_TERMINAL };

typedef struct call {
    const char *name;
    void (*run)(void);
    int tiers;
    int modes;
    size_t most;
    dims at, mice;
    uint64_t in;
} call;

#define CALL(name, modes) {"univmon_" #name, run_##name, 1, modes, 0, {0, 0}, {0, 0}, 0}
#define WIDE_CALL(name, modes) {"univmon_two_tier_" #name, run_two_tier_##name, 2, modes, 0, {0, 0}, {0, 0}, 0}

/* The last two of each kind empty the state. */
static call calls[] = {
    CALL(check_shape, IN_BOTH),
    CALL(bottom_layer_for_hash, IN_BOTH),
    CALL(update_weighted, IN_STANDARD),
    CALL(update_weighted_terminal, IN_TERMINAL),
    CALL(update_weighted_lent, IN_STANDARD),
    CALL(update_weighted_terminal_lent, IN_TERMINAL),
    CALL(apply_delta, IN_BOTH),
    CALL(merge, IN_BOTH),
    CALL(set_total_weight, IN_BOTH),
    CALL(mark_candidates_incomplete, IN_BOTH),
    CALL(mark_layer_candidates_incomplete, IN_BOTH),
    CALL(estimate_l1, IN_BOTH),
    CALL(estimate_l2, IN_BOTH),
    CALL(estimate_g_sum, IN_BOTH),
    CALL(estimate_cardinality, IN_BOTH),
    CALL(panel_answer, IN_BOTH),
    CALL(check_state, IN_BOTH),
    CALL(write_state, IN_BOTH),
    CALL(read_state, IN_BOTH),
    CALL(clear, IN_BOTH),
    CALL(new, IN_BOTH),
    WIDE_CALL(check_shape, IN_BOTH),
    WIDE_CALL(update_weighted, IN_STANDARD),
    WIDE_CALL(update_weighted_terminal, IN_TERMINAL),
    WIDE_CALL(update_weighted_lent, IN_STANDARD),
    WIDE_CALL(update_weighted_terminal_lent, IN_TERMINAL),
    WIDE_CALL(merge, IN_BOTH),
    WIDE_CALL(estimate_l1, IN_BOTH),
    WIDE_CALL(estimate_l2, IN_BOTH),
    WIDE_CALL(estimate_g_sum, IN_BOTH),
    WIDE_CALL(estimate_cardinality, IN_BOTH),
    WIDE_CALL(clear, IN_BOTH),
    WIDE_CALL(new, IN_BOTH),
};
enum { CALLS = sizeof calls / sizeof calls[0] };

/* ---- measuring */

/* Turns 0 and 3 have a known key, 1 and 4 a new one that is too light, 2 and 5 one that pushes another out. */
static void set_arguments(uint64_t known) {
    set_record(turn % 3 == 0 ? known : UINT64_C(1) << (40 + turn), LAYERS - 1);
    weight = turn % 3 == 1 ? 0 : 1000000;
}

static void measure(call *c) {
    for (turn = 0; turn < TURNS; turn++) {
        set_arguments(one.entries[4 * (LAYERS - 1) * HEAP]);
        size_t used = reached(c->run, turn % 2 ? 0xA5 : 0x5A);
        if (refusal != 0) {
            fprintf(stderr, "stack: %s refused %" PRIu64 "\n", c->name, refusal);
            exit(2);
        }
        if (used > c->most) {
            c->most = used;
            c->at = shape;
            c->mice = mice;
            c->in = mode;
        }
    }
}

/* The states are made on the usual stack: there the functions of the C library are bound, and not while a call is
 * measured. */
static void measure_all(void) {
    fill(&one, 1);
    fill(&two, UINT64_C(1) << 32);
    for (int i = 0; i < CALLS; i++) {
        if (calls[i].tiers == tiers && calls[i].modes >> mode & 1) {
            measure(&calls[i]);
        }
    }
}

int main(void) {
    int above = 0;
    make_room();
    size_t shapes = sizeof SHAPES / sizeof SHAPES[0];
    for (size_t i = 0; i < shapes; i++) {
        for (mode = UNIVMON_STANDARD; mode <= UNIVMON_TERMINAL; mode++) {
            for (tiers = 1; tiers <= 2; tiers++) {
                shape = SHAPES[i];
                mice = SHAPES[(i + tiers - 1) % shapes];
                measure_all();
            }
        }
    }
    for (int i = 0; i < CALLS; i++) {
        const call *c = &calls[i];
        printf("%s %zu KiB (%zu bytes; %zu x %zu then %zu x %zu, %s)\n", c->name, (c->most + 1023) / 1024, c->most, c->at.rows,
            c->at.cols, c->mice.rows, c->mice.cols, c->in == UNIVMON_TERMINAL ? "terminal" : "standard");
        above |= c->most > MOST;
    }
    if (above) {
        fprintf(stderr, "stack: a call is above %d KiB\n", MOST / 1024);
    }
    return above;
}
