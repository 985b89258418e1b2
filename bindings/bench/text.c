/* A state written as text and read again, by this library and by a plain program over sprintf, strtoull and strtoll:
 * `bindings/bench/text` builds and runs it.
 *   text [ROUNDS]      5 rows of 2,048 columns, heap size 32; 1, 8 and 19 layers
 * Half of the counters are not zero, up to 2^20 and of either sign; every layer is full, its keys and hashes are any
 * words. Both write the same bytes and read the same state, norms included, or the run fails. In each round each
 * item is run by both, one right after the other, the one that goes first changing from round to round; the ratio
 * of a round is this library's time over the plain program's. Times are the processor's. */
#define _POSIX_C_SOURCE 200809L
#include <inttypes.h>
#include <stdio.h>
#include <stdlib.h>
#include <string.h>
#include <time.h>

#include "univmon.h"
#include "../mixed.h"

enum { HEAP = 32, ROWS = 5, COLS = 2048, LAYERS = UNIVMON_MAX_LAYERS, MOST_ROUNDS = 1000 };

typedef struct state {
    univmon_header header;
    int64_t counters[UNIVMON_COUNTERS(ROWS, COLS, LAYERS)];
    uint64_t norms[UNIVMON_NORMS(ROWS, LAYERS)];
    uint64_t entries[UNIVMON_ENTRIES(HEAP, LAYERS)];
    int64_t counts[UNIVMON_COUNTS(HEAP, LAYERS)];
} state;

static state plain, ours;
/* strtoull needs the zero byte behind a text */
static char text[UNIVMON_TEXT_MAX(HEAP, ROWS, COLS, LAYERS) + 1], again[sizeof text];
static size_t layers, bytes;

#define SLICES(s) \
    (s).counters, UNIVMON_COUNTERS(ROWS, COLS, layers), (s).norms, UNIVMON_NORMS(ROWS, layers), \
        (s).entries, UNIVMON_ENTRIES(HEAP, layers), (s).counts, UNIVMON_COUNTS(HEAP, layers)

static void stop(const char *what) {
    fprintf(stderr, "text: %s\n", what);
    exit(1);
}

/* ---- the plain program */

static size_t plain_write(const state *s, char *out) {
    const univmon_header *h = &s->header;
    char *p = out;
    p += sprintf(p, "(univmon %zu %zu %zu %zu)\n", h->heap_size, h->rows, h->cols, h->layers);
    p += sprintf(p, "(weight %" PRIu64 ")\n(updates %" PRIu64 ")\n(mode %" PRIu64 ")\n", h->weight, h->updates, h->mode);
    for (size_t l = 0; l < h->layers; l++) {
        p += sprintf(p, "(flag %zu %d)\n", l, h->flags[l]);
        for (size_t r = 0; r < h->rows; r++) {
            const int64_t *row = s->counters + (l * h->rows + r) * h->cols;
            size_t c = 0;
            while (c < h->cols && row[c] == 0) {
                c++;
            }
            if (c == h->cols) {
                continue;
            }
            p += sprintf(p, "(row %zu %zu", l, r);
            for (; c < h->cols; c++) {
                if (row[c] != 0) {
                    p += sprintf(p, " (%zu %" PRId64 ")", c, row[c]);
                }
            }
            p += sprintf(p, ")\n");
        }
        for (size_t i = l * h->heap_size; i < l * h->heap_size + h->lens[l]; i++) {
            const uint64_t *e = s->entries + 4 * i;
            p += sprintf(p, "(key %zu %" PRIu64 " %" PRIu64 " %" PRIu64 " %" PRIu64 " %" PRId64 ")\n", l, e[0], e[1], e[2], e[3], s->counts[i]);
        }
    }
    return (size_t)(p - out);
}

static const char *at;

static int is_next(const char *word) {
    return strncmp(at, word, strlen(word)) == 0;
}

static void take(const char *word) {
    if (!is_next(word)) {
        stop("the plain program cannot read the text");
    }
    at += strlen(word);
}

static uint64_t number(void) {
    char *end;
    uint64_t n = strtoull(at, &end, 10);
    at = end;
    return n;
}

static int64_t signed_number(void) {
    char *end;
    int64_t n = strtoll(at, &end, 10);
    at = end;
    return n;
}

/* A number that has to be below another. */
static size_t below(size_t most) {
    uint64_t n = number();
    if (n >= most) {
        stop("the plain program meets a number that is too large");
    }
    return n;
}

static void plain_norm(const int64_t *row, size_t cols, uint64_t *norm) {
    const unsigned __int128 most = (unsigned __int128)1 << 63;
    unsigned __int128 sum = 0;
    for (size_t c = 0; c < cols; c++) {
        unsigned __int128 square = (unsigned __int128)((__int128)row[c] * row[c]);
        sum += square < most ? square : most;
    }
    norm[0] = (uint64_t)sum;
    norm[1] = (uint64_t)(sum >> 64);
}

static void plain_layer(state *s, size_t l) {
    univmon_header *h = &s->header;
    take("(flag ");
    below(l + 1);
    take(" ");
    h->flags[l] = below(2) == 1;
    take(")\n");
    while (is_next("(row ")) {
        take("(row ");
        below(l + 1);
        take(" ");
        int64_t *row = s->counters + (l * h->rows + below(h->rows)) * h->cols;
        while (is_next(" ")) {
            take(" (");
            size_t c = below(h->cols);
            take(" ");
            row[c] = signed_number();
            take(")");
        }
        take(")\n");
    }
    while (is_next("(key ")) {
        take("(key ");
        below(l + 1);
        if (h->lens[l] == h->heap_size) {
            stop("the plain program meets too many keys");
        }
        size_t i = l * h->heap_size + h->lens[l]++;
        for (size_t k = 0; k < 4; k++) {
            take(" ");
            s->entries[4 * i + k] = number();
        }
        take(" ");
        s->counts[i] = signed_number();
        take(")\n");
    }
    for (size_t r = l * h->rows; r < (l + 1) * h->rows; r++) {
        plain_norm(s->counters + r * h->cols, h->cols, s->norms + 2 * r);
    }
}

static void plain_read(state *s) {
    univmon_header *h = &s->header;
    at = text;
    memset(h, 0, sizeof *h);
    memset(s->counters, 0, sizeof s->counters[0] * UNIVMON_COUNTERS(ROWS, COLS, layers));
    memset(s->entries, 0, sizeof s->entries[0] * UNIVMON_ENTRIES(HEAP, layers));
    memset(s->counts, 0, sizeof s->counts[0] * UNIVMON_COUNTS(HEAP, layers));
    take("(univmon ");
    h->heap_size = below(HEAP + 1);
    take(" ");
    h->rows = below(ROWS + 1);
    take(" ");
    h->cols = below(COLS + 1);
    take(" ");
    h->layers = below(layers + 1);
    take(")\n(weight ");
    h->weight = number();
    take(")\n(updates ");
    h->updates = number();
    take(")\n(mode ");
    h->mode = number();
    take(")\n");
    for (size_t l = 0; l < h->layers; l++) {
        plain_layer(s, l);
    }
    if (*at != '\0') {
        stop("the plain program meets more than a state");
    }
}

/* ---- the state */

static void make(state *s) {
    uint64_t seed = 1;
    memset(s, 0, sizeof *s);
    s->header = (univmon_header){HEAP, ROWS, COLS, layers, 123456789, 98765, UNIVMON_STANDARD, {0}, {0}};
    for (size_t i = 0; i < UNIVMON_COUNTERS(ROWS, COLS, layers); i++) {
        uint64_t z = mixed(i, seed);
        int64_t v = 1 + (int64_t)(z >> 44);
        s->counters[i] = z & 1 ? 0 : z & 2 ? v : -v;
    }
    for (size_t i = 0; i < UNIVMON_ENTRIES(HEAP, layers); i++) {
        s->entries[i] = mixed(i, seed + 1);
    }
    /* rising counts are in heap order */
    for (size_t i = 0; i < UNIVMON_COUNTS(HEAP, layers); i++) {
        s->counts[i] = (int64_t)(1000 * (i % HEAP) + mixed(i, seed + 2) % 1000);
    }
    for (size_t l = 0; l < layers; l++) {
        s->header.lens[l] = HEAP;
        s->header.flags[l] = l % 3 == 0;
    }
}

/* ---- times */

static double seconds(void) {
    struct timespec t;
    clock_gettime(CLOCK_PROCESS_CPUTIME_ID, &t);
    return (double)t.tv_sec + 1e-9 * (double)t.tv_nsec;
}

static void write_plain(void) {
    if (plain_write(&plain, again) != bytes) {
        stop("the plain program wrote something else");
    }
}

static void write_ours(void) {
    univmon_written w = univmon_write_state(ours.header, SLICES(ours), (uint8_t *)again, sizeof again);
    if (w.refusal != 0 || w.bytes != bytes) {
        stop("the library did not write the text");
    }
}

static void read_plain(void) {
    plain_read(&plain);
}

static void read_ours(void) {
    univmon_answered a = univmon_read_state((const uint8_t *)text, bytes, SLICES(ours));
    if (a.refusal != 0) {
        stop("the library did not read the text");
    }
    ours.header = a.header;
}

static double timed(void (*run)(void)) {
    double start = seconds();
    run();
    return seconds() - start;
}

static int by_size(const void *a, const void *b) {
    double x = *(const double *)a, y = *(const double *)b;
    return (x > y) - (x < y);
}

static void report(const char *what, void (*theirs)(void), void (*this)(void), int rounds) {
    static double a[MOST_ROUNDS], b[MOST_ROUNDS], ratio[MOST_ROUNDS];
    for (int i = 0; i < rounds; i++) {
        if (i % 2) {
            b[i] = timed(this);
            a[i] = timed(theirs);
        } else {
            a[i] = timed(theirs);
            b[i] = timed(this);
        }
        ratio[i] = b[i] / a[i];
    }
    qsort(a, rounds, sizeof *a, by_size);
    qsort(b, rounds, sizeof *b, by_size);
    qsort(ratio, rounds, sizeof *ratio, by_size);
    int middle = rounds / 2;
    printf("| %s, layers %zu, %zu bytes | %.2f | %.2f | %.2f | %.2f | %.2f to %.2f |\n", what, layers, bytes, 1e3 * a[middle], 1e3 * b[middle],
        1e9 * b[middle] / (double)bytes, ratio[middle], ratio[0], ratio[rounds - 1]);
}

/* Both hold the same state and write the same text, or the times say nothing. Behind the flags the header has bytes
 * that mean nothing. */
static void compare(void) {
    read_plain();
    read_ours();
    if (memcmp(&plain.header, &ours.header, offsetof(univmon_header, flags) + sizeof plain.header.flags) != 0
        || memcmp(plain.counters, ours.counters, sizeof plain.counters) != 0 || memcmp(plain.norms, ours.norms, sizeof plain.norms) != 0
        || memcmp(plain.entries, ours.entries, sizeof plain.entries) != 0 || memcmp(plain.counts, ours.counts, sizeof plain.counts) != 0) {
        stop("the two read different states");
    }
    memset(again, 0, bytes);
    write_ours();
    if (memcmp(text, again, bytes) != 0) {
        stop("the two write different texts");
    }
}

int main(int argc, char **argv) {
    int rounds = argc > 1 ? atoi(argv[1]) : 51;
    if (rounds < 1 || rounds > MOST_ROUNDS) {
        stop("ROUNDS is 1 to 1000");
    }
    printf("%d x %d, heap %d, %d rounds\n", ROWS, COLS, HEAP, rounds);
    printf("| item | plain ms | this ms | this ns a byte | ratio | least to greatest |\n|---|---|---|---|---|---|\n");
    for (layers = 1; layers <= LAYERS; layers += layers == 1 ? 7 : 11) {
        make(&plain);
        bytes = plain_write(&plain, text);
        text[bytes] = '\0';
        compare();
        report("write", write_plain, write_ours, rounds);
        report("read", read_plain, read_ours, rounds);
    }
    return 0;
}
