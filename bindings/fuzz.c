/* One text for a fuzzer to change: it is read into marked arrays and, if it is accepted, written again. Stops the
 * process where a refused text changed something, where an accepted one is not written to the same bytes, or where
 * what was read fails the check.
 *   cc -std=c11 -O2 -I bindings/c bindings/fuzz.c target/staticlib/libunivmon_c.a -o target/bindings/fuzz
 *   target/bindings/fuzz < TEXT                          once
 *   afl-fuzz -n -i TEXTS -o OUT target/bindings/fuzz     many times
 * The shape is heap size 2, 2 rows, 4 columns, 2 layers. Built with -DDRIVEN it has no main, for a driver of its own
 * (libFuzzer's, libAFLDriver.a). */
#include <stdio.h>
#include <stdlib.h>
#include <string.h>

#include "univmon.h"

enum { HEAP = 2, ROWS = 2, COLS = 4, LAYERS = 2, MARK = 0xA5, MOST = 1 << 16 };

typedef struct arrays {
    int64_t counters[UNIVMON_COUNTERS(ROWS, COLS, LAYERS)];
    uint64_t norms[UNIVMON_NORMS(ROWS, LAYERS)];
    uint64_t entries[UNIVMON_ENTRIES(HEAP, LAYERS)];
    int64_t counts[UNIVMON_COUNTS(HEAP, LAYERS)];
} arrays;

#define ALL(s) \
    (s).counters, UNIVMON_COUNTERS(ROWS, COLS, LAYERS), (s).norms, UNIVMON_NORMS(ROWS, LAYERS), \
        (s).entries, UNIVMON_ENTRIES(HEAP, LAYERS), (s).counts, UNIVMON_COUNTS(HEAP, LAYERS)

static void must(int yes) {
    if (!yes) {
        abort();
    }
}

static int is_all(const void *bytes, size_t n, uint8_t byte) {
    const uint8_t *p = bytes;
    while (n > 0 && *p == byte) {
        p++;
        n--;
    }
    return n == 0;
}

int LLVMFuzzerTestOneInput(const uint8_t *text, size_t n) {
    static uint8_t out[UNIVMON_TEXT_MAX(HEAP, ROWS, COLS, LAYERS)];
    arrays s;
    memset(&s, MARK, sizeof s);
    univmon_answered a = univmon_read_state(text, n, ALL(s));
    if (a.refusal != 0) {
        must(a.refusal <= 4 || a.refusal == 15 || a.refusal == 16);
        must(is_all(&s, sizeof s, MARK));
        must(is_all(&a.header, offsetof(univmon_header, flags) + sizeof a.header.flags, 0));
        return 0;
    }
    must(univmon_check_state(a.header, ALL(s)));
    memset(out, MARK, sizeof out);
    univmon_written w = univmon_write_state(a.header, ALL(s), out, sizeof out);
    must(w.refusal == 0 && w.bytes == n && memcmp(out, text, n) == 0);
    must(is_all(out + n, sizeof out - n, MARK));
    return 0;
}

#ifndef DRIVEN
int main(void) {
    static uint8_t text[MOST];
    return LLVMFuzzerTestOneInput(text, fread(text, 1, sizeof text, stdin));
}
#endif
