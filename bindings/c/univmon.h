/* UnivMon and UnivMonTwoTier for a relay's own loop: the proved library under plain C names.
 *
 * Build:  bindings/archives univmon_c         (writes target/staticlib/libunivmon_c.a)
 *         bindings/archives univmon_two_tier  (libunivmon_two_tier.a, for the functions univmon_two_tier_*)
 * Link:   cc relay.c -I bindings/c target/staticlib/libunivmon_c.a
 * Each archive is whole in itself: a program links the one it calls, or both.
 *
 * The library needs memcpy and memset and nothing else. It allocates nothing, keeps nothing between
 * calls and has no global: calls on different states may run at the same time.
 *
 * A STATE is a header by value and four arrays that the caller owns. Their lengths are exactly
 *   counters   layers * rows * cols       signed words, by layer, then row, then column
 *   norms      2 * layers * rows          words, low half then high half of each row's norm
 *   entries    4 * layers * heap_size     words: key, bottom hash, high and low half of the layer hash
 *   counts     layers * heap_size         signed words, the candidates' counts
 * The macros below give them. Every call tests them and refuses others.
 *
 * TWO TIERS. The functions univmon_two_tier_* are the same calls on states whose first layers are wider: the
 * layers below `elephant_layers` have elephant_rows rows of elephant_cols columns, the others mouse_rows of
 * mouse_cols. Counters and norms lie by layer, each layer with its own rows and columns:
 *   counters   elephants * elephant_rows * elephant_cols + mice * mouse_rows * mouse_cols
 *   norms      2 * (elephants * elephant_rows + mice * mouse_rows)
 * where elephants is the smaller of elephant_layers and layers, and mice is the rest of the layers. elephant_layers
 * may be 0, and it may be above layers: then all layers are wide. A tier that no layer is of has to be within its
 * limits all the same. There are no deltas, marks, weight settings, panel, check and text of these states.
 * States of one tier and of two are not merged with each other: their headers are different types.
 *
 * A RECORD is what a key is counted by, 2 + 2 * layers words: the key, its bottom hash, then for each
 * layer from 0 the high and the low half of its 128-bit hash. The caller hashes.
 *
 * A LIST is what an update, a delta or a merge says that it did with the keys it offered to the layers'
 * candidates. Its places have two words each: one of
 *   1  rescored      the key was a candidate, and has its new count
 *   2  seated        the key took a free seat
 *   3  displaced     the key took the seat of the candidate with the least count
 *   4  turned away   the layer is full and the key's count is not above the least
 * and then the displaced key, 0 where none was. A key was lost where the first word is 3 or 4: the layer's
 * flag falls. An update's or a delta's list has a place for each layer, at the layer's number; a merge's has
 * 2 * heap_size places for each layer, layers in turn, in each the distinct keys of both states in the order
 * of their first entry, and never says 1. Places of layers that the call does not reach, and those behind a
 * layer's last key, become zeros; words behind the last layer's places remain. A list may be longer than
 * needed; a shorter one is refused with 16, after everything else. What a list holds before is not read.
 *
 * REFUSALS. Every call answers a number, 0 for none. A refused call leaves the header and every array
 * as they were, its floats and its number of bytes are 0, and a refused univmon_new, univmon_two_tier_new or
 * univmon_read_state gives an all-zero header:
 *   1  a dimension is 0
 *   2  layers or elephant_layers above 19
 *   3  hash bits above 128
 *   4  rows above 20, cols above 4096 or heap size above 1024
 *   5  negative weight
 *   6  mode mixed in update or merge, or weight set in terminal mode
 *   7  weight would pass 2^52
 *   8  layer, row or column outside the shape
 *   9  wrong slice length; header out of range; a cell, norm or candidate that the call reads is
 *      out of range; a norm below the square it gives up; a number that stands for no mode,
 *      fidelity or g
 *   10 dimensions differ in merge
 *   11 a counter would leave -2^52 to 2^52
 *   12 record length wrong
 *   14 updates would pass 2^52
 *   15 not the text of a state that passes the check
 *   16 lent text space or list too short, or state slices not of the first line's lengths
 * (13 is the program panel's own.) Where several apply, the order is 9 for header, lengths and numbers,
 * then 12, 10, 5, 8, 6, 7, 14, 9 for what is read, 11, 16; for univmon_new 1, 2, 3, 4, 9, and so for
 * univmon_two_tier_new, each of them over both tiers before the next; for univmon_write_state 9, 16; for
 * univmon_read_state 15 for the first line, then 1, 2, 3, 4, 16, and 15 for the other lines.
 *
 * A TEXT is a state's lines, each ending in one newline; capitals stand for numbers:
 *   (univmon HEAP ROWS COLS LAYERS)
 *   (weight W)
 *   (updates U)
 *   (mode M)
 * and then for each layer I, from 0 on,
 *   (flag I F)                             F is 1 or 0
 *   (row I R (C V) (C V) ..)               by rising R and C; no zero V, no row of zeros
 *   (key I KEY BOTTOM HI LO COUNT)         the candidates in the order of their entries
 * Numbers are decimal without leading zeros; a negative V or COUNT has a minus sign. Norms are worked
 * out on reading. There is one text for each state, and no other text is read.
 *
 * STACK. What a call takes at most, arguments and answer included, rounded up with a quarter of a KiB
 * for how the caller is compiled. Measured by bindings/stack.c in states of 19 full layers of 1,024
 * candidates, by 20 rows of 32 columns, 9 of 4,096 and 5 of 2,048, and with two of these in two tiers, in both
 * modes; no input takes a call deeper, by the frames of its code (bindings/frames.py).
 *   univmon_check_shape                        1 KiB
 *   univmon_bottom_layer_for_hash              1 KiB
 *   univmon_new                                1 KiB
 *   univmon_clear                              2 KiB
 *   univmon_update_weighted                    3 KiB
 *   univmon_update_weighted_terminal           3 KiB
 *   univmon_update_weighted_lent               2 KiB
 *   univmon_update_weighted_terminal_lent      2 KiB
 *   univmon_apply_delta                        3 KiB
 *   univmon_merge                             36 KiB
 *   univmon_set_total_weight                   2 KiB
 *   univmon_mark_candidates_incomplete         2 KiB
 *   univmon_mark_layer_candidates_incomplete   2 KiB
 *   univmon_estimate_l1                        1 KiB
 *   univmon_estimate_l2                        2 KiB
 *   univmon_estimate_g_sum                    67 KiB
 *   univmon_estimate_cardinality              67 KiB
 *   univmon_panel_answer                      67 KiB
 *   univmon_check_state                        2 KiB
 *   univmon_write_state                        3 KiB
 *   univmon_read_state                        43 KiB
 *   univmon_two_tier_check_shape                     1 KiB
 *   univmon_two_tier_new                             1 KiB
 *   univmon_two_tier_clear                           2 KiB
 *   univmon_two_tier_update_weighted                 3 KiB
 *   univmon_two_tier_update_weighted_terminal        3 KiB
 *   univmon_two_tier_update_weighted_lent            2 KiB
 *   univmon_two_tier_update_weighted_terminal_lent   2 KiB
 *   univmon_two_tier_merge                          36 KiB
 *   univmon_two_tier_estimate_l1                     1 KiB
 *   univmon_two_tier_estimate_l2                     2 KiB
 *   univmon_two_tier_estimate_g_sum                 67 KiB
 *   univmon_two_tier_estimate_cardinality           67 KiB
 *
 * WHAT THE CALLER OWES. The proofs speak of every value of every argument, so no header, length,
 * number or array content needs to be right. C itself asks for this, and the library cannot test it:
 *   - a pointer is not NULL, not even with length 0, is aligned to 8 bytes (one to a text need not be), and
 *     its length is not more than what lies behind it;
 *   - the arrays that a call writes, lent lengths, flags, lists and text space among them, overlap no
 *     other array of it;
 *   - each byte of `flags` is a bool, 0 or 1, as it is wherever C code assigns it.
 */
#ifndef UNIVMON_H
#define UNIVMON_H

#include <stdbool.h>
#include <stddef.h>
#include <stdint.h>

#ifdef __cplusplus
extern "C" {
#endif

#define UNIVMON_MAX_LAYERS 19
#define UNIVMON_MAX_ROWS 20
#define UNIVMON_MAX_COLS 4096
#define UNIVMON_MAX_HEAP_SIZE 1024

/* Lengths of the four arrays and of a record. */
#define UNIVMON_COUNTERS(rows, cols, layers) ((size_t)(layers) * (rows) * (cols))
#define UNIVMON_NORMS(rows, layers) ((size_t)2 * (layers) * (rows))
#define UNIVMON_ENTRIES(heap_size, layers) ((size_t)4 * (layers) * (heap_size))
#define UNIVMON_COUNTS(heap_size, layers) ((size_t)(layers) * (heap_size))
#define UNIVMON_RECORD(layers) ((size_t)2 + 2 * (size_t)(layers))

/* The same with two tiers; entries, counts, records and lists are as with one. How many layers are wide comes
 * first. */
#define UNIVMON_TWO_TIER_ELEPHANTS(elephant_layers, layers) \
    ((size_t)(elephant_layers) < (size_t)(layers) ? (size_t)(elephant_layers) : (size_t)(layers))
#define UNIVMON_TWO_TIER_ROWS(elephant_layers, elephant_rows, mouse_rows, layers) \
    (UNIVMON_TWO_TIER_ELEPHANTS(elephant_layers, layers) * (elephant_rows) + \
        ((size_t)(layers) - UNIVMON_TWO_TIER_ELEPHANTS(elephant_layers, layers)) * (mouse_rows))
#define UNIVMON_TWO_TIER_COUNTERS(elephant_layers, elephant_rows, elephant_cols, mouse_rows, mouse_cols, layers) \
    UNIVMON_TWO_TIER_ROWS(elephant_layers, (size_t)(elephant_rows) * (elephant_cols), (size_t)(mouse_rows) * (mouse_cols), layers)
#define UNIVMON_TWO_TIER_NORMS(elephant_layers, elephant_rows, mouse_rows, layers) \
    (2 * UNIVMON_TWO_TIER_ROWS(elephant_layers, elephant_rows, mouse_rows, layers))

/* The least lengths of a list: an update's or a delta's, and a merge's. */
#define UNIVMON_LIST(layers) ((size_t)2 * (layers))
#define UNIVMON_MERGE_LIST(heap_size, layers) ((size_t)4 * (heap_size) * (layers))

/* Bytes that are enough for the text of any state of these dimensions: 88 for the first four lines, 12 for
 * a flag, 12 for a row beside its counters, 25 for a counter, 111 for a key. Most texts are far shorter; a
 * caller may as well try a small space and a larger one after each 16. */
#define UNIVMON_TEXT_MAX(heap_size, rows, cols, layers) \
    (88 + (size_t)(layers) * (12 + (size_t)(rows) * (12 + 25 * (size_t)(cols)) + 111 * (size_t)(heap_size)))

/* Modes: how keys were sent to layers. */
#define UNIVMON_UNSET 0
#define UNIVMON_STANDARD 1
#define UNIVMON_TERMINAL 2

/* Fidelity of a delta: whether every insert was promoted. */
#define UNIVMON_EVERY_INSERT 0
#define UNIVMON_PROMOTED_ONLY 1

/* What a list's place says. */
#define UNIVMON_RESCORED 1
#define UNIVMON_SEATED 2
#define UNIVMON_DISPLACED 3
#define UNIVMON_TURNED_AWAY 4

/* g of a sum. */
#define UNIVMON_G_ONE 0
#define UNIVMON_G_VALUE 1
#define UNIVMON_G_SQUARE 2

/* A state beside its arrays. `weight` is the sum of the accepted weights, `updates` the number of
 * accepted updates, both at most 2^52, `lens` the number of candidates of each layer, a flag true while
 * its layer's candidates are every key sent to it. */
typedef struct univmon_header {
    size_t heap_size;
    size_t rows;
    size_t cols;
    size_t layers;
    uint64_t weight;
    uint64_t updates;
    uint64_t mode;
    size_t lens[UNIVMON_MAX_LAYERS];
    bool flags[UNIVMON_MAX_LAYERS];
} univmon_header;

/* A refusal and the header as it was, or 0 and the new header: put it in the place of the old one. */
typedef struct univmon_answered {
    uint64_t refusal;
    univmon_header header;
} univmon_answered;

/* Dimensions, for the calls that have no header by value. */
typedef struct univmon_shape {
    size_t heap_size;
    size_t rows;
    size_t cols;
    size_t layers;
} univmon_shape;

/* The same three with two tiers. The dimensions stand in this order in the structs; the functions that take them as
 * numbers have the order of the source, layers last. */
typedef struct univmon_two_tier_header {
    size_t heap_size;
    size_t layers;
    size_t elephant_layers;
    size_t elephant_rows;
    size_t elephant_cols;
    size_t mouse_rows;
    size_t mouse_cols;
    uint64_t weight;
    uint64_t updates;
    uint64_t mode;
    size_t lens[UNIVMON_MAX_LAYERS];
    bool flags[UNIVMON_MAX_LAYERS];
} univmon_two_tier_header;

typedef struct univmon_two_tier_answered {
    uint64_t refusal;
    univmon_two_tier_header header;
} univmon_two_tier_answered;

typedef struct univmon_two_tier_shape {
    size_t heap_size;
    size_t layers;
    size_t elephant_layers;
    size_t elephant_rows;
    size_t elephant_cols;
    size_t mouse_rows;
    size_t mouse_cols;
} univmon_two_tier_shape;

/* A refusal and weight, updates and mode as they were, or 0 and the new ones. */
typedef struct univmon_step {
    uint64_t refusal;
    uint64_t weight;
    uint64_t updates;
    uint64_t mode;
} univmon_step;

/* A refusal and layer 0, or 0 and the layer. */
typedef struct univmon_bottom {
    uint64_t refusal;
    size_t layer;
} univmon_bottom;

/* A refusal and +0.0, or 0 and the answer. */
typedef struct univmon_answer {
    uint64_t refusal;
    double value;
} univmon_answer;

/* A refusal and +0.0 three times, or 0 and the three answers. */
typedef struct univmon_panel {
    uint64_t refusal;
    double l1;
    double l2;
    double cardinality;
} univmon_panel;

/* A refusal and 0, or 0 and the number of bytes that the text takes. */
typedef struct univmon_written {
    uint64_t refusal;
    size_t bytes;
} univmon_written;

/* ---- shapes */

/* 0 if univmon_new takes these dimensions, else their refusal: 1, 2, 3, 4. */
uint64_t univmon_check_shape(size_t heap_size, size_t rows, size_t cols, size_t layers);

/* The last layer that a key with this bottom hash reaches: l - 1 for the first l from 1 to layers - 1
 * whose hash bit l is 0, else layers - 1. Refuses 1 (no layer) and 2 (above 19). */
univmon_bottom univmon_bottom_layer_for_hash(uint64_t hash, size_t layers);

/* ---- whole states */

/* A fresh state: every array is filled with zeros, every flag of the shape's layers is true, the mode
 * unset. Reads dimensions and lengths. Refuses 1, 2, 3, 4, 9. */
univmon_answered univmon_new(
    size_t heap_size, size_t rows, size_t cols, size_t layers,
    int64_t *counters, size_t counters_len,
    uint64_t *norms, size_t norms_len,
    uint64_t *entries, size_t entries_len,
    int64_t *counts, size_t counts_len);

/* Nothing counted any more: as univmon_new with the header's shape. Reads header and lengths.
 * Refuses 9. */
univmon_answered univmon_clear(
    univmon_header header,
    int64_t *counters, size_t counters_len,
    uint64_t *norms, size_t norms_len,
    uint64_t *entries, size_t entries_len,
    int64_t *counts, size_t counts_len);

/* ---- counting */

/* Counts a key with a weight: it goes to layers 0 to its bottom layer, and the list says what happened in
 * each. Reads header, lengths and record, and in each of these layers the key's counters, its rows' norms
 * and the candidates. Refuses 9, 12, 5, 6, 7, 14, 9, 11, 16. */
univmon_answered univmon_update_weighted(
    univmon_header header,
    int64_t *counters, size_t counters_len,
    uint64_t *norms, size_t norms_len,
    uint64_t *entries, size_t entries_len,
    int64_t *counts, size_t counts_len,
    const uint64_t *record, size_t record_len,
    int64_t weight,
    uint64_t *list, size_t list_len);

/* The same, to its bottom layer only. */
univmon_answered univmon_update_weighted_terminal(
    univmon_header header,
    int64_t *counters, size_t counters_len,
    uint64_t *norms, size_t norms_len,
    uint64_t *entries, size_t entries_len,
    int64_t *counts, size_t counts_len,
    const uint64_t *record, size_t record_len,
    int64_t weight,
    uint64_t *list, size_t list_len);

/* The same two updates with the header's lengths and flags lent and the rest of it as numbers: no header
 * is copied in or out, which is most of what a call costs beside its layers. Both arrays have 19 places,
 * or the call refuses with 9; it writes them where it is done. Weight, updates and mode come back: store
 * them in the header, refused or not. With a header h:
 *   univmon_step s = univmon_update_weighted_lent(
 *       (univmon_shape){h.heap_size, h.rows, h.cols, h.layers}, h.weight, h.updates, h.mode,
 *       h.lens, UNIVMON_MAX_LAYERS, h.flags, UNIVMON_MAX_LAYERS, .., record, record_len, weight, list, list_len);
 *   h.weight = s.weight;
 *   h.updates = s.updates;
 *   h.mode = s.mode; */
univmon_step univmon_update_weighted_lent(
    univmon_shape shape, uint64_t total_weight, uint64_t total_updates, uint64_t mode,
    size_t *lens, size_t lens_len,
    bool *flags, size_t flags_len,
    int64_t *counters, size_t counters_len,
    uint64_t *norms, size_t norms_len,
    uint64_t *entries, size_t entries_len,
    int64_t *counts, size_t counts_len,
    const uint64_t *record, size_t record_len,
    int64_t weight,
    uint64_t *list, size_t list_len);

univmon_step univmon_update_weighted_terminal_lent(
    univmon_shape shape, uint64_t total_weight, uint64_t total_updates, uint64_t mode,
    size_t *lens, size_t lens_len,
    bool *flags, size_t flags_len,
    int64_t *counters, size_t counters_len,
    uint64_t *norms, size_t norms_len,
    uint64_t *entries, size_t entries_len,
    int64_t *counts, size_t counts_len,
    const uint64_t *record, size_t record_len,
    int64_t weight,
    uint64_t *list, size_t list_len);

/* A change of one counter that another relay saw, with the record of the key that made it. Sets an
 * unset mode to standard and leaves weight and updates. Reads header, lengths and record, the counter and its
 * row's norm, and in its layer the key's counters and the candidates. The list says what happened in that
 * layer. Refuses 9, 12, 8, 9, 11, 16. */
univmon_answered univmon_apply_delta(
    univmon_header header,
    int64_t *counters, size_t counters_len,
    uint64_t *norms, size_t norms_len,
    uint64_t *entries, size_t entries_len,
    int64_t *counts, size_t counts_len,
    const uint64_t *record, size_t record_len,
    size_t layer, size_t row, size_t col, int32_t count,
    uint64_t fidelity,
    uint64_t *list, size_t list_len);

/* Puts the other state's stream behind this one's: counters and norms by the sums of the counters,
 * candidates counted anew, updates added. The other state stays as it is. The list, UNIVMON_MERGE_LIST words
 * or more, says what happened with each key. Reads both headers and lengths, every counter and every
 * candidate of both. Refuses 9, 10, 6, 7, 14, 9, 11, 16. */
univmon_answered univmon_merge(
    univmon_header header,
    int64_t *counters, size_t counters_len,
    uint64_t *norms, size_t norms_len,
    uint64_t *entries, size_t entries_len,
    int64_t *counts, size_t counts_len,
    univmon_header other,
    const int64_t *other_counters, size_t other_counters_len,
    const uint64_t *other_norms, size_t other_norms_len,
    const uint64_t *other_entries, size_t other_entries_len,
    const int64_t *other_counts, size_t other_counts_len,
    uint64_t *list, size_t list_len);

/* ---- the header alone, which is all that these read */

/* Sets the weight that a relay fed by deltas believes it has seen; an unset mode becomes standard.
 * Refuses 9, 6 in terminal mode, 7. */
univmon_answered univmon_set_total_weight(univmon_header header, uint64_t weight);

/* Every flag falls. Refuses 9. */
univmon_answered univmon_mark_candidates_incomplete(univmon_header header);

/* One layer's flag falls. Refuses 9, 8. */
univmon_answered univmon_mark_layer_candidates_incomplete(univmon_header header, size_t layer);

/* ---- answers */

/* L1: the weight. Refuses 9. */
univmon_answer univmon_estimate_l1(univmon_header header);

/* L2, from the norms: layer 0's, or in terminal mode the root of the sum over all layers. Reads the
 * header and these norms. Refuses 9. */
univmon_answer univmon_estimate_l2(univmon_header header, const uint64_t *norms, size_t norms_len);

/* The sum of g over the keys. With count_every_key no candidate is left out for its count; without it,
 * weight zero gives 0.0 and reads header and lengths alone. Any other sum reads every layer's candidates
 * and the counters of their estimates, in terminal mode every norm too. Refuses 9. */
univmon_answer univmon_estimate_g_sum(
    univmon_header header,
    const int64_t *counters, size_t counters_len,
    const uint64_t *norms, size_t norms_len,
    const uint64_t *entries, size_t entries_len,
    const int64_t *counts, size_t counts_len,
    uint64_t g, bool count_every_key);

/* The number of distinct keys: the sum of one with every key counted. Refuses 9. */
univmon_answer univmon_estimate_cardinality(
    univmon_header header,
    const int64_t *counters, size_t counters_len,
    const uint64_t *norms, size_t norms_len,
    const uint64_t *entries, size_t entries_len,
    const int64_t *counts, size_t counts_len);

/* What the panel shows: L1, L2 and cardinality. Reads what these three read. Refuses 9. */
univmon_panel univmon_panel_answer(
    univmon_header header,
    const int64_t *counters, size_t counters_len,
    const uint64_t *norms, size_t norms_len,
    const uint64_t *entries, size_t entries_len,
    const int64_t *counts, size_t counts_len);

/* ---- the state check */

/* Whether header and arrays have what every accepted call keeps: lengths and ranges hold, each norm is
 * its row's sum, no count in a layer is below its heap parent's, unused entries are zero. No for a number
 * that is no mode. Goes once over each array. */
bool univmon_check_state(
    univmon_header header,
    const int64_t *counters, size_t counters_len,
    const uint64_t *norms, size_t norms_len,
    const uint64_t *entries, size_t entries_len,
    const int64_t *counts, size_t counts_len);

/* ---- states as text */

/* Writes a state's text at the start of `out`; the bytes behind it remain. Reads what univmon_check_state
 * reads, and refuses a state that fails it with 9, then a space that is shorter than the text with 16. No
 * zero byte ends the text. */
univmon_written univmon_write_state(
    univmon_header header,
    const int64_t *counters, size_t counters_len,
    const uint64_t *norms, size_t norms_len,
    const uint64_t *entries, size_t entries_len,
    const int64_t *counts, size_t counts_len,
    uint8_t *out, size_t out_len);

/* Reads a state from its text, all of it, into arrays of its first line's lengths: every word of them is
 * written, whatever was there, and the header answered. Everything is judged first, so that a refused
 * reading leaves the arrays. Refuses 15, 1, 2, 3, 4, 16, 15. */
univmon_answered univmon_read_state(
    const uint8_t *text, size_t text_len,
    int64_t *counters, size_t counters_len,
    uint64_t *norms, size_t norms_len,
    uint64_t *entries, size_t entries_len,
    int64_t *counts, size_t counts_len);

/* ---- two tiers: each call as the one of the same name without `two_tier`, on layers that may differ */

/* 0 if univmon_two_tier_new takes these dimensions, else their refusal: 1, 2, 3, 4, each over both tiers before the
 * next. */
uint64_t univmon_two_tier_check_shape(
    size_t heap_size, size_t elephant_layers, size_t elephant_rows, size_t elephant_cols,
    size_t mouse_rows, size_t mouse_cols, size_t layers);

/* As univmon_new. Refuses 1, 2, 3, 4, 9. */
univmon_two_tier_answered univmon_two_tier_new(
    size_t heap_size, size_t elephant_layers, size_t elephant_rows, size_t elephant_cols,
    size_t mouse_rows, size_t mouse_cols, size_t layers,
    int64_t *counters, size_t counters_len,
    uint64_t *norms, size_t norms_len,
    uint64_t *entries, size_t entries_len,
    int64_t *counts, size_t counts_len);

/* As univmon_clear. Refuses 9. */
univmon_two_tier_answered univmon_two_tier_clear(
    univmon_two_tier_header header,
    int64_t *counters, size_t counters_len,
    uint64_t *norms, size_t norms_len,
    uint64_t *entries, size_t entries_len,
    int64_t *counts, size_t counts_len);

/* As univmon_update_weighted and its three other forms. Refuse 9, 12, 5, 6, 7, 14, 9, 11, 16. */
univmon_two_tier_answered univmon_two_tier_update_weighted(
    univmon_two_tier_header header,
    int64_t *counters, size_t counters_len,
    uint64_t *norms, size_t norms_len,
    uint64_t *entries, size_t entries_len,
    int64_t *counts, size_t counts_len,
    const uint64_t *record, size_t record_len,
    int64_t weight,
    uint64_t *list, size_t list_len);

univmon_two_tier_answered univmon_two_tier_update_weighted_terminal(
    univmon_two_tier_header header,
    int64_t *counters, size_t counters_len,
    uint64_t *norms, size_t norms_len,
    uint64_t *entries, size_t entries_len,
    int64_t *counts, size_t counts_len,
    const uint64_t *record, size_t record_len,
    int64_t weight,
    uint64_t *list, size_t list_len);

univmon_step univmon_two_tier_update_weighted_lent(
    univmon_two_tier_shape shape, uint64_t total_weight, uint64_t total_updates, uint64_t mode,
    size_t *lens, size_t lens_len,
    bool *flags, size_t flags_len,
    int64_t *counters, size_t counters_len,
    uint64_t *norms, size_t norms_len,
    uint64_t *entries, size_t entries_len,
    int64_t *counts, size_t counts_len,
    const uint64_t *record, size_t record_len,
    int64_t weight,
    uint64_t *list, size_t list_len);

univmon_step univmon_two_tier_update_weighted_terminal_lent(
    univmon_two_tier_shape shape, uint64_t total_weight, uint64_t total_updates, uint64_t mode,
    size_t *lens, size_t lens_len,
    bool *flags, size_t flags_len,
    int64_t *counters, size_t counters_len,
    uint64_t *norms, size_t norms_len,
    uint64_t *entries, size_t entries_len,
    int64_t *counts, size_t counts_len,
    const uint64_t *record, size_t record_len,
    int64_t weight,
    uint64_t *list, size_t list_len);

/* As univmon_merge; 10 where any of the seven dimensions differs, one that no layer uses too. Refuses 9, 10, 6, 7,
 * 14, 9, 11, 16. */
univmon_two_tier_answered univmon_two_tier_merge(
    univmon_two_tier_header header,
    int64_t *counters, size_t counters_len,
    uint64_t *norms, size_t norms_len,
    uint64_t *entries, size_t entries_len,
    int64_t *counts, size_t counts_len,
    univmon_two_tier_header other,
    const int64_t *other_counters, size_t other_counters_len,
    const uint64_t *other_norms, size_t other_norms_len,
    const uint64_t *other_entries, size_t other_entries_len,
    const int64_t *other_counts, size_t other_counts_len,
    uint64_t *list, size_t list_len);

/* As the four answers of the same names. A norm's range is by the columns of its own layer; L2 in standard mode is
 * layer 0's, of whichever tier that is. Refuse 9. */
univmon_answer univmon_two_tier_estimate_l1(univmon_two_tier_header header);

univmon_answer univmon_two_tier_estimate_l2(univmon_two_tier_header header, const uint64_t *norms, size_t norms_len);

univmon_answer univmon_two_tier_estimate_g_sum(
    univmon_two_tier_header header,
    const int64_t *counters, size_t counters_len,
    const uint64_t *norms, size_t norms_len,
    const uint64_t *entries, size_t entries_len,
    const int64_t *counts, size_t counts_len,
    uint64_t g, bool count_every_key);

univmon_answer univmon_two_tier_estimate_cardinality(
    univmon_two_tier_header header,
    const int64_t *counters, size_t counters_len,
    const uint64_t *norms, size_t norms_len,
    const uint64_t *entries, size_t entries_len,
    const int64_t *counts, size_t counts_len);

#ifdef __cplusplus
}
#endif

#endif
