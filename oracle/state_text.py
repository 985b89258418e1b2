"""Texts of states for the program `state_text_test`, and what it has to say of each: crates/state_text_test/stdin and stdout.

    python3 oracle/state_text.py PATH-OF-THE-ORACLE

The states are what the oracle has after random calls, which the model has too (the oracle has no texts and no number of updates), and
states at the bounds. What a text means, and which are refused, is `read_text` and `write_text` of model.py: regular expressions, and a
text that is accepted has to be what is written again. Bad texts are made of two short ones.
"""
import random
import re

from model import MASK, STANDARD, TERMINAL, TOP, Relay, capped, cell, one_tier, read_text, shape_refusal, write_text
from vectors import ROOT, oracle, words

rng = random.Random(20261116)
ROOM = (4096, 760, 4096, 1024)  # the program's slices
LONGEST = 24576  # and its texts
WAS = 1234567890123456789  # what its slices hold before
cases, script = [], []


def tell(line, want="ok"):
    script.append((line, want))


# ---- cases

def lengths_of(shape):
    r = Relay()
    r.shape = one_tier(*shape)
    return r.lengths()


def case(text, lengths, want=None):
    """a text and the lengths of the slices; `want` is the refusal, where this file says it too"""
    assert all(n <= most for n, most in zip(lengths, ROOM)) and len(text) < LONGEST, (lengths, len(text))
    n, _ = read_text(text, lengths)
    assert want in (None, n), (want, n, text)
    cases.append((text, list(lengths)))


def good(r):
    n, text = write_text(r)
    assert n == 0
    case(text, r.lengths(), 0)
    return text


# ---- states of the oracle

KEYS = list(range(1, 31)) + [0, MASK, 1 << 63, 12345678901234567890]
RECORDS = {}
for key, answer in zip(KEYS, oracle(["new r 1 1 1 19"] + ["rec r %d" % k for k in KEYS])[1:]):
    RECORDS[key] = [key] + [int(w, 16) for w in answer.split()[1:]]


def fresh(*shape):
    r = Relay()
    r.shape = one_tier(*shape)
    r.zero()
    assert r.new(r.shape) == 0
    r.name = "R%d" % len(script)
    tell("new %s %d %d %d %d" % (r.name, *shape))
    return r


def record(r, key):
    return RECORDS[key][:2 + 2 * r.layers]


def update(r, key, w, mode):
    if r.update(record(r, key), w, mode, [0] * r.list_words()) == 0:
        tell("%s %s %d %d" % ("std" if mode == STANDARD else "term", r.name, key, w))


def delta(r, key, count, promoted_only):
    l, row = rng.randrange(r.layers), rng.randrange(r.rows(0))
    col = rng.choice([rng.randrange(r.cols(l)), cell(r.hash(RECORDS[key], l), row, r.cols(l))[0]])
    if r.delta(l, row, col, count, record(r, key), promoted_only, [0] * r.list_words()) == 0:
        tell("delta %s %d %d %d %d %d %d" % (r.name, l, row, col, count, key, promoted_only))


def some_call(r, o, mode, size, keys):
    """one of the calls on r, which may take in o"""
    what, key = rng.random(), rng.choice(keys)
    if what < 0.7:
        update(rng.choice((r, o)), key, rng.randint(0, size), mode)
    elif what < 0.85:
        delta(r, key, rng.choice([0, rng.randint(-9, 9), rng.randint(-(1 << 31), (1 << 31) - 1)]), int(rng.random() < 0.3))
    elif what < 0.9:
        if r.merge(o, [0] * r.merge_words()) == 0:
            tell("merge %s %s" % (r.name, o.name))
    elif what < 0.95:
        l = rng.randrange(r.layers)
        assert r.mark(l) == 0
        tell("mark %s %d" % (r.name, l))
    elif r.set_total_weight(rng.choice([0, 7, TOP // 4])) == 0:
        tell("setw %s %d" % (r.name, r.weight))


def after_calls(shape, mode, calls):
    r, o = fresh(*shape), fresh(*shape)
    keys = rng.sample(KEYS, min(len(KEYS), rng.choice([1, 2, shape[0], 2 * shape[0]])))
    size = rng.choice([0, 1, 9, 1 << 20, 1 << 33, 1 << 46])
    update(r, keys[0], rng.randint(0, size), mode)  # the mode is set, since a delta would set the other
    for _ in range(calls):
        some_call(r, o, mode, size, keys)
    tell("state %s" % r.name, r.text())
    return good(r)


def shape(limit):
    while True:
        s = rng.choice([1, 2, 3, 4, 8]), rng.choice([1, 2, 3, 5, 8]), rng.choice([1, 2, 3, 4, 8, 13]), rng.choice([1, 2, 3, 4, 6])
        if not shape_refusal(one_tier(*s)) and s[1] * s[2] * s[3] <= limit:
            return s


# the program also breaks the first text, at every place
SHORT = b"(univmon 3 2 8 2)\n(weight 7)\n(updates 5)\n(mode 1)\n(flag 0 1)\n(row 0 0 (1 5) (3 -2))\n(row 0 1 (0 7) (7 -4503599627370496))\n" \
    b"(key 0 11 22 33 44 3)\n(key 0 12 1 2 3 5)\n(key 0 18446744073709551615 0 0 9 4)\n(flag 1 0)\n(row 1 1 (2 -1))\n"
case(SHORT, lengths_of((3, 2, 8, 2)), 0)
for mode in (STANDARD, TERMINAL):
    for s in [(1, 1, 1, 1), (2, 1, 2, 19), (1, 20, 2, 2), (4, 1, 4096, 1), (1024, 1, 3, 1), (1, 3, 5, 4)]:
        after_calls(s, mode, 6)
    for _ in range(10):
        after_calls(shape(40), mode, rng.choice([3, 9, 20]))

# ---- states at the bounds, with no mode and in each

for marked in (0, 1, 2):
    r = fresh(2, 2, 4, 3)
    assert r.mark(marked) == 0
    tell("mark %s %d" % (r.name, marked))
    tell("state %s" % r.name, r.text())
    good(r)
for s in [(1, 1, 1, 1), (1024, 1, 1, 1), (1, 1, 4096, 1), (1, 20, 32, 1), (1, 1, 1, 19), (53, 20, 10, 19), (3, 9, 4, 2)]:
    good(fresh(*s))


def by_hand(s, weight=0, updates=0, mode=0, flags=(), counters=(), keys=()):
    """counters: (layer, row, column, value); keys: (layer, key, bottom, high, low, count)"""
    r = fresh(*s)
    r.weight, r.updates, r.mode = weight, updates, mode
    for l in flags:
        r.flags[l] = False
    for l, row, col, v in counters:
        a = r.at(l, row, 0)
        r.counters[a + col] = v
        r.put_norm(l, row, sum(map(capped, r.counters[a:a + s[2]])))
    for l, *entry, n in keys:
        r.put(l, r.lens[l], entry, n)
        r.lens[l] += 1
    return good(r)


for mode in (0, STANDARD, TERMINAL):
    for n in (TOP - 1, TOP):
        by_hand((2, 1, 2, 2), n, TOP, mode, [1], [(0, 0, 0, n), (0, 0, 1, -n), (1, 0, 1, -1)], [(0, MASK, MASK, MASK, MASK, -n), (0, 1, 2, 3, 4, n), (1, 0, 0, 0, 0, 0)])
by_hand((2, 20, 32, 1), counters=[(0, r, c, (-1) ** r * (1 + c)) for r in (0, 19) for c in (0, 9, 10, 31)])
by_hand((2, 1, 4096, 1), counters=[(0, 0, c, 1 - c or 1) for c in (0, 1, 9, 10, 99, 100, 999, 1000, 4095)])
by_hand((2, 2, 3, 19), counters=[(l, l % 2, l % 3, l + 1) for l in range(19)], keys=[(l, l, l, l, l, -l) for l in (0, 9, 10, 18)], flags=[0, 9, 18])
by_hand((7, 1, 1, 1), keys=[(0, k, 0, 0, 0, n) for k, n in enumerate([-5, -5, 0, -5, 3, 0, TOP])])  # a full heap, ties in it
by_hand((1024, 1, 1, 1), keys=[(0, k, 0, 0, 0, 0) for k in range(1024)])

# ---- lines missing, doubled, out of order

LINES = SHORT.splitlines(keepends=True)
SLICES = lengths_of((3, 2, 8, 2))
for i in range(len(LINES)):
    case(b"".join(LINES[:i]), SLICES, 15 if i + 1 < len(LINES) else 0)
    case(b"".join(LINES[:i] + LINES[i + 1:]), SLICES)  # a row, or the last key, may be missing
    case(b"".join(LINES[:i + 1] + LINES[i:]), SLICES, 15)
    case(b"".join(LINES[:i] + LINES[i + 1:i + 2] + LINES[i:i + 1] + LINES[i + 2:]), SLICES)

# ---- one line of the short text put in place of others, or behind them

HEAD, FLAG, ROW, ROW_1, KEY, KEY_1, KEY_2, FLAG_1, LAST = b"".join(LINES[:4]), *LINES[4:]


def layers(first, second=FLAG_1 + LAST, want=15):
    """the two layers' lines"""
    case(HEAD + first + second, SLICES, want)


# rows: without a pair, past the last, out of order, repeated, of another layer, cut in two
for row in (b"(row 0 0)\n", b"(row 0 0 )\n", b"(row 0 2 (1 5))\n", ROW_1 + ROW, ROW + ROW, b"(row 1 0 (1 5))\n",
            b"(row 0 0 (1 5))\n(row 0 0 (3 -2))\n", b"(row 0 0 (1 5)\n (3 -2))\n", b"(row 0 18446744073709551616 (1 5))\n", b"(row 0 00 (1 5))\n",
            b"(row 00 0 (1 5))\n", b"(row  0 0 (1 5))\n", b"(row 0 0  (1 5))\n", b"(row 0 0(1 5))\n", b"(row 0 0 (1 5) )\n", b"(row 0 0 (1 5)))\n",
            b"(row 0 0 (1 5)\n", b"(row 0 (1 5))\n", b"(rows 0 0 (1 5))\n", b"\n" + ROW):
    layers(FLAG + row)
# columns: not rising, repeated, past the last; counters: zero, signs, out of range; a third number, one only
for pairs in (b" (3 -2) (1 5)", b" (1 5) (1 5)", b" (1 5) (1 6)", b" (8 5)", b" (7 5) (8 1)", b" (18446744073709551616 5)",
              b" (18446744073709551615 5)", b" (-1 5)", b" (01 5)", b" (+1 5)", b" ( 5)", b" (1 0)", b" (1 -0)", b" (1 +5)", b" (1 05)", b" (1 -05)",
              b" (1 --5)", b" (1 -)", b" (1 )", b" (1)", b" ()", b" (1 5 6)", b" (1  5)", b" (1 5 )", b" ( 1 5)", b" 1 5", b" (1 5)(3 6)",
              b" (1 5)  (3 6)", b" (1\t5)", b" (1 4503599627370497)", b" (1 -4503599627370497)", b" (1 9223372036854775807)",
              b" (1 9223372036854775808)", b" (1 -9223372036854775808)", b" (1 -9223372036854775809)", b" (1 18446744073709551615)",
              b" (1 18446744073709551616)"):
    layers(FLAG + b"(row 0 0" + pairs + b")\n")
layers(FLAG + b"(row 0 0 (7 4503599627370496))\n(row 0 1 (0 -4503599627370496))\n", want=0)
# keys: too many, before the rows, of another layer, with a count below its parent's, too few numbers, too many
for keys in (KEY + KEY_1 + KEY_2 + b"(key 0 13 1 2 3 6)\n", KEY + ROW, b"(key 1 11 22 33 44 3)\n", KEY_1 + KEY, KEY + KEY_1 + b"(key 0 13 1 2 3 2)\n",
             KEY + b"(key 0 12 1 2 3 -3)\n", b"(key 0 11 22 33 3)\n", b"(key 0 11 22 33 44 55 3)\n", b"(key 0 11 22 33 44 )\n",
             b"(key 0 11 22 33 44 3 )\n", b"(key 0 11 22 33 (44 3))\n", b"(key 0  11 22 33 44 3)\n", b"(keys 0 11 22 33 44 3)\n",
             b"(key 0 B 16 21 2C 3)\n", KEY[:-1] + b" \n", KEY[:-1] + b"\r\n", KEY + b"\n"):
    layers(FLAG + keys)
layers(FLAG + KEY + b"(key 0 12 1 2 3 3)\n" + b"(key 0 13 1 2 3 3)\n", want=0)
layers(FLAG + KEY + KEY, want=0)  # one key in two entries passes the check
# flags: another number, missing, twice, of another layer, after the rows, one layer more
for first, second in [(b"(flag 0 2)\n", FLAG_1), (b"(flag 0 01)\n", FLAG_1), (b"(flag 0 -1)\n", FLAG_1), (b"(flag 0 true)\n", FLAG_1),
                      (b"(flag 0)\n", FLAG_1), (b"(flag 0 1 1)\n", FLAG_1), (b"(flag 00 1)\n", FLAG_1), (b"(Flag 0 1)\n", FLAG_1), (b"", FLAG_1),
                      (FLAG, b""), (FLAG_1, FLAG), (FLAG, FLAG), (FLAG_1, FLAG_1), (FLAG, FLAG_1 + FLAG_1), (ROW + FLAG, FLAG_1),
                      (FLAG, LAST + FLAG_1), (FLAG, FLAG_1 + b"(flag 2 1)\n"), (FLAG + LAST, FLAG_1), (FLAG, FLAG_1 + ROW), (FLAG, b"(flag 2 0)\n"),
                      (FLAG, b"(flag 18446744073709551616 0)\n"), (FLAG, b"(flag 18446744073709551617 0)\n")]:
    layers(first, second)
layers(FLAG, FLAG_1, want=0)

# ---- every number of a smaller text in turn: at and past each bound, and written otherwise

TINY = b"(univmon 2 1 4 1)\n(weight 7)\n(updates 5)\n(mode 1)\n(flag 0 1)\n(row 0 0 (1 5) (3 -2))\n(key 0 9 22 33 44 -3)\n"
TINY_SLICES = lengths_of((2, 1, 4, 1))
case(TINY, TINY_SLICES, 0)
OTHERS = [b"0", b"1", b"2", b"%d" % TOP, b"%d" % (TOP + 1), b"-%d" % TOP, b"-%d" % (TOP + 1), b"%d" % (1 << 63), b"%d" % MASK, b"%d" % (MASK + 1),
          b"", b"-1", b"+1", b"-0", b"01"]
for m in re.finditer(rb"-?[0-9]+", TINY):
    for other in OTHERS:
        case(TINY[:m.start()] + other + TINY[m.end():], TINY_SLICES)

# ---- the first line: its form, then its shape

REST = TINY[TINY.index(b"\n") + 1:]
for first in (b"", b"\n", b"(univmon 2 1 4 1)", b"(univmon 2 1 4 1)\r\n", b"(univmon 2 1 4 1) \n", b" (univmon 2 1 4 1)\n", b"(univmon 2 1 4 1 )\n",
              b"(univmon  2 1 4 1)\n", b"(univmon 2 1 4  1)\n", b"(univmon\t2 1 4 1)\n", b"(Univmon 2 1 4 1)\n", b"(univmon 2 1 4)\n",
              b"(univmon 2 1 4 1 1)\n", b"(univmon)\n", b"univmon 2 1 4 1\n", b"(univmon (2 1 4 1))\n", b"(univmo 2 1 4 1)\n",
              b"\xef\xbb\xbf(univmon 2 1 4 1)\n", b"(shape 2 1 4 1)\n", b"(univmon 1 2 1 4 1)\n", b"(univmon 2 1 4 1)\n\n",
              b"(univmon 1%s 1 4 1)\n" % (b"0" * 30), b"(univmon 18446744073709551618 1 4 1)\n", b"(univmon 2 18446744073709551617 4 1)\n",
              b"(univmon 2 1 18446744073709551620 1)\n", b"(univmon 2 1 4 18446744073709551617)\n"):
    case(first + REST, TINY_SLICES, 15)
    case(first, TINY_SLICES, 15)
case(b"(univmon 2 1 4 1)\n", TINY_SLICES, 15)


def first_line(s):
    return b"(univmon %d %d %d %d)\n" % tuple(s)


for want, shapes in [
    (1, [(0, 1, 4, 1), (2, 0, 4, 1), (2, 1, 0, 1), (2, 1, 4, 0), (0, 0, 0, 0), (0, 21, 4097, 20), (1025, 0, MASK, MASK), (MASK, MASK, MASK, 0)]),
    (2, [(2, 1, 4, 20), (2, 1, 4, MASK), (1025, 21, 4097, 20), (MASK, MASK, MASK, MASK), (1, 1, 1, 1 << 63), (1, 1, 1, TOP)]),
    (3, [(2, 20, 33, 1), (2, 10, 4096, 1), (2, 129, 1, 1), (2, MASK, 4, 1), (1025, 21, 4096, 19), (2, 2, MASK, 1), (MASK, MASK, MASK, 19),
         (2, 2, (1 << 63) + 1, 1), (2, 3, 1 << 63, 1), (2, 1 << 63, 1, 1)]),
    (4, [(2, 21, 1, 1), (2, 128, 1, 1), (2, 1, 4097, 1), (1025, 1, 4, 1), (2, 1, MASK, 1), (MASK, 1, 4, 1), (2, 2, 1 << 63, 1), (1025, 21, 32, 19),
         (1025, 9, 4097, 19)]),
]:
    for s in shapes:
        case(first_line(s), TINY_SLICES, want)  # before 16, and before 15 for what is missing
    case(first_line(shapes[0]) + REST, TINY_SLICES, want)
    case(first_line(shapes[0]) + REST, (0, 0, 0, 0), want)
    case(first_line(shapes[0])[:-1], TINY_SLICES, 15)
    case(first_line(shapes[0]).replace(b" ", b"  "), TINY_SLICES, 15)

# ---- 16: each of the four lengths off by one, before what is wrong below

for k in range(4):
    for by in (-1, 1):
        wrong = [n + by * (j == k) for j, n in enumerate(TINY_SLICES)]
        case(TINY, wrong, 16)
        case(first_line((2, 1, 4, 1)) + REST[:-1], wrong, 16)
        case(first_line((2, 1, 4, 1)), wrong, 16)
        case(b" " + TINY, wrong, 15)
case(TINY, (0, 0, 0, 0), 16)
case(TINY, [2 * n for n in TINY_SLICES], 16)
for s in [(2, 1, 4, 2), (2, 2, 4, 1), (2, 4, 1, 1), (1, 1, 4, 1), (2, 1, 3, 1)]:
    case(TINY, lengths_of(s), 16)
    case(first_line(s) + REST, lengths_of(s))

# ---- the totals' lines

for totals in (b"", b"(weight 7)\n(mode 1)\n", b"(updates 5)\n(weight 7)\n(mode 1)\n", b"(weight 7)\n(updates 5)\n(mode 3)\n",
               b"(weight 7)\n(updates 5)\n(mode standard)\n", b"(weight 7)\n(updates 5)\n(mode 1)\n(mode 1)\n", b"(weight 7) (updates 5) (mode 1)\n",
               b"(weight 7)(updates 5)(mode 1)\n", b"(weight 7 5)\n(updates 5)\n(mode 1)\n", b"(weight)\n(updates 5)\n(mode 1)\n",
               b"(Weight 7)\n(updates 5)\n(mode 1)\n", b"(weights 7)\n(updates 5)\n(mode 1)\n", b"(weight 7)\n(update 5)\n(mode 1)\n"):
    case(first_line((2, 1, 4, 1)) + totals + b"(flag 0 1)\n", TINY_SLICES, 15)
for mode in (0, 1, 2):
    case(first_line((2, 1, 4, 1)) + b"(weight 0)\n(updates 0)\n(mode %d)\n(flag 0 0)\n" % mode, TINY_SLICES, 0)

# ---- the end, and bytes that no text has

for end in (TINY[:-1], TINY + b"\n", TINY + b" ", TINY + b"x", TINY + b"\0", TINY + b"(", TINY + TINY, TINY + b"(flag 1 1)\n", TINY + b"(key ",
            TINY + b"(row ", TINY[:-1] + b"\r\n", TINY.replace(b"\n", b"\r\n"), TINY.replace(b"\n", b"\r"), TINY.replace(b"\n", b""),
            TINY.replace(b"\n", b"\n\n"), TINY.replace(b" ", b"\t"), TINY.replace(b"(", b"[").replace(b")", b"]"), TINY.upper(), b"\n" + TINY,
            TINY[:-1] + b"\0", b"\0" * 40, b"\xff" * 40, TINY.decode().encode("utf-16"), b"(" * 40, TINY.replace(b"5", b"\xb2")):
    case(end, TINY_SLICES, 15)


# ---- what the program has to print

def spoken(text, lengths):
    """the line for a case"""
    n, state = read_text(text, lengths)
    if n:
        return "%d 1\n" % n
    bad = state.copy()
    bad.weight = MASK
    rooms = [(state, len(text) - 1), (state, len(text)), (state, LONGEST), (bad, len(text) - 1)]
    return "0 %d" % state.digest(shape=[state.heap, state.rows(0), state.cols(0), state.layers]) + "".join(" %d %d 1" % (n, len(bytes)) for n, bytes in (write_text(r, room) for r, room in rooms)) + "\n"


def broken(texts, lengths):
    """the line for some broken texts"""
    same = sum(read_text(t, lengths)[0] == 0 for t in texts)
    return "%d refused, %d written to the same bytes, 0 to others\n" % (len(texts) - same, same)


for (line, want), have in zip(script, oracle([line for line, _ in script])):
    assert want == have, (line, want, have)
text, lengths = cases[0]
ways = [
    [text[:i] + bytes([b]) + text[i + 1:] for i in range(len(text)) for b in range(256)],
    [text[:i] for i in range(len(text))],
    [text[:i] + text[i + 1:] for i in range(len(text))],
    [text[:i + 1] + text[i:] for i in range(len(text))],
]
said = [spoken(*c) for c in cases]
said[1:1] = [broken(texts, lengths) for texts in ways]
with open(f"{ROOT}/crates/state_text_test/stdin", "wb") as f:
    for text, lengths in cases:
        f.write(words(sum(n << 48 - 16 * k for k, n in enumerate(lengths)), len(text)).encode() + b"\n" + text)
with open(f"{ROOT}/crates/state_text_test/stdout", "w") as f:
    f.write("".join(said))
taken = sum(read_text(*c)[0] == 0 for c in cases)
print(f"the oracle agrees with {len(script)} lines; {len(cases)} texts, {taken} accepted; {sum(map(len, ways))} broken ones")
