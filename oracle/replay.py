"""Stored results of whole states: every call, every answer, merges in many groupings, every refusal at both sides of its bound.

`model.py` says what each call answers and leaves. Each call that the oracle can be asked is asked of it too, and its state, line by
line, and its answers must be the model's: refusals 0, 1, 2, 3, 5, 6, 8 and 10, states that no hand has touched, no ties of equal count
and equal bottom hash in terminal mode. The sign of a zero is not compared. Relays of two tiers are the oracle's `UnivMonTwoTier`; they go through
the same calls, but for deltas, marks and weight settings, and stand at the end.

Each update, delta and merge is lent a list, marked word by word, that is long enough, and in many places before that the same with a
shorter one. The oracle has no lists: what they say is held against its candidates before and after an update or a delta, and for
a merge against a lone heap of it, to which the keys are offered in the same order, and its true and false.
"""
import math
import random

from model import CAP, DISPLACED, G, HEAD_WORDS, MASK, RESCORED, SEATED, STANDARD, TERMINAL, TOP, TURNED_AWAY, Relay, bits, bottom_layer, cell, mask_bits, one_tier, shape_refusal, two_tier
from vectors import oracle, store

rng = random.Random(6)
spaces = random.Random(3)  # the lengths of lists have numbers of their own, so that the calls are what they were without
often = 0.25  # how often a list is too short first
EDGE = 3037000499  # the greatest number whose square stays below 2^63
inputs, answers, script = [], [], []
ROOM, LIST_ROOM = (12288, 760, 8192, 2048), 8208
HEAP, LAYERS, ELEPHANT_LAYERS, ELEPHANT_ROWS, ELEPHANT_COLS, MOUSE_ROWS, MOUSE_COLS = range(7)  # places in the header's words
WEIGHT, UPDATES, MODE, FLAGS, LENS = 7, 8, 9, 10, 29


def call(op, numbers, expected=()):
    inputs.append((op, numbers))
    answers.append(list(expected))


def tell(line, want="ok"):
    script.append((line, want))


# ---- records

KEYS = list(range(1, 91)) + [0, MASK, 1 << 63, 12345678901234567890]
MADE_UP = list(range(1001, 1013))  # keys with hashes of our own
RECORDS, PLACES = {}, {}


def keep(key, words):
    """a record in a place of the program"""
    place = PLACES.setdefault(key, len(PLACES))
    RECORDS[key] = words
    call(14, [place, len(words)] + words)


def halves(h):
    return [h >> 64, h & MASK]


def force(key, bottom, hashes):
    """this key has these hashes from here on, in the oracle too"""
    tell("force %d %016X %s" % (key, bottom, " ".join("%016X %016X" % tuple(halves(h)) for h in hashes)))
    keep(key, [key, bottom] + [w for h in hashes for w in halves(h)])


def true_records():
    lines = oracle(["new r 1 1 1 19"] + ["rec r %d" % k for k in KEYS])[1:]
    for key, line in zip(KEYS, lines):
        words = line.split()
        keep(key, [key] + [int(w, 16) for w in words[1:]])


# ---- relays: each has a place on the shelf, and one is at work

class Held(Relay):
    """a relay of the program; `name` is the oracle's, or None once a hand has touched it"""

    def __init__(self, place):
        super().__init__()
        self.place, self.name = place, None


shelf = {}
at_work = None
made = 0


def use(i):
    global at_work
    if at_work != i:
        if at_work is not None:
            call(13, [0, at_work])
        call(13, [i, 0])
        at_work = i
    return shelf[i]


def left(r, n, told=()):
    """the number, whether what is left passes the check, and a digest of it with the list; what no hand has touched passes"""
    sound = r.check()
    assert sound or not r.name
    return [(n << 56) + (sound << 48) + r.digest(told)]


def marked(words):
    """a list as the program lends it"""
    return [MASK - i for i in range(words)]


def lent_lists(op, numbers, r, words, change, lists=None):
    """a call that needs a list of so many words, with lists of these lengths: by default one that is enough, and at times one that is too
    short before it. A short one is refused last, and a refused call leaves its list. The number of the last call; `told` is what it said."""
    words = min(words, LIST_ROOM - 7)
    if lists is None:
        lists = [words + spaces.choice([0, 0, 1, 2, 7])]
        if words and spaces.random() < often:
            lists.insert(0, spaces.choice([words - 1, words - 1, words // 2, 0]))
    said = set()
    for length in lists:
        r.told = marked(length)
        n = change(r.told)
        call(op, numbers + [0] * (7 - len(numbers)) + [length], left(r, n, r.told))
        assert r.told[words if n == 0 else 0:] == marked(length)[words if n == 0 else 0:]
        assert n != (16 if length >= words else 0)
        said.add(n)
    assert len(said) == 1 or said == {0, 16}
    return n


def lent(r, lengths):
    """so much of each slice is lent; what is new in it is zero"""
    slices = [r.counters, r.norms, r.entries, r.counts]
    for k, n in enumerate(lengths):
        call(10, [0, HEAD_WORDS + k, n])
        for i in range(len(slices[k]), n):
            call(10, [k + 1, i, 0])
            slices[k].append(0)
        del slices[k][n:]


def shape_of(dims):
    """four dimensions or seven, in the order of `new`"""
    return one_tier(*dims) if len(dims) == 4 else two_tier(*dims)


def new_line(name, dims):
    return "new%s %s %s" % ("" if len(dims) == 4 else "2", name, " ".join(map(str, dims)))


def new_call(dims, expected):
    call(1 if len(dims) == 4 else 19, list(dims), expected)


def fresh(i, *dims):
    """an accepted `new`"""
    global made
    shelf.setdefault(i, Held(i))
    r = use(i)
    r.shape = shape = shape_of(dims)
    for k, n in enumerate(r.lengths()):
        assert n <= ROOM[k], shape
        call(10, [0, HEAD_WORDS + k, n])
    r.zero()
    assert r.new(shape) == 0
    new_call(dims, left(r, 0))
    made += 1
    r.name = "R%d" % made
    tell(new_line(r.name, dims))
    return r


def panics(shape):
    """whether the oracle's `new` does: it judges the hash bits of a tier only by its layers, and takes any number of elephant layers"""
    r = Relay()
    r.shape = shape
    return shape_refusal(shape) == 1 or shape[LAYERS] > 19 or any((mask_bits(r.cols(l)) + 1) * r.rows(l) > 128 for l in range(shape[LAYERS]))


def refused_new(i, *dims):
    r = use(i)
    n = r.new(shape_of(dims))
    r.name = None
    new_call(dims, left(r, n))
    if n in (1, 2, 3):
        tell(new_line("x", dims), "panic" if panics(shape_of(dims)) else "ok")
    return n


def asked(r, n, line, told):
    """the oracle answers the same call, and has the same state after it"""
    if r.name and n in told:
        tell(line, "panic" if n else "ok")
        tell("state %s" % r.name, r.text())


def entries(r):
    """each layer's candidates, in the array's order; of a relay that no hand has touched"""
    return [[r.entry(l, i) for i in range(r.lens[l])] for l in range(r.layers)] if r.name else []


def seen(before, r, key, layers):
    """the list of an accepted update or delta that touched these layers, by the candidates before and after it, which are the oracle's"""
    told = [0] * r.list_words()
    for l in layers:
        old, new = ({e[0] for e in layer[l]} for layer in (before, entries(r)))
        gone = list(old - new) + [0]
        told[2 * l:2 * l + 2] = [RESCORED if key in old else TURNED_AWAY if key not in new else DISPLACED if old - new else SEATED, gone[0]]
    return told


def update(i, key, w, mode=STANDARD, length=None, lists=None):
    r = use(i)
    words = (RECORDS[key] + [0] * 40)[:2 + 2 * r.layers if length is None else length]
    before = entries(r)
    n = lent_lists(2 if mode == STANDARD else 3, [PLACES[key], len(words), w], r, r.list_words(), lambda told: r.update(words, w, mode, told), lists)
    if r.name and n == 0:
        b = bottom_layer(words[1], r.layers)
        assert r.told[:r.list_words()] == seen(before, r, key, range(0 if mode == STANDARD else b, b + 1))
    asked(r, n, "%s %s %d %d" % ("std" if mode == STANDARD else "term", r.name, key, w), (0, 5, 6))
    return n


def delta(i, l, row, col, count, key, promoted_only=0, length=None, lists=None):
    r = use(i)
    words = (RECORDS[key] + [0] * 40)[:2 + 2 * r.layers if length is None else length]
    before = entries(r)
    n = lent_lists(4, [PLACES[key], len(words), l, row, col, count, promoted_only], r, r.list_words(), lambda told: r.delta(l, row, col, count, words, promoted_only, told), lists)
    if r.name and n == 0:
        assert r.told[:r.list_words()] == seen(before, r, key, [l])
    asked(r, n, "delta %s %d %d %d %d %d %d" % (r.name, l, row, col, count, key, promoted_only), (0, 8))
    return n


def set_weight(i, w):
    r = use(i)
    n = r.set_total_weight(w)
    call(5, [w], left(r, n))
    asked(r, n, "setw %s %d" % (r.name, w), (0, 6))
    return n


def mark(i, l):
    r = use(i)
    n = r.mark(l)
    call(6, [l], left(r, n))
    asked(r, n, "mark %s %d" % (r.name, l), (0, 8))
    return n


def mark_all(i):
    r = use(i)
    n = r.mark_all()
    call(7, [], left(r, n))
    asked(r, n, "markall %s" % r.name, (0,))
    return n


def clear(i):
    r = use(i)
    n = r.clear()
    call(8, [], left(r, n))
    asked(r, n, "clear %s" % r.name, (0,))
    return n


def offered_alone(r, pairs):
    """the candidates of both relays, layer by layer, offered to a lone heap of the oracle: its true and false follow from the merge's list,
    and so does who is in it after each offer"""
    heap = r.heap
    for l, (own, others) in enumerate(pairs):
        first, inside = {}, set()
        for e in own + others:
            first.setdefault(e[0], e)
        places = r.told[4 * heap * l:4 * heap * (l + 1)]
        assert places[2 * len(first):] == [0] * (4 * heap - 2 * len(first))
        tell("hnew m %d" % heap)
        for (key, e), did, gone in zip(first.items(), places[::2], places[1::2]):
            n = r.count(l, e[2] << 64 | e[3])
            tell("est %s %d %d" % (r.name, l, key), lambda have, n=n: have.split()[1] == str(n))
            tell("hput m %d %d" % (key, n), "%d" % (did < DISPLACED))
            tell("hfind m %d" % key, "none" if did == TURNED_AWAY else lambda have: have != "none")
            if did != TURNED_AWAY:
                inside.add(key)
            if did == DISPLACED:
                tell("hfind m %d" % gone, "none")
                inside.remove(gone)
            assert did in (SEATED, DISPLACED, TURNED_AWAY) and (did == DISPLACED or gone == 0)
        assert inside == {e[0] for e in entries(r)[l]}


def merge(i, j, lists=None):
    r, o = use(i), shelf[j]
    call(15, [j])
    before, others = entries(r), entries(o)
    n = lent_lists(9, [], r, r.merge_words(), lambda told: r.merge(o, told), lists)
    if not o.name:
        r.name = None if n == 0 else r.name
    else:
        asked(r, n, "merge %s %s" % (r.name, o.name), (0, 6, 10))
    if r.name and n == 0:
        offered_alone(r, zip(before, others))
    return n


def same(i, j):
    """the program holds two relays against each other"""
    a, b = use(i), shelf[j]
    call(15, [j])
    agree = (a.words()[:LENS], a.counters, a.norms) == (b.words()[:LENS], b.counters, b.norms)
    call(12, [], [int(agree)])
    return agree


def answer(i):
    r = use(i)
    found = [r.l1(), r.l2(), r.g_sum(G["one"], True)] + [r.g_sum(g, every) for g in G.values() for every in (False, True)]
    panel = [max(n for n, _ in found[:3])] + [bits(x) for _, x in found[:3]]
    if panel[0]:
        panel[1:] = [0, 0, 0]
    call(11, [], [w for n, x in found for w in (n, bits(x))] + panel)
    if r.name:
        for line, (n, x) in zip(["l1 %s", "l2 %s", "card %s"], found):
            tell(line % r.name, bits(x))
        for (name, every), (n, x) in zip(((name, every) for name in G for every in (0, 1)), found[3:]):
            tell("gsum %s %s %d" % (r.name, name, every), bits(x))
    return found


def poke(i, slice, at, x):
    """a word set by hand: 0 the header's, 1 counters, 2 norms, 3 entries, 4 counts"""
    r = use(i)
    r.name = None
    call(10, [slice, at, x])
    if slice:
        [r.counters, r.norms, r.entries, r.counts][slice - 1][at] = x
    elif at < WEIGHT:
        r.shape[at] = x
    elif at < FLAGS:
        setattr(r, {WEIGHT: "weight", UPDATES: "updates", MODE: "mode"}[at], x)
    elif at < LENS:
        r.flags[at - FLAGS] = bool(x)
    else:
        r.lens[at - LENS] = x


def poke_norm(i, at, n):
    poke(i, 2, 2 * at, n & MASK)
    poke(i, 2, 2 * at + 1, n >> 64)


def check(i):
    r = use(i)
    call(18, [], [int(r.check())])
    return r.check()


def shape(limit=600):
    while True:
        heap, rows, cols = rng.choice([1, 2, 3, 4, 5, 8, 16]), rng.choice([1, 2, 3, 4, 5, 8, 20]), rng.choice([1, 2, 3, 4, 5, 8, 13, 32])
        layers = rng.choice([1, 2, 3, 4, 6, 8])
        if not shape_refusal(one_tier(heap, rows, cols, layers)) and rows * cols * layers <= limit:
            return heap, rows, cols, layers


def forced(layers):
    """hashes made up, so that the bottom layers spread and bits meet"""
    for key in MADE_UP:
        bottom = rng.getrandbits(64)
        if rng.random() < 0.4:
            bottom |= (1 << rng.randint(1, 20)) - 1
        force(key, bottom, [rng.getrandbits(128) for _ in range(layers)])


true_records()

# ---- 01's figures and longer sequence, by forced hashes: A with bottom hash 0, B with 2

def spread(row_0, row_1):
    """a hash with these columns of 4, and the signs of 01's figure, + and −"""
    return (0x8000000000000000 << 64) + (row_1 << 2) + row_0


def seated(r, l):
    """the candidates' keys and counts, in the array's order"""
    return [(r.entry(l, i)[0], r.counts[l * r.heap + i]) for i in range(r.lens[l])]


# "A third key clears layer 0's flag, tie or not.": no two keys share a cell, so that a count is the key's own weight; the third's is below
# the smaller of the two, equal to it (both turned away), above it (displaces it), and zero
A, B, C = MADE_UP[:3]
force(A, 0, [spread(2, 1), 0])
force(B, 2, [spread(1, 2), spread(3, 3)])
force(C, 0, [spread(3, 0), 0])
for third, stays in ((3, True), (4, True), (5, False), (0, True)):
    r = fresh(1, 2, 2, 4, 2)
    update(1, A, 5)
    answer(1)
    update(1, B, 4)
    answer(1)
    assert seated(r, 0) == [(B, 4), (A, 5)] and seated(r, 1) == [(B, 4)] and r.flags[:2] == [True, True]
    update(1, C, third)
    answer(1)
    assert [r.count(0, r.hash(RECORDS[key], 0)) for key in (A, B, C)] == [5, 4, third]
    assert seated(r, 0) == ([(B, 4), (A, 5)] if stays else [(C, 5), (A, 5)])
    assert seated(r, 1) == [(B, 4)] and r.flags[:2] == [False, True]
fresh(1, 2, 2, 4, 2)
update(1, A, 0)
update(1, B, 0)
assert answer(1)[2] == (0, 2.0)
fresh(1, 1, 20, 32, 1)
update(1, A, 1)
fresh(1, 2, 2, 1, 1)  # "Estimates −1 and 0: count 0."
delta(1, 0, 0, 0, -cell(shelf[1].hash(RECORDS[5], 0), 0, 1)[1], 5)
assert shelf[1].lens[0] == 1 and shelf[1].counts[0] == 0
answer(1)

# ---- 1 to 19 layers, standard and terminal

for layers in range(1, 20):
    for mode in (STANDARD, TERMINAL):
        heap, rows, cols = rng.choice([2, 3, 4, 8]), rng.choice([1, 2, 3]), rng.choice([2, 3, 4, 8])
        fresh(1, heap, rows, cols, layers)
        answer(1)
        for _ in range(12):
            update(1, rng.choice(KEYS[:12]), rng.choice([0, 1, 2, 5, 1000]), mode)
        answer(1)

# ---- who was pushed out: all four things in each layer, at every number of layers, with lists one word short, exact and one word longer

PAIRS = [(2000 + 2 * l, 2001 + 2 * l) for l in range(19)]  # two keys whose bottom layer is l, in two columns of 4
for l, pair in enumerate(PAIRS):
    for col, key in enumerate(pair):
        force(key, (2 << l) - 2, [(1 << 127) + col] * 19)
for layers in range(1, 20):
    for mode in (STANDARD, TERMINAL):
        r = fresh(1, 1, 1, 4, layers)
        exact = 2 * layers
        for bottom in [layers - 1] if mode == STANDARD else range(layers):
            a, b = PAIRS[bottom]
            touched = range(layers) if mode == STANDARD else [bottom]
            for key, w, did in ((a, 5, [SEATED, 0]), (a, 1, [RESCORED, 0]), (b, 6, [TURNED_AWAY, 0]), (b, 1, [DISPLACED, a]), (a, 0, [TURNED_AWAY, 0])):
                assert update(1, key, w, mode, lists=[exact - 1, exact + (w == 6)]) == 0
                assert r.told[:exact] == [x for l in range(layers) for x in (did if l in touched else [0, 0])]
        l = spaces.randrange(layers)
        a, b = PAIRS[l] if mode == TERMINAL else PAIRS[layers - 1]
        for key, col, n, did in ((b, 1, 0, [RESCORED, 0]), (a, 0, 1, [TURNED_AWAY, 0]), (a, 0, 1, [DISPLACED, b]), (a, 3, 9, [RESCORED, 0])):
            assert delta(1, l, 0, col, n, key, lists=[exact - 1, exact, exact + 1][:2 + (n == 0)]) == 0
            assert r.told[:exact] == [0] * 2 * l + did + [0] * (exact - 2 * l - 2)
# a displaced key 0 is told as 3 and 0, by every call
for mode in (STANDARD, TERMINAL):
    for i in (1, 2):
        fresh(i, 1, 3, 16, 1)
    update(1, 0, 5, mode)
    update(2, 7, 9, mode)
    merge(1, 2, lists=[3, 4])
    assert shelf[1].told == [SEATED, 0, DISPLACED, 0]
    fresh(1, 1, 3, 16, 1)
    update(1, 0, 5, mode)
    update(1, 7, 9, mode, lists=[1, 3])
    assert shelf[1].told == [DISPLACED, 0, MASK - 2]
    fresh(1, 1, 1, 16, 1)
    update(1, 0, 5, mode)
    col, sign = cell(shelf[1].hash(RECORDS[7], 0), 0, 16)
    delta(1, 0, 0, col, 9 * sign, 7, lists=[1, 3])
    assert shelf[1].told == [DISPLACED, 0, MASK - 2]
# merges in which later keys displace earlier ones
for mode in (STANDARD, TERMINAL):
    for heap in (1, 2, 3):
        for i in (1, 2, 3):
            fresh(i, heap, 1, 64, 2)
        hashes = [(1 << 127) + col for col in range(2 * heap)]
        for k, h in enumerate(hashes):
            force(MADE_UP[k], 2 * (k % 2), [h, h])
            update(1 + k // heap, MADE_UP[k], 10 + k, mode)
        exact = 4 * heap * 2
        assert merge(3, 1, lists=[exact - 1, exact]) == 0
        assert merge(1, 2, lists=[0, exact - 1, exact + 1]) == 0
        assert merge(3, 2, lists=[exact + 7]) == 0
        for i in (1, 3):
            if mode == STANDARD:
                assert shelf[i].told[:4 * heap:2] == [SEATED] * heap + [DISPLACED] * heap
                assert shelf[i].told[2 * heap + 1:4 * heap:2] == MADE_UP[:heap]
        assert merge(2, 1) == 0 and (mode == TERMINAL or TURNED_AWAY not in shelf[2].told[:4 * heap:2])
fresh(1, 1024, 1, 1, 1)
fresh(2, 1024, 1, 1, 1)
for key in KEYS:
    update(1 + key % 2, key, 1)
merge(1, 2, lists=[4095, 4096])
update(1, 5, 1, lists=[1, LIST_ROOM])  # a list may be far too long
# a key that a hand put into two entries has one place in a merge, by its first entry, and is rescored there
for i in (1, 2):
    fresh(i, 3, 1, 8, 1)
    for key in (4, 5, 6):
        update(i, key + 3 * (i - 1), key)
    poke(i, 3, 4, shelf[i].entry(0, 0)[0])
update(1, shelf[1].entry(0, 0)[0], 1)
assert shelf[1].told[:2] == [RESCORED, 0]
merge(1, 2, lists=[11, 12])
assert shelf[1].told[:6:2] == [SEATED] * 3 and shelf[1].told[6] in (DISPLACED, TURNED_AWAY) and shelf[1].told[8:] == [0] * 4

# ---- random calls on three relays, as they come

for run in range(40):
    heap, rows, cols, layers = shape()
    keys = KEYS
    if rng.random() < 0.5:
        forced(layers)
        keys = MADE_UP
    keys = rng.sample(keys, min(len(keys), rng.choice([2, heap, heap + 1, 3 * heap, 40])))
    for i in (1, 2, 3):
        fresh(i, heap, rows, cols, layers)
    habit = rng.choice([STANDARD, TERMINAL, 0])
    size = rng.choice([1, 3, 1000, 1 << 31, 1 << 36, 1 << 46])
    for _ in range(40):
        i, key = rng.choice((1, 2, 3)), rng.choice(keys)
        what = rng.random()
        mode = habit or rng.choice([STANDARD, TERMINAL])
        if what < 0.62:
            update(i, key, -1 if rng.random() < 0.02 else rng.randint(0, size), mode)
        elif what < 0.72:
            merge(i, rng.choice([j for j in (1, 2, 3) if j != i]))
        elif what < 0.9:
            l, row = rng.randrange(layers), rng.randrange(rows)
            col = rng.choice([rng.randrange(cols), cell(shelf[i].hash(RECORDS[key], l), row, cols)[0]])
            l, row, col = rng.choice([(l, row, col)] * 12 + [(layers, row, col), (l, rows, col), (l, row, cols)])
            count = rng.choice([rng.randint(-5, 5), rng.randint(-(1 << 31), (1 << 31) - 1)])
            delta(i, l, row, col, count, key, int(rng.random() < 0.3))
        elif what < 0.93:
            set_weight(i, rng.choice([0, 7, rng.randint(0, TOP // 4)]))
        elif what < 0.96:
            mark(i, rng.randint(0, layers))
        elif what < 0.97:
            mark_all(i)
        elif what < 0.98:
            clear(i)
        if rng.random() < 0.1:
            answer(i)
    for i in (1, 2, 3):
        answer(i)

# ---- keys in several layers of a terminal relay, by deltas, and counts of zero and below

for run in range(8):
    heap, rows, cols, layers = rng.choice([2, 3, 8]), rng.choice([1, 2, 3]), rng.choice([2, 4, 8]), rng.choice([2, 3, 5])
    fresh(1, heap, rows, cols, layers)
    for _ in range(10):
        update(1, rng.choice(KEYS[:10]), rng.choice([0, 1, 3, 50]), TERMINAL)
    for _ in range(12):
        key, l = rng.choice(KEYS[:10]), rng.randrange(layers)
        for row in range(rows):
            delta(1, l, row, cell(shelf[1].hash(RECORDS[key], l), row, cols)[0], rng.choice([-60, -1, 0, 1, 7, 60]), key)
        answer(1)

# ---- weights through the cap and to 2^52, up and down

for rows, cols, layers in [(1, 1, 1), (2, 4, 2), (3, 5, 3)]:
    for mode in (STANDARD, TERMINAL):
        fresh(1, 3, rows, cols, layers)
        for w in (EDGE - 1, 1, 1, 1, TOP - EDGE - 3, 1, 1, 0):
            update(1, 5, w, mode)
            answer(1)
        update(1, 6, 1, mode)
for rows, cols, layers in [(1, 1, 1), (2, 4, 2)]:
    fresh(1, 3, rows, cols, layers)
    for d in [(1 << 31) - 1, -(1 << 31), 1] + [(1 << 31) - 1] * 3 + [-(1 << 31)] * 5:
        delta(1, layers - 1, rows - 1, cols - 1, d, 5)
        answer(1)

# ---- full heaps, ties and large ones

fresh(1, 16, 3, 16, 2)
for key in KEYS[:40]:
    update(1, key, 1)
answer(1)
for key in KEYS[:40]:
    update(1, key, rng.choice([0, 1, 2, 50]))
answer(1)
fresh(1, 1024, 1, 1, 1)
for key in KEYS:
    update(1, key, 1)
answer(1)
fresh(1, 8, 3, 4096, 1)
fresh(2, 8, 3, 4096, 1)
for key in KEYS[:12]:
    update(rng.choice((1, 2)), key, rng.randrange(1000))
merge(1, 2)
answer(1)
fresh(1, 4, 20, 32, 19)
for key in KEYS[:6]:
    update(1, key, key)
answer(1)

# ---- merges: a stream cut into shares, merged in a chain and as a tree, with an empty share, held against one relay

for run in range(16):
    mode = rng.choice([STANDARD, TERMINAL])
    heap, rows, cols, layers = shape(300)
    keys = rng.sample(KEYS, min(60, rng.choice([1, heap, heap + 1, 2 * heap + 1])))
    stream = [(rng.choice(keys), rng.choice([0, 1, 7, 1 << 20, rng.randrange(1 << 40)])) for _ in range(24)]
    for i in (1, 2, 3, 4, 5, 6):
        fresh(i, heap, rows, cols, layers)
    for key, w in stream:
        update(rng.choice((2, 3, 4)), key, w, mode)
    order = list(stream)
    rng.shuffle(order)
    for key, w in order:
        update(1, key, w, mode)
    if run % 3 == 0:  # a chain, from an empty share on
        for j in (2, 3, 4):
            merge(5, j)
        whole = 5
    elif run % 3 == 1:  # a tree, an empty share at its end
        merge(3, 4)
        merge(2, 3)
        merge(2, 5)
        whole = 2
    else:
        merge(5, 4)
        merge(3, 2)
        merge(3, 5)
        whole = 3
    assert same(whole, 1)
    distinct = len({key for key, _ in stream})
    for i in (whole, 1):
        found = answer(i)
        if distinct <= heap:
            assert found[2] == (0, float(distinct))
    assert same(1, whole)
    if run % 2:  # what a refused merge leaves: another mode, another shape
        fresh(6, heap, rows, cols, layers)
        update(6, keys[0], 1, STANDARD + TERMINAL - mode)
        merge(6, 1)
        merge(1, 6)
        fresh(6, heap + 1, rows, cols, layers)
        merge(1, 6)
        fresh(6, heap, rows, cols, layers + 1)
        merge(6, 1)
        for other in ((heap, rows + 1, cols, layers), (heap, rows, cols + 1, layers)):
            if not shape_refusal(one_tier(*other)):
                fresh(6, *other)
                assert merge(6, 1) == 10 and merge(1, 6) == 10

# a key that two relays know by two records: the first relay's hashes stay
fresh(1, 4, 2, 4, 2)
fresh(2, 4, 2, 4, 2)
for i in (1, 2):
    shelf[i].name = None
update(1, 5, 3)
kept = RECORDS[5]
keep(5, [5] + RECORDS[6][1:])
update(2, 5, 4)
merge(2, 1)
merge(1, 2)
keep(5, kept)
# ties of count and bottom hash in terminal mode: the smaller key first
fresh(1, 2, 2, 8, 2)
shelf[1].name = None
for key in (3, 2, 1):
    kept = RECORDS[key]
    keep(key, [key, 0] + kept[2:])
    update(1, key, 5, TERMINAL)
    keep(key, kept)
    answer(1)

# ---- refusals: each at both sides of its bound, and their order where several hold

for dims in [(0, 1, 1, 1), (1, 0, 1, 1), (1, 1, 0, 1), (1, 1, 1, 0), (0, 21, 5000, 20), (1, 1, 1, 19), (1, 1, 1, 20), (1, 20, 33, 20), (1, 20, 32, 1), (1, 20, 33, 1),
             (1, 21, 1, 1), (1, 20, 1, 1), (1, 128, 1, 1), (1, 129, 1, 1), (1, 1, 4096, 1), (1, 1, 4097, 1), (1024, 1, 1, 1), (1025, 1, 1, 1), (1, 10, 4096, 1), (1, 9, 4096, 1),
             (1, 1, MASK, 1), (MASK, MASK, MASK, MASK), (MASK, 1, 1, 1), (1, 1 << 63, 2, 1), (1, 64, 2, 1), (1, 65, 2, 1)]:
    n = shape_refusal(one_tier(*dims))
    call(16, list(dims), [n << 56])
    if max(dims) < 1 << 20:
        if n < 4:
            tell("check %d %d %d %d" % dims, "ok" if n == 0 else None)
        if n:
            fresh(1, 2, 2, 4, 2)
            update(1, 5, 1)
            refused_new(1, *dims)
fresh(1, 2, 2, 4, 2)
update(1, 5, 1)
for k in range(4):  # 9 where the dimensions are right, and the lengths are not
    for by in (-1, 1):
        n = shelf[1].lengths() if shelf[1].shape[0] else n
        r = use(1)
        lent(r, [x + by * (j == k) for j, x in enumerate(n)])
        assert refused_new(1, 2, 2, 4, 2) == 9
        lent(r, n)
        call(1, [2, 2, 4, 2], left(r, r.new(one_tier(2, 2, 4, 2))))
for hash, layers in [(6, 1), (0, 3), (2, 3), (6, 3), (MASK, 19), (MASK ^ 1 << 18, 19), (MASK ^ 2, 19), (1, 19), (5, 0), (5, 20), (5, MASK), (7, 2)]:
    n = 1 if layers == 0 else 2 if layers > 19 else 0
    call(17, [hash, layers], [n << 56 if n else bottom_layer(hash, layers)])
    if n == 0:
        tell("bottom %016X %d" % (hash, layers), "%d" % bottom_layer(hash, layers))


def everything(i, want=None):
    """every call on one relay, on a copy of it; all must be refused with this number, if there is one"""
    tries = [lambda: update(6, 5, 1), lambda: update(6, 5, 1, TERMINAL), lambda: delta(6, 0, 0, 0, 1, 5), lambda: set_weight(6, 3), lambda: mark(6, 0), lambda: mark_all(6),
             lambda: clear(6), lambda: merge(6, 5), lambda: merge(5, 6)]
    for attempt in tries:
        twin(i, 6)
        n = attempt()
        assert want is None or n == want, (n, want)
    use(i)
    answer(i)


def twin(i, j):
    """the relay at i, at j too"""
    global at_work
    call(13, [0 if at_work == i else i, j])
    if at_work == j:
        at_work = None
    shelf[j] = shelf[i].copy()
    shelf[j].__class__, shelf[j].place, shelf[j].name = Held, j, None


def prepared(mode=STANDARD):
    """at 1 and 5 the same small relay"""
    for i in (1, 5):
        twin(2 + mode, i)


for mode in (STANDARD, TERMINAL):
    fresh(2 + mode, 3, 2, 4, 2)
    for key in (5, 6, 10):
        update(2 + mode, key, key, mode)


# 9 for the header: each word at its bound, and past it
for at, good, bad in [(WEIGHT, TOP, TOP + 1), (UPDATES, TOP, TOP + 1), (UPDATES, TOP, MASK), (LENS, 3, 4), (LENS + 1, 3, 4), (LENS + 2, 0, 1), (LENS + 18, 0, 1), (FLAGS + 2, 0, 1), (FLAGS + 18, 0, 1), (HEAP, 3, 0), (LAYERS, 2, 20), (MOUSE_ROWS, 2, 21), (MOUSE_COLS, 4, 5000), (HEAP, 3, 2), (LAYERS, 2, 1), (MOUSE_ROWS, 2, 1), (MOUSE_COLS, 4, 3)]:
    for x in (good, bad):
        prepared()
        poke(1, 0, at, x)
        everything(1)
# 9 for lengths
for k in range(4):
    for by in (-1, 1):
        prepared()
        r = use(1)
        lent(r, [x + by * (j == k) for j, x in enumerate(r.lengths())])
        everything(1)
# 9 for what is read: a counter, a norm, a count; 11 for a counter that would leave the range
for mode in (STANDARD, TERMINAL):
    for x in (TOP, TOP + 1, -TOP, -TOP - 1, CAP - 1, -CAP):
        for at in (0, 5, 9, 15):
            prepared(mode)
            poke(1, 1, at, x)
            poke_norm(1, at // 4, 4 * CAP)
            everything(1)
    for at in range(4):
        for n in (0, 24, 25, 4 * CAP, 4 * CAP + 1, 1 << 127):
            prepared(mode)
            poke_norm(1, at, n)
            everything(1)
    for at in (0, 1, 2, 3, 5):
        for x in (TOP, TOP + 1, -TOP, -TOP - 1):
            prepared(mode)
            poke(1, 4, at, x)
            everything(1)
# the state check: each kind of damage once, and each damage undone
prepared()
assert check(1)
for slice, at, bad in [(1, 3, 1), (1, 15, TOP + 1), (2, 0, 1), (2, 7, 1), (4, 1, -1), (4, 5, 1), (3, 23, 1), (3, 20, 1), (0, LENS, 2), (0, LENS + 1, 3), (0, FLAGS + 2, 1), (0, LENS + 2, 1),
                       (0, WEIGHT, TOP + 1), (0, UPDATES, TOP + 1),
                       (0, HEAP, 2), (0, LAYERS, 20)]:
    r = use(1)
    had = [r.words(), r.counters, r.norms, r.entries, r.counts][slice][at]
    poke(1, slice, at, had + bad if slice in (1, 2) and at < 15 else bad)
    assert not check(1), (slice, at, bad)
    poke(1, slice, at, had)
    assert check(1)
for at in range(4):
    r = use(1)
    lent(r, [x - (j == at) for j, x in enumerate(r.lengths())])
    assert not check(1)
    prepared()
# 12, and the order: 9, 12, 10, 5, 8, 6, 7, 9, 11, 16
often = 1
prepared()
for length in (0, 5, 6, 7, 38, 40):
    update(1, 5, 1, length=length)
    delta(1, 0, 0, 0, 1, 5, length=length)
update(1, 5, -1, TERMINAL, 5)
update(1, 5, -1, TERMINAL)
update(1, 5, -(1 << 63), TERMINAL)
update(1, 5, (1 << 63) - 1, TERMINAL)
update(1, 5, (1 << 63) - 1)
delta(1, 2, 0, 0, 1, 5, length=5)
delta(1, 2, 0, 0, 1, 5)
delta(1, MASK, 0, 0, 1, 5)
delta(1, 0, MASK, 0, 1, 5)
delta(1, 0, 0, MASK, 1, 5)
set_weight(1, TOP)
update(1, 5, 0)
update(1, 5, 1)
set_weight(1, TOP + 1)
set_weight(1, MASK)
mark(1, 1)
mark(1, 2)
mark(1, MASK)
prepared(TERMINAL)
set_weight(1, MASK)
set_weight(1, 1)
prepared()
update(1, 5, 1)
for at in range(8):  # 7 before 9 for what is read, 9 before 11
    poke(1, 1, at, TOP)
    poke_norm(1, at // 4, 4 * CAP)
update(1, 5, 1)
update(1, 5, TOP)
delta(1, 0, 0, 0, 1, 5)
delta(1, 0, 0, 0, 0, 5)
poke(1, 4, 0, TOP + 1)
update(1, 5, 1)
update(1, 5, TOP)
delta(1, 0, 0, 0, 1, 5)
use(5)
merge(5, 1)
poke(1, 4, 0, 0)
merge(5, 1)
prepared()
poke(5, 0, WEIGHT, TOP)
merge(5, 1)
poke(1, 0, WEIGHT, 0)
merge(5, 1)
poke(5, 0, MODE, TERMINAL)
merge(5, 1)
poke(5, 0, 0, 2)
merge(5, 1)
# 14 directly after 7, at both sides of its bound; what does not count is accepted at 2^52
for mode in (STANDARD, TERMINAL):
    prepared(mode)
    assert shelf[1].updates == 3
    poke(1, 0, UPDATES, TOP - 1)
    assert update(1, 5, 0, mode) == 0 and shelf[1].updates == TOP and check(1)
    other = STANDARD + TERMINAL - mode
    for w, kind, n in ((0, mode, 14), (1, mode, 14), (TOP, mode, 7), (1, other, 6), (-1, other, 5)):
        assert update(1, 5, w, kind) == n
    assert delta(1, 0, 0, 0, 1, 5) == 0 and mark(1, 0) == 0 and mark_all(1) == 0 and shelf[1].updates == TOP
    assert set_weight(1, 1) == (0 if mode == STANDARD else 6) and shelf[1].updates == TOP
    answer(1)
    assert clear(1) == 0 and shelf[1].updates == 0
    prepared(mode)
    for beyond, have, n in ((1, TOP, 14), (1, TOP - 1, 9), (0, TOP, 14), (0, TOP - 1, 11)):  # 14 before 9 for what is read, and before 11
        for l in range(2):
            for _, at, sign in shelf[1].places(l, shelf[1].hash(RECORDS[5], l)):
                poke(1, 1, at, sign * (TOP + beyond))
                poke_norm(1, at // 4, 4 * CAP)
        poke(1, 0, UPDATES, have)
        assert update(1, 5, 1, mode) == n
        assert merge(5, 1) == 14
    for have, n in ((TOP - 3, 0), (TOP - 2, 14), (TOP, 14)):
        prepared(mode)
        poke(5, 0, UPDATES, have)
        assert merge(5, 1) == n and shelf[5].updates == (TOP if n == 0 else have)
        prepared(mode)
        poke(1, 0, UPDATES, have)
        assert merge(5, 1) == n and shelf[5].updates == (TOP if n == 0 else 3)
    prepared(mode)
    poke(5, 0, UPDATES, TOP)
    poke(5, 0, WEIGHT, TOP)
    assert merge(5, 1) == 7
    poke(5, 0, MODE, other)
    assert merge(5, 1) == 6


# ---- two tiers: layers below `elephant_layers` have one table, the others another

rng = random.Random(4)  # numbers of their own, so that the calls above are what they were without


def check_new(*dims):
    """the refusal of seven dimensions; where they are refused, `new` on a relay that holds something; the oracle beside it"""
    n = shape_refusal(two_tier(*dims))
    call(20, list(dims), [n << 56])
    small = max(dims) < 1 << 13
    if n and small:
        fresh(1, 2, 1, 2, 4, 1, 2, 2)
        update(1, 5, 1)
        assert refused_new(1, *dims) == n
    elif small and dims[-1] * max(dims[2] * dims[3], dims[4] * dims[5]) <= 1 << 16:
        tell(new_line("x", dims), "panic" if panics(two_tier(*dims)) else "ok")
    return n


# both sides of every bound, in either tier, whether its layers are none, one or all
TABLES = [((0, 1), 1), ((1, 0), 1), ((20, 32), 0), ((20, 33), 3), ((9, 4096), 0), ((10, 4096), 3), ((20, 1), 0), ((21, 1), 4), ((128, 1), 4), ((129, 1), 3), ((64, 2), 4), ((65, 2), 3),
          ((1, 4096), 0), ((1, 4097), 4), ((1, MASK), 4), ((2, MASK), 3), ((MASK, 1), 3), ((MASK, MASK), 3), ((1 << 63, 2), 3), ((0, MASK), 1)]
for elephants, layers in ((0, 1), (1, 1), (1, 2), (2, 2), (19, 2), (19, 19), (0, 19)):
    for table, n in TABLES:
        assert check_new(2, elephants, *table, 2, 4, layers) == n and check_new(2, elephants, 2, 4, *table, layers) == n
for heap, elephants, layers, n in ((0, 0, 1, 1), (1, 0, 0, 1), (1, 0, 1, 0), (1, 19, 1, 0), (1, 20, 1, 2), (1, 19, 19, 0), (1, 0, 20, 2), (1, 20, 20, 2), (1, MASK, 1, 2), (1, 0, MASK, 2),
                                   (1024, 1, 2, 0), (1025, 1, 2, 4), (MASK, 1, 2, 4), (0, 20, 20, 1), (1, 20, 0, 1), (0, MASK, MASK, 1)):
    assert check_new(heap, elephants, 1, 1, 1, 1, layers) == n
# each of 1 to 4 over both tiers before the next
NONE, BITS, ABOVE = (0, 1), (20, 33), (21, 1)
for one, other, n in ((BITS, NONE, 1), (ABOVE, NONE, 1), (ABOVE, BITS, 3), (ABOVE, ABOVE, 4), ((2, 4), NONE, 1), ((2, 4), BITS, 3), ((2, 4), ABOVE, 4)):
    for first, second in ((one, other), (other, one)):
        for elephants in (0, 1, 19):
            assert check_new(2, elephants, *first, *second, 2) == n and check_new(1025, elephants, *first, *second, 2) == n and check_new(0, elephants, *first, *second, 2) == 1
        for elephants, layers in ((20, 2), (0, 20), (20, 20)):
            assert check_new(1025, elephants, *first, *second, layers) == min(n, 2)
# 9 where the dimensions are right, and the lengths are not: none, some and all of the layers wide
for elephants in (0, 1, 2, 3, 19):
    dims = (2, elephants, 2, 4, 3, 2, 3)
    fresh(1, *dims)
    update(1, 5, 1)
    n = shelf[1].lengths()
    for k in range(4):
        for by in (-1, 1):
            r = use(1)
            lent(r, [x + by * (j == k) for j, x in enumerate(n)])
            assert refused_new(1, *dims) == 9
            lent(r, n)
            new_call(dims, left(r, r.new(two_tier(*dims))))
    # slices of the layers alike in either way, or of the other order, are of other lengths
    for wrong in (two_tier(2, 0, 3, 2, 3, 2, 3), two_tier(2, 3, 2, 4, 2, 4, 3), two_tier(2, elephants, 3, 2, 2, 4, 3)):
        r = use(1)
        r.shape = wrong
        lengths = r.lengths()
        r.shape = two_tier(*dims)
        if lengths != n:
            lent(r, lengths)
            assert refused_new(1, *dims) == 9
            lent(r, n)
            new_call(dims, left(r, r.new(two_tier(*dims))))


def tiers(limit=600):
    """seven dimensions that are accepted: no layer of the first tier, some, all, and more than there are"""
    while True:
        heap, layers = rng.choice([1, 2, 3, 4, 5, 8, 16]), rng.choice([1, 2, 3, 4, 6, 8])
        tables = [rng.choice([1, 2, 3, 4, 5, 8, 20]) if k % 2 == 0 else rng.choice([1, 2, 3, 4, 5, 8, 13, 32]) for k in range(4)]
        dims = heap, rng.choice([0, rng.randrange(layers + 1), layers, layers + 1, 19]), *tables, layers
        r = Relay()
        r.shape = two_tier(*dims)
        if not shape_refusal(r.shape) and r.lengths()[0] <= limit:
            return dims


# 1 to 19 layers, standard and terminal, the first tier ending at each kind of place
for layers in range(1, 20):
    for mode in (STANDARD, TERMINAL):
        for elephants in (rng.choice([0, layers, 19]), rng.randrange(layers + 1)):
            fresh(1, rng.choice([2, 3, 4, 8]), elephants, rng.choice([1, 2, 3]), rng.choice([3, 4, 8, 16]), rng.choice([1, 2, 3]), rng.choice([1, 2, 3, 4]), layers)
            answer(1)
            for _ in range(10):
                update(1, rng.choice(KEYS[:12]), rng.choice([0, 1, 2, 5, 1000]), mode)
            answer(1)
# layer by layer: a key in each layer of a terminal relay, and where its words stand
for elephants in (0, 2, 4, 5):
    r = fresh(1, 1, elephants, 2, 4, 1, 8, 4)
    for l in range(4):
        force(MADE_UP[l], (2 << l) - 2, [(3 << 126) + (l << 2 | l if k < elephants else l) for k in range(4)])
        assert update(1, MADE_UP[l], 10 + l, TERMINAL) == 0
    for l in range(4):
        assert [r.row(l, k) for k in range(r.rows(l))] == [[10 + l if c == l else 0 for c in range(r.cols(l))]] * r.rows(l)
        assert [r.norm(l, k) for k in range(r.rows(l))] == [(10 + l) ** 2] * r.rows(l) and seated(r, l) == [(MADE_UP[l], 10 + l)]
    answer(1)
    assert r.l2() == (0, math.sqrt(sum((10 + l) ** 2 for l in range(4)))) and r.l1() == (0, 46.0)

# who was pushed out: all four things in each layer of either tier, with lists one word short, exact and one word longer
for layers in (1, 2, 5, 19):
    for mode in (STANDARD, TERMINAL):
        for elephants in sorted({0, layers // 2, layers, 19}):
            r = fresh(1, 1, elephants, 1, 4, 1, 2, layers)
            exact = 2 * layers
            for bottom in [layers - 1] if mode == STANDARD else range(layers):
                a, b = PAIRS[bottom]
                touched = range(layers) if mode == STANDARD else [bottom]
                for key, w, did in ((a, 5, [SEATED, 0]), (a, 1, [RESCORED, 0]), (b, 6, [TURNED_AWAY, 0]), (b, 1, [DISPLACED, a]), (a, 0, [TURNED_AWAY, 0])):
                    assert update(1, key, w, mode, lists=[exact - 1, exact + (w == 6)]) == 0
                    assert r.told[:exact] == [x for l in range(layers) for x in (did if l in touched else [0, 0])]
            assert not any(r.flags) and r.sound()

# random calls on three relays of one shape, as they come
for run in range(24):
    dims = tiers()
    heap, layers = dims[0], dims[-1]
    keys = KEYS
    if rng.random() < 0.5:
        forced(layers)
        keys = MADE_UP
    keys = rng.sample(keys, min(len(keys), rng.choice([2, heap, heap + 1, 3 * heap, 40])))
    for i in (1, 2, 3):
        fresh(i, *dims)
    habit = rng.choice([STANDARD, TERMINAL, 0])
    size = rng.choice([1, 3, 1000, 1 << 31, 1 << 36, 1 << 46])
    for _ in range(40):
        i, key = rng.choice((1, 2, 3)), rng.choice(keys)
        what = rng.random()
        if what < 0.8:
            update(i, key, -1 if rng.random() < 0.02 else rng.randint(0, size), habit or rng.choice([STANDARD, TERMINAL]))
        elif what < 0.97:
            merge(i, rng.choice([j for j in (1, 2, 3) if j != i]))
        else:
            clear(i)
        if rng.random() < 0.1:
            answer(i)
    for i in (1, 2, 3):
        answer(i)

# weights through the cap and to 2^52, in layers of either tier
for elephants, first, second, layers in ((0, (2, 4), (1, 1), 1), (1, (1, 1), (2, 4), 1), (1, (3, 5), (2, 2), 3), (2, (2, 2), (3, 5), 3), (19, (2, 4), (1, 1), 2)):
    for mode in (STANDARD, TERMINAL):
        fresh(1, 3, elephants, *first, *second, layers)
        for w in (EDGE - 1, 1, 1, 1, TOP - EDGE - 3, 1, 1, 0):
            update(1, 5, w, mode)
            answer(1)
        assert update(1, 6, 1, mode) == 7

# the source's default, with fewer columns
fresh(1, 32, 8, 3, 256, 3, 64, 16)
fresh(2, 32, 8, 3, 256, 3, 64, 16)
for key in KEYS:
    update(rng.choice((1, 2)), key, rng.choice([1, 2, 50, 1000]))
assert merge(1, 2) == 0
answer(1)

# merges: a stream cut into shares, merged in a chain and as a tree, with an empty share, held against one relay
for run in range(12):
    mode = rng.choice([STANDARD, TERMINAL])
    dims = tiers(300)
    heap = dims[0]
    keys = rng.sample(KEYS, min(60, rng.choice([1, heap, heap + 1, 2 * heap + 1])))
    stream = [(rng.choice(keys), rng.choice([0, 1, 7, 1 << 20, rng.randrange(1 << 40)])) for _ in range(24)]
    for i in (1, 2, 3, 4, 5):
        fresh(i, *dims)
    for key, w in stream:
        update(rng.choice((2, 3, 4)), key, w, mode)
    rng.shuffle(stream)
    for key, w in stream:
        update(1, key, w, mode)
    chain, tree = [(5, 2), (5, 3), (5, 4)], [(3, 4), (2, 3), (2, 5)]
    for i, j in chain if run % 2 else tree:
        assert merge(i, j) == 0
    whole = 5 if run % 2 else 2
    assert same(whole, 1) and same(1, whole)
    for i in (whole, 1):
        found = answer(i)
        if len({key for key, _ in stream}) <= heap:
            assert found[2] == (0, float(len({key for key, _ in stream})))
    fresh(6, *dims)
    update(6, keys[0], 1, STANDARD + TERMINAL - mode)
    assert merge(6, 1) == 6 and merge(1, 6) == 6
# 10 where any of the seven differs, one that no layer uses too, and before 6
for elephants in (0, 1, 2, 3, 19):
    dims = (2, elephants, 2, 4, 3, 2, 2)
    fresh(1, *dims)
    update(1, 5, 1)
    for k in range(7):
        other = list(dims)
        other[k] += -1 if other[k] == 19 else 1
        fresh(6, *other)
        assert merge(6, 1) == 10 and merge(1, 6) == 10
        update(6, 5, 1, TERMINAL)
        assert merge(6, 1, lists=[0]) == 10 and merge(1, 6, lists=[0]) == 10

# tiers that are alike are one tier, state for state: what both relays hold is the same but for the dimensions
def alike(i, j):
    a, b = shelf[i], shelf[j]
    assert a.words()[WEIGHT:] == b.words()[WEIGHT:] and (a.counters, a.norms, a.entries, a.counts) == (b.counters, b.norms, b.entries, b.counts)


for run in range(6):
    heap, rows, cols, layers = shape(300)
    for elephants in (0, rng.randrange(layers + 1), 19):
        for i in (1, 2):
            fresh(i, heap, rows, cols, layers)
            fresh(i + 2, heap, elephants, rows, cols, rows, cols, layers)
        mode = rng.choice([STANDARD, TERMINAL])
        for _ in range(10):
            i, key, w = rng.choice((1, 2)), rng.choice(KEYS[:20]), rng.choice([0, 1, 5, 1 << 33, -1])
            assert update(i, key, w, mode) == update(i + 2, key, w, mode)
            assert shelf[i].told[:2 * layers] == shelf[i + 2].told[:2 * layers]
            alike(i, i + 2)
        exact = 4 * heap * layers
        assert merge(1, 2, lists=[exact]) == merge(3, 4, lists=[exact]) == 0 and shelf[1].told == shelf[3].told
        alike(1, 3)
        assert answer(1) == answer(3)
        shelf[1].name = shelf[4].name = None  # the oracle has two types
        assert merge(1, 4) == (0 if elephants == 0 else 10) and merge(4, 1) == (0 if elephants == 0 else 10)

# ---- and the refusals of two tiers

def all_calls(i):
    """every call of two tiers on one relay, on a copy of it"""
    for attempt in (lambda: update(6, 5, 1), lambda: update(6, 5, 1, TERMINAL), lambda: clear(6), lambda: merge(6, 5), lambda: merge(5, 6)):
        twin(i, 6)
        attempt()
    use(i)
    answer(i)


def two_prepared(elephants, mode=STANDARD):
    """at 1 and 5 the same small relay, which is kept at 2"""
    if shelf[2].shape != two_tier(3, elephants, 2, 4, 1, 8, 3) or shelf[2].mode != mode:
        fresh(2, 3, elephants, 2, 4, 1, 8, 3)
        for key in (5, 6, 10):
            update(2, key, key, mode)
    for i in (1, 5):
        twin(2, i)


often = 0.25
# 9 for the header: each dimension at its bound and past it, whether a layer uses it or not
for elephants in (0, 1, 4):
    for at, good, bad in ((HEAP, 3, 0), (HEAP, 3, 1025), (LAYERS, 3, 0), (LAYERS, 3, 20), (LAYERS, 3, 2), (ELEPHANT_LAYERS, 19, 20), (ELEPHANT_LAYERS, 0, MASK), (ELEPHANT_LAYERS, elephants, elephants + 1),
                          (ELEPHANT_ROWS, 2, 0), (ELEPHANT_ROWS, 20, 21), (ELEPHANT_ROWS, 1, 3), (ELEPHANT_COLS, 4, 0), (ELEPHANT_COLS, 4096, 4097), (ELEPHANT_COLS, 3, 5),
                          (MOUSE_ROWS, 1, 0), (MOUSE_ROWS, 20, 21), (MOUSE_ROWS, 1, 2), (MOUSE_COLS, 8, 0), (MOUSE_COLS, 4096, 4097), (MOUSE_COLS, 7, 9),
                          (WEIGHT, TOP, TOP + 1), (UPDATES, TOP, TOP + 1), (LENS + 2, 3, 4), (LENS + 3, 0, 1), (FLAGS + 3, 0, 1)):
        two_prepared(elephants)
        for x in (good, bad):
            poke(1, 0, at, x)
            all_calls(1)
            check(1)
# 9 for lengths
for elephants in (0, 2, 3):
    for k in range(4):
        for by in (-1, 1):
            two_prepared(elephants)
            r = use(1)
            lent(r, [x + by * (j == k) for j, x in enumerate(r.lengths())])
            all_calls(1)
# 9 for what is read: a counter and a norm of either tier, at its own layer's bound, a count
for mode in (STANDARD, TERMINAL):
    for elephants in (1, 2):
        two_prepared(elephants, mode)
        r = shelf[1]
        for l in range(3):
            first = r.rows_before(l)
            for row in range(r.rows(l)):
                for n in (r.cols(l) * CAP, r.cols(l) * CAP + 1):
                    two_prepared(elephants, mode)
                    poke_norm(1, first + row, n)
                    all_calls(1)
        for l in range(3):
            for x in (TOP, TOP + 1, -TOP - 1):
                two_prepared(elephants, mode)
                r = shelf[1]
                for row, at, _ in r.places(l, r.hash(RECORDS[5], l)):
                    poke(1, 1, at, x)
                    poke_norm(1, r.rows_before(l) + row, r.cols(l) * CAP)
                all_calls(1)
                two_prepared(elephants, mode)
                poke(1, 4, 3 * l, x)
                all_calls(1)
# the state check of either tier: a norm that is not its row's, a counter, an unused entry
for elephants in (0, 1, 3):
    two_prepared(elephants)
    assert check(1)
    r = use(1)
    for slice, at in [(1, at) for at in range(0, len(r.counters), 5)] + [(2, at) for at in range(len(r.norms))] + [(3, len(r.entries) - 1), (4, len(r.counts) - 1)]:
        had = [None, r.counters, r.norms, r.entries, r.counts][slice][at]
        poke(1, slice, at, had + 1)
        assert not check(1)
        poke(1, slice, at, had)
        assert check(1)
# the order: 9, 12, 5, 6, 7, 14, 9 for what is read, 11, 16; in a merge 9, 10, 6, 7, 14, 9, 11, 16; each also with a list that is too short
often = 1
for elephants in (0, 1, 3):
    for mode in (STANDARD, TERMINAL):
        other = STANDARD + TERMINAL - mode
        two_prepared(elephants, mode)
        b = bottom_layer(RECORDS[5][1], 3)

        def heavy(i, by):
            r = use(i)
            for l in range(3):
                for row, at, sign in r.places(l, r.hash(RECORDS[5], l)):
                    poke(i, 1, at, sign * (TOP + by))
                    poke_norm(i, r.rows_before(l) + row, r.cols(l) * CAP)

        heavy(1, 1)
        for at, x in ((WEIGHT, TOP), (UPDATES, TOP), (ELEPHANT_LAYERS, 20)):
            poke(1, 0, at, x)
        assert update(1, 5, -1, other, 7, lists=[0]) == 9 and merge(5, 1, lists=[0]) == 9 and merge(1, 5, lists=[0]) == 9
        poke(1, 0, ELEPHANT_LAYERS, elephants)
        for length in (0, 7, 9, 40):
            assert update(1, 5, -1, other, length, lists=[0]) == 12
        for w, kind, n in ((-1, other, 5), (-(1 << 63), other, 5), (1, other, 6), (1, mode, 7), ((1 << 63) - 1, mode, 7), (0, mode, 14)):
            assert update(1, 5, w, kind, lists=[0]) == n
        poke(5, 0, MODE, other)
        assert merge(5, 1, lists=[0]) == 6
        poke(5, 0, ELEPHANT_ROWS if elephants == 0 else MOUSE_ROWS if elephants == 3 else HEAP, 1 if elephants == 0 else 2 if elephants == 3 else 3)
        assert merge(5, 1, lists=[0]) == (6 if elephants == 1 else 10)
        two_prepared(elephants, mode)
        heavy(1, 1)
        poke(5, 0, WEIGHT, TOP)
        poke(5, 0, UPDATES, TOP)
        assert merge(5, 1, lists=[0]) == 7
        poke(5, 0, WEIGHT, 0)
        assert merge(5, 1, lists=[0]) == 14
        poke(5, 0, UPDATES, TOP - 3)
        assert update(1, 5, 1, mode, lists=[0]) == 9 and merge(5, 1, lists=[0]) == 9 and merge(1, 5, lists=[0]) == 9
        heavy(1, 0)
        assert update(1, 5, 1, mode, lists=[0]) == 11 and merge(5, 1, lists=[0]) == (11 if any(x for x in shelf[5].counters) else 16)
        assert update(1, 5, 0, mode, lists=[5, 6]) == 0
        two_prepared(elephants, mode)
        poke(5, 0, UPDATES, TOP - 3)
        assert merge(5, 1, lists=[35, 36]) == 0 and shelf[5].updates == TOP
        two_prepared(elephants, mode)
        poke(1, 0, UPDATES, TOP - 1)
        assert update(1, 5, 0, mode, lists=[0, 5, 7]) == 0 and update(1, 5, 0, mode, lists=[7]) == 14 and clear(1) == 0 and shelf[1].updates == 0


def agree(want, have):
    if want is None:
        return have.startswith("refused")
    if callable(want):
        return want(have)
    if isinstance(want, int):
        return int(have, 16) % (1 << 63) == want % (1 << 63) if want % (1 << 63) == 0 else int(have, 16) == want
    return want == have


for (line, want), have in zip(script, oracle([line for line, _ in script])):
    assert agree(want, have), (line, want, have)
print(f"the oracle agrees with {len(script)} lines")
store("replay", inputs, answers)
