"""Document 01's words once more, and 02's as far as they have landed, on slices: what every call answers and leaves, refusals included.

A shape is seven dimensions, as `UnivMonTwoTier` has them: rows and columns by layer, offsets as sums over the layers before. `UnivMon`'s four are
those of a shape whose tiers are alike (`one_tier`), so that there is one model of both.

The stored results of `replay` come from here wherever the oracle cannot be asked (refusals 4, 7, 9, 11, 12, 14, 16, the number of updates, states set by hand);
everything else is held against the oracle, call by call (`replay.py`). Texts of states are written and read here only: the Rust has none. Nor has it
lists of what was done; they are held against its candidates before and after a call, and its true and false.
"""
import math
import re
import struct

TOP, CAP, MASK, PRIME = 1 << 52, 1 << 63, (1 << 64) - 1, 4294967291
UNSET, STANDARD, TERMINAL = 0, 1, 2
RESCORED, SEATED, DISPLACED, TURNED_AWAY = 1, 2, 3, 4  # what an offer did; the Rust's true is the first two
DIMENSIONS = 7  # heap, layers, elephant layers, elephant rows and cols, mouse rows and cols
HEAD_WORDS = DIMENSIONS + 41  # and then weight, updates, mode, 19 flags, 19 lengths


def bits(x):
    return struct.unpack("<Q", struct.pack("<d", float(x) + 0.0))[0]


def median(values):
    v, n = sorted(values), len(values)
    return v[n // 2] if n % 2 else (v[n // 2 - 1] + v[n // 2]) / 2.0


def capped(x):
    return min(x * x, CAP)


def mask_bits(cols):
    return (cols - 1).bit_length()


def cell(h, row, cols):
    m = mask_bits(cols)
    return (h >> (row * m)) % (1 << m) % cols, 1 if h >> (127 - row) & 1 else -1


def two_tier(heap, elephant_layers, elephant_rows, elephant_cols, mouse_rows, mouse_cols, layers):
    """a shape, from its dimensions in the order of the source's `new`"""
    return [heap, layers, elephant_layers, elephant_rows, elephant_cols, mouse_rows, mouse_cols]


def one_tier(heap, rows, cols, layers):
    """a shape whose layers are alike, from `UnivMon`'s dimensions: no layer is of the first tier"""
    return two_tier(heap, 0, rows, cols, rows, cols, layers)


def is_one_tier(shape):
    heap, layers, _, _, _, rows, cols = shape
    return shape == one_tier(heap, rows, cols, layers)


def shape_refusal(shape):
    """each number is judged over both tiers before the next, used by a layer or not"""
    heap, layers, elephant_layers, *sides = shape
    tiers = [sides[:2], sides[2:]]
    if 0 in (heap, layers, *sides):
        return 1
    if max(layers, elephant_layers) > 19:
        return 2
    if any((mask_bits(cols) + 1) * rows > 128 for rows, cols in tiers):
        return 3
    return 4 if heap > 1024 or any(rows > 20 or cols > 4096 for rows, cols in tiers) else 0


def bottom_layer(hash, layers):
    for l in range(1, layers):
        if not hash >> l & 1:
            return l - 1
    return layers - 1


def blanked(told, words):
    """whether a list has so many words, which are zeros then"""
    if len(told) < words:
        return False
    told[:words] = [0] * words
    return True


class Relay:
    """a header and four slices, as they are lent"""

    def __init__(self):
        self.shape, self.weight, self.updates, self.mode = [0] * DIMENSIONS, 0, 0, UNSET
        self.flags, self.lens = [False] * 19, [0] * 19
        self.counters, self.norms, self.entries, self.counts = [], [], [], []

    def copy(self):
        r = Relay()
        r.shape, r.weight, r.updates, r.mode, r.flags, r.lens = list(self.shape), self.weight, self.updates, self.mode, list(self.flags), list(self.lens)
        r.counters, r.norms, r.entries, r.counts = list(self.counters), list(self.norms), list(self.entries), list(self.counts)
        return r

    # ---- dimensions

    @property
    def heap(self):
        return self.shape[0]

    @property
    def layers(self):
        return self.shape[1]

    def rows(self, l):
        return self.shape[3 if l < self.shape[2] else 5]

    def cols(self, l):
        return self.shape[4 if l < self.shape[2] else 6]

    def rows_before(self, l):
        """of the layers before this one; so are the cells"""
        return sum(self.rows(i) for i in range(l))

    def cells_before(self, l):
        return sum(self.rows(i) * self.cols(i) for i in range(l))

    # ---- lengths and header

    def lengths(self):
        return [self.cells_before(self.layers), 2 * self.rows_before(self.layers), 4 * self.layers * self.heap, self.layers * self.heap]

    def sound(self):
        heap, layers = self.heap, self.layers
        if shape_refusal(self.shape) or self.weight > TOP or self.updates > TOP:
            return False
        if any(n > heap for n in self.lens[:layers]) or any(self.lens[layers:]) or any(self.flags[layers:]):
            return False
        return [len(self.counters), len(self.norms), len(self.entries), len(self.counts)] == self.lengths()

    def head_sound(self):
        other = self.copy()
        n = other.lengths() if not shape_refusal(other.shape) else [0] * 4
        other.counters, other.norms, other.entries, other.counts = [0] * n[0], [0] * n[1], [0] * n[2], [0] * n[3]
        return other.sound()

    def norms_sound(self):
        return self.head_sound() and len(self.norms) == self.lengths()[1]

    # ---- a layer

    def at(self, l, r, c):
        return self.cells_before(l) + r * self.cols(l) + c

    def places(self, l, h):
        found = [cell(h, r, self.cols(l)) for r in range(self.rows(l))]
        return [(r, self.at(l, r, c), s) for r, (c, s) in enumerate(found)]

    def row(self, l, r):
        """a row's counters"""
        return self.counters[self.at(l, r, 0):self.at(l, r + 1, 0)]

    def norm(self, l, r):
        i = 2 * (self.rows_before(l) + r)
        return self.norms[i] + (self.norms[i + 1] << 64)

    def put_norm(self, l, r, n):
        i = 2 * (self.rows_before(l) + r)
        self.norms[i], self.norms[i + 1] = n & MASK, n >> 64

    def read(self, l, r, at):
        n = self.norm(l, r)
        return abs(self.counters[at]) <= TOP and capped(self.counters[at]) <= n <= self.cols(l) * CAP

    def add(self, l, r, at, d):
        x = self.counters[at]
        self.put_norm(l, r, self.norm(l, r) - capped(x) + capped(x + d))
        self.counters[at] = x + d

    def counts_read(self, l):
        a = l * self.heap
        return all(abs(n) <= TOP for n in self.counts[a:a + self.lens[l]])

    # what an index changes (`indexed.py`): what is lent, what finding a key reads, what its moves read, and what emptying a layer leaves

    def lent_sound(self):
        return self.sound()

    def key_read(self, l, key):
        return self.counts_read(l)

    def moves_read(self, l, words, changes):
        """of an update or a delta that adds these numbers to these places"""
        return True

    def empty(self, l):
        heap = self.heap
        self.lens[l] = 0
        self.entries[4 * l * heap:4 * (l + 1) * heap], self.counts[l * heap:(l + 1) * heap] = [0] * (4 * heap), [0] * heap

    def estimate_reads(self, l, h):
        return all(abs(self.counters[at]) <= TOP for _, at, _ in self.places(l, h))

    def count(self, l, h):
        return int(median([float(s * self.counters[at]) for _, at, s in self.places(l, h)]))

    # ---- candidates

    def entry(self, l, i):
        a = 4 * (l * self.heap + i)
        return self.entries[a:a + 4]

    def swap(self, l, i, j):
        a, b = l * self.heap + i, l * self.heap + j
        self.entries[4 * a:4 * a + 4], self.entries[4 * b:4 * b + 4] = self.entries[4 * b:4 * b + 4], self.entries[4 * a:4 * a + 4]
        self.counts[a], self.counts[b] = self.counts[b], self.counts[a]

    def put(self, l, i, entry, n):
        a = l * self.heap + i
        self.entries[4 * a:4 * a + 4], self.counts[a] = entry, n

    def down(self, l, i):
        a, start = l * self.heap, i
        while True:
            t = i
            for child in (2 * i + 1, 2 * i + 2):
                if child < self.lens[l] and self.counts[a + child] < self.counts[a + t]:
                    t = child
            if t == i:
                return i != start
            self.swap(l, i, t)
            i = t

    def up(self, l, i):
        a = l * self.heap
        while i and self.counts[a + i] < self.counts[a + (i - 1) // 2]:
            self.swap(l, i, (i - 1) // 2)
            i = (i - 1) // 2

    def offer(self, l, entry, n):
        """a place of a list: what was done, and the displaced key or 0"""
        a = l * self.heap
        for i in range(self.lens[l]):
            if self.entries[4 * (a + i)] == entry[0]:
                self.counts[a + i] = n
                if not self.down(l, i):
                    self.up(l, i)
                return [RESCORED, 0]
        if self.lens[l] < self.heap:
            self.lens[l] += 1
            self.put(l, self.lens[l] - 1, entry, n)
            self.up(l, self.lens[l] - 1)
            return [SEATED, 0]
        if n <= self.counts[a]:
            return [TURNED_AWAY, 0]
        gone = self.entries[4 * a]
        self.put(l, 0, entry, n)
        self.down(l, 0)
        return [DISPLACED, gone]

    # ---- lists of what was done: the words of all layers' places, two a place

    def list_words(self):
        """of an update or a delta: a place a layer"""
        return 2 * self.layers

    def merge_words(self):
        """of a merge: for each layer twice the heap size in places"""
        return 4 * self.heap * self.layers

    # ---- the calls: each answers the number of its refusal, 0 for none; `told` is the list that both updates, the delta and the merge are lent

    def new(self, shape):
        n = shape_refusal(shape)
        fresh = Relay()
        fresh.shape = list(shape)
        if not n and [len(self.counters), len(self.norms), len(self.entries), len(self.counts)] != fresh.lengths():
            n = 9
        self.shape, self.weight, self.updates, self.mode = [0] * DIMENSIONS if n else fresh.shape, 0, 0, UNSET
        self.flags, self.lens = [not n and l < self.layers for l in range(19)], [0] * 19
        if not n:
            self.zero()
        return n

    def zero(self):
        a, b, c, d = self.lengths()
        self.counters, self.norms, self.entries, self.counts = [0] * a, [0] * b, [0] * c, [0] * d

    def clear(self):
        return self.new(self.shape) if self.sound() else 9

    def hash(self, words, l):
        return words[2 + 2 * l] << 64 | words[3 + 2 * l]

    def entry_of(self, words, l):
        return [words[0], words[1], words[2 + 2 * l], words[3 + 2 * l]]

    def update(self, words, w, mode, told):
        if not self.lent_sound():
            return 9
        if len(words) != 2 + 2 * self.layers:
            return 12
        if w < 0:
            return 5
        if self.mode not in (UNSET, mode):
            return 6
        if self.weight + w > TOP:
            return 7
        if self.updates + 1 > TOP:
            return 14
        b = bottom_layer(words[1], self.layers)
        sent = [(l, self.places(l, self.hash(words, l))) for l in range(0 if mode == STANDARD else b, b + 1)]
        if not all(self.key_read(l, words[0]) and all(self.read(l, r, at) for r, at, _ in places) for l, places in sent):
            return 9
        if any(abs(self.counters[at] + s * w) > TOP for _, places in sent for _, at, s in places):
            return 11
        if not all(self.moves_read(l, words, [(at, s * w) for _, at, s in places]) for l, places in sent):
            return 9
        if not blanked(told, self.list_words()):
            return 16
        self.mode, self.weight, self.updates = mode, self.weight + w, self.updates + 1
        for l, places in sent:
            for r, at, s in places:
                self.add(l, r, at, s * w)
            told[2 * l:2 * l + 2] = self.offer(l, self.entry_of(words, l), self.count(l, self.hash(words, l)))
            self.flags[l] = self.flags[l] and told[2 * l] < DISPLACED
        return 0

    def delta(self, l, row, col, n, words, promoted_only, told):
        if not self.lent_sound():
            return 9
        if len(words) != 2 + 2 * self.layers:
            return 12
        if l >= self.layers or row >= self.rows(l) or col >= self.cols(l):
            return 8
        at = self.at(l, row, col)
        if not (self.read(l, row, at) and self.key_read(l, words[0]) and self.estimate_reads(l, self.hash(words, l))):
            return 9
        if abs(self.counters[at] + n) > TOP:
            return 11
        if not self.moves_read(l, words, [(at, n)]):
            return 9
        if not blanked(told, self.list_words()):
            return 16
        self.mode = self.mode or STANDARD
        self.add(l, row, at, n)
        told[2 * l:2 * l + 2] = self.offer(l, self.entry_of(words, l), self.count(l, self.hash(words, l)))
        self.flags[l] = self.flags[l] and told[2 * l] < DISPLACED and not promoted_only
        return 0

    def set_total_weight(self, w):
        if not self.head_sound():
            return 9
        if self.mode == TERMINAL:
            return 6
        if w > TOP:
            return 7
        self.weight, self.mode = w, self.mode or STANDARD
        return 0

    def mark(self, l):
        if not self.head_sound():
            return 9
        if l >= self.layers:
            return 8
        self.flags[l] = False
        return 0

    def mark_all(self):
        if not self.head_sound():
            return 9
        self.flags = [False] * 19
        return 0

    def merge(self, o, told):
        if not self.lent_sound() or not o.sound():
            return 9
        if self.shape != o.shape:
            return 10
        if self.mode and o.mode and self.mode != o.mode:
            return 6
        if self.weight + o.weight > TOP:
            return 7
        if self.updates + o.updates > TOP:
            return 14
        heap, layers = self.heap, self.layers
        if any(abs(x) > TOP for x in self.counters + o.counters) or not all(r.counts_read(l) for r in (self, o) for l in range(layers)):
            return 9
        if any(abs(x + y) > TOP for x, y in zip(self.counters, o.counters)):
            return 11
        if not blanked(told, self.merge_words()):
            return 16
        self.counters = [x + y for x, y in zip(self.counters, o.counters)]
        self.weight, self.updates, self.mode = self.weight + o.weight, self.updates + o.updates, self.mode or o.mode
        for l in range(layers):
            for r in range(self.rows(l)):
                self.put_norm(l, r, sum(map(capped, self.row(l, r))))
            first = {}
            for e in [self.entry(l, i) for i in range(self.lens[l])] + [o.entry(l, i) for i in range(o.lens[l])]:
                first.setdefault(e[0], e)
            self.flags[l] = self.flags[l] and o.flags[l] and len(first) <= heap
            self.empty(l)
            for place, e in enumerate(first.values(), 2 * heap * l):
                told[2 * place:2 * place + 2] = self.offer(l, e, self.count(l, e[2] << 64 | e[3]))
        return 0

    # ---- answers: (refusal, value)

    def norms_read(self, layers):
        return all(self.norm(l, r) <= self.cols(l) * CAP for l in layers for r in range(self.rows(l)))

    def l2_squared(self, l):
        return median([float(min(self.norm(l, r), CAP - 1)) for r in range(self.rows(l))])

    def l1(self):
        return (0, float(self.weight)) if self.head_sound() else (9, 0.0)

    def l2(self):
        if not self.norms_sound():
            return 9, 0.0
        layers = range(self.layers) if self.mode == TERMINAL else [0]
        if not self.norms_read(layers):
            return 9, 0.0
        total = 0.0
        for l in layers:
            total += self.l2_squared(l)
        return 0, math.sqrt(total)

    def candidates(self, l):
        for i in range(self.lens[l]):
            e = self.entry(l, i)
            yield e[0], e[1], e[2] << 64 | e[3]

    def g_sum(self, g, every):
        if not self.sound():
            return 9, 0.0
        if self.weight == 0 and not every:
            return 0, 0.0
        layers = range(self.layers)
        if not all(self.counts_read(l) and all(self.estimate_reads(l, h) for _, _, h in self.candidates(l)) for l in layers):
            return 9, 0.0
        if self.mode == TERMINAL and not self.norms_read(layers):
            return 9, 0.0
        return 0, self.terminal(g, every) if self.mode == TERMINAL else self.standard(g, every)

    def standard(self, g, every):
        last, y = self.layers - 1, 0.0
        for l in range(last, -1, -1):
            t = 0.0
            for _, bottom, h in self.candidates(l):
                n = self.count(l, h)
                if every or n > 0:
                    t += (1.0 if l == last else 1.0 - 2.0 * (bottom >> (l + 1) & 1)) * g(float(n))
            y = t if l == last else 2.0 * y + t
        return y

    def terminal(self, g, every):
        heap, last = self.heap, self.layers - 1
        y, suffix, whole, held = 0.0, 0.0, True, {}
        for l in range(last, -1, -1):
            whole = whole and self.flags[l]
            for key, bottom, h in self.candidates(l):
                n = self.count(l, h)
                held[key] = (max(held[key][0], n), held[key][1]) if key in held else (n, bottom)
            kept = sorted((-n, b, k) for k, (n, b) in held.items())
            complete = whole and len(kept) <= heap
            kept = kept[:heap]
            held = {k: (-n, b) for n, b, k in kept}
            root = math.sqrt(self.l2_squared(l))
            suffix += root * root
            threshold = 0 if complete else int(math.sqrt(suffix) / math.sqrt(float(heap)))
            t = 0.0
            for n, b, _ in kept:
                if every or -n > threshold:
                    t += (1.0 if l == last else 1.0 - 2.0 * (b >> (l + 1) & 1)) * g(float(-n))
            y = t if l == last else 2.0 * y + t
        return y

    # ---- the state check

    def check(self):
        if not self.sound() or any(abs(x) > TOP for x in self.counters):
            return False
        heap = self.heap
        for l in range(self.layers):
            for r in range(self.rows(l)):
                if self.norm(l, r) != sum(map(capped, self.row(l, r))):
                    return False
            a = l * heap
            for i in range(heap):
                if i < self.lens[l]:
                    if abs(self.counts[a + i]) > TOP or self.counts[a + i] < self.counts[a + max(0, i - 1) // 2]:
                        return False
                elif any(self.entry(l, i)) or self.counts[a + i]:
                    return False
        return True

    # ---- what a reader compares

    def words(self, shape=None):
        """the header as words; `shape` is how the reader has the dimensions, if not all seven"""
        return (shape or self.shape) + [self.weight, self.updates, self.mode] + [int(f) for f in self.flags] + self.lens

    def digest(self, told=(), shape=None):
        """of the state, and of a list behind it"""
        d = 0
        for x in [*self.words(shape), *self.counters, *self.norms, *self.entries, *self.counts, *told]:
            d = (d * 65599 + (x & MASK) % PRIME) % PRIME
        return d

    def text(self):
        """the oracle's line for this state; the number of updates is not in it, since the original has none"""
        out = "state weight=%d mode=%d flags=%s" % (self.weight, self.mode, "".join("01"[f] for f in self.flags[:self.layers]))
        for l in range(self.layers):
            rows_text = ";".join(",".join(map(str, self.row(l, r))) for r in range(self.rows(l)))
            norms = ",".join(str(self.norm(l, r)) for r in range(self.rows(l)))
            cands = ",".join("%d:%d" % (self.entry(l, i)[0], self.counts[l * self.heap + i]) for i in range(self.lens[l]))
            out += " | %d counters=%s norms=%s cand=%s" % (l, rows_text, norms, cands)
        return out


G = {"one": lambda x: 1.0, "value": lambda x: x, "square": lambda x: x * x}


# ---- states carried home as text (02, W2)

NUMBER, SIGNED = rb"(0|[1-9][0-9]{0,19})", rb"(0|-?[1-9][0-9]{0,19})"  # a longer one is past 64 bits
PAIR = rb" \(" + NUMBER + b" " + SIGNED + rb"\)"


def line(word, *fields):
    return rb"\(" + word + b"".join(b" " + f for f in fields) + rb"\)\n"


FIRST = re.compile(line(b"univmon", *[NUMBER] * 4))
TOTALS = re.compile(line(b"weight", NUMBER) + line(b"updates", NUMBER) + line(b"mode", b"([0-2])"))
FLAG = re.compile(line(b"flag", NUMBER, b"([01])"))
ROW = re.compile(line(b"row", NUMBER, NUMBER + b"((?:" + PAIR + b")+)"))
KEY = re.compile(line(b"key", *[NUMBER] * 5, SIGNED))


def write_text(state, room=None):
    """the writer lent so many bytes, or enough: (refusal, text)"""
    if not state.check() or not is_one_tier(state.shape):
        return 9, b""
    heap, layers, _, _, _, rows, cols = state.shape
    text = "(univmon %d %d %d %d)\n(weight %d)\n(updates %d)\n(mode %d)\n" % (heap, rows, cols, layers, state.weight, state.updates, state.mode)
    for l in range(layers):
        text += "(flag %d %d)\n" % (l, state.flags[l])
        for r in range(rows):
            pairs = "".join(" (%d %d)" % (c, v) for c, v in enumerate(state.row(l, r)) if v)
            text += "(row %d %d%s)\n" % (l, r, pairs) if pairs else ""
        for i in range(state.lens[l]):
            text += "(key %d %d %d %d %d %d)\n" % (l, *state.entry(l, i), state.counts[l * heap + i])
    return (16, b"") if room is not None and room < len(text) else (0, text.encode())


def take_line(state, text, at):
    """a line of a layer put into the state: the place past it, or None"""
    heap, layers, _, _, _, rows, cols = state.shape
    for form in (FLAG, ROW, KEY):
        m = form.match(text, at)
        if not m:
            continue
        l = int(m[1])
        if l >= layers:
            return None
        if form is FLAG:
            state.flags[l] = m[2] == b"1"
        elif form is ROW:
            for c, v in re.findall(PAIR, m[3]):
                if int(m[2]) >= rows or int(c) >= cols:
                    return None
                state.counters[state.at(l, int(m[2]), int(c))] = int(v)
        else:
            *entry, n = map(int, m.groups()[1:])
            if state.lens[l] == heap or max(entry) > MASK:
                return None
            state.put(l, state.lens[l], entry, n)
            state.lens[l] += 1
        return m.end()
    return None


def read_text(text, lengths):
    """the reader lent slices of these four lengths: (refusal, state)

    The lines are put into a state wherever they stand. "The reader accepts only text that the writer gives": so order, rising
    columns, omitted zeros, ranges and heap order are judged by writing that state again."""
    m, state = FIRST.match(text), Relay()
    if not m or max(map(int, m.groups())) > MASK:
        return 15, None
    state.shape = one_tier(*map(int, m.groups()))
    if shape_refusal(state.shape):
        return shape_refusal(state.shape), None
    if list(lengths) != state.lengths():
        return 16, None
    m = TOTALS.match(text, m.end())
    if not m:
        return 15, None
    state.weight, state.updates, state.mode = map(int, m.groups())
    state.zero()
    at = m.end()
    while at is not None and at < len(text):
        at = take_line(state, text, at)
    if at is None:
        return 15, None
    for l in range(state.layers):
        for r in range(state.rows(l)):
            state.put_norm(l, r, sum(map(capped, state.row(l, r))))
    return (0, state) if write_text(state) == (0, text) else (15, None)
