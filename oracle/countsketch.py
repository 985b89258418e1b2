"""Stored results of one layer's Count Sketch: updates, deltas, estimates, L2, states, merges, refusals.

The oracle's lone Count Sketch (`cnew`, `cadd`, `cdelta`, `cest`, `cl2`, `state`) answers all that it can be asked. It has no
merge: a merged state is that of a third sketch that took both streams. It has no refusals and lends no slices: those answers,
and what follows a counter or a norm that was set by hand, are worked out here from document 01's words, in `Layer`, which is
also held against every answer of the oracle.
"""
import math
import random
import struct

from vectors import MASK, oracle, store

rng = random.Random(5)
TOP, CAP, PRIME = 1 << 52, 1 << 63, 4294967291
SHAPES = [(1, 1), (1, 2), (2, 4), (3, 5), (5, 2048), (20, 32), (9, 4096)]
EDGE = 3037000499  # the greatest number whose square stays below 2^63
asked, inputs, answers = [], [], []


def bits(x):
    return struct.unpack("<Q", struct.pack("<d", float(x)))[0]


def median(values):
    v, n = sorted(values), len(values)
    return v[n // 2] if n % 2 else (v[n // 2 - 1] + v[n // 2]) / 2.0


def capped(x):
    return min(x * x, CAP)


class Layer:
    """counters and norms by 01's words; `name` is the oracle's sketch of the same stream, or None"""

    def __init__(self, name, rows, cols):
        self.name, self.rows, self.cols = name, rows, cols
        self.cells, self.norms = [0] * (rows * cols), [0] * rows

    def places(self, hash):
        m = (self.cols - 1).bit_length()
        return [(r, r * self.cols + (hash >> (r * m)) % (1 << m) % self.cols, 1 if hash >> (127 - r) & 1 else -1) for r in range(self.rows)]

    def read(self, r, at):
        x, n = self.cells[at], self.norms[r]
        return abs(x) <= TOP and n <= self.cols * CAP and capped(x) <= n

    def store(self, r, at, d):
        old, new = self.cells[at], self.cells[at] + d
        self.cells[at] = new
        self.norms[r] += capped(new) - capped(old)

    def estimate(self, hash):
        if any(abs(self.cells[at]) > TOP for _, at, _ in self.places(hash)):
            return [9 << 56]
        x = median([float(s * self.cells[at]) for _, at, s in self.places(hash)])
        return [bits(x), int(x)]

    def add(self, hash, w):
        if w > TOP:
            return [7 << 56]
        places = self.places(hash)
        if not all(self.read(r, at) for r, at, _ in places):
            return [9 << 56]
        if any(abs(self.cells[at] + s * w) > TOP for _, at, s in places):
            return [11 << 56]
        for r, at, s in places:
            self.store(r, at, s * w)
        return self.estimate(hash)

    def delta(self, row, col, d):
        if row >= self.rows or col >= self.cols:
            return [8 << 56]
        at = row * self.cols + col
        if not self.read(row, at):
            return [9 << 56]
        if abs(self.cells[at] + d) > TOP:
            return [11 << 56]
        self.store(row, at, d)
        return []

    def l2(self):
        if any(n > self.cols * CAP for n in self.norms):
            return [9 << 56]
        x = median([float(min(n, CAP - 1)) for n in self.norms])
        return [bits(x), bits(math.sqrt(x))]

    def state(self):
        d = 0
        for x in self.cells:
            d = (d * 65599 + (x & MASK) % PRIME) % PRIME
        return [d] + [w for n in self.norms for w in (n & MASK, n >> 64)]

    def merge(self, other):
        if any(abs(x) > TOP for x in self.cells + other):
            return [9 << 56]
        if any(abs(x + y) > TOP for x, y in zip(self.cells, other)):
            return [11 << 56]
        self.cells = [x + y for x, y in zip(self.cells, other)]
        self.norms = [sum(capped(x) for x in self.cells[r * self.cols:][:self.cols]) for r in range(self.rows)]
        return []


def halves(hash):
    return f"{hash >> 64:016X} {hash & MASK:016X}"


# ---- one call: to the program, to the layer, and to the oracle

def call(op, numbers, expected, line=None, read=None):
    inputs.append((op, numbers))
    answers.append(expected)
    if line:
        asked.append((line, len(answers) - 1, read))


def tell(line):
    """a call of the oracle that the program does not make"""
    asked.append((line, None, None))


def whole(answer):
    """bits and a count, or two patterns"""
    a, b = answer.split()
    return [int(a, 16), int(b)]


def patterns(answer):
    return [int(x, 16) for x in answer.split()]


def state_of(rows, cols):
    def read(answer):
        fields = dict(f.split("=") for f in answer.split()[1:])
        s = Layer(None, rows, cols)
        s.cells = [int(x) for row in fields["counters"].split(";") for x in row.split(",")]
        s.norms = [int(x) for x in fields["norms"].split(",")]
        return s.state()
    return read


def new(name, rows, cols):
    call(1, [rows, cols], [])
    if name:
        tell(f"cnew {name} {rows} {cols}")
    return Layer(name, rows, cols)


def add(s, hash, w):
    before = list(s.cells)
    out = s.add(hash, w)
    line = f"cadd {s.name} {halves(hash)} {w}" if s.name and out[0] not in (7 << 56, 9 << 56, 11 << 56) else None
    call(2, [hash >> 64, hash, w], out, line, whole)
    return s.cells != before


def delta(s, row, col, d):
    out = s.delta(row, col, d)
    call(3, [row, col, d], out, f"cdelta {s.name} {row} {col} {d}" if s.name and not out else None, lambda a: [])


def estimate(s, hash):
    out = s.estimate(hash)
    call(4, [hash >> 64, hash], out, f"cest {s.name} {halves(hash)}" if s.name else None, whole)


def l2(s):
    call(5, [], s.l2(), f"cl2 {s.name}" if s.name else None, patterns)


def state(s):
    call(6, [], s.state(), f"state {s.name}" if s.name else None, state_of(s.rows, s.cols))


def set_cell(s, at, x):
    s.cells[at] = x
    call(9, [at, x], [])


def set_norm(s, r, n):
    s.norms[r] = n
    call(10, [2 * r, n & MASK], [])
    call(10, [2 * r + 1, n >> 64], [])


def turned(hash, rows):
    """the same columns, the other signs"""
    return hash ^ sum(1 << (127 - r) for r in range(rows))


# ---- streams on the oracle

WEIGHTS = [0, 1, 2, 5, EDGE - 1, EDGE, EDGE + 1, 1 << 31, TOP // 2, TOP - 1, TOP]
DELTAS = [0, 1, -1, 7, -7, (1 << 31) - 1, -(1 << 31)]
for k, (rows, cols) in enumerate(SHAPES):
    s = new(f"S{k}", rows, cols)
    state(s)
    l2(s)
    keys = [(0x8000000000000000 << 64) + 6, 0, (1 << 128) - 1] + [rng.getrandbits(128) for _ in range(5)]
    # 01's figure, where the shape is its own
    add(s, keys[0], 5)
    state(s)
    l2(s)
    add(s, turned(keys[0], rows), 5)
    # one key up through the cap, by updates and by deltas, and back down
    up, down = keys[3], turned(keys[3], rows)
    for w in (EDGE - 1, 1, 1, 1):
        add(s, up, w)
        l2(s)
    state(s)
    for w in (1, 1, 1, EDGE - 1):
        add(s, down, w)
        l2(s)
    state(s)
    add(s, up, EDGE)
    for r, at, _ in s.places(up)[:3]:
        for d in (1, -1, -1, 1, 1, 1, -2, -1):
            delta(s, r, at - r * cols, d)
            l2(s)
    state(s)
    add(s, down, EDGE)
    # to the ends of the range, and back
    for w in (TOP - 1, 1, 1, TOP):
        add(s, up, w)
    l2(s)
    for w in (TOP, TOP, 1, TOP - 1):
        add(s, down, w)
        estimate(s, up)
    state(s)
    for w in (TOP, TOP):
        add(s, up, w)
    state(s)
    l2(s)
    # whatever comes
    for _ in range(60):
        hash = rng.choice(keys)
        if rng.random() < 0.5:
            hash = turned(hash, rows)
        if rng.random() < 0.7:
            add(s, hash, rng.choice(WEIGHTS + [rng.randrange(1 << rng.randrange(1, 53))]))
        else:
            delta(s, rng.randrange(rows), rng.randrange(cols), rng.choice(DELTAS + [rng.randrange(-1000, 1000)]))
    for hash in keys:
        estimate(s, hash)
    l2(s)
    state(s)
    delta(s, rows, 0, 1)
    delta(s, 0, cols, 1)

# ---- merges: the second stream is run first and set aside, then the first; the oracle's third sketch takes both

for k, (rows, cols) in enumerate(SHAPES):
    keys = [rng.getrandbits(128) for _ in range(4)]
    both = f"M{k}"
    tell(f"cnew {both} {rows} {cols}")
    kept = None
    for part in range(2):
        s = new(f"P{k}{part}", rows, cols)
        for _ in range(12):
            hash, w = rng.choice(keys), rng.choice([1, 5, EDGE, 1 << 40, rng.randrange(1 << 48)])
            if add(s, hash, w):
                tell(f"cadd {both} {halves(hash)} {w}")
        state(s)
        if part == 0:
            kept = list(s.cells)
            call(7, [], [])
    call(8, [], s.merge(kept))
    s.name = both
    state(s)
    l2(s)
    for hash in keys:
        estimate(s, hash)

# ---- refusals, at both sides of each bound

for rows, cols in [(1, 1), (2, 4), (3, 5)]:
    hash = (0x8000000000000000 << 64) + 6
    s = new(None, rows, cols)
    _, at, sign = s.places(hash)[0]
    for x in (TOP, TOP + 1, -TOP, -TOP - 1, (1 << 63) - 1, -(1 << 63)):
        set_cell(s, at, x)
        set_norm(s, 0, capped(x))
        estimate(s, hash)
        add(s, hash, 0)
        add(s, hash, 1)
        add(s, turned(hash, rows), 1)
        delta(s, 0, at, 0)
        delta(s, 0, at, 1)
        delta(s, 0, at, -1)
        state(s)
    for x in (0, 1, EDGE, EDGE + 1):
        for n in (capped(x) - 1, capped(x), cols * CAP, cols * CAP + 1, 1 << 127):
            if n < 0:
                continue
            set_cell(s, at, x)
            set_norm(s, 0, n)
            l2(s)
            delta(s, 0, at, 1)
            add(s, hash, 1)
            state(s)
    # 9 in a later row before 11 in an earlier one
    if rows > 1:
        s = new(None, rows, cols)
        _, first, sign = s.places(hash)[0]
        set_cell(s, first, sign * TOP)
        set_norm(s, 0, CAP)
        add(s, hash, 1)
        r, last, _ = s.places(hash)[-1]
        set_cell(s, last, TOP + 1)
        set_norm(s, r, CAP)
        add(s, hash, 1)
    add(s, hash, TOP + 1)
    # a merge: 9 for a counter of either, 11 for a sum
    for mine, theirs in ((TOP, 0), (TOP, 1), (TOP, -1), (-TOP, -1), (TOP + 1, 0), (0, TOP + 1), (0, -TOP - 1), (TOP, -TOP), (-TOP - 1, TOP)):
        s = new(None, rows, cols)
        set_cell(s, rows * cols - 1, theirs)
        call(7, [], [])
        kept = list(s.cells)
        set_cell(s, rows * cols - 1, mine)
        call(8, [], s.merge(kept))
        state(s)

for (line, at, read), answer in zip(asked, oracle([a[0] for a in asked])):
    if at is None:
        assert not answer.startswith(("panic", "error")), (line, answer)
        continue
    said = read(answer)
    assert [x & MASK for x in said] == [x & MASK for x in answers[at]], (line, answer, answers[at])
    answers[at] = said
store("countsketch_test", inputs, answers)
