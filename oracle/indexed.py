"""02's W6 on slices: a relay whose candidates are sought by an index, one table a layer, all in one slice lent beside the state.

What a call answers and leaves is `model.py`'s, but for what finding a key and moving a candidate read: a read that is refused is `Unread` here, and 9
to the caller. Run alone, this holds random runs with an index against the same runs without.
"""
import random

from model import DISPLACED, MASK, RESCORED, SEATED, STANDARD, TERMINAL, TOP, TURNED_AWAY, Relay, one_tier


class Unread(Exception):
    """a visited place names no candidate or one out of range, a visited candidate is out of range, or a lookup does not end where it must"""


def table_length(heap):
    """of twice the heap size, rounded up to a power of two"""
    n = 1
    while n < 2 * heap:
        n *= 2
    return n


class IndexedRelay(Relay):
    def __init__(self):
        super().__init__()
        self.index = []

    def copy(self):
        r = IndexedRelay()
        r.__dict__.update(super().copy().__dict__)
        r.index = list(self.index)
        return r

    # ---- what is lent

    def table(self):
        return table_length(self.heap)

    def index_words(self):
        return self.table() * self.layers

    def lent_sound(self):
        return self.sound() and len(self.index) == self.index_words()

    # ---- one layer's table

    def word(self, l, p):
        return self.index[self.table() * l + p]

    def put_word(self, l, p, w):
        self.index[self.table() * l + p] = w

    def key(self, l, i):
        return self.entry(l, i)[0]

    def visit(self, l, i):
        """a candidate, if there is one so far out, is read"""
        if i < self.lens[l] and abs(self.counts[l * self.heap + i]) > TOP:
            raise Unread

    def named(self, l, w):
        """the entry that a word other than 0 names"""
        if w > self.lens[l]:
            raise Unread
        self.visit(l, w - 1)
        return w - 1

    def look(self, l, key):
        """the place where a lookup ends, the entry there or None, and the probes"""
        for probes in range(1, self.table() + 1):
            p = (key + probes - 1) % self.table()
            if self.word(l, p) == 0:
                return p, None, probes
            i = self.named(l, self.word(l, p))
            if self.key(l, i) == key:
                return p, i, probes
        raise Unread

    def under(self, l, i):
        """where the key of entry i is found under its number"""
        p, found, _ = self.look(l, self.key(l, i))
        if found != i:
            raise Unread
        return p

    def take_out(self, l, i):
        gap = p = self.under(l, i)
        self.put_word(l, gap, 0)
        for _ in range(self.table()):
            p = (p + 1) % self.table()
            w = self.word(l, p)
            if w == 0:
                return
            home = self.key(l, self.named(l, w)) % self.table()
            if (p - gap) % self.table() <= (p - home) % self.table():  # its lookup passes the gap
                self.put_word(l, gap, w)
                self.put_word(l, p, 0)
                gap = p
        raise Unread

    # ---- candidates

    def swap(self, l, i, j):
        p, q = self.under(l, i), self.under(l, j)
        self.put_word(l, p, j + 1)
        self.put_word(l, q, i + 1)
        super().swap(l, i, j)

    def down(self, l, i):
        """as without an index, the children read before they are compared"""
        a, start = l * self.heap, i
        while True:
            t = i
            for child in (2 * i + 1, 2 * i + 2):
                self.visit(l, child)
            for child in (2 * i + 1, 2 * i + 2):
                if child < self.lens[l] and self.counts[a + child] < self.counts[a + t]:
                    t = child
            if t == i:
                return i != start
            self.swap(l, i, t)
            i = t

    def up(self, l, i):
        a = l * self.heap
        while i:
            parent = (i - 1) // 2
            self.visit(l, parent)
            if self.counts[a + i] >= self.counts[a + parent]:
                return
            self.swap(l, parent, i)
            i = parent

    def offer(self, l, entry, n):
        a = l * self.heap
        p, i, _ = self.look(l, entry[0])
        if i is not None:
            self.counts[a + i] = n
            if not self.down(l, i):
                self.up(l, i)
            return [RESCORED, 0]
        if self.lens[l] < self.heap:
            self.lens[l] += 1
            self.put(l, self.lens[l] - 1, entry, n)
            self.put_word(l, p, self.lens[l])
            self.up(l, self.lens[l] - 1)
            return [SEATED, 0]
        self.visit(l, 0)
        if n <= self.counts[a]:
            return [TURNED_AWAY, 0]
        gone = self.key(l, 0)
        self.take_out(l, 0)
        self.put(l, 0, entry, n)
        self.put_word(l, self.look(l, entry[0])[0], 1)
        self.down(l, 0)
        return [DISPLACED, gone]

    # ---- what the calls of `model.py` ask

    def key_read(self, l, key):
        try:
            self.look(l, key)
        except Unread:
            return False
        return True

    def moves_read(self, l, words, changes):
        r = self.copy()
        for at, d in changes:
            r.counters[at] += d
        try:
            r.offer(l, r.entry_of(words, l), r.count(l, r.hash(words, l)))
        except Unread:
            return False
        return True

    def empty(self, l):
        super().empty(l)
        self.index[self.table() * l:self.table() * (l + 1)] = [0] * self.table()

    # ---- the calls of an index

    def build_index(self):
        if not self.head_sound() or len(self.entries) != self.lengths()[2] or len(self.index) != self.index_words():
            return 9
        self.index = [0] * self.index_words()
        for l in range(self.layers):
            for i in range(self.lens[l]):
                p = self.key(l, i) % self.table()
                while self.word(l, p) and self.key(l, self.word(l, p) - 1) != self.key(l, i):
                    p = (p + 1) % self.table()
                if not self.word(l, p):
                    self.put_word(l, p, i + 1)
        return 0

    def lookup(self, l, key):
        """(refusal, found, entry, probes)"""
        if not self.lent_sound():
            return 9, 0, 0, 0
        if l >= self.layers:
            return 8, 0, 0, 0
        try:
            _, i, probes = self.look(l, key)
        except Unread:
            return 9, 0, 0, 0
        return 0, int(i is not None), i or 0, probes

    def check_indexed(self):
        if not self.check() or len(self.index) != self.index_words():
            return False
        try:
            for l in range(self.layers):
                held = [self.under(l, i) for i in range(self.lens[l])]
                for p in range(self.table()):
                    w = self.word(l, p)
                    if w and (w > self.lens[l] or held[w - 1] != p):
                        return False
        except Unread:
            return False
        return True


# ---- random runs with an index and without

def same_runs(seed, heap, layers, keys, mode, steps):
    """two relays with an index and two without, on the same calls; which of the four things offers did, and the longest lookup"""
    rng = random.Random(seed)
    shape = one_tier(heap, 3, 16, layers)
    pairs = []
    for _ in range(2):
        walk, find = Relay(), IndexedRelay()
        for r in (walk, find):
            r.shape = list(shape)
            r.zero()
            assert r.new(shape) == 0
        find.index = [MASK] * find.index_words()
        assert find.build_index() == 0
        pairs.append((walk, find))
    did, longest = [0] * 5, 0
    for step in range(steps):
        walk, find = pairs[rng.random() < 0.3]
        key = rng.choice(keys)
        hashes = random.Random(key)
        words = [key] + [hashes.getrandbits(64) for _ in range(1 + 2 * layers)]
        lists = [0] * walk.merge_words(), [0] * walk.merge_words()
        kind = rng.random()
        if kind < 0.02:
            n = [a.merge(b, told) for a, b, told in zip(*pairs, lists)]
        elif kind < 0.2:
            l, row, col, d, every = rng.randrange(layers), rng.randrange(3), rng.randrange(16), rng.randrange(-9, 10), rng.random() < 0.5
            n = [r.delta(l, row, col, d, words, every, told) for r, told in zip((walk, find), lists)]
        else:
            w = rng.choice([0, 1, 1, 2, 3, 50])
            n = [r.update(words, w, mode, told) for r, told in zip((walk, find), lists)]
        walk, find = pairs[0] if kind < 0.02 else (walk, find)
        assert n[0] == n[1] and lists[0] == lists[1] and walk.digest() == find.digest(), (seed, step)
        assert find.check_indexed() or n[0], (seed, step)
        for word in lists[0][0:2 * layers:2]:
            did[word] += word < 5
        longest = max(longest, max(find.lookup(l, key)[3] for l in range(layers)))
    return did, longest


if __name__ == "__main__":
    for heap in (1, 2, 3, 7, 32):
        m = table_length(heap)
        for name, keys in (("small", list(range(2 * heap + 2))), ("one home", [m - 1 + m * k for k in range(2 * heap + 2)]), ("wide", [MASK - 3 * k for k in range(3 * heap)])):
            for mode in (STANDARD, TERMINAL):
                did, longest = same_runs(heap, heap, 3, keys, mode, 400)
                print("heap %d, keys %s, mode %d: rescored %d, seated %d, displaced %d, turned away %d, longest lookup %d" % (heap, name, mode, *did[1:], longest))
