#!/usr/bin/env python3
"""Stored values for the functions of `float64`, and what the original Rust answers.

    oracle/float64.py ORACLE

writes crates/float64_test/stdin and stdout. ORACLE is the program built from the Rust. Both files
are groups, one for each function: in stdin its number, how many cases follow, and their words; in
stdout one word a case. Words have 16 hexadecimal digits, capital letters in stdin and small ones in stdout. Every NaN is written as 7FF8000000000000.

Group 8, how many digits of a root are worked out, the original does not have: what is wanted there is by exact arithmetic on whole
numbers (roots.py). Every root that the original answers is held against the same arithmetic, and the generator stops if they differ.
"""
import os
import random
import struct
import subprocess
import sys

from roots import INF, LONGEST, NAN, SIGN, digits, moved, near, root as exact_root, square

WORD = (1 << 64) - 1


def value(bits):
    return struct.unpack("<d", struct.pack("<Q", bits))[0]


def pattern(x):
    return struct.unpack("<Q", struct.pack("<d", x))[0]


def is_nan(bits):
    return bits % SIGN > INF


def distinct(xs):
    return list(dict.fromkeys(xs))


SPECIAL = [0, SIGN, INF, INF | SIGN, NAN, NAN | SIGN, INF + 1, 1, 2, 3, SIGN + 1, (1 << 52) - 1, 1 << 52, (1 << 52) + 1,
           INF - 1, (INF - 1) | SIGN] + [pattern(x) for x in (0.25, 0.5, 1.0, -1.0, 1.5, 2.0, 2.5, -2.5, 3.0, 4.0, 25.0, 1e300, -1e300)]


def rounded(n):
    """the pattern of a whole number, its digits past the 53rd cut off"""
    k = max(n.bit_length() - 53, 0)
    return pattern(float(n >> k << k))


def roots(r):
    out = list(SPECIAL)
    for _ in range(40):     # perfect squares and their neighbours
        k = r.getrandbits(r.randrange(1, 27))
        out += near(pattern(float(max(k * k, 1))))
    for _ in range(60):     # next to the square of a value that lies halfway between two floats
        m = r.getrandbits(53) | 1 << 53 | 1
        out += near(rounded(m * m))
    out += [1 << r.randrange(52) for _ in range(12)] + [r.getrandbits(r.randrange(1, 53)) for _ in range(24)]
    out += [r.randrange(1, 2047) << 52 for _ in range(24)] + [r.randrange(INF) for _ in range(60)] + [r.getrandbits(64) for _ in range(12)]
    return [(b,) for b in distinct(out)]


def cuts(r):
    out = list(SPECIAL)
    for k in (0, 1, 2, 31, 51, 52, 53, 61, 62, 63, 64, 70):
        for s in (0, SIGN):
            out += [b | s for b in near(pattern(2.0 ** k))]
    for _ in range(60):     # whole numbers, with halves, of both signs
        x = float(r.getrandbits(r.randrange(1, 53))) + r.choice((0, 0, 0.25, 0.5, 0.75))
        out.append(pattern(r.choice((x, -x))))
    out += [r.randrange(1000, 1100) << 52 | r.getrandbits(52) | r.choice((0, SIGN)) for _ in range(60)]
    return [(b,) for b in distinct(out)]


def whole(r, most):
    """whole numbers: powers of two and ties, their neighbours, and others"""
    out = [0, 1, 2, 3, 25, most - 1, most]
    for k in range(2, most.bit_length()):
        out += near(1 << k) if 50 < k else [1 << k]
    for _ in range(20):
        k = r.randrange(1, most.bit_length() - 53 + 1)
        tie = ((r.getrandbits(53) | 1 << 52) << k) + (1 << (k - 1))
        out += near(tie)
    out += [r.getrandbits(r.randrange(1, most.bit_length() + 1)) for _ in range(20)]
    return distinct(n for n in out if n <= most)


def norms(r):
    top = (1 << 63) - 1
    out = [0, 25, 50, (1 << 53) + 1, (1 << 53) + 3, top - 1, top, top + 1, 1 << 64, (1 << 64) + 25, 3 << 63, (1 << 127) - 1, 4096 << 63]
    out += [r.getrandbits(r.randrange(40, 76)) for _ in range(40)]
    return [(n & WORD, n >> 64) for n in distinct(out)]


def middles(r):
    whole = [float(r.getrandbits(r.randrange(1, 53))) * r.choice((1, -1)) for _ in range(40)]
    out = [(pattern(whole[i]), pattern(whole[i + 1])) for i in range(0, 40, 2)]
    some = [b for b in SPECIAL if not is_nan(b)] + [r.randrange(INF) for _ in range(20)]
    out += [(r.choice(some), r.choice(some)) for _ in range(40)] + [(INF, INF | SIGN), (NAN, 0), (SIGN, SIGN), (0, SIGN), (INF - 1, INF - 1)]
    return distinct(out)


def thresholds(r):
    l2 = [0, NAN, INF, pattern(5.0), pattern(2.0 ** 31.5), pattern(9.5e9)]
    out = [(b, heap, complete) for b in l2 for heap in (0, 1, 2, 4, 1000, 1024) for complete in (0, 1)]
    out += [(pattern(r.random() * 2.0 ** r.randrange(1, 40)), r.randrange(1, 1025), 0) for _ in range(30)]
    return distinct(out)


# How many digits of a root are worked out, by hand: of some numbers, and of subnormals by their patterns.
BY_HAND = [(pattern(x), n) for x, n in (
    (0.0, 0), (1.0, 1), (2.0, 54), (4.0, 1), (9.0, 2), (25.0, 3), (0.25, 1), (float((2 ** 26 + 1) ** 2), 27), (2.0 ** 62, 1), (2.0 ** 63, 54))]
BY_HAND += [(1, 1), (2, 54), (4, 1), (9, 2), (25, 3), ((1 << 52) - 1, 54)]


def counted(r, cases):
    """the patterns of these cases, those by hand, and squares of every length, moved, with their neighbours"""
    out = [b for b, in cases]
    for b, n in BY_HAND:
        assert digits(b) == n, (f"{b:016X}", n)
        out += [b, b | SIGN]
    for length in range(1, LONGEST + 1):
        n = square(r, length)
        out += near(moved(r, n, 0)) + near(moved(r, n, 0, small=True)) + [moved(r, n, 1), moved(r, n, 1, small=True)]
    return [(b,) for b in distinct(out)]


class Oracle:
    def __init__(self, path):
        self.run = subprocess.Popen([path, "-i"], stdin=subprocess.PIPE, stdout=subprocess.PIPE, text=True)

    def ask(self, *words):
        self.run.stdin.write(" ".join(words) + "\n")
        self.run.stdin.flush()
        answer = self.run.stdout.readline().strip()
        if not answer or answer.startswith(("error", "panic")):
            sys.exit(f"{' '.join(words)}: {answer}")
        return answer

    def bits(self, *words):
        b = int(self.ask(*words), 16)
        return NAN if is_nan(b) else b

    def root(self, b):
        answer = self.bits("sqrt", f"{b:016X}")
        if answer != exact_root(b):
            sys.exit(f"sqrt {b:016X}: {answer:016X}, by exact arithmetic {exact_root(b):016X}")
        return answer

    def cut(self, b):
        return int(self.ask("toi64", f"{b:016X}")) & WORD

    def count(self, word):
        return self.bits("tof64", str(word - (1 << 64) if word & SIGN else word))

    def norm(self, n):
        if n < SIGN:
            return self.bits("tof64", str(n))
        # past i64: a half of n that keeps n's last digit rounds alike, and twice its float is one more in the exponent
        return self.count(n >> 1 | n & 1) + (1 << 52)

    def read(self, lo, hi):
        return self.bits("normread", str(hi << 64 | lo))

    def middle(self, a, b):
        return self.bits("median", f"{a:016X}", f"{b:016X}")

    def threshold(self, l2, heap, complete):
        if complete:
            return 0
        x, root = value(l2), value(self.root(self.norm(heap)))
        quotient = x / root if root else (value(NAN) if x == 0 or x != x else value(INF))
        return self.cut(pattern(quotient))


def main(path):
    oracle, r = Oracle(path), random.Random(64)
    groups = [
        (roots(r), oracle.root),
        (cuts(r), oracle.cut),
        ([(n,) for n in whole(r, WORD)], oracle.norm),
        ([(n * r.choice((1, -1)) & WORD,) for n in whole(r, SIGN - 1)] + [(SIGN,)], oracle.count),
        (norms(r), oracle.read),
        (middles(r), oracle.middle),
        (thresholds(r), oracle.threshold),
    ]
    groups.append((counted(random.Random(8), groups[0][0]), digits))
    given, wanted = [], []
    for number, (cases, function) in enumerate(groups, 1):
        cases = distinct(cases)
        given.append((number, len(cases)))
        given += cases
        wanted += [function(*case) for case in cases]
        print(number, len(cases))
    top = os.path.join(os.path.dirname(os.path.abspath(__file__)), "..", "crates", "float64_test")
    with open(top + "/stdin", "w") as f:
        f.writelines(" ".join(f"{w:016X}" for w in words) + "\n" for words in given)
    with open(top + "/stdout", "w") as f:
        f.writelines(f"{w:016x}\n" for w in wanted)


if __name__ == "__main__":
    if len(sys.argv) != 2:
        sys.exit(__doc__)
    main(sys.argv[1])
