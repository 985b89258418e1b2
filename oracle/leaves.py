"""Stored results of the leaves: mask bits, cells, medians, capped squares, hash bits.

The oracle answers `maskbits`, `cell`, `median` and `capsq`. Refusals have no oracle: their numbers are those of
document 01's table and order, written out here.
"""
import random
import struct

from vectors import oracle, store

rng = random.Random(1)
COLS = [1, 2, 3, 4, 5, 31, 32, 33, 4095, 4096]
TOP = 1 << 52
asked, inputs, answers = [], [], []


def ask(line, op, numbers, read):
    """one question to the oracle; `read` turns its answer into words"""
    asked.append((line, len(inputs), read))
    inputs.append((op, numbers))
    answers.append(None)


def known(op, numbers, words):
    inputs.append((op, numbers))
    answers.append(words)


def bits(x):
    return struct.unpack("<Q", struct.pack("<d", float(x)))[0]


def mask_bits(cols):
    return (cols - 1).bit_length()


def refusal(rows, cols):
    if rows == 0 or cols == 0:
        return 1
    if (mask_bits(cols) + 1) * rows > 128:
        return 3
    return 4 if rows > 20 or cols > 4096 else 0


# 1: mask bits
for cols in COLS + [6, 7, 8, 9, 63, 64, 65, 1000, 1023, 1024, 1025, 2047, 2048, 2049]:
    ask(f"maskbits {cols}", 1, [cols], lambda a: [int(a)])
known(1, [0], [1 << 56])
for cols in [4097, 65536, 1 << 63, (1 << 64) - 1]:
    known(1, [cols], [4 << 56])

# 2: cells, with hashes of all zeros, all ones and single bits, every row that fits
hashes = [(0, 0), ((1 << 64) - 1, (1 << 64) - 1), (0x8000000000000000, 6)]
hashes += [((1 << k) >> 64, (1 << k) & ((1 << 64) - 1)) for k in range(0, 128, 5)]
hashes += [(rng.getrandbits(64), rng.getrandbits(64)) for _ in range(6)]


def cell(answer):
    column, sign = answer.split()
    return [int(column), int(sign)]


for cols in COLS:
    rows = min(20, 128 // (mask_bits(cols) + 1))
    for high, low in hashes:
        for row in {0, 1, rows // 2, rows - 1, rng.randrange(rows)}:
            if row < rows:
                ask(f"cell {high:016X} {low:016X} {row} {cols}", 2, [high, low, row, rows, cols], cell)
known(2, [0, 0, 2, 2, 4], [8 << 56])
known(2, [0, 0, (1 << 64) - 1, 20, 32], [8 << 56])
known(2, [0, 0, 0, 0, 4], [1 << 56])
known(2, [0, 0, 99, 20, 33], [3 << 56])
known(2, [0, 0, 99, 21, 1], [4 << 56])


# 3: medians, of values within ±2^52; the count is the float, cut toward zero
def median(values):
    line = "median " + " ".join(f"{bits(v):016X}" for v in values)

    def read(answer):
        b = int(answer.split()[0], 16)
        return [int(struct.unpack("<d", struct.pack("<Q", b))[0]), b]
    ask(line, 3, values, read)


for values in ([-1, 0], [0, -1], [0], [-1], [1, 2], [-1, -2], [-3, 0], [3, 0], [5, -5], [TOP, TOP], [-TOP, -TOP], [TOP, TOP - 1], [-TOP, 1 - TOP], [TOP, -TOP]):
    median(values)
for n in range(1, 21):
    for reach in (1, 3, 1000, TOP):
        for _ in range(4):
            median([rng.randint(-reach, reach) for _ in range(n)])

# 4: capped squares
for x in [0, 1, 2, 3, 3037000498, 3037000499, 3037000500, 3037000501, TOP, TOP + 1, (1 << 63) - 1]:
    for v in (x, -x):
        ask(f"capsq {v}", 4, [v], lambda a: [int(a)])
ask(f"capsq {-(1 << 63)}", 4, [-(1 << 63)], lambda a: [int(a)])
for _ in range(40):
    v = rng.randint(-(1 << rng.randint(1, 62)), 1 << rng.randint(1, 62))
    ask(f"capsq {v}", 4, [v], lambda a: [int(a)])

# 5: hash bits of any rows and columns: 01's examples, and both sides of each bound
for rows, cols in [(20, 33), (21, 1), (21, 4096), (20, 32), (0, 4), (4, 0), (0, 0), (9, 4096), (10, 4096), (9, 4097), (1, 4097), (20, 1), (19, 33), (18, 33),
                   ((1 << 64) - 1, 1), (1, (1 << 64) - 1), ((1 << 64) - 1, (1 << 64) - 1), (1, 1 << 63), (2, 1 << 63), (128, 1), (129, 1), (64, 2), (65, 2)]:
    known(5, [rows, cols], [refusal(rows, cols)])
for cols in COLS:
    most = 128 // (mask_bits(cols) + 1)
    for rows in (1, most - 1, most, most + 1, 20, 21):
        known(5, [rows, cols], [refusal(rows, cols)])

for (line, at, read), answer in zip(asked, oracle([a[0] for a in asked])):
    answers[at] = read(answer)
store("leaves_test", inputs, answers)
