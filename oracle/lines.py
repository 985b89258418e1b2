"""Lines for the program `lines_test`, and how each has to be read: crates/lines_test/stdin and stdout.

    python3 oracle/lines.py

The grammar stands here as regular expressions, apart from the Rattle code: good lines, bad lines of every kind at hand,
and good lines with one byte changed, left out, put in or swapped with the next. A shape is answered by `(ok)` and its numbers, and by an answer
to `(show)` that has its numbers as bits; an add by its weight and its words; show by `show`; any other line by `(refused 13)`.
"""
import os
import random
import re

ROOT = os.path.realpath(os.path.join(os.path.dirname(os.path.abspath(__file__)), ".."))
rng = random.Random(20261115)

NUMBER, WEIGHT, WORD = rb"(0|[1-9][0-9]*)", rb"(0|-?[1-9][0-9]*)", rb"([0-9A-F]{16})"
SHAPE = re.compile(rb"\(shape " + rb" ".join([NUMBER] * 4) + rb"\)")
ADD = re.compile(rb"\(add " + NUMBER + b" " + WEIGHT + b" " + WORD + rb"((?: \([0-9A-F]{16} [0-9A-F]{16}\))*)\)")


def read(line):
    """what the program prints for a line"""
    refused = "(refused 13)\n"
    if len(line) > 1024:
        return refused
    m = SHAPE.fullmatch(line)
    if m:
        n = [int(g) for g in m.groups()]
        if max(n) >= 1 << 64:
            return refused
        flags = "".join(f" {n[3] >> i & 1}" for i in range(19))
        return "(ok) %d %d %d %d\n" % tuple(n) + "(show (l1 %016X) (l2 %016X) (keys %016X) (flags" % tuple(n[:3]) + flags + ") (updates %d))\n" % n[3]
    m = ADD.fullmatch(line)
    if m:
        key, weight = int(m.group(1)), int(m.group(2))
        if key >= 1 << 64 or not -(1 << 63) <= weight < 1 << 63:
            return refused
        words = [key, int(m.group(3), 16)] + [int(h, 16) for h in re.findall(WORD, m.group(4))]
        return f" {weight}" + "".join(f" {w:016X}" for w in words) + "\n"
    return "show\n" if line == b"(show)" else refused


def word():
    return b"%016X" % rng.choice([0, 6, 1 << 63, (1 << 64) - 1, rng.getrandbits(64), rng.getrandbits(64)])


def add(key, weight, pairs):
    return b"(add %d %d %s" % (key, weight, word()) + b"".join(b" (%s %s)" % (word(), word()) for _ in range(pairs)) + b")"


def number():
    return rng.choice([0, 1, 9, 10, 4096, (1 << 64) - 1, rng.getrandbits(64), rng.getrandbits(20)])


def good():
    kind = rng.randrange(8)
    if kind == 0:
        return b"(show)"
    if kind < 4:
        return b"(shape %d %d %d %d)" % (number(), number(), number(), number())
    return add(number(), rng.choice([0, 1, -1, 5, -(1 << 63), (1 << 63) - 1, rng.randint(-(1 << 62), 1 << 62)]), rng.randrange(4))


def changed(line):
    """one byte changed, left out, put in, or swapped with the next"""
    i, other = rng.randrange(len(line)), bytes([rng.choice(b" ()-+09afAF\t\r\0\xff:G/@`")])
    return rng.choice([line[:i] + other + line[i + 1:], line[:i] + line[i + 1:], line[:i] + other + line[i:], line[:i] + line[i + 1:i + 2] + line[i:i + 1] + line[i + 2:]])


def padded(length):
    """an add of that many bytes, but for the leading zeros that fill it up"""
    line = add(7, 5, 26)
    return line[:5] + b"0" * (length - len(line)) + line[5:]


BIG, HALF = 1 << 64, 1 << 63
Z, PAIR = b"0000000000000000", b" (8000000000000000 0000000000000006)"
LINES = [
    # 01's sample, and its example of an unreadable line
    b"(shape 2 2 4 2)", b"(add 7 5 " + Z + PAIR + b" (" + Z + b" " + Z + b"))", b"(show)", b"(ad",
    # empty lines, spaces, tabs, carriage returns
    b"", b"", b" ", b"\t", b"\r", b"(show)\r", b"(show) ", b" (show)", b"( show)", b"(show )", b"(show", b"show)", b"show", b"(show))", b"(SHOW)", b"(show)(show)",
    b"(shape  2 2 4 2)", b"(shape 2  2 4 2)", b"(shape 2 2 4 2 )", b"(shape 2 2 4 2) ", b"( shape 2 2 4 2)", b"(shape\t2 2 4 2)", b"(shape 2 2 4\t2)", b"(shape2 2 4 2)", b"(shape 2 24 2)",
    b"(shape 2 2 4)", b"(shape 2 2 4 2 1)", b"(shape)", b"(shape )", b"(shape 2 2 4 )", b"(shape 2 2 4 2", b"shape 2 2 4 2", b"(shape 2 2 4 2)\r", b"(Shape 2 2 4 2)", b"(shapes 2 2 4 2)",
    # leading zeros, signs, other digits
    b"(shape 02 2 4 2)", b"(shape 2 2 4 02)", b"(shape 00 2 4 2)", b"(shape 0 0 0 0)", b"(shape +2 2 4 2)", b"(shape -2 2 4 2)", b"(shape -0 2 4 2)", b"(shape 2. 2 4 2)", b"(shape 0x2 2 4 2)",
    b"(shape 2 2 4 A)", b"(shape 2 2 : 2)", b"(shape 2 / 4 2)", b"(shape \xb2 2 4 2)", b"(shape 2 2 4 2\0)",
    # 2^64, each number in turn
    b"(shape %d 1 1 1)" % (BIG - 1), b"(shape %d 1 1 1)" % BIG, b"(shape 1 %d 1 1)" % BIG, b"(shape 1 1 %d 1)" % BIG, b"(shape 1 1 1 %d)" % BIG, b"(shape 1 1 1 %d)" % (BIG - 1),
    b"(shape %d 1 1 1)" % (10 * BIG), b"(shape 18446744073709551620 1 1 1)", b"(shape 184467440737095516150 1 1 1)", b"(shape 99999999999999999999 1 1 1)", b"(shape 1%s 1 1 1)" % (b"0" * 40),
    b"(add %d 1 " % (BIG - 1) + Z + b")", b"(add %d 1 " % BIG + Z + b")",
    # 2^63, and zero's sign
    *[b"(add 7 %d " % w + Z + b")" for w in (0, -1, HALF - 1, HALF, HALF + 1, -HALF, -HALF - 1, BIG - 1, BIG, -BIG)],
    *[b"(add 7 " + w + b" " + Z + b")" for w in (b"-0", b"+1", b"-", b"", b"--1", b"-01", b"01", b"00", b"-00", b"1-", b"- 1")],
    b"(add -7 1 " + Z + b")", b"(add 07 1 " + Z + b")", b"(add +7 1 " + Z + b")", b"(add  1 " + Z + b")", b"(add 7 1)", b"(add 7)", b"(add)", b"(add )", b"(add 7 1 )",
    # hexadecimal words
    *[b"(add 7 5 " + h + b")" for h in (b"00000000000000af", b"00000000000000AF", b"FFFFFFFFFFFFFFFF", b"ffffffffffffffff", b"000000000000000", b"00000000000000000", b"000000000000000G", b"000000000000000@",
                                        b"000000000000000`", b"000000000000000:", b"000000000000000/", b"0x00000000000000", b"0000000000000 00", b"+000000000000000", b"-000000000000000")],
    *[b"(add 7 5 " + Z + p + b")" for p in (b"", PAIR, PAIR + PAIR, PAIR.lower(), PAIR.replace(b"8", b"f"), PAIR.replace(b"8", b"F"), b" " + PAIR, PAIR + b" ", PAIR[1:], b" ()", b" (" + Z + b")", PAIR[:-1], PAIR + b")",
                                            PAIR.replace(b"(", b"["), b" (" + Z + b"  " + Z + b")", b" (" + Z + b"," + Z + b")", b" (" + Z + b" " + Z + b" " + Z + b")", b"\t" + PAIR[1:], PAIR + b"x")],
    # 1,024 and 1,025 bytes, and far more, between good lines
    add(7, 5, 27), add(7, 5, 28), b"(show)", padded(1024), padded(1025), add(10 ** 19, -(10 ** 18), 26), b"(show)", b"x" * 1024, b"x" * 1025, b"x" * 1026, b"(show)", b"(show)" + b" " * 3000, b"(show)",
    b"(add 7 5 " + Z + PAIR * 300 + b")", b"(shape 1 2 3 4)", b"\xff" * 100, b"\0", bytes(range(11, 256)),
]


def of_length(length):
    """a readable add of just so many bytes"""
    for pairs in range(26, 28):
        for digits in range(1, 21):
            for weight in range(1, 20):
                line = b"(add %s %s %s" % (b"1" * digits, b"-" + b"9" * (weight - 1) if weight > 1 else b"9", word()) + b"".join(b" (%s %s)" % (word(), word()) for _ in range(pairs)) + b")"
                if len(line) == length:
                    return line
    raise ValueError(length)


LINES += [of_length(1023), of_length(1024), of_length(1025), b"(show)"]
for _ in range(120):
    LINES.append(good())
for _ in range(360):
    LINES.append(changed(good()).replace(b"\n", b""))
LINES.append(b"(shape 1 1 1 1)")

data = b"\n".join(LINES)  # the last line has no newline
lines = data.split(b"\n")
with open(f"{ROOT}/crates/lines_test/stdin", "wb") as f:
    f.write(data)
with open(f"{ROOT}/crates/lines_test/stdout", "w") as f:
    f.write("".join(read(line) for line in lines))
kinds = [read(line)[:4] for line in lines]
print(len(lines), "lines,", kinds.count("(ref"), "unreadable,", len(data), "bytes")
