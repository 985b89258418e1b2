"""Lines for the program `panel` and its answers: crates/panel/stdin and stdout.

    python3 oracle/panel.py PATH-OF-THE-ORACLE

The grammar stands in oracle/lines.py's words as regular expressions. An accepted add goes to the oracle, with the hashes that its
line spells (`force`); what `(show)` answers is the oracle's l1, l2, card and the flags of its state. Refusals are worked out here
by the paper's table; 1 to 3 are held against the oracle's `check` too. Of the other numbers the program meets 5, 7, 12 and 13.
"""
import os
import random
import re
import subprocess
import sys

from model import one_tier, shape_refusal

ROOT = os.path.realpath(os.path.join(os.path.dirname(os.path.abspath(__file__)), ".."))
rng = random.Random(20261115)
TOP, BIG, HALF = 1 << 52, 1 << 64, 1 << 63

NUMBER, WEIGHT, WORD = rb"(0|[1-9][0-9]*)", rb"(0|-?[1-9][0-9]*)", rb"([0-9A-F]{16})"
SHAPE = re.compile(rb"\(shape " + rb" ".join([NUMBER] * 4) + rb"\)")
ADD = re.compile(rb"\(add " + NUMBER + b" " + WEIGHT + b" " + WORD + rb"((?: \([0-9A-F]{16} [0-9A-F]{16}\))*)\)")


class Oracle:
    """the original Rust as a process"""

    def __init__(self):
        if len(sys.argv) != 2:
            sys.exit(__doc__)
        self.process = subprocess.Popen([sys.argv[1], "-i"], stdin=subprocess.PIPE, stdout=subprocess.PIPE, text=True)
        self.asked = 0

    def ask(self, command):
        self.process.stdin.write(command + "\n")
        self.process.stdin.flush()
        self.asked += 1
        return self.process.stdout.readline().strip()


oracle = Oracle()


def refusal(heap, rows, cols, layers):
    """of a shape: the table's, then the program's own bounds"""
    n = shape_refusal(one_tier(heap, rows, cols, layers))
    return n or (4 if layers * rows * cols > 4096 or layers * heap > 512 else 0)


def held_to_oracle(shape, n):
    """the oracle refuses just the shapes of 1 to 3; it takes numbers of any size only where they are small"""
    if max(shape) < 1 << 20:
        said = oracle.ask("check " + " ".join(map(str, shape)))
        assert (said == "ok") == (n in (0, 4)), (shape, n, said)


class Panel:
    """what the program has to answer"""

    def __init__(self):
        self.shape, self.weight, self.made, self.kinds = None, 0, 0, {}

    def answer(self, line):
        text = self.say(line)
        self.kinds[text[:12]] = self.kinds.get(text[:12], 0) + 1
        return text

    def say(self, line):
        if len(line) > 1024:
            return "(refused 13)"
        m = SHAPE.fullmatch(line)
        if m:
            return self.start([int(g) for g in m.groups()])
        m = ADD.fullmatch(line)
        if m:
            return self.add(int(m.group(1)), int(m.group(2)), m.group(3).decode(), re.findall(WORD, m.group(4)))
        return self.show() if line == b"(show)" else "(refused 13)"

    def start(self, shape):
        if max(shape) >= BIG:
            return "(refused 13)"
        n = refusal(*shape)
        held_to_oracle(shape, n)
        if n:
            return f"(refused {n})"
        self.shape, self.weight, self.updates, self.made = shape, 0, 0, self.made + 1
        assert oracle.ask(f"new r{self.made} " + " ".join(map(str, shape))) == "ok"
        return "(ok)"

    def add(self, key, weight, bottom, halves):
        if key >= BIG or not -HALF <= weight < HALF or not self.shape:
            return "(refused 13)"
        if len(halves) != 2 * self.shape[3]:
            return "(refused 12)"
        if weight < 0:
            return "(refused 5)"
        if self.weight + weight > TOP:
            return "(refused 7)"
        self.weight, self.updates = self.weight + weight, self.updates + 1
        words = " ".join([bottom] + [h.decode() for h in halves])
        assert oracle.ask(f"force {key} {words}") == "ok"
        assert oracle.ask(f"std r{self.made} {key} {weight}") == "ok"
        return "(ok)"

    def show(self):
        if not self.shape:
            return "(refused 13)"
        l1, l2, keys = (oracle.ask(f"{what} r{self.made}") for what in ("l1", "l2", "card"))
        flags = re.search(r"flags=([01]+)", oracle.ask(f"state r{self.made}")).group(1)
        assert len(flags) == self.shape[3]
        return f"(show (l1 {l1}) (l2 {l2}) (keys {keys}) (flags {' '.join(flags)}) (updates {self.updates}))"


panel, lines, answers = Panel(), [], []


def put(*given):
    for line in given:
        lines.append(line)
        answers.append(panel.answer(line))


def own(key, weight):
    """the add line of a key with its own hashes, from the oracle"""
    oracle.ask("unforce")
    return oracle.ask(f"panel r{panel.made} {key} {weight}").encode()


# 01's sample, byte for byte, with the form that 02 adds
put(b"(shape 2 2 4 2)", b"(add 7 5 0000000000000000 (8000000000000000 0000000000000006) (0000000000000000 0000000000000000))", b"(show)")
assert answers == ["(ok)", "(ok)", "(show (l1 4014000000000000) (l2 4014000000000000) (keys 3FF0000000000000) (flags 1 1) (updates 1))"]

Z, P = b"0000000000000000", b" (8000000000000000 0000000000000006)"
Q = b" (" + Z + b" " + Z + b")"
GOOD = b"(add 7 5 " + Z + P + Q + b")"

# the table: 1, 2, 3, 4, and that a refused shape changes nothing
for shape in ((0, 2, 4, 2), (2, 0, 4, 2), (2, 2, 0, 2), (2, 2, 4, 0), (0, 0, 0, 0), (2, 2, 4, 20), (0, 2, 4, 20), (1, 20, 33, 1), (1, 20, 33, 20), (1, 21, 1, 1), (1, 1, 4097, 1), (1025, 1, 1, 1),
              (1, 21, 33, 1), (1, BIG - 1, 1, 1), (1, 1, BIG - 1, 1), (BIG - 1, 1, 1, 1), (1, 1, 1, BIG - 1), (BIG - 1, BIG - 1, BIG - 1, BIG - 1), (1, 2, 2049, 1), (1, 1, 216, 19), (513, 1, 1, 1), (27, 1, 1, 19),
              (1024, 20, 32, 19)):
    put(b"(shape %d %d %d %d)" % shape, b"(show)")
# 12, 5, 7, and their order
put(b"(add 7 5 " + Z + b")", b"(add 7 5 " + Z + P + b")", b"(add 7 5 " + Z + P + Q + Q + b")", b"(add 7 -1 " + Z + P + b")", b"(add 7 -1 " + Z + P + Q + b")", b"(add 7 %d " % -HALF + Z + P + Q + b")")
put(b"(add 7 %d " % TOP + Z + P + Q + b")", b"(add 7 %d " % (TOP - 4) + Z + P + Q + b")", b"(add 7 %d " % (HALF - 1) + Z + P + Q + b")", b"(show)", b"(add 7 %d " % (TOP - 5) + Z + P + Q + b")", b"(show)",
    b"(add 7 1 " + Z + P + Q + b")", b"(add 8 0 " + Z + Q + Q + b")", b"(show)")
# every kind of bad line, with a good state before and after it
BAD = [b"", b" ", b"\t", b"\r", b"\0", b"(show)\r", b"(show) ", b" (show)", b"( show)", b"(show )", b"(show", b"show)", b"(show))", b"(SHOW)", b"(Show)", b"(show)(show)", b"(ad", b"(add", b"(add)", b"(shape)", b"()",
       b"(shape  2 2 4 2)", b"(shape 2  2 4 2)", b"(shape 2 2 4 2 )", b"(shape 2 2 4 2) ", b"(shape\t2 2 4 2)", b"(shape2 2 4 2)", b"(shape 2 2 4)", b"(shape 2 2 4 2 1)", b"(shape 2 2 4 2", b"(shape 2 2 4 2)\r",
       b"(shape 02 2 4 2)", b"(shape 2 2 4 02)", b"(shape 00 2 4 2)", b"(shape +2 2 4 2)", b"(shape -2 2 4 2)", b"(shape -0 2 4 2)", b"(shape 2 2 4 A)", b"(shape 0x2 2 4 2)",
       b"(shape %d 1 1 1)" % BIG, b"(shape 1 %d 1 1)" % BIG, b"(shape 1 1 %d 1)" % BIG, b"(shape 1 1 1 %d)" % BIG, b"(shape 18446744073709551620 1 1 1)", b"(shape 1%s 1 1 1)" % (b"0" * 40)]
BAD += [GOOD.replace(b"7 5", w) for w in (b"07 5", b"+7 5", b"-7 5", b"7 05", b"7 -0", b"7 +1", b"7 -", b"7 ", b"7  5", b"7\t5", b"7 5 ", b" 7 5", b"%d 5" % BIG, b"7 %d" % HALF, b"7 %d" % (-HALF - 1), b"7 %d" % BIG, b"7 5.0", b"7 1e3", b"7")]
BAD += [GOOD.replace(b"0006", b"000a"), GOOD.replace(b"0006", b"00af"), GOOD.replace(b"8000", b"f000"), GOOD.replace(b"0006", b"006"), GOOD.replace(b"0006", b"00006"), GOOD.replace(b"0006", b"000G"),
        GOOD.replace(b" (8", b"  (8"), GOOD.replace(b" (8", b"(8"), GOOD.replace(b") (", b")("), GOOD.replace(b") (", b")  ("), GOOD + b" ", GOOD[:-1], GOOD + b")", GOOD.replace(b"(8", b"[8"), GOOD.replace(b"(8", b"( 8"), GOOD + b"\r",
        GOOD.replace(b"(add", b"(ADD"), GOOD.replace(b"(add", b"(add "), GOOD.replace(b" (8000000000000000 ", b" (8000000000000000,"), GOOD.replace(b" 0000000000000006)", b")")]
for bad in BAD:
    put(bad)
    assert answers[-1] == "(refused 13)", bad
    if rng.randrange(4) == 0:
        put(b"(show)", GOOD.replace(b"7 5", b"7 0"))
put(b"(show)")
# 1,024 and 1,025 bytes, and far longer, between good lines: with 26 pairs a readable line can have just 1,024 bytes, but no shape has 26 layers


def long_line(length):
    line = b"(add 1 -1 " + Z + Q * 26 + b")"
    spare = length - len(line)
    return line.replace(b"(add 1 -1", b"(add 1" + b"1" * min(spare, 19) + b" -1" + b"1" * (spare - min(spare, 19)))


for n in (1023, 1024, 1025, 1026):
    assert len(long_line(n)) == n
    put(long_line(n), b"(show)")
put(b"x" * 1024, b"x" * 1025, b"(show)" + b" " * 1018, b"(show)" + b" " * 1019, b"(show)" + b" " * 70000, b"(show)", GOOD[:-1] + Q * 3000 + b")", GOOD.replace(b"7 5", b"7 0"), b"(show)")


def stream(shape, adds, keys, weights, every):
    """adds of keys by Zipf, with shows between"""
    put(b"(shape %d %d %d %d)" % shape, b"(show)")
    assert answers[-2] == "(ok)", shape
    chances = [1 / (k + 1) for k in range(keys)]
    names = [rng.getrandbits(64) for _ in range(keys)]
    for i in range(adds):
        put(own(rng.choices(names, chances)[0], rng.choice(weights)))
        assert answers[-1] == "(ok)", lines[-1]
        if i % every == every - 1:
            put(b"(show)")
            if rng.randrange(3) == 0:
                put(rng.choice(BAD))
    put(b"(show)")


stream((4, 3, 8, 3), 60, 9, [1, 2, 3], 5)
stream((32, 5, 16, 6), 300, 120, [1, 1, 1, 2, 7], 20)
stream((26, 2, 8, 19), 120, 60, [1, 0, 5], 15)
stream((512, 1, 4096, 1), 60, 30, [1], 20)
stream((1, 20, 10, 19), 60, 30, [1, 3], 10)
stream((8, 4, 5, 4), 80, 40, [1 << 40, (1 << 45) - 1, 3037000499, 3037000500, 1], 10)
stream((1, 1, 1, 1), 20, 3, [1, 2], 5)
# far more bytes of answers than of lines, and than the program writes at once: shows of 19 layers, 133 bytes each, with adds between
put(b"(shape 26 2 8 19)")
for i in range(400):
    put(b"(show)" if i % 50 else own(i, 1))
assert sum(len(answer) + 1 for answer in answers[-350:]) > 40000 > 2 * sum(len(line) + 1 for line in lines[-350:])
# a shape that is refused, a line that is refused, and a new start
put(b"(shape 1 1 1 0)", b"(show)", b"(shape 1 1 1 1)", b"(show)", b"(shape 3 2 4 2)")
for line in (GOOD, b"(show)"):
    put(line)
put(b"(show)")

data = b"\n".join(lines)  # the last line has no newline
assert data.split(b"\n") == lines
with open(f"{ROOT}/crates/panel/stdin", "wb") as f:
    f.write(data)
with open(f"{ROOT}/crates/panel/stdout", "w") as f:
    f.write("".join(answer + "\n" for answer in answers))
print(len(lines), "lines,", len(data), "bytes;", oracle.asked, "questions to the oracle;", panel.kinds)
