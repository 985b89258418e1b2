#!/usr/bin/env python3
"""Times the program `panel` on a long stream, beside the original on the same updates.

    python3 bindings/bench/lines.py [LINES]

ORACLE is the folder in which the original is built (default /tmp/oracle); the panel is built by `rt run` in crates/panel.
The panel reads `(add ..)` lines that spell the hashes, the original `std` commands and hashes for itself (its copies for panics are
off). Both take turns, three each, on a file of 2,000 keys by Zipf (exponent 1), weight 1, shape 32 5 64 8; given are wall and
processor time, the least of the three. Stops if L1, L2, cardinality or a flag differ.
"""
import os
import random
import re
import subprocess
import sys
import tempfile
import time

HERE = os.path.dirname(os.path.realpath(__file__))
PANEL = os.path.join(HERE, "..", "..", "crates", "panel", "out", "panel")
SHAPE, KEYS, TURNS = "32 5 64 8", 2000, 3


def original():
    """the original as a program, or an end that says what is missing"""
    said = subprocess.run([os.path.join(HERE, "original")], capture_output=True, text=True)
    if said.returncode != 0:
        sys.exit("lines.py: " + said.stderr.strip())
    return os.path.join(said.stdout.strip(), "oracle")


def records(oracle):
    """the line of each key, as the oracle writes it"""
    asked = "".join([f"new r {SHAPE}\n"] + [f"panel r {key} 1\n" for key in range(1, KEYS + 1)])
    said = subprocess.run([oracle], input=asked, capture_output=True, text=True, check=True).stdout.split("\n")
    return said[1 : KEYS + 1]


def run(command, path):
    """wall seconds, processor seconds, last lines of the answer"""
    with open(path) as given, tempfile.TemporaryFile("w+") as out:
        start = time.perf_counter()
        child = subprocess.Popen(command, stdin=given, stdout=out)
        _, status, used = os.wait4(child.pid, 0)
        wall = time.perf_counter() - start
        assert status == 0, (command, status)
        out.seek(0, os.SEEK_END)
        out.seek(max(0, out.tell() - 400000))
        return wall, used.ru_utime + used.ru_stime, out.read().rstrip("\n").split("\n")


def shown(line):
    m = re.fullmatch(r"\(show \(l1 (\w+)\) \(l2 (\w+)\) \(keys (\w+)\) \(flags ([01 ]+)\) \(updates (\d+)\)\)", line)
    return m.group(1), m.group(2), m.group(3), m.group(4).replace(" ", ""), int(m.group(5))


def told(lines, many):
    """the original's answers; it does not count its updates"""
    return lines[-4], lines[-3], lines[-2], re.search(r"flags=([01]+)", lines[-1]).group(1), many


def main():
    if not os.access(PANEL, os.X_OK):
        sys.exit("lines.py: the program panel is not built: rt run in crates/panel")
    oracle, many = original(), int(sys.argv[1]) if len(sys.argv) > 1 else 1000000
    lines = records(oracle)
    drawn = random.Random(1).choices(range(KEYS), [1 / (k + 1) for k in range(KEYS)], k=many)
    with tempfile.TemporaryDirectory() as folder:
        ours, theirs = os.path.join(folder, "lines"), os.path.join(folder, "commands")
        with open(ours, "w") as f:
            f.write(f"(shape {SHAPE})\n")
            f.writelines(lines[k] + "\n" for k in drawn)
            f.write("(show)\n")
        with open(theirs, "w") as f:
            f.write(f"snap 0\nnew r {SHAPE}\n")
            f.writelines(f"std r {k + 1} 1\n" for k in drawn)
            f.write("l1 r\nl2 r\ncard r\nstate r\n")
        a, b = [], []
        for _ in range(TURNS):
            a.append(run([PANEL], ours))
            b.append(run([oracle], theirs))
            assert shown(a[-1][2][-1]) == told(b[-1][2], many), (a[-1][2][-1], told(b[-1][2], many)[:3])
        for name, path, turns in (("panel", ours, a), ("original", theirs, b)):
            print(f"{name}: {many} updates, {os.path.getsize(path) >> 20} MiB, wall {min(t[0] for t in turns):.2f} s, "
                  f"processor {min(t[1] for t in turns):.2f} s")


main()
