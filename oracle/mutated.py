"""Holds answers of the reader to mutated texts against `read_text` of model.py.

    python3 oracle/mutated.py DUMP

DUMP is what `bindings/rust/tests/mutated.rs` leaves (MUTATED_DUMP) of the texts that it tried, one record after the other: the answer's
number, the four lengths of the slices and the text's number of bytes, each a little-endian word of 64 bits, then the text. It prints how
many agree, and ends with 1 if one does not.
"""
import struct
import sys
from collections import Counter

from model import read_text

HEAD = struct.Struct("<6Q")


def records(data):
    at = 0
    while at < len(data):
        answer, *lengths, n = HEAD.unpack_from(data, at)
        at += HEAD.size
        if len(data) < at + n:
            sys.exit("the dump ends inside a record")
        yield answer, lengths, data[at:at + n]
        at += n


def main():
    if len(sys.argv) != 2:
        sys.exit(__doc__)
    with open(sys.argv[1], "rb") as f:
        data = f.read()
    agreed, wrong = Counter(), []
    for answer, lengths, text in records(data):
        want, _ = read_text(text, lengths)
        if answer == want:
            agreed[answer] += 1
        else:
            wrong.append((answer, want, lengths, text))
    for answer, want, lengths, text in wrong[:5]:
        print(f"answered {answer}, not {want}, for lengths {lengths} and the text {text!r}")
    kinds = ", ".join(f"{n} with {answer}" for answer, n in sorted(agreed.items()))
    print(f"{sum(agreed.values())} answers agree ({kinds}), {len(wrong)} do not")
    sys.exit(1 if wrong or not agreed else 0)


main()
