"""What the generators of stored results share: the oracle as a process, and lines of words.

The oracle is the original Rust, built with the one patch of `merge` (original/README.md); a generator is run as

    python3 oracle/NAME.py PATH-OF-THE-ORACLE

and writes crates/NAME_test/stdin (inputs) and crates/NAME_test/stdout (the oracle's answers).
"""
import os
import subprocess
import sys

ROOT = os.path.realpath(os.path.join(os.path.dirname(os.path.abspath(__file__)), ".."))
MASK = (1 << 64) - 1


def oracle(lines):
    """the oracle's answers, one a line"""
    if len(sys.argv) != 2:
        sys.exit(__doc__)
    out = subprocess.run([sys.argv[1]], input="\n".join(lines) + "\n", capture_output=True, text=True, check=True).stdout
    answers = out.split("\n")[:-1]
    assert len(answers) == len(lines), (len(answers), len(lines))
    return answers


def words(*numbers):
    return " ".join(f"{n & MASK:016X}" for n in numbers)


def store(name, inputs, answers):
    """inputs: (operation, words); answers: lists of words, in the same order"""
    folder = f"{ROOT}/crates/{name}"
    with open(f"{folder}/stdin", "w") as f:
        for op, numbers in inputs:
            f.write(words(op, len(numbers), *numbers) + "\n")
    with open(f"{folder}/stdout", "w") as f:
        for numbers in answers:
            for n in numbers:
                f.write(words(n).lower() + "\n")
    print(f"{name}: {len(inputs)} inputs, {sum(map(len, answers))} answers")
