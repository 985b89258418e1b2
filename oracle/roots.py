#!/usr/bin/env python3
"""Roots and how many of their digits are worked out, by exact arithmetic; and `float64_test` held against that.

    oracle/roots.py PROGRAM [CASES [SEED]]

PROGRAM is `float64_test`, compiled (crates/float64_test/out/float64_test). It is handed CASES patterns (by default 100,000) twice: as function 1
it answers their roots, as function 8 how many digits it worked out. About half are squares of odd numbers of 1 to 27 digits, times
even powers of two; the others are the kinds of OTHERS, few of them squares. Every word is compared with what whole numbers and
`math.isqrt` give here, with no float in it. The last line says how many patterns there were; it ends with 1 if an answer is another
one, and names the first such patterns, or if none of them has an exact root. float64.py takes what it wants of roots from the same
functions.
"""
import math
import random
import subprocess
import sys

NAN, INF, SIGN = 0x7FF8000000000000, 0x7FF0000000000000, 1 << 63
FIELD = 1 << 52     # the weight of the exponent's field in a pattern
LEAST = -1074       # 2^LEAST is the least number above zero
LONGEST = 27        # the most digits of an odd number whose square has at most 53


def near(bits):
    return [bits - 1, bits, bits + 1]


def number(bits):
    """m and e, where m * 2^e is the number above zero that has this pattern"""
    field, m = divmod(bits, FIELD)
    return (m + FIELD, LEAST + field - 1) if field else (m, LEAST)


def placed(n, e):
    """the pattern of n * 2^e, which has to be a float above zero"""
    up = min(53 - n.bit_length(), e - LEAST)    # to 53 digits; a subnormal has fewer, its last one of weight 2^LEAST
    return (e - up - LEAST) * FIELD + (n << up)


def under(bits):
    """n and e, where n * 4^e is the number above zero that has this pattern: its root is that of n times 2^e"""
    m, e = number(bits)
    return m << e % 2, e // 2


def root(bits):
    """the pattern of the root, rounded to the nearest float and to the even one of two; NAN of a NaN and of anything below zero"""
    if not 0 < bits < INF:
        return bits if bits in (0, SIGN, INF) else NAN
    n, e = under(bits)
    more = (108 - n.bit_length()) // 2          # with so many pairs of zeros behind it the whole root has 54 digits, one more than a float
    n <<= 2 * more
    whole = math.isqrt(n)
    kept, last = divmod(whole, 2)
    kept += last and (whole * whole < n or kept % 2)    # above the middle of two floats, or in the middle above an odd one
    return (e - more + 1 - LEAST) * FIELD + kept        # the first digit of kept counts as one in the field


def digits(bits):
    """how many digits of the root are worked out: those of r where the root is r times a power of two, r odd, and 54 where it is not
    exact; none of a zero, an infinity, a NaN and anything below zero"""
    if not 0 < bits < INF:
        return 0
    n, _ = under(bits)
    r = math.isqrt(n)
    return (r // (r & -r)).bit_length() if r * r == n else 54


def square(r, length):
    """of an odd number with so many digits, at most LONGEST"""
    return r.randrange(1 << (length - 1) | 1, min(1 << length, math.isqrt((1 << 53) - 1) + 1), 2) ** 2


def moved(r, n, odd, small=False):
    """n times some power of two, an even or an odd one; small: as a subnormal if it fits, else as small as may be"""
    first = LEAST + odd
    last = (-1022 if small else 1024) - n.bit_length()
    return placed(n, r.randrange(first, max(first, last) + 1, 2))


def any_square(r, odd=0):
    return moved(r, square(r, r.randint(1, LONGEST)), odd, r.randrange(8) == 0)


def beside_square(r):
    return any_square(r) + r.choice((1, -1))


def no_square(r):
    return any_square(r, 1)


def halfway(r):
    """next to the square of a value that lies halfway between two floats"""
    m = (r.getrandbits(53) | 1 << 53 | 1) ** 2
    cut = m.bit_length() - 53
    return r.choice(near(moved(r, m >> cut, cut % 2)))


def any_pattern(r):
    return r.getrandbits(64)


def subnormal(r):
    return r.getrandbits(r.randrange(1, 53))


def special(r):
    return r.choice((0, INF, INF + r.randrange(1, FIELD), r.randrange(1, INF))) | r.choice((0, SIGN))


OTHERS = (beside_square, no_square, halfway, any_pattern, subnormal, special)


def answers(program, patterns):
    """the program's words: the roots of all patterns, then the digits of all"""
    given = "".join(f"{function:016X} {len(patterns):016X}\n" + "".join(f"{b:016X}\n" for b in patterns) for function in (1, 8))
    words = subprocess.run([program], input=given, stdout=subprocess.PIPE, text=True, check=True).stdout.split("\n")[:-1]
    if len(words) != 2 * len(patterns):
        sys.exit(f"roots: {program} answered {len(words)} words to {2 * len(patterns)} cases")
    return words[:len(patterns)], words[len(patterns):]


def main(program, cases=100_000, seed=20261117):
    r = random.Random(seed)
    patterns = [any_square(r) if r.getrandbits(1) else r.choice(OTHERS)(r) for _ in range(cases)]
    exact, wrong = [], []
    for b, root_word, digits_word in zip(patterns, *answers(program, patterns)):
        many = digits(b)
        if 0 < many < 54:
            exact.append(many)
        wanted = f"{root(b):016x}", f"{many:016x}"
        if (root_word, digits_word) != wanted:
            wrong.append(f"{b:016X}: root {root_word}, digits {digits_word}, not {wanted[0]} and {wanted[1]}")
    for line in wrong[:5]:
        print(line)
    lengths = f"digits {min(exact)} to {max(exact)}" if exact else "none to count digits of"
    print(f"roots: {cases} patterns, {len(exact)} exact, {lengths}, {f'{len(wrong)} differ' if wrong else 'no difference'}")
    sys.exit(1 if wrong or not exact else 0)


if __name__ == "__main__":
    if not 2 <= len(sys.argv) <= 4:
        sys.exit(__doc__)
    main(sys.argv[1], *map(int, sys.argv[2:]))
