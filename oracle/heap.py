"""Stored results of one layer's candidates: offers to heaps of five sizes, held against the Rust's lone candidate heap.

Inputs: 1 a new heap (size); 2 an offer (key, count, bottom hash, high and low half); 3 find (key); 4 the whole state;
5 whether every count lies within ±2^52.
Answers: an offer gives the Rust's true or false, which of four things was done (1 rescored, 2 seated, 3 displaced, 4 turned away),
the displaced key or 0, the length, and the root's key and count; find the place, or the length where there is none; the state
the length, then key, bottom hash, high, low and count of each entry.

True or false, places, keys and counts are the oracle's (`hput`, `hfind`, `state`). What was done is told by its states before and
after. The lone heap has no hashes: each offer brings other ones, and those of the offer that seated a key must be stored.
"""
import random

from vectors import MASK, oracle, store

rng = random.Random(20261115)
SIZES = [1, 2, 3, 7, 16] * 3
OFFERS = 60
LEAST, MOST, TOP = -(1 << 63), (1 << 63) - 1, 1 << 52


def count_for(last):
    """counts with many ties; a known key goes up, goes down or stays"""
    kind = rng.randrange(10)
    if kind < 6:
        return rng.randrange(-3, 5)
    if kind < 8:
        return max(LEAST, min(MOST, last + rng.choice([-40, -1, 0, 1, 40])))
    if kind < 9:
        return rng.randrange(-1000, 1000)
    return rng.choice([TOP, -TOP, TOP + 1, MOST, LEAST, 0])


def script(size):
    """the calls: (operation, words)"""
    keys = [rng.randrange(4), MASK] + [rng.getrandbits(64) for _ in range(2 * size)]
    last, calls = {}, [(1, [size])]
    for step in range(OFFERS):
        key = rng.choice(keys)
        last[key] = count_for(last.get(key, 0))
        calls.append((2, [key, last[key]] + [rng.getrandbits(64) for _ in range(3)]))
        if step % 7 == 6:
            calls.append((3, [rng.choice(keys)]))
        if step % 10 == 9 or step < 3:
            calls += [(4, []), (5, [])]
    return calls


def lines(name, op, words):
    """what the oracle is asked"""
    if op == 1:
        return [f"hnew {name} {words[0]}", f"state {name}"]
    if op == 2:
        return [f"hput {name} {words[0]} {words[1]}", f"state {name}"]
    return [f"hfind {name} {words[0]}" if op == 3 else f"state {name}", f"state {name}"]


def entries(state):
    """keys and counts in array order"""
    text = state.split(" ", 1)[1:]
    return [tuple(map(int, e.split(":"))) for e in text[0].split(",")] if text and text[0] else []


def answer(op, words, said, before, after, hashes):
    if op == 1:
        hashes.clear()
        return []
    if op == 3:
        return [len(after) if said == "none" else int(said)]
    if op == 5:
        return [int(all(-TOP <= count <= TOP for key, count in after))]
    if op == 4:
        return [len(after)] + [x for key, count in after for x in [key] + hashes[key] + [count]]
    key, old, new = words[0], dict(before), dict(after)
    gone = [k for k in old if k not in new]
    did = 1 if key in old else 4 if key not in new else 3 if gone else 2
    if did in (2, 3):
        hashes[key] = words[2:]
    for k in gone:
        del hashes[k]
    return [int(said), did, gone[0] if gone else 0, len(after), after[0][0], after[0][1]]


inputs = [(f"h{k}", op, words) for k, size in enumerate(SIZES) for op, words in script(size)]
said = oracle([line for name, op, words in inputs for line in lines(name, op, words)])
assert not any(s.startswith(("error", "panic")) for s in said)
answers, before, hashes = [], [], {}
for k, (name, op, words) in enumerate(inputs):
    after = entries(said[2 * k + 1])
    answers.append(answer(op, words, said[2 * k], [] if op == 1 else before, after, hashes))
    before = after
store("heap_test", [(op, words) for name, op, words in inputs], answers)
