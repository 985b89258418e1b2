#!/usr/bin/env python3
"""The repository's own definitions and lemmas in the spelling of today's Rattle: words in snake case.

Run once, right after port.py, at the top of the checkout: `python3 tools/snake_names.py`.
`python3 tools/snake_names.py --list` prints old and new names and changes nothing.

- A word in camel case, as `squareCap`, becomes `square_cap`. Types, facts and modules keep their capital.
- A lemma's name is joined by a dash only between two names, as `find-hit`; a plain word goes on with `_`.
- A dashed name whose spelling with `_` is taken by another word keeps its dash.
- A name of a source file (a function, a parameter, a field) keeps its spelling, and so do strings.
- Proof.antt files are left to tools/turn_proofs.py, but for the words that they cite.
"""
import collections
import os
import re
import sys

KIT = "/opt/rattle/rattle"
WORD = re.compile(r"(?<![\w'.-])(?<!′)[A-Za-zμℕℤ][\w'₀-₉]*(?:-[\w'₀-₉]+)*|(?<=\.)[A-Za-z][\w'₀-₉]*(?:-[\w'₀-₉]+)*")
HEADS = re.compile(
    r"(?:^|[;{(])\s*(?:(?:pub|abbrev|unfoldable|record|data|let|in|macro) )*"
    r"([A-Za-zμ_][^\s(){}\[\];,.:=\"]*(?: [A-Za-z_][^\s(){}\[\];,.:=\"]*)*)(?:\s*(?:\{[^}]*\}|\([^)]*\)))*\s*:(?!=)",
    re.M,
)
# words of the library that lemma names are made of
COMMON = set(
    "length append take drop set map get_or cond and or not replicate reverse sum zero suc add mul sub div mod pow min max "
    "true false nil cons eq ne lt le nat int neg abs fst snd some none ok err items".split()
)

# lemmas that have the name which a definition takes now
LEMMAS = set("add_reads after_first all_in cell_in cells_at count_at kept_by left_by list_left own_in place_ok rows_fit".split())


def read(p):
    with open(p, encoding="utf-8") as f:
        return f.read()


def files(*ends):
    for root, dirs, names in os.walk("crates"):
        dirs[:] = sorted(d for d in dirs if d not in ("out", ".git"))
        for n in sorted(names):
            if n.endswith(ends):
                yield os.path.join(root, n)


def bare(text):
    return re.sub(r"--.*", "", text)


def heads(text):
    out = set()
    for m in HEADS.finditer(bare(text)):
        out.update(m.group(1).split())
    return out


def snake(word):
    if not word or word[0].isupper():
        return word
    word = re.sub(r"([a-z0-9'])([A-Z])", r"\1_\2", word)
    return "_".join(p if not p or not p[0].isupper() else p.lower() for p in word.split("_"))


def table():
    own, named, taken = set(), set(), collections.Counter()
    for p in files(".antt"):
        if p.endswith("/Proof.antt"):
            continue
        t = read(p)
        h = heads(t)
        own |= h
        if "/specs/" in p:
            for m in re.finditer(r"^\s*(?:(?:pub|abbrev|unfoldable|record|data) )+([^\s(){}:]+)", bare(t), re.M):
                named.add(m.group(1))
        taken.update(WORD.findall(bare(t)))
    src = set()
    for p in files(".rt"):
        t = re.sub(r"//.*", "", read(p))
        src.update(re.findall(r"\bfn (\w+)", t))
        taken.update(re.findall(r"[A-Za-z_]\w*", t))
    names = {snake(n) for n in named} | src | COMMON
    new = {}
    camel = [w for w in own if "-" not in w and re.match(r"[a-z][\w']*[A-Z]", w)]
    for w in sorted(camel):
        new[w] = snake(w)
    used = set(new.values())
    for w in sorted(w for w in own if "-" in w and not w[0].isupper()):
        parts = [snake(p) for p in w.split("-")]
        units = []
        while parts:
            n = next((n for n in range(len(parts), 1, -1) if "_".join(parts[:n]) in names), 1)
            units.append("_".join(parts[:n]))
            parts = parts[n:]
        out = units[0]
        for a, b in zip(units, units[1:]):
            out += ("-" if a in names and (b in names or b[:1].isupper()) else "_") + b
        if out in taken or out in used:
            out = "-".join(snake(p) for p in w.split("-"))
        used.add(out)
        if out != w:
            new[w] = out
    return new, taken


def outside(text, rename):
    """renames in the text but not in its strings"""
    parts = re.split(r'(b?"(?:[^"\\]|\\.)*")', text)
    return "".join(p if i % 2 else rename(p) for i, p in enumerate(parts))


def main():
    new, taken = table()
    if "--list" in sys.argv:
        for a, b in sorted(new.items()):
            print(a, b, "TAKEN" if b in taken else "")
        return
    changed = 0
    for p in files(".antt", ".rt"):
        t = read(p)
        # a name that the file imports from elsewhere than this repository is not ours
        theirs = set()
        for m in re.finditer(r"^(?:ghost )?use ([^\s{]+?)\.?\{([^}]*)\}", t, re.M | re.S):
            head = m.group(1)
            ours = head.startswith("Rattle.") and os.path.isdir("crates/" + head.split(".")[1])
            if not ours:
                theirs.update(x.strip().split(" as ")[0] for x in m.group(2).split(","))
        code = p.endswith(".rt")
        if code:
            rename = lambda s: re.sub(r"(?<![\w'-])[a-z][a-z0-9_]*[A-Z][\w']*", lambda m: new.get(m.group(0), m.group(0)), s)
        else:
            rename = lambda s: WORD.sub(lambda m: one(m.group(0), s[: m.start()][-1:]), s)

            def one(w, before):
                if w in LEMMAS and before != ".":
                    return w + "_lem"
                return w if w in theirs else new.get(w, w)

        u = outside(t, rename)
        if u != t:
            changed += 1
            with open(p, "w", encoding="utf-8") as f:
                f.write(u)
    print(f"snake_names: {len(new)} names, {changed} files changed")


main()
