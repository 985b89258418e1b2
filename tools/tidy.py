#!/usr/bin/env python3
"""Finds what the gate does not: imports that nothing uses, laws that stand twice, and laws that nothing names.

    python3 tools/tidy.py           prints all three
    python3 tools/tidy.py --fix     takes unused imports out (then `rt fmt`)

Imports are judged by name, file by file. Two laws are the same if their types are, but for the names of what they bind. A law that nothing
names, no paper either, is one that a reader is not told of and no proof needs. A row is a place to look.
"""
import collections
import os
import re
import subprocess
import sys

ROOT = os.path.realpath(os.path.join(os.path.dirname(os.path.abspath(__file__)), ".."))
USE = re.compile(r"^(ghost )?use ([^\n{]*?)\.\{([^}]*)\}(;?)$", re.M)
LAW = re.compile(r"^( {0,2})(?:abbrev |unfoldable )?(?:pub )?([^\s:(){}]+) : (.*)$")
TYPES = {"ℕ", "ℤ", "Bool"}


def files(pattern):
    """tracked files"""
    listed = subprocess.run(["git", "ls-files", pattern], cwd=ROOT, capture_output=True, text=True, check=True).stdout.split()
    return listed


def is_used(name, body):
    if name.startswith("◌") or name.endswith("◌"):
        return name.strip("◌") in body
    return re.search(r"(?<![\w\-′·«])" + re.escape(name.split(" as ")[-1]) + r"(?![\w\-′])", body) is not None


def unused(path, fix):
    text = open(path).read()
    uses = list(USE.finditer(text))
    body = text
    for m in reversed(uses):
        body = body[: m.start()] + body[m.end() :]
    body = re.sub(r"--.*" if path.endswith(".antt") else r"//.*", "", body)
    for m in reversed(uses):
        names = [n.strip() for n in m.group(3).split(",") if n.strip()]
        idle = [n for n in names if not is_used(n, body) and (path.endswith(".antt") or n not in TYPES)]
        if not idle:
            continue
        print(f"{os.path.relpath(path, ROOT)}: {m.group(2)}: {', '.join(idle)}")
        if fix:
            kept = [n for n in names if n not in idle]
            line = f"{m.group(1) or ''}use {m.group(2)}.{{{', '.join(kept)}}}{m.group(4)}"
            text = text[: m.start()] + line + text[m.end() :] if kept else text[: m.start()] + text[m.end() + 1 :]
    if fix:
        open(path, "w").write(text)


def laws(path):
    """each law's type with its bound names numbered, and where it stands"""
    lines = open(path).read().split("\n")
    for i, line in enumerate(lines):
        m = LAW.match(line)
        if not m or line.startswith("use"):
            continue
        kind, j = m.group(3), i + 1
        deep = len(m.group(1)) + 4
        while j < len(lines) and lines[j].strip() and len(lines[j]) - len(lines[j].lstrip()) >= deep:
            kind, j = kind + " " + lines[j].strip(), j + 1
        names = [n for b in re.finditer(r"[({]([^(){}:]+) : ", kind) for n in b.group(1).split()]
        for k, n in enumerate(dict.fromkeys(names)):
            kind = re.sub(r"(?<![\w\-′·«.])" + re.escape(n) + r"(?![\w\-′])", f"${k}", kind)
        if len(kind) > 40:
            yield re.sub(r"\s+", " ", kind), f"{os.path.relpath(path, ROOT)}:{i + 1} {m.group(2)}"


def named(paths):
    """how often each word stands in the laws, the answers, the code and the papers, imports left out"""
    count = collections.Counter()
    for f in paths:
        text = USE.sub("", open(os.path.join(ROOT, f), encoding="utf-8").read())
        count.update(re.findall(r"[^\s(){}\[\],;.`]+", text))
    return count


def idle_laws():
    count = named(files("crates/*.antt") + files("crates/*.rt") + files("crates/*.txt") + files("*.md"))
    for f in files("crates/*/proofs/*.antt"):
        if f.endswith("/Proof.antt"):
            continue
        text = open(os.path.join(ROOT, f), encoding="utf-8").read()
        for name in dict.fromkeys(re.findall(r"^(?:abbrev |unfoldable )*(?:pub )?([^\s:(]+) :", text, re.M)):
            # its signature and its clauses begin a line
            own = re.findall(r"^(?:abbrev |unfoldable )*(?:pub )?" + re.escape(name) + r"(?=\s)", text, re.M)
            if count[name] <= len(own):
                print(f"{f}: nothing names {name}")


def main():
    fix = "--fix" in sys.argv[1:]
    for f in files("crates/*.antt") + files("crates/*.rt"):
        unused(os.path.join(ROOT, f), fix)
    stand = collections.defaultdict(list)
    for f in files("crates/*.antt"):
        for kind, place in laws(os.path.join(ROOT, f)):
            stand[kind].append(place)
    for kind, places in sorted(stand.items()):
        if len(places) > 1:
            print(" | ".join(places), "\n   ", kind[:150])
    idle_laws()


main()
