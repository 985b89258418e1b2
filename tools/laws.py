#!/usr/bin/env python3
"""The definitions and laws of a crate, checked without its code.

    tools/laws.py TREE OUT CRATE ..   a copy of TREE in OUT in which every crate below has its structs and enums only; then `rt check CRATE` there

No function, so no answers: each crate takes 1 to 5 s, and a law can be proved while the code below it is not. `--skip NAME` leaves a crate's
laws out, `--only NAME:LAW,LAW` keeps but some of them (where the others are not current and nothing above names them). It prints what fails and
what each crate came to. It is no verdict on the tree.
"""
import glob
import os
import re
import shutil
import subprocess
import sys

args, skip = sys.argv[1:], set()
only = {}
while "--only" in args:
    i = args.index("--only")
    c, ms = args[i + 1].split(":")
    only[c] = ms.split(",")
    del args[i:i + 2]
while "--skip" in args:
    i = args.index("--skip")
    skip.add(args[i + 1])
    del args[i:i + 2]
tree, out, crates = args[0], args[1], args[2:]
deps = {}
for line in open(f"{tree}/crates.txt"):
    line = line.split("#")[0]
    if ":" in line:
        deps[line.split(":")[0].strip()] = line.split(":")[1].split()
seen = []


def visit(c):
    for d in deps.get(c, []):
        visit(d)
    if c in deps and c not in seen:
        seen.append(c)




def types(text):
    """the structs and enums of a file, and the `use` lines that they need"""
    kept = re.findall(r"^(?:#\[repr\(C\)\]\n)?(?:pub )?(?:struct|enum) \w+ \{\n.*?^\}\n", text, re.M | re.S)
    kept = [k.replace("Shape::MAX_LAYERS", "19") for k in kept]
    named = lambda u: re.search(r"\b" + last(u) + r"\b", "".join(kept))
    return kept, [u for u in re.findall(r"^use [^\n]*;$", text, re.M) if named(u)]


def last(use):
    return use.rstrip(";").split("::")[-1]


def written(path, lines, kept):
    open(path, "w").write("\n".join(["// structs and enums only"] + lines + [""] + kept))


for c in crates:
    visit(c)
shutil.rmtree(f"{out}/crates", ignore_errors=True)
for c in seen:
    here, there = f"{tree}/crates/{c}", f"{out}/crates/{c}"
    os.makedirs(there + "/src")
    if os.path.exists(here + "/specs"):
        shutil.copytree(here + "/specs", there + "/specs")
    if os.path.exists(here + "/proofs") and c not in skip:
        os.makedirs(there + "/proofs")
        for f in glob.glob(here + "/proofs/*.antt"):
            if c not in only or os.path.basename(f)[:-5] in only[c]:
                shutil.copy(f, there + "/proofs/")
        if c in only:
            open(there + "/proofs/Lib.antt", "w").write("".join(f"pub mod {m}\n" for m in only[c]))
    text = open(here + "/src/lib.rt").read()
    mods, has = [], {}
    for f in sorted(glob.glob(here + "/src/*.rt")):
        m = os.path.basename(f)[:-3]
        kept, uses = types(open(f).read())
        if m != "lib" and kept:
            written(f"{there}/src/{m}.rt", uses, kept)
            mods.append(("pub " if f"\npub mod {m};" in text else "") + f"mod {m};")
            has[m] = set(re.findall(r"(?:struct|enum) (\w+)", "".join(kept)))
    mods += [u for u in re.findall(r"^pub use [^\n]*;$", text, re.M) if last(u) in has.get(u.split()[2].split("::")[0], ())]
    kept, uses = types(text)
    written(there + "/src/lib.rt", mods + uses, kept)
open(f"{out}/crates.txt", "w").write("".join(f"{c}: {' '.join(d for d in deps[c] if d in deps)}\n" for c in seen))
for c in crates:
    o = subprocess.run(f"cd {out}; rt check {c} 2>&1", shell=True, capture_output=True, text=True).stdout
    print("\n".join(l[:600] for l in o.split("\n") if "error" in l or l.startswith(("rt:", "logic=", "  "))))
