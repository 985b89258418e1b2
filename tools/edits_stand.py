#!/usr/bin/env python3
"""Whether each must-fail edit's old text stands once in its file: tools/edits_stand.py [CRATE ..]"""
import glob, os, sys
bad = 0
for e in sorted(glob.glob("crates/*/must-fail/*.edit")):
    c = e.split("/")[1]
    if sys.argv[1:] and c not in sys.argv[1:]:
        continue
    f, texts = None, {}
    for l in open(e, encoding="utf-8").read().split("\n"):
        if l.startswith("file: "):
            f = l[6:].strip()
        elif l.startswith("old: "):
            old = l[5:]
        elif l.startswith("new: "):
            p = f"crates/{c}/{f}"
            t = texts.setdefault(p, open(p, encoding="utf-8").read() if os.path.exists(p) else "")
            n = t.count(old)
            if n != 1:
                bad += 1
                print(f"{e}: stands {n} times in {f}: {old}")
            texts[p] = t.replace(old, l[5:], 1)
print(bad, "texts do not stand once")
