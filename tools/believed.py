#!/usr/bin/env python3
"""Which definitions a reader has to believe: those that the contracts of the public calls and the statements of the theorems are made of.

    python3 tools/believed.py        prints them by file, and ends with 1 if the tree tells it otherwise
    python3 tools/believed.py -q     prints what the tree tells otherwise, and nothing else

The tree says it by folders: `specs/inner/` has what only inner contracts and laws cite. So none of the definitions that have to be believed may stand
there, and every other file of `specs/` has at least one. Names are followed by the imports of each file; the public calls are those that
docs/DECISIONS.md lists.
"""
import glob
import os
import re
import sys

ROOT = os.path.realpath(os.path.join(os.path.dirname(os.path.abspath(__file__)), ".."))
# the theorems' statements, and the definitions that say of another what it is
STATED = {
    "float64": ["Norm", "Root", "RootCount"],
    "univmon": ["Told"],
    "univmon_delta": ["Told"],
    "univmon_merge": ["Told"],
    "state_check": ["Reached"],
    "state_text": ["Restored"],
    "univmon_c": ["SameCalls"],
    "univmon_two_tier": ["SameCalls"],
    "header": ["OneTier"],
    "panel_lines": ["Ask"],
    "figures": ["Figures"],
    "shared_streams": ["SharedStreams"],
    "indexed_streams": ["IndexedRuns", "IndexedShared"],
    "panel_stream": ["PanelStream"],
}
# whose every contract counts: the calls from C, and the program
WHOLE = {"univmon_c": True, "univmon_exports": True, "univmon_two_tier": True, "panel": True}
USE = re.compile(r"^(?:ghost )?use (\S+?)\.\{([^}]*)\};?", re.M | re.S)
ALIAS = re.compile(r"^(?:ghost )?use (\S+) as (\S+?);?$", re.M)
HEAD = re.compile(r"^( *)(?:abbrev |unfoldable )*pub (record |data )?([^\s:({]+)")
FUNCTION = re.compile(r"(?:pub (?:extern \"C\" )?)?fn (\w+)\(.*?\n *\{\n", re.S)


def words(text):
    return set(re.findall(r"[^\s(){}\[\],;⌜⌝]+", text))


def target(path):
    m = re.match(r"Rattle\.([a-z0-9_]+)\.specs\.(.+)$", path)
    return (m.group(1), m.group(2)) if m else None


class File:
    def __init__(self, text):
        self.brings, self.alias, self.defs, self.part_of = {}, {}, {}, {}
        for path, names in USE.findall(text):
            for name in names.split(","):
                self.brings[name.strip()] = target(path)
        for path, name in ALIAS.findall(text):
            self.alias[name] = target(path)
        current = None
        for line in text.split("\n"):
            line = re.sub(r"--.*", "", line)
            head = HEAD.match(line)
            # a field of a record is indented and has no `abbrev` or `unfoldable`
            if head and (not head.group(1) or re.match(r" *(abbrev|unfoldable)", line)):
                current = head.group(3)
                self.defs[current] = ""
            if current:
                self.defs[current] += line + "\n"
        for name, body in self.defs.items():
            if "data " + name in body:
                for case in re.findall(r"^  (\S+) :", body, re.M):
                    self.part_of[case] = name

    def names(self, text):
        """what a text of this file names, as (module, name); the module is None for the file's own"""
        for word in words(text):
            first, _, rest = word.partition(".")
            if rest and first in self.alias:
                yield self.alias[first], rest
            elif word in self.defs or word in self.part_of:
                yield None, word
            elif word in self.brings:
                yield self.brings[word], word


def public_calls():
    text = open(f"{ROOT}/docs/DECISIONS.md", encoding="utf-8").read()
    text = text[text.index("These are all of them:") : text.index("## Points that were open")]
    for crate, many, one in re.findall(r"`(\w+)::(?:\{([^}]*)\}|([\w:]+))`", text):
        for name in many.split(",") if many else [one.split("::")[-1]]:
            yield crate, name.strip()


def main():
    files = {}
    for path in glob.glob(f"{ROOT}/crates/*/specs/**/*.antt", recursive=True):
        crate, module = re.search(r"crates/(\w+)/specs/(.*)\.antt$", path).groups()
        if module not in ("Lib", "inner"):
            files[crate, module.replace("/", ".")] = File(open(path, encoding="utf-8").read())
    believed, todo = set(), []

    def add(module, name):
        if module in files:
            name = files[module].part_of.get(name, name)
            if name in files[module].defs and (module, name) not in believed:
                believed.add((module, name))
                todo.append((module, name))

    calls = set(public_calls())
    for path in glob.glob(f"{ROOT}/crates/*/src/*.rt"):
        crate = re.search(r"crates/(\w+)/", path).group(1)
        source = File(open(path, encoding="utf-8").read())
        for m in FUNCTION.finditer(open(path, encoding="utf-8").read()):
            if crate in WHOLE or (crate, m.group(1)) in calls:
                calls.discard((crate, m.group(1)))
                for module, name in source.names(m.group(0)):
                    add(module, name)
    for crate, modules in STATED.items():
        for module in modules:
            for name in files[crate, module].defs:
                add((crate, module), name)
    while todo:
        module, name = todo.pop()
        for at, other in files[module].names(files[module].defs[name]):
            add(at or module, other)
    wrong = [f"docs/DECISIONS.md lists {c}::{n}, which no source has" for c, n in sorted(calls)]
    for (crate, module), file in sorted(files.items()):
        path = f"crates/{crate}/specs/{module.replace('.', '/')}.antt"
        here = [n for n in file.defs if ((crate, module), n) in believed]
        if module.startswith("inner.") and here:
            wrong.append(f"{path}: has to be believed: {', '.join(here)}")
        elif not module.startswith("inner.") and not here:
            wrong.append(f"{path}: nothing of it has to be believed")
        if here and "-q" not in sys.argv:
            rest = [n for n in file.defs if n not in here]
            print(f"{path}: {', '.join(here)}" + (f" (not: {', '.join(rest)})" if rest else ""))
    for line in wrong:
        print(line)
    if "-q" not in sys.argv:
        print(f"{len(believed)} definitions of {sum(len(f.defs) for f in files.values())}")
    return 1 if wrong else 0


if __name__ == "__main__":
    sys.exit(main())
