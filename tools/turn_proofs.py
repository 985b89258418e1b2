#!/usr/bin/env python3
"""Turns a crate's Proof.antt files, which walk the code place by place, to Invariants.antt and Answers.antt.

    tools/turn_proofs.py NAME [FN ..]     at the top of a checkout, after port.py and tools/snake_names.py

It asks the check for each goal's and each place's old and new name (`rt check --generated DIR --old-names`), takes
each answer of Proof.antt over under its goal's new name, and a path `c.before.before.STEP.FIELD` becomes `c.STEP.FIELD`.
An answer that is `search rules` alone is left to the check. What it cannot turn it prints.
"""
import difflib
import glob
import json
import os
import re
import subprocess
import sys

PATH = re.compile(r"(?<![\w'.₀-₉-])c((?:\.(?:«[^»]*»|[\w'₀-₉]+(?:-[\w'₀-₉]+)*))*)(?![\w'₀-₉-])")


def read(p):
    with open(p, encoding="utf-8") as f:
        return f.read()


def put(p, t):
    with open(p, "w", encoding="utf-8") as f:
        f.write(t)


SOURCE = set()


def norm(s):
    return s.replace("-", "_").replace("μ", "decreases")


def blocks(text):
    """the declarations of a proof file: each a list of lines from the signature on, without its indentation"""
    out, cur = [], []
    text = re.sub(r"^use [^{\n]*\.\{[^}]*\}\n", "", text, flags=re.M)
    for line in text.split("\n"):
        if re.match(r"use ", line):
            continue
        if line.strip() == "":
            if cur:
                out.append(cur)
            cur = []
            continue
        cur.append(line)
    if cur:
        out.append(cur)
    # a `where` block below an empty line goes with what stands before it
    joined = []
    for b in out:
        if joined and b[0].startswith(" "):
            joined[-1] += [""] + b
        else:
            joined.append(b)
    return joined


def shut(s, i):
    """the place behind the bracket that closes the one at i"""
    pair, deep = {"(": ")", "[": "]", "{": "}"}, []
    for j in range(i, len(s)):
        if s[j] in pair:
            deep.append(pair[s[j]])
        elif deep and s[j] == deep[-1]:
            deep.pop()
            if not deep:
                return j + 1
    return None


def parts(s):
    """the terms between the commas of a tuple's inside"""
    out, cur, i = [], "", 0
    while i < len(s):
        if s[i] in "([{":
            j = shut(s, i)
            cur, i = cur + s[i:j], j
        elif s[i] == ",":
            out, cur, i = out + [cur], "", i + 1
        else:
            cur, i = cur + s[i], i + 1
    if cur.strip():
        out.append(cur)
    return [x.strip() for x in out]


def record(term, fields):
    """a term whose end is a tuple, with the tuple as a record of these fields; None where it is not one"""
    s = term.rstrip()
    for i in range(len(s)):
        if s[i] == "(" and shut(s, i) == len(s):
            before = s[:i].rstrip()
            if before and not re.search(r"(\bin|\brw (?:\(.*\)|c\.[\w.-]+))$", before):
                continue
            ps = parts(s[i + 1 : -1])
            while len(ps) < len(fields) and len(ps) > 1 and ps[-1].startswith("(") and shut(ps[-1], 0) == len(ps[-1]):
                inner = parts(ps[-1][1:-1])
                if len(inner) < 2:
                    break
                ps[-1:] = inner
            if len(ps) != len(fields):
                return None
            r = "record {\n" + "".join(f"      {f} = {p};\n" for f, p in zip(fields, ps)) + "    }"
            return s[:i] + (f"({r})" if before and not before.endswith("in") else r)
    # the call of a lemma that gives a tuple: its parts one by one
    i = 0
    while m := re.match(r"\s*let \w+ [^\n]* in[ \n]", s[i:]):
        i += m.end()
    last = s[i:].strip()
    if not re.match(r"[a-z][\w']*(?:[-_][\w']+)* ", last) or re.match(r"(rw|simp|omega|search|let|record|subst|elim|absurd|cc|grind)\b", last):
        return None
    n = len(fields)
    at = ["t" + ".1" * k + (".0" if k < n - 1 else "") for k in range(n)]
    return s[:i] + f"\n    let t = {last} in\n    record {{\n" + "".join(f"      {f} = {a};\n" for f, a in zip(fields, at)) + "    }"


def untuple(term):
    """a `let` of a tuple of paths whose parts are named after it: the paths in their place"""
    for m in re.finditer(r"let (\w+) = (\([\w.,() -]+\)) in\s*", term):
        name, tup = m.group(1), m.group(2)
        if shut(tup, 0) != len(tup) or not re.fullmatch(r"[(), ]*(?:c\.[\w.-]+[(), ]*)+", tup):
            continue
        rest = term[m.end() :]

        def part(k):
            t, way = tup, re.findall(r"\.([01])", k.group(1))
            while way and t.startswith("(") and shut(t, 0) == len(t):
                ps = parts(t[1:-1])
                t, way = ps[int(way[0])], way[1:]
            return t + "".join("." + w for w in way)

        return untuple(term[: m.start()] + re.sub(r"(?<![\w'.-])" + name + r"((?:\.[01])+)(?![\w'-])", part, rest))
    return term


def tupled(path, clauses):
    """a path, or the tuple of its clauses"""
    if not clauses:
        return path
    return f"({path}.{clauses[0]}, " + (tupled(path, clauses[1:]) if len(clauses) > 2 else f"{path}.{clauses[1]}") + ")"


class Fn:
    def __init__(self, crate, fn, info):
        self.crate, self.fn, self.info, self.bad, self.of_helper = crate, fn, info, [], {}
        self.place = {}
        for i, (old, parent, (of, nf), callee, fields) in enumerate(info["places"]):
            self.place[old] = dict(parent=parent, of=of, nf=nf, callee=callee, fields=dict(fields), new=info["places_by_name"][i], typed=info["typed"][i] if i < len(info.get("typed", [])) else [])
        arms = info.get("arms") or [None] * len(info["places"])
        for (old, *_), arm in zip(info["places"], arms):
            self.place[old]["arm"] = arm
        # an arm's facts are in its last place, under the arm's name
        self.arm_end = {}
        for (old, *_), arm, new in zip(info["places"], arms, info["places_by_name"]):
            if arm and new.replace("In-", "in-", 1) == arm[0]:
                self.arm_end[arm[0]] = new
        self.byname = {norm(k): k for k in self.place}
        self.loops = {l[0][0]: (l[0][1], l[1], info["changed"][i]) for i, l in enumerate(info["loops"])}
        self.used_places = set()
        self.domain = {}
        self.steps = {p[2][1] for p in info["places"]}

    def spelled(self, p):
        arm = self.place[p]["arm"]
        return self.arm_end.get(arm[0], self.place[p]["new"]) if arm else self.place[p]["new"]

    def up(self, p, k):
        for _ in range(k):
            q = self.place[p]["parent"]
            if q is None:
                return None
            p = q
        return p

    def paths(self, term, place, goal):
        """a term's paths from the place `place` (an old name); goal is None in a helper"""
        while True:
            # a name for a place is written out
            m = re.search(r"let (\w+) = (c(?:\.before)+) in\s*", term)
            if not m:
                break
            rest = term[m.end():]
            rest = re.sub(r"(?<![\w'.-])" + m.group(1) + r"(?![\w'-])", m.group(2), rest)
            term = term[: m.start()] + rest

        def one(m):
            parts = re.findall(r"\.(«[^»]*»|[\w'₀-₉]+(?:-[\w'₀-₉]+)*)", m.group(1))
            k = 0
            while k < len(parts) and parts[k] == "before":
                k += 1
            q = self.up(place, k)
            rest = parts[k:]
            if q is None:
                # there were more places once: the start
                q = "Start"
            if q is None:
                self.bad.append("above the start: " + m.group(0))
                return m.group(0)
            if not rest:
                if goal is None:
                    return m.group(0)
                h = re.search(r"([\w'-]+)\s+\(*$", m.string[: m.start()])
                if h and h.group(1) in self.domain:
                    q = self.domain[h.group(1)]
                new = self.spelled(q)
                self.used_places.add(new)
                return f"(goal.at.{goal} c).{new}"
            if rest[0].endswith("_lem") and any(p["of"] and norm(p["of"]) == norm(rest[0][:-4]) for p in self.place.values()):
                rest[0] = rest[0][:-4]
            f = rest[0]
            here = self.place[q]
            if norm(f).lower() == norm(here["of"]).lower() and here["of"]:
                self.step(rest, q)
            elif f in ("args", "requires", "ranges", "well_formed", "well-formed", "good", "was", "entry", "fits", "pre"):
                rest[0] = {"fits": "ranges", "pre": "requires", "good": "well_formed", "well-formed": "well_formed"}.get(f, f)
            else:
                # a step of an earlier place, named without its `before`
                r = q
                while r is not None and not (self.place[r]["of"] and norm(self.place[r]["of"]).lower() == norm(f).lower()):
                    r = self.place[r]["parent"]
                if r is None:
                    # there were more places once: the nearest one between the goal's place and the counted one
                    s = place
                    while s is not None and s != q:
                        if self.place[s]["of"] and norm(self.place[s]["of"]).lower() == norm(f).lower():
                            r = s
                        s = self.place[s]["parent"]
                if r is None:
                    self.bad.append(f"{goal}: no step {f} at {q}: {m.group(0)}")
                    return m.group(0)
                self.step(rest, r)
            if len(rest) > 1 and rest[1] in ("taken", "left") and (rest[0].startswith(("if", "prove")) or rest[0].startswith("loop") and rest[0].endswith("-test")):
                rest[1] = {"taken": "true", "left": "false"}[rest[1]]
            clauses = None
            if rest[0] == "requires":
                clauses, at = (self.info.get("pre") or {}).get("fields"), 1
            elif len(rest) > 1 and rest[1] == "ensures":
                r = next((i for i, p in enumerate(self.info["places"]) if p[2][1] == rest[0]), None)
                clauses, at = (self.info["clauses"][r] or {}).get("fields") if r is not None else None, 2
            callee = next((p[3] for p in self.info["places"] if p[2][1] == rest[0]), None)
            if len(rest) > 2 and rest[1] in ("new", "auto", "last", "kept") and callee in self.info.get("params", {}):
                # a reference among the callee's parameters, by its position
                n = 0
                while 2 + n < len(rest) and rest[2 + n] == "1":
                    n += 1
                of = self.info["params"][callee]
                if n < len(of) and n + 2 < len(rest) and rest[n + 2] == "0":
                    rest[2 : n + 3] = [of[n]]
            whole = None
            if clauses:
                whole = self.clause(clauses, rest, at, goal, m.group(0))
            for i in range(1, len(rest)):
                before = rest[i - 1]
                if before in ("args", "ranges", "new", "last", "kept", "result", "initial") or (i == 1 and f.startswith("loop") and "test" not in f):
                    if rest[i] not in ("invariant",):
                        rest[i] = rest[i].replace("-", "_")
            return tupled("c." + ".".join(rest), whole)

        # a helper takes the place that its signature names
        def given(m):
            want = self.of_helper.get(m.group(1))
            if want is None:
                return m.group(0)
            if goal is not None:
                new = self.place[want]["new"]
                self.used_places.add(new)
                return f"{m.group(1)} (goal.at.{goal} \1).{new}"
            if want == place:
                return m.group(1) + " \1"
            here, new = self.spelled(place), self.spelled(want)
            self.used_places.update((here, new))
            return f"{m.group(1)} (goal.at.{here} \1).{new}"

        term = re.sub(r"(?<![\w'.-])([\w']+(?:-[\w']+)*) c(?:\.before)*(?![\w'.-])", given, term)
        term = PATH.sub(one, term)
        # what a `!` tested, under its own name
        term = re.sub(r"not-(true|false) _ (c\.[\w-]+)\.(true|false)(?:-raw)?(?![\w-])", r"\2.\3", term)
        term = re.sub(r"(?<=\.)([a-z]\w*(?:-\w+)+)", lambda x: x.group(1).replace("-", "_") if x.group(1).replace("-", "_") in SOURCE and not x.group(1) in self.steps else x.group(1), term)
        term = untuple(term)
        # what a call left behind its references, bound by a `let`
        for name, step, what in re.findall(r"let (\w+) = c\.([\w-]+)\.(new|last|kept|auto) in", term):
            of = self.info.get("params", {}).get(next((p[3] for p in self.info["places"] if p[2][1] == step), None))
            for n, x in enumerate(of or []):
                term = re.sub(r"(?<![\w'.₀-₉-])" + name + r"\.1" * n + r"\.0(?![\w])", f"{name}.{x}", term)
        # a call bound by a `let`: its clauses
        for name, step in re.findall(r"let (\w+) = c\.([\w-]+) in", term):
            r = next((i for i, p in enumerate(self.info["places"]) if p[2][1] == step), None)
            clauses = (self.info["clauses"][r] or {}).get("fields") if r is not None else None
            lent = self.lent(self.info["places"][r][3]) if r is not None and self.info["places"][r][3] else []
            for n, x in enumerate(lent):
                term = re.sub(r"(?<![\w'.₀-₉-])" + name + r"\.(?:kept|auto)" + r"\.1" * n + r"\.0(?![\w.])", f"{name}.auto.{x}", term)
                term = re.sub(r"(?<![\w'.₀-₉-])" + name + r"\.(?:last|new)" + r"\.1" * n + r"\.0(?![\w.])", f"{name}.new.{x}", term)
            if not clauses:
                continue

            def of_let(m):
                rest = ["ensures"] + re.findall(r"\.([\w'₀-₉-]+)", m.group(1))
                whole = self.clause(clauses, rest, 1, goal, m.group(0))
                return tupled(name + "." + ".".join(rest), whole)

            term = re.sub(r"(?<![\w'.₀-₉-])" + name + r"\.ensures((?:\.[\w'₀-₉-]+)*)", of_let, term)
        # a negated test says of the value what its old form said of the test
        old = r"not-(?:true|false) _ (c\.if-[\w-]+\.(?:true|false))-raw(?![\w'-])"
        term = re.sub(old, r"\1", re.sub(r"\(" + old + r"\)", r"\1", term))
        return term.replace("\1", "c")

    def step(self, rest, p):
        """a step's name, and its field's, by the place p where it is"""
        here = self.place[p]
        if here["arm"] and len(rest) > 1:
            for field, of, path in here["arm"][2]:
                if of == here["of"] and path and rest[1 : 1 + len(path)] == path:
                    rest[: 1 + len(path)] = [here["arm"][0], field]
                    return
        rest[0] = here["nf"]
        if len(rest) > 1 and rest[1] in here["fields"]:
            rest[1] = here["fields"][rest[1]]
        if len(rest) > 2 and rest[1] in ("kept", "auto") and rest[2] in "01":
            # the lengths that a call keeps, in the order of its `&mut` slices
            callee = here["callee"]
            lent = self.lent(callee) if callee else []
            at, n = 2, 0
            while at < len(rest) and rest[at] == "1":
                at, n = at + 1, n + 1
            if n < len(lent) and at < len(rest) and rest[at] == "0":
                rest[1 : at + 1] = ["auto", lent[n]]

    def lent(self, callee):
        # by its position among all that the callee takes
        if callee in (self.info.get("params") or {}):
            return self.info["params"][callee]
        crate, *_, name = callee.split("::")
        for p in glob.glob(f"crates/{crate}/src/**/*.rt", recursive=True):
            m = re.search(r"\bfn " + name + r"\(([^)]*)\)", read(p))
            if m:
                return re.findall(r"(\w+): &mut \[", m.group(1))
        return []

    def clause(self, clauses, rest, at, goal, said):
        """`.1.1.0` of a contract's clauses, from `at` on, under the clause's name; several clauses as a whole are answered back"""
        at0, n = at, 0
        while n < len(clauses) - 1 and at < len(rest) and rest[at] == "1":
            n, at = n + 1, at + 1
        if len(clauses) == 1:
            rest[at0:at0] = clauses
        elif n == len(clauses) - 1:
            rest[at0:at] = [clauses[n]]
        elif at < len(rest) and rest[at] == "0":
            rest[at0 : at + 1] = [clauses[n]]
        elif at == len(rest):
            rest[at0:] = []
            return clauses[n:]
        else:
            self.bad.append(f"{goal}: clauses {clauses} as a whole: {said}")


def turn(crate, fn, info, folder):
    text = re.sub(r"\.type-inv(?![\w'-])", ".type_inv", read(folder + "/Proof.antt"))
    F = Fn(crate, fn, info)
    head = []
    for line in text.split("\n"):
        if line.startswith("--"):
            if "tools/places.py" not in line:
                head.append(line)
        else:
            break
    uses = re.findall(r"^use [^{\n]*\.\{[^}]*\}|^use [^{\n]+$", text, re.M)
    uses = [re.sub(r"\s*\n\s*", " ", u) for u in uses]
    uses = [u for u in uses if not re.search(r"\.(Statement|Tie|Lts)\b", u)]
    body = text.split("\n", len(head))[-1] if False else "\n".join(l for l in text.split("\n"))
    while body.startswith("--"):
        body = body.split("\n", 1)[1]
    decls, needs = [], []
    for b in blocks(body):
        while b and b[0].startswith("--"):
            decls.append(("comment", None, b[:1]))
            b = b[1:]
        if not b:
            continue
        m = re.match(r"(?:abbrev )?(?:pub )?(\S+)\s*(?:\{[^}]*\}\s*)*:", b[0])
        if not m:
            F.bad.append("not understood: " + b[0])
            continue
        name = m.group(1)
        sig = [b[0]]
        rest = b[1:]
        while rest and not re.match(re.escape(name) + r"(\s|$)", rest[0]) and not rest[0].startswith("unfolding"):
            sig.append(rest[0])
            rest = rest[1:]
        s = "\n".join(sig)
        mm = re.search(r":\s*tie\.Need-(\S+)", s)
        if re.match(r"pub \S+[-_]spec :", s):
            order = re.search(r"tie\.spec(.*)", "\n".join(rest), re.S)
            continue
        if mm and re.match(r"(?:pub )?\S+ : tie\.Need-", s):
            needs.append(name)
            decls.append(("need", name, rest, mm.group(1)))
        elif re.search(r"tie\.(invariant|decreases|InvT|MeasureT)-", s):
            kind = re.search(r"tie\.(\S+)", s).group(1)
            decls.append(("inv", name, rest, kind))
        else:
            decls.append(("helper", name, sig, rest))
    AT = r"tie\.(\S+?)((?: invariant-\S+| decreases-\S+)*)"
    for d in decls:
        if d[0] == "helper":
            m = re.search(r"\(c : " + AT + r"\)", "\n".join(d[2])) or re.search(r": " + AT + r" →", "\n".join(d[2]))
            p = F.byname.get(norm(m.group(1))) if m else None
            if p:
                F.of_helper[d[1]] = p
    wanted = info["needs"]
    olds = [d[3] for d in decls if d[0] == "need"]
    new_of, told = {}, {}
    idx = [i for i, d in enumerate(decls) if d[0] == "need"]
    if len(olds) == len(wanted):
        pairs = list(zip(range(len(olds)), range(len(wanted))))
    else:
        clean = lambda s: re.sub(r"^(overflow|bounds|offset_bounds)_", "", norm(s))
        sm = difflib.SequenceMatcher(None, [clean(o) for o in olds], [clean(w[0]) for w in wanted], autojunk=False)
        pairs = []
        for tag, a0, a1, b0, b1 in sm.get_opcodes():
            if tag == "equal" or (tag == "replace" and a1 - a0 == b1 - b0):
                pairs += list(zip(range(a0, a1), range(b0, b1)))
            elif tag in ("replace", "delete"):
                F.bad.append(f"needs without a goal: {olds[a0:a1]} against {[w[0] for w in wanted[b0:b1]]}")
    for a, b in pairs:
        new_of[idx[a]] = (wanted[b][1], info["asked_at"][b][0])
        told[wanted[b][1]] = info.get("asked", {}).get(wanted[b][0])
    answers, invs, places = [], [], set()
    helpers, records = [], []

    def made(fields):
        if tuple(fields) not in records:
            records.append(tuple(fields))
            n = len(fields)
            name, vs = f"by_clause{len(records) if len(records) > 1 else ''}", "ABCDEFGH"[:n]
            of = ["p" + ".1" * i + (".0" if i < n - 1 else "") for i in range(n)]
            pair = " × (".join(vs[: n - 1]) + " × " + vs[n - 1] + ")" * (n - 2)
            helpers.append(
                f"-- what a lemma proves of the clauses together, under each one's name\n"
                f"{name} : {{{' '.join(vs)} : Type 0}} → {pair} → record {{ {'; '.join(f'{x} : {v}' for x, v in zip(fields, vs))} }}\n"
                f"{name} p = record {{ {'; '.join(f'{x} = {o}' for x, o in zip(fields, of))} }}"
            )
        i = records.index(tuple(fields))
        return f"by_clause{i + 1 if i else ''}"

    for d in decls:
        if d[0] == "helper":
            m = re.search(r"(?:: |\(\w+ : )tie\.([A-Z]\S*?)(?:\)| |$)", "\n".join(d[2]))
            if m and F.byname.get(norm(m.group(1))):
                F.domain[d[1]] = F.byname[norm(m.group(1))]
    said = ""
    for i, d in enumerate(decls):
        if d[0] == "comment":
            if "tools/places.py" not in d[2][0] and d[2][0] not in head:
                said += d[2][0] + "\n"
            continue
        note, said = said, ""
        if d[0] == "inv":
            kind, lines = d[3], "\n".join(d[2])
            m = re.match(r"(invariant|decreases|InvT|MeasureT)-(.*)$", kind)
            what = {"InvT": "invariant", "MeasureT": "decreases"}.get(m.group(1), m.group(1))
            loop = next((l for l in F.loops if norm(l) == norm(m.group(2))), None)
            unf = [l for l in d[2] if l.startswith("unfolding")]
            eq = "\n".join(l for l in d[2] if not l.startswith("unfolding"))
            mm = re.match(r"\S+((?: [^\s=]+)*) =", eq)
            params = mm.group(1).split()
            term = eq[mm.end():]
            if loop is None:
                # a function's own measure
                invs.append((f"{what}-{m.group(2)}", unf, " " + " ".join(params), term, note))
                continue
            new, vs, ch = F.loops[loop]
            want = [v + "₀" if c else v for v, c in zip(vs, ch)] + [v for v, c in zip(vs, ch) if c]
            if len(want) != len(params) and all(p in want for p in params):
                # the code has more variables now
                want = params
            if len(want) != len(params):
                F.bad.append(f"{kind}: parameters {params} against {want}")
            to = {}
            for p, w in zip(params, want):
                base = w[:-1] if w.endswith("₀") else w
                if p != "_":
                    to[p] = f"l.initial.{base}" if w.endswith("₀") else f"l.{base}"
            any_of = "|".join(sorted(map(re.escape, to), key=len, reverse=True))
            if to:
                term = re.sub(r"(?<![\w'.₀-₉«-])(" + any_of + r")(?![\w'₀-₉-])", lambda x: to[x.group(1)], term)
            invs.append((f"{what}-{new}", unf, " l", term, note))
            continue
        if d[0] == "helper":
            sig, rest = "\n".join(d[2]), "\n".join(d[3])
            m = re.search(r"\(c : " + AT + r"\)", sig) or re.search(r"(?<=: )" + AT + r"(?= →)", sig)
            if not m:

                def place_of(x):
                    q = F.byname.get(norm(x.group(1)))
                    if q is None:
                        return x.group(0)
                    places.add(F.place[q]["new"])
                    return F.place[q]["new"]

                sig = re.sub(r"tie\.([A-Z][\w'-]*)", place_of, sig)
                if d[1] in F.domain:
                    rest = re.sub(r"^(" + re.escape(d[1]) + r") (\w+) =", r"\1 \2 =", rest)
                    v = re.match(re.escape(d[1]) + r" (\w+)", rest.split("unfolding")[0] or rest)
                    if v:
                        body = re.sub(r"(?<![\w'.-])" + v.group(1) + r"(?=\.)", "c", rest)
                        body = F.paths(body, F.domain[d[1]], None)
                        rest = re.sub(r"(?<![\w'.-])c(?=\.)", v.group(1), body)
                if "tie." in sig + rest:
                    F.bad.append("helper with tie: " + sig.split("\n")[0])
                helpers.append(note + sig + "\n" + rest)
                continue
            p = F.byname.get(norm(m.group(1)))
            if p is None:
                F.bad.append("no place " + m.group(1))
                helpers.append(note + sig + "\n" + rest)
                continue
            new = F.spelled(p)
            places.add(new)
            sig = sig.replace(m.group(0), f"(c : {new})" if m.group(0).startswith("(") else new)
            helpers.append(note + F.paths(sig.replace("(c : ", "(\0 : "), p, None).replace("\0", "c") + "\n" + F.paths(rest, p, None))
            if "tie." in helpers[-1]:
                F.bad.append("helper with tie: " + helpers[-1].split("\n")[0])
            continue
        name, lines = d[1], d[2]
        if i not in new_of:
            F.bad.append(f"no goal for {name} ({d[3]})")
            continue
        goal, place = new_of[i]
        t = "\n".join(lines)
        unf = re.match(r"(unfolding [^\n]*\n(?:    [^\n]*\n)*)", t)
        u = unf.group(1) if unf else ""
        t = t[len(u):]
        m = re.match(re.escape(name) + r"((?: [^\s=]+)*) =", t)
        if not m:
            F.bad.append(f"{name}: no equation: {t[:60]}")
            continue
        args = m.group(1).split()
        term = t[m.end():]
        args = [a for a in args if not a.startswith("κ")]
        if re.fullmatch(r"\s*search rules\s*", term) and not u:
            continue
        used = re.search(r"\bκs\b", term)
        if used:
            F.bad.append(f"{name}: uses κs")
        term = F.paths(term, place, goal)
        if re.search(r"\.enum[_-](told|known)", term):
            print(f"{crate} {fn}: {goal}: left to the check: {term.strip()[:100]}")
            continue
        if "tie." in term:
            F.bad.append(f"{name}: cites tie")
        if told.get(goal):
            r = record(term, told[goal])
            if r is None:
                # a term of the clauses' product: a helper makes the record of it
                term = f" {made(told[goal])} ({term.strip()})"
            else:
                term = r
        answers.append(f"{note}pub {goal} : goal.{goal}\n{u}{goal} {' '.join(args)} ={term}")
    places |= F.used_places
    names = (f"{crate}.proofs." + fn).strip(".")
    for p in ("Invariants.antt", "Answers.antt"):
        if os.path.exists(f"{folder}/{p}"):
            os.remove(f"{folder}/{p}")
    title = "\n".join(head) + "\n" if head else ""
    path = ".".join(("«%s»" % x if False else x) for x in fn.split("/"))
    if invs:
        out = title + "\n".join(uses) + f"\nuse Rattle.{crate}.proofs.{path}.Given as goal\n"
        for name, unf, params, term, note in invs:
            out += f"\n{note}abbrev pub {name} : goal.{name}\n" + "".join(x + "\n" for x in unf) + f"{name}{params} ={term}\n"
        put(folder + "/Invariants.antt", out)
    if answers or helpers:
        out = title + "\n".join(uses) + f"\nuse Rattle.{crate}.proofs.{path}.Goals as goal\n"
        if places:
            out += f"use Rattle.{crate}.proofs.{path}.Goals.{{{', '.join(sorted(places))}}}\n"
        out += "\n" + "\n\n".join(x.strip("\n") for x in helpers + answers) + "\n"
        put(folder + "/Answers.antt", out)
    for f in ("Proof.antt", "answers.txt"):
        if os.path.exists(f"{folder}/{f}"):
            os.remove(f"{folder}/{f}")
    for b in F.bad:
        print(f"{crate} {fn}: {b}")


def main():
    crate, only = sys.argv[1], sys.argv[2:]
    for p in glob.glob("crates/*/src/**/*.rt", recursive=True):
        SOURCE.update(re.findall(r"[a-z]\w*_\w+", read(p)))
    gen = f"/tmp/names-{os.getpid()}"
    subprocess.run(["rm", "-rf", gen])
    r = subprocess.run(["rt", "check", "--generated", gen, "--old-names"], cwd=f"crates/{crate}", capture_output=True, text=True)
    if not os.path.exists(gen + "/names.json"):
        sys.exit("no names: " + (r.stdout + r.stderr)[-3000:])
    names = json.load(open(gen + "/names.json"))
    top = f"crates/{crate}/proofs/"
    for p in sorted(glob.glob(top + "**/Proof.antt", recursive=True)):
        folder = os.path.dirname(p)
        fn = folder[len(top):]
        if only and fn not in only:
            continue
        if not os.path.exists(folder + "/answers.txt"):
            print(f"{crate} {fn}: written by hand, left")
            continue
        key = f"Rattle-{crate}-proofs.{fn.replace('/', '.')}.Lts"
        if key not in names:
            print(f"{crate} {fn}: no names ({key})")
            continue
        turn(crate, fn, names[key], folder)
    subprocess.run(["rm", "-rf", gen])


main()
