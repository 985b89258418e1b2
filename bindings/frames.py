#!/usr/bin/env python3
"""The greatest stack that each function of the archive can reach on any input, read off its code.

    python3 bindings/frames.py target/staticlib/libunivmon_c.a

Follows a function's jumps from its entry with the bytes that it has put on the stack, its return address among them, and adds at each
call what the called function reaches. A jump through a table of its own leads to each place of the table. Fails at what it does not
understand: recursion, a call or another jump through a pointer, one place reached with two depths, another move of the stack pointer, a function that is not there. memcpy and memset count for their return
address. Writes the exported functions' names and bytes; arguments and answer, above the return address, are the caller's.
"""
import functools
import re
import subprocess
import sys

WORD = 8
OUTSIDE = ("memcpy", "memset")
NUMBER = r"\$0x([0-9a-f]+)"
# A `match` may go by a table of distances from the table's start.
BY_TABLE = (r"lea +0x0\(%rip\),(%\w+)", r"movslq \((%\w+),%\w+,4\),(%\w+)", r"add +(%\w+),(%\w+)", r"jmp +\*(%\w+)")
# A frame above a page is touched page by page, from the stack pointer down to r11.
TOUCHING = (r"mov +%rsp,%r11", rf"sub +{NUMBER},%r11", r"sub +\$0x(?:1000|c00),%rsp", r"movq +\$0x0,\(%rsp\)", r"cmp +%r11,%rsp", r"jne .*")


def stop(what):
    sys.exit("frames.py: " + what)


def objdump(archive, *options):
    return subprocess.run(["objdump", *options, archive], capture_output=True, text=True, check=True).stdout


def tables(archive):
    """function -> [(where in its tables, the place named there)]"""
    found, here = {}, None
    for line in objdump(archive, "-r").split("\n"):
        if head := re.fullmatch(r"RELOCATION RECORDS FOR \[(.*)\]:", line):
            here = found.setdefault(head[1][len(".rodata."):], []) if head[1].startswith(".rodata.") else None
        elif here is not None and (entry := re.fullmatch(r"([0-9a-f]+) +R_X86_64_PC32 +\.text\.(.*)\+0x([0-9a-f]+)", line)):
            here.append((int(entry[1], 16), entry[2], int(entry[3], 16)))
    return found


def led_to(name, body, i, entries):
    """the addresses to which the jump at i leads by its table"""
    found = [re.fullmatch(shape, code) for shape, (_, code, _) in zip(BY_TABLE, body[i - 3:i + 1])]
    starts = sorted({target[1] for _, _, target in body if isinstance(target, tuple) and target[0] == name})
    if not all(found) or len(found) < 4 or not isinstance(body[i - 3][2], tuple) or body[i - 3][2][0] != name:
        stop(f"{name} jumps through a pointer")
    table, place = found[0][1], found[1][2]
    if found[1][1] != table or (found[2][1], found[2][2]) != (table, place) or found[3][1] != place:
        stop(f"{name} jumps through a pointer")
    start = body[i - 3][2][1]
    end = min([s for s in starts if s > start], default=1 << 32)
    there = [(at, where - (at - start)) for at, function, where in entries if start <= at < end and function == name]
    if [at for at, _ in there] != list(range(start, start + 4 * len(there), 4)) or not there:
        stop(f"{name} jumps by a table that is not read")
    return [where for _, where in there]


def functions(archive):
    """name -> [(address, instruction, the name that it refers to, or the function and the start of its table)]"""
    said = objdump(archive, "-dr", "--no-show-raw-insn")
    found, body = {}, None
    for line in said.split("\n"):
        if head := re.fullmatch(r"[0-9a-f]+ <(.*)>:", line):
            body = found.setdefault(head[1], [])
        elif code := re.fullmatch(r" *([0-9a-f]+):\t([^#<]*?) *(?:[#<].*)?", line):
            body.append((int(code[1], 16), code[2], None))
        elif table := re.fullmatch(r"\t+[0-9a-f]+: R_X86_64_PC32\t\.rodata\.(.*)([-+])0x([0-9a-f]+)", line):
            body[-1] = body[-1][:2] + ((table[1], int(table[2] + table[3], 16) + 4),)
        elif name := re.fullmatch(r"\t+[0-9a-f]+: R_X86_64_\w+\t(?:\.text\.)?(.*?)(?:[-+]0x[0-9a-f]+)?", line):
            body[-1] = body[-1][:2] + (name[1],)
    return found


def lowered(code):
    """by how much an instruction lowers the stack pointer"""
    if m := re.match(r"(push|pop)q? ", code):
        return WORD if m[1] == "push" else -WORD
    if m := re.fullmatch(rf"(sub|add)q? +{NUMBER},%rsp", code):
        return int(m[2], 16) * (1 if m[1] == "sub" else -1)
    if re.search(r"[ ,]%[re]?spl?$", code) and not re.match(r"cmp|test", code):
        stop(f"the stack pointer moves by '{code}'")
    return 0


def touched(body, i):
    """the bytes of a frame that is touched page by page from here on, or 0"""
    found = [re.fullmatch(shape, code) for shape, (_, code, _) in zip(TOUCHING, body[i:])]
    return int(found[1][1], 16) if all(found) and len(found) == len(TOUCHING) else 0


def after(name, body, i, depth, entries):
    """where an instruction leads: the places in the function with their depths, and the calls with theirs"""
    _, code, target = body[i]
    word, *rest = code.split()
    if large := touched(body, i):
        return [(i + len(TOUCHING), depth + large)], []
    if word in ("ret", "retq"):
        return ([], []) if depth == WORD else stop(f"{name} returns with {depth} bytes")
    if word in ("call", "callq"):
        return [(i + 1, depth)], [(depth, target)]
    if word in ("jmp", "jmpq") and target:
        return [], [(depth - WORD, target)]
    if word.startswith("j"):
        if rest[0].startswith("*"):
            to = led_to(name, body, i, entries)
            there = [k for k, (address, _, _) in enumerate(body) if address in to]
            if len(there) != len(set(to)):
                stop(f"{name} jumps by a table to what is no instruction")
            return [(k, depth) for k in there], []
        there = [k for k, (address, _, _) in enumerate(body) if address == int(rest[0], 16)]
        return [(there[0], depth)] + ([] if word.startswith("jmp") else [(i + 1, depth)]), []
    return ([] if word == "ud2" else [(i + 1, depth)]), []


def walk(name, body, entries):
    """the function's own greatest depth, and its calls with theirs"""
    depths, most, calls, todo = {}, 0, [], [(0, WORD)]
    while todo:
        i, depth = todo.pop()
        if depths.get(i, depth) != depth:
            stop(f"{name} reaches {body[i][0]:x} with {depths[i]} and {depth} bytes")
        if i in depths:
            continue
        depths[i] = depth
        depth += lowered(body[i][1])
        # below the stack pointer lie 128 bytes that a function may use as well
        most = max([most, depth] + [depth + int(n, 16) for n in re.findall(r"-0x([0-9a-f]+)\(%rsp", body[i][1])])
        places, called = after(name, body, i, depth, entries)
        todo += places
        calls += called
    return most, calls


def main():
    code, places = functions(sys.argv[1]), tables(sys.argv[1])

    @functools.cache
    def reach(name):
        if name in OUTSIDE:
            return WORD
        if name not in code:
            stop(f"a call of '{name}', which the archive does not have")
        most, calls = walk(name, code[name], places.get(name, []))
        return max([most] + [depth + reach(called) for depth, called in calls])

    for name in filter(re.compile(r"univmon_\w+").fullmatch, sorted(code)):
        try:
            print(name, reach(name))
        except RecursionError:
            stop(f"{name} is recursive")


main()
