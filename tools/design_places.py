#!/usr/bin/env python3
"""Counts, in src/ of every crate, the places where the code is written as an older Rattle had it.

    python3 tools/design_places.py [-v] [COMMIT]

Without COMMIT it reads the work tree. -v names each place. What each row counts:

  1a  types of the shape of Option or Result: enums with a variant Bad, Refused, Vacant or Unreadable, structs with a field
      `refusal` or `made`
  1b  functions that answer a refusal as a number (their contract says `number (`, `refusal` or `_refusal` of a u64 result)
  1c  functions that answer one of the types of 1a
  1d  functions that answer a place past the end for "none"
  1e  functions from a number to an enum or back
  2   functions whose body is that of another but for names, types and numbers (60 tokens and more, nine in ten alike)
  3   `while` and `loop`
  4   functions that compare, convert or copy by hand what a derive, From or struct update syntax says
  5a  functions with eight parameters and more
  5b  functions with the parameters counters, norms, entries, counts
  5c  functions with the parameters high and low
  5d  functions with the parameters rows and cols
  5e  functions with the parameters lens and flags
  5f  functions with the parameters keys, bottoms and counts
  6   local arrays of a fixed length
  7   functions with a parameter that says which step to run (Kind, G, Fidelity, a bool named terminal, every or count_every_key)
  8   answers and lemmas in proofs/ (lines that begin with `pub` or a name before a colon)
"""
import difflib
import io
import pathlib
import re
import subprocess
import sys
import tarfile


def tree(commit):
    if commit:
        packed = subprocess.run(['git', 'archive', commit, 'crates'], capture_output=True, check=True).stdout
        with tarfile.open(fileobj=io.BytesIO(packed)) as files:
            for f in files:
                if re.search(r'/src/.*\.rt$|/proofs/.*\.antt$', f.name):
                    yield f.name, files.extractfile(f).read().decode()
    else:
        for p in sorted(pathlib.Path('crates').glob('*/src/**/*.rt')) + sorted(pathlib.Path('crates').glob('*/proofs/**/*.antt')):
            yield str(p), p.read_text()


FN = re.compile(r'^(?P<ind> *)(?:pub(?:\(crate\))? )?(?:extern "C" )?(?:const )?fn (?P<name>\w+)', re.M)


def functions(text):
    """name, signature, contract, body of each function"""
    text = re.sub(r'//[^\n]*', '', text)
    for m in FN.finditer(text):
        end = re.compile(r'^' + m['ind'] + r'\}|\{\}$', re.M).search(text, m.end())
        whole = text[m.start():end.end() if end else len(text)]
        brace = re.search(r'^ *\{$|\{$', whole, re.M)
        head = whole[:brace.start()] if brace else whole
        body = whole[brace.start():] if brace else ''
        cut = re.search(r'^\s*(requires|ensures)\b', head, re.M)
        sig, contract = (head[:cut.start()], head[cut.start():]) if cut else (head, '')
        if cut is None and brace:
            # a contract on one line ends in a brace too
            sig = head
        yield m['name'], ' '.join(sig.split()), contract, body


def params(sig):
    m = re.search(r'fn \w+(?:<[^>(]*(?:\([^)]*\)[^>(]*)*>)?\((.*)', sig)
    if not m:
        return {}
    s, depth, out, cur = m[1], 0, [], ''
    for ch in s:
        if ch == ')' and depth == 0:
            break
        depth += ch in '([<'
        depth -= ch in ')]>'
        if ch == ',' and depth == 0:
            out.append(cur)
            cur = ''
        else:
            cur += ch
    out.append(cur)
    got = {}
    for p in out:
        p = p.strip()
        if ':' in p:
            n, t = p.split(':', 1)
            got[n.replace('mut ', '').strip()] = t.strip()
        elif p:
            got[p.replace('&', '').replace('mut ', '').strip()] = 'Self'
    return got


def normal(body):
    body = re.sub(r'\b\d[\d_]*\b', 'N', body)
    return re.findall(r'\w+|[^\w\s]', re.sub(r'\b[A-Za-z_]\w*\b', lambda m: m[0] if m[0] in KEEP else 'x', body))


KEEP = {'if', 'else', 'return', 'match', 'let', 'mut', 'for', 'while', 'in', 'true', 'false', 'N'}
HAND = re.compile(r'^(same\w*|clashes|is_ahead|smaller|larger|is_zero|is_none|is_digit|is_hex|nibble|wide|low_byte|with_\w+|c_\w+|mode_number|'
                  r'flag_number|flag_digit|every_insert|kept|kept_all|is_terminal|header_alone|seated|bits_of|magnitude|as_signed|below_zero)$')
NONE = re.compile(r'^(find|found_under|find_place|find_marked|find_from)$')


def main():
    args = [a for a in sys.argv[1:] if a != '-v']
    verbose = '-v' in sys.argv[1:]
    rows = {k: [] for k in '1a 1b 1c 1d 1e 2 3 4 5a 5b 5c 5d 5e 5f 6 7'.split()}
    answers = lemmas = 0
    fns, types = [], set()
    for name, text in tree(args[0] if args else None):
        crate = name.split('/')[1]
        if name.endswith('.antt'):
            n = len(re.findall(r'^(?:pub )?[\w\-\'+₂₃]+ :', text, re.M))
            if name.endswith(('/Answers.antt', '/Invariants.antt')):
                answers += n
            else:
                lemmas += n
            continue
        bare = re.sub(r'//[^\n]*', '', text)
        for m in re.finditer(r'^\s*(?:pub )?(enum|struct) (\w+)[^{;]*\{([^}]*)\}', bare, re.M):
            kind, t, inside = m.groups()
            if kind == 'enum' and re.search(r'\b(Bad|Refused|Vacant|Unreadable)\b', inside) or kind == 'struct' and re.search(r'\b(refusal|made):', inside):
                rows['1a'].append(f'{crate}::{t}')
                types.add(t)
        rows['3'] += [f'{name}:{bare[:m.start()].count(chr(10)) + 1}' for m in re.finditer(r'^\s*(?:while|loop)\b', bare, re.M)]
        rows['6'] += [f'{name}:{bare[:m.start()].count(chr(10)) + 1}' for m in re.finditer(r'= \[(?:0\w*|false|true); ', bare)]
        fns += [(crate, pathlib.Path(name).stem, *f) for f in functions(text)]
    for crate, mod, f, sig, contract, body in fns:
        at = f'{crate}::{mod}::{f}'
        ret = re.search(r'-> (.*?)$', sig)
        ret = ret[1].strip(' {') if ret else ''
        ps = params(sig)
        if ret == 'u64' and re.search(r'\bnumber \(|refusal', contract + f):
            rows['1b'].append(at)
        # `Answer` of heap tells what an offer did, and is no refusal
        told = ret == 'Answer' and crate in ('heap', 'heap_test', 'heap_indexed', 'layer', 'layer_indexed')
        if ret.split('<')[0].split('::')[-1] in types and not told:
            rows['1c'].append(at)
        if NONE.match(f) and ret == 'usize':
            rows['1d'].append(at)
        own = {'Mode', 'G', 'Fidelity', 'Answer', 'Kind', 'Call', 'Op', 'Self'}
        if len(ps) == 1 and (ret == 'u64' and list(ps.values())[0] in own - {'Self'} or ret in own - {'Self'} and list(ps.values())[0] == 'u64'):
            rows['1e'].append(at)
        if HAND.match(f):
            rows['4'].append(at)
        if len(ps) >= 8:
            rows['5a'].append(at)
        for k, need in (('5b', {'counters', 'norms', 'entries', 'counts'}), ('5c', {'high', 'low'}), ('5d', {'rows', 'cols'}), ('5e', {'lens', 'flags'}), ('5f', {'keys', 'bottoms', 'counts'})):
            if need <= set(ps):
                rows[k].append(at)
        if any(t in ('Kind', 'G', 'Fidelity') for t in ps.values()) or any(n in ('terminal', 'every', 'count_every_key') and t == 'bool' for n, t in ps.items()):
            rows['7'].append(at)
    bodies = [(f'{c}::{m}::{f}', normal(b)) for c, m, f, s, k, b in fns if len(normal(b)) >= 60]
    twin = set()
    for i, (a, x) in enumerate(bodies):
        for b, y in bodies[i + 1:]:
            if min(len(x), len(y)) / max(len(x), len(y)) < 0.82:
                continue
            s = difflib.SequenceMatcher(None, x, y, autojunk=False)
            if s.quick_ratio() >= 0.9 and s.ratio() >= 0.9:
                twin |= {a, b}
    rows['2'] = sorted(twin)
    for k, v in rows.items():
        print(f'{k:3} {len(v)}')
        if verbose:
            for p in v:
                print('      ', p)
    print(f'8   {answers} answers and invariants, {lemmas} laws and lemmas')
    print(f'    of {len(fns)} functions')


main()
