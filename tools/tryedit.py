#!/usr/bin/env python3
"""Tries one must-fail edit in the edit loop and shows what is refused.

    python3 tools/tryedit.py CRATE LABEL

`rt must-fail` tries the edits of every crate below CRATE too. This applies crates/CRATE/must-fail/LABEL.edit to the work tree,
runs `rt check` there, prints the first errors, and takes the edit back. An edit says something only if a value no longer holds there.
"""
import pathlib
import subprocess
import sys


def main():
    crate, label = sys.argv[1:3]
    folder = pathlib.Path('crates') / crate
    lines = (folder / 'must-fail' / (label + '.edit')).read_text().splitlines()
    edit = dict(line.split(': ', 1) for line in lines if ': ' in line)
    path = folder / edit['file']
    text = path.read_text()
    if text.count(edit['old']) != 1:
        sys.exit(f'{label}: the old text is found {text.count(edit["old"])} times')
    path.write_text(text.replace(edit['old'], edit['new']))
    try:
        run = subprocess.run(['rt', 'check'], cwd=folder, capture_output=True, text=True)
    finally:
        path.write_text(text)
    said = (run.stdout + run.stderr).splitlines()
    errors = [i for i, line in enumerate(said) if ': error' in line or 'it is not proved' in line]
    for i in errors[:3]:
        print('\n'.join(line[:700] for line in said[i:i + 4]))
        print('--')
    print(f'{label}: {"refused" if run.returncode else "NOT REFUSED"}')
    return 0 if run.returncode else 1


sys.exit(main())
