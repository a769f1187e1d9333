#!/usr/bin/env python3
"""Plants each fault of tools/parts/plants.txt in a copy of this folder, and looks whether it is seen:

    python3 tools/plants.py [--kit FOLDER] [SECTION ..]             those in the product, by section
    python3 tools/plants.py [--kit FOLDER] --weakened [WORD ..]     those in scripts, or of such a script, text or test

Faults in the product are planted all at once, or each by itself if the section's heading says so: its command then has to
fail, and to name each one's file, or what the row says. A weakened script has to make its command fail, which is one
of `TESTS`, or a section: then a fault of that is no longer seen. The sections `same` and
`builds` want proofs: tools/same_program_tests.py plants them. FOLDER has the compiler of rust/kit.sh, or gets it.
The status is 1 if a fault isn't seen, or its text isn't there.
"""
import argparse
import re
import shlex
import shutil
import subprocess
import sys
import tempfile
import time
from pathlib import Path

sys.dont_write_bytecode = True
from parts import ROOT
from parts.mir_text import cells, tables

SECTIONS = {tuple(part.strip() for part in head.split('|')): [*map(cells, rows)]
            for head, rows in tables('plants.txt').items()}
# The tests of scripts.
TESTS = {'bodies': 'python3 -B tools/same_program_tests.py --bodies {kit}', 'widths_tests': 'python3 -B tools/widths_tests.py {kit}',
         'quotes_alone': 'python3 -B tools/check_quotes.py', 'erase_alone': 'python3 -B tools/erase.py --check',
         'edits_alone': 'python3 -B tools/edits.py --table', 'itself': 'python3 -B tools/plants.py --kit {kit} "{section}"'}


def planted(copy, rows):
    """Plants faults, and returns the texts that were there; a fault whose text isn't there is said."""
    before, missing = {}, []
    for file, old, new, *_ in rows:
        path = copy / file
        text = path.read_text()
        before.setdefault(path, text)
        if old not in text:
            missing.append(f'{file}: not there: {old!r}')
        path.write_text(text.replace(old, new, 1) if old else f'{text}\n{new}\n')
    return before, missing


def run(copy, rows, command):
    """Plants faults and runs a command over them. Returns its status, what it prints, and which texts aren't there."""
    before, missing = planted(copy, rows)
    ran = subprocess.run(['sh', '-c', command], cwd=copy, stdout=subprocess.PIPE, stderr=subprocess.STDOUT, text=True)
    for path, text in before.items():
        path.write_text(text)
    return ran.returncode, ran.stdout, missing


def of_product(copy, kit, words):
    """Faults of the product: a line for each that isn't seen."""
    for (name, how, command), rows in ((head, rows) for head, rows in SECTIONS.items() if len(head) == 3):
        if words and name not in words:
            continue
        begun, unseen, seen = time.monotonic(), [], 0
        for group in [rows] if how == 'all' else [[row] for row in rows]:
            status, said, missing = run(copy, group, command.format(kit=shlex.quote(str(kit))))
            lost = [row for row in group if not status or not re.search(row[3] if row[3:] else re.escape(row[0]), said)]
            unseen += missing + [f'{name}: not seen: {" ~~ ".join(row)!r}' for row in lost]
            unseen += [f'{name}: it said {said[-600:]}'] if lost else []
            seen += len(group) - len(lost)
        print(f'{name}: {seen} of {len(rows)} faults are seen, {time.monotonic() - begun:.0f} s', flush=True)
        yield from unseen


def of_scripts(copy, kit, words):
    """Weakened scripts: a line for each that its test doesn't see."""
    seen = 0
    for row in (row for row in SECTIONS[('weakened',)]
                if not words or any(word in (row[0], row[3]) or word in row[1] for word in words)):
        test = row[3]
        command = TESTS.get(test, TESTS['itself']).format(kit=shlex.quote(str(kit)), section=test)
        status, said, missing = run(copy, [row], command)
        is_seen = status and not missing and 'SyntaxError' not in said
        seen += bool(is_seen)
        print(f'{row[0]}: {test} {"sees" if is_seen else "DOES NOT SEE"}: {row[1][:60]!r} -> {row[2][:60]!r}', flush=True)
        if not is_seen:
            yield from missing or [f'{" ~~ ".join(row)}: not seen: {said[-300:]}']
    print(f'{seen} weakened scripts are seen')


def main():
    parser = argparse.ArgumentParser(description=__doc__.split('\n')[0])
    parser.add_argument('--kit', type=Path)
    parser.add_argument('--weakened', action='store_true')
    parser.add_argument('words', nargs='*')
    options = parser.parse_args()
    if (unknown := {*options.words} - {name for name, *_ in SECTIONS}) and not options.weakened:
        parser.error(f'no section {", ".join(unknown)}')
    with tempfile.TemporaryDirectory() as temporary:
        copy, kit = Path(temporary, 'copy'), (options.kit or Path(temporary, 'kit')).resolve()
        shutil.copytree(ROOT, copy, symlinks=True, ignore=shutil.ignore_patterns('.git', 'target', 'out', '__pycache__'))
        unseen = [*(of_scripts if options.weakened else of_product)(copy, kit, options.words)]
    print(*unseen, sep='\n', end='\n' * bool(unseen))
    return bool(unseen)


if __name__ == '__main__':
    sys.exit(main())
