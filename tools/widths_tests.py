#!/usr/bin/env python3
"""What tools/widths.py says of small functions: python3 tools/widths_tests.py [FOLDER]

Each text is the body of a function, or items; the status is 2 if there is no compiler, as that of tools/widths.py."""
import contextlib
import io
import os
import re
import subprocess
import sys
import tempfile
from pathlib import Path
from unittest import TestCase, mock

sys.dont_write_bytecode = True
import erase
import libraries
import widths
from parts import ROOT
from parts.mir_text import tables

# Bodies by what covers their operation, and those that nothing covers; items, each behind whether one of their
# operations is open; functions that may state of a number that it is one, and functions that may not.
COVERED = tables('widths_bodies.txt')
HEAD, OPEN, ITEMS, LAWFUL, UNLAWFUL = (COVERED.pop(name) for name in ('head', 'open', 'items', 'lawful', 'unlawful'))
BODY = 'pub fn f(a: usize, b: usize, x: u64, xs: &mut [u8], s: &mut S) -> usize {{\n    {}\n}}'


def read(folder, compiler, modules):
    """What is said of each module of a crate: what is open, and which covers there are."""
    (folder / 'src').mkdir(parents=True)
    (folder / 'src/lib.rs').write_text('#![no_std]\n#![allow(warnings)]\n#[macro_use]\nextern crate std;\n' + ''.join(
        f'pub mod {name};\n' for name in modules))
    for name, text in modules.items():
        (folder / f'src/{name}.rs').write_text('\n'.join([erase.HEADER.format(f'crates/plants/src/{name}.rt'), *HEAD, text]))
    subprocess.run([compiler, '--edition', '2024', '--crate-type', 'lib', *widths.FLAGS, '-o', 'out.mir', 'src/lib.rs'],
                   cwd=folder, check=True, env=dict(os.environ, RUSTC_BOOTSTRAP='1'))
    rust = widths.Compiled(folder, re.sub(r'(?<![\w:])(?:std|alloc)::', 'core::', (folder / 'out.mir').read_text()))
    found = {name: ([], set()) for name in modules}
    for name, item in widths.erased(rust, rust.derived):
        said, covers = widths.opened(rust, name, item)
        found[name.split('::')[1]][0].extend(said)
        found[name.split('::')[1]][1].update(covers)
    for name in modules:
        found[name][0].extend(widths.wraps(folder, [f'src/{name}.rs']))
    return found


def check_refusals(folder):
    """Another rustc is refused in a sentence, and so are another kit of the prover's, and what a script can't read."""
    folder.mkdir()
    for program in ('rustc', 'rt'):
        (folder / program).write_text('#!/bin/sh\necho rustc 1.0.0\n')
        (folder / program).chmod(0o755)
    with mock.patch.dict(os.environ, PATH=f'{folder}:{os.environ["PATH"]}'):
        for refuse, said in ((lambda: widths.kits_of([folder], folder), 'has 1.0.0: name another folder'),
                             (libraries.kit, '; this is rustc 1.0.0: name ')):
            with TestCase().assertRaisesRegex(SystemExit, said):
                refuse()
    for text, status, said in (('subprocess.run(["no-program"])', 2, 'not run: no no-program'),
                               ('subprocess.run("false", check=True)', 1, 'ended with status 1'),
                               ('open("no-file")', 1, "No such file or directory: 'no-file'"),
                               ('{}["a"]', 1, "KeyError: 'a': what it reads is cut short")):
        ran = subprocess.run([sys.executable, '-Bc', f'import parts, subprocess; {text}'], cwd=ROOT / 'tools',
                             capture_output=True, text=True)
        assert (ran.returncode, ran.stderr.count('\n')) == (status, 1) and said in ran.stderr, ran


def check_laws(folder):
    """Calls of the law, and proofs that say how many bits a `usize` has."""
    law, path, source = folder / 'law.rt', folder / 'crates/a/proofs/b/Answers.antt', folder / 'crates/a/src/b/c.rt'
    for file in (path, source):
        file.parent.mkdir(parents=True)
    for text in (*LAWFUL, *UNLAWFUL):
        law.write_text(text)
        assert bool([*widths.laws([law])]) == (text in UNLAWFUL), text
    of_both = 'word : shortfall < 2 ^ 64\nunfolding shortfall\nword = omega arith'
    for file, text, count in ((path, 'returns c = omega arith', 0), (path, 'unfolding shortfall', 1),
                              (path, 'unfolding front shortfall', 1), (path, of_both, 0),
                              (path, of_both.replace('64', '63'), 1), (path, of_both.replace('<', '≡'), 1),
                              (path, '', 0), (source, '#[tactic(auto, unfolding shortfall)]', 1)):
        file.write_text(f'use a.{{shortfall}}\n{text}\n')
        assert len([*widths.unfolded(folder / 'crates')]) == count, text
    assert all(re.search('unfolding.*shortfall', (ROOT / 'crates' / name).read_text(), re.S)
               for name in widths.KNOWING)


def check_status(kit):
    """What is open is said and counted, and so is another page."""
    page = '- ' + widths.PAGE.read_text().split('\n\n- ', 1)[1].rstrip('\n')
    for found, said, wanted in (([], page, []), (['a: b'], page, ['open: a: b (rustc 1.85)']),
                                ([], '- `A`: `b`', ['open: std-calls.md: tools/widths.py --write has other lines'])):
        told = contextlib.redirect_stdout(io.StringIO())
        with told as out, mock.patch.multiple(widths, compiled=lambda *_: None, with_bounds=str, of_crate=lambda *_: ([*found], {'bound': 3}),
                                              KNOWN=mock.Mock(unused=list), std_calls=lambda _: said, kits_of=lambda *_: {kit: '1.85'}):
            status = widths.main([str(kit)])
        lines = [*wanted, f'{len(wanted)} open, 3 bound']
        assert (status, out.getvalue().splitlines()) == (int(bool(wanted)), lines), out.getvalue()


def main(arguments):
    with tempfile.TemporaryDirectory() as temporary:
        temporary = Path(temporary)
        kits = widths.kits_of(arguments, temporary)
        check_refusals(temporary / 'others')
        covered = [(text, cover) for cover, texts in COVERED.items() for text in texts]
        rows = [(BODY.format(text), {cover}, False) for text, cover in covered]
        rows += [(BODY.format(text), None, True) for text in OPEN]
        rows += [(text, None, is_open != '0') for is_open, text in (item.split(' ', 1) for item in ITEMS)]
        for kit, version in kits.items():
            found = read(temporary / version, str(kit / 'rustc'), {f'row{k}': text for k, (text, *_) in enumerate(rows)})
            for (text, covers, is_open), (said, seen) in zip(rows, found.values()):
                assert bool(said) == is_open and covers in (None, seen), (version, text, said, seen)
        check_laws(temporary)
        check_status(next(iter(kits)))
    print(f'by {len(kits)} rustcs {len(covered)} covers, {len(OPEN)} plants, {len(ITEMS)} items, '
          f'{len(LAWFUL) + len(UNLAWFUL)} calls of the law')
    return 0


if __name__ == '__main__':
    sys.exit(main(sys.argv[1:]))
