#!/usr/bin/env python3
"""Builds the static library of the exports for C by the kit's compiler, over the libraries that `rt ci` left proved:

    python3 tools/libraries.py ARCHIVE [FOLDER]

What is checked stays in FOLDER for a next time. The functions here build and check over these libraries. `rt lib` and
`rt check` would prove them again: `rt ci` keeps of a library what crates above it read, and not its proofs.
"""
import json
import re
import shutil
import subprocess
import sys
import tempfile
from pathlib import Path

sys.dont_write_bytecode = True
from parts import ROOT, lacks, stop
from parts.erase_list import EXPORTS


def rlib(crate):
    """Where `rt ci` leaves a library. The prover's program of it is `toolchain/mir.json` there."""
    return ROOT / f'crates/{crate}/out/rlib/{crate}.rlib'


def kit():
    """The kit's folder; ends the script if it is another kit than docs/CONTRACTS.md names: what that one keeps of a
    proof is read here."""
    named = re.search(r'`rt version` prints\s+`(.*?)`', (ROOT / 'docs/CONTRACTS.md').read_text())[1]
    if not shutil.which('rt'):
        lacks('no rt, the prover kit')
    this, page = (subprocess.run(['rt', word], check=True, capture_output=True, text=True).stdout.strip()
                  for word in ('version', 'doc'))
    if named not in this:
        stop(f'it reads what the kit with {named} keeps of a proof, which docs/CONTRACTS.md names; this is {this}: name '
             'that one there once every step passes with it')
    return Path(page).parent


def program(path):
    """The prover's program that a file has; ends the script if that is none."""
    try:
        return json.loads(path.read_text())
    except (OSError, ValueError) as error:
        stop(f'{path} is no whole program ({error}): rt ci proves its crate again')


def over(uses, verb, crate, source, kept, *words):
    """What `rattle check` or `rattle build` of a crate's source says over these libraries, and its status. What is
    checked stays in the folder `kept`."""
    rlibs = {'std': kit() / 'rlibs/std.rlib'} | {name: rlib(name) for name in uses}
    libraries = [word for name, place in rlibs.items()
                 for word in ('--extern', f'{name}={place}', '-L', f'dependency={place.parent}')]
    logic = ['--antt-project', kit() / 'rattle/logic/antt-project.json', '--logic-built', kit() / 'logic_built']
    ran = subprocess.run(['rattle', verb, '--crate-name', crate, 'src/lib.rt', *libraries, *logic, '--incremental',
                          kept, '--jobs', '2', *words],
                         cwd=source, stdout=subprocess.PIPE, stderr=subprocess.STDOUT, text=True)
    return ran.stdout, ran.returncode


def build_exports(folder, made, *words):
    """Builds the exports for C, which are a library of Rattle or, by these words, of another kind."""
    uses = re.search(rf'^{EXPORTS} staticlib: (.*)', (ROOT / 'crates.txt').read_text(), re.M)[1].split()
    if missing := [crate for crate in uses if not rlib(crate).is_dir()]:
        stop(f'no proved library of {", ".join(missing)}: rt ci')
    said, status = over(uses, 'build', EXPORTS, ROOT / 'crates' / EXPORTS, folder / 'incremental', *words, '-o',
                        made)
    if status:
        stop(f'{EXPORTS} is not built:\n{said[-3000:]}')


if __name__ == '__main__':
    with tempfile.TemporaryDirectory() as temporary:
        archive, folder = [*(Path(word).resolve() for word in sys.argv[1:]), Path(temporary)][:2]
        build_exports(folder, archive, '--crate-type', 'staticlib', '--backend', 'llvm', '--toolchain',
                      kit() / 'toolchain')
