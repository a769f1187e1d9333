#!/usr/bin/env python3
"""Compares the program that is proved with the one that rustc compiles, function by function, as wholes: what is done,
in which order, under which condition, and with what:

    python3 tools/same_program.py [KIT [FOLDER]]

The prover keeps its program beside each library that is proved, `out/rlib/NAME.rlib/toolchain/mir.json`, but for a
static one, so the exports for C are built as another library too, in FOLDER. Rustc's is its MIR of the erased crate,
and of the example net_bench, by the compiler that is, or is unpacked, in KIT, and by the one on PATH. Both are run side by side with symbols
for numbers, from a function's start. What one does between two events it does by itself. An event is a call, a store
through a reference, a branch, a panic, or the return, and both have to come to the same one: the same function with
equal arguments, the same place with an equal value, the same condition with the same ends. Equal means the same
expression over parameters, results of the same calls, and memory as it was after the same event. Before each event but
a store both have dropped the same values. Where ways meet, or a loop comes round, what is equal on each way stays
equal, and all else is a new symbol: a function is the same if no pair of places that is reached differs. A sum, a
quotient, a shift, an element or a part that may panic in Rust is one that the prover's program has done by then.

Not compared are the order of drops between events; the ghosts of proofs, which are types of snapshots alone, and calls
of idle functions: these give nothing, write to their own places, and call none but such. A call that only reads, and
that Rust lacks, gives what nothing of Rust's is equal to. Nor is compared what is derived, but for orders and defaults;
the text of a panic; types that a callee is given; and the functions of `LEFT`, which parts/same_names.txt has with
reasons, beside names that the two have otherwise. What one side has alone is in `ALONE`. A form that isn't known is an
error, and so is another compiler or kit, an exception of this script, whatever it reads, and an entry of a list that
lets nothing through. The status is 1 if a function differs or isn't understood, or there is no compiler.

What is compared is all packages of Rust as one crate, with the exports for C and each feature. In other builds,
`BUILDS`, of the packages as they are published each function has the same text in rustc's program, but for what parts/same_names.txt has with reasons, and for debug
assertions: without them the bounds of widths.py aren't tested.

Read parts/same_names.txt first: it has each form of term with an example. same_terms.py computes with them,
same_side.py has events and places, same_proved.py and same_compiled.py the two programs, same_body.py a function of
rustc's, and same_pair.py what runs both.
"""
import hashlib
import json
import re
import sys
import tempfile
from pathlib import Path

sys.dont_write_bytecode = True
import libraries
import widths
from parts import ROOT, erase_list as given, same_pair, stop
from parts.mir_text import Listed, tables
from parts.same_body import CompiledSide
from parts.same_compiled import Compiled
from parts.same_pair import Pair
from parts.same_proved import Proved, ProvedSide, is_own
from parts.same_terms import Broken, Differ, Unknown, reading

OTHER = ': if the kit or rustc is another one, CONTRIBUTING.md has the steps'
SCHEDULE, PROGRAM = given.SCHEDULE.replace('/', '::'), 'toolchain/mir.json'
# What one side has alone, each entry with a reason there: rustc refuses a call of what the eraser leaves out. What isn't
# erased at all is by hand, or not there.
ALONE = Listed([*tables('same_names.txt')['alone'],
                *(rf'{file.replace("/", "::")}::(?:\w+::)?{name}(?:Debug::fmt)?: not compiled'
                  for file, names in given.UNCALLED.items() for name in names)])
UNERASED = tuple(f'{name.replace("/", "::")}::' for names in given.UNERASED.values() for name in names if name != given.SCHEDULE)
# What isn't understood, and was read: the digests of both texts as they were read. same_names.txt also says why.
LEFT = {name: read.split() for name, _, read in (row.split(' ~~ ') for row in tables('same_names.txt')['left'])}
# Other builds of the packages than the one that is compared, which has the exports and every feature: the words of cargo,
# and those of rustc; and what another build has otherwise. An example has no exports, and wants the feature `std`. Other
# words than debug assertions are added to the build that has none.
BUILDS = {'default': ((), ()), 'none': (('--no-default-features',), ()),
          'narrow': (('--target', 'armv7-unknown-linux-gnueabihf'), ()),
          'release': ((), ('-Cdebug-assertions=off', '-Aexplicit_builtin_cfgs_in_flags', '--cfg=test',
                           '--cfg=target_endian="big"'))}
OTHERWISE = [tuple(row.split(' ~~ ')) for row in tables('same_names.txt')['builds']]
ASKED = re.compile(r'= const (?:true|false);(?= +// scope \d+ at [^\n]*/macros/mod\.rs)')
# What is derived and compared: an order, and what a default is.
DERIVED = r'::(?:default|cmp|partial_cmp)$'


def digest(proved, rust, name):
    """Of both texts of a function, as far as they are there, without their places."""
    is_proved = name in proved.functions
    there = place(proved, rust, name) if is_proved else name
    item = re.sub(r'//[^\n]*|<impl at [^>]*>|@[^}]*\}', '', rust.functions.get(there) or rust.constants.get(there, ''))
    body = json.dumps(proved.all[proved.functions[name]]['body'], sort_keys=True) if is_proved else ''
    return hashlib.sha256((body + item).encode()).hexdigest()[:12]


def is_left(proved, rust, name):
    """Whether a function is one that was read, and still has the texts that were read."""
    return name in LEFT and digest(proved, rust, name) in LEFT[name]


def why(proved, rust, name, there, side=ProvedSide):
    """Whether a function is the same, and why not: ('same', pairs), ('differ', reason), ('unknown', reason), or
    ('broken', reason) if this script fails."""
    try:
        with reading(name):
            if there in rust.twice:
                raise Differ('two functions of this name')
            compiled = CompiledSide(rust, rust.functions.get(there) or rust.constants[there], there)
            return 'same', Pair(side(proved, name), compiled, rust.traits,
                                lambda name: place(proved, rust, name)).compare()
    except Unknown as reason:
        return 'unknown', str(reason)
    except Differ as reason:
        return 'differ', str(reason)
    except Broken as reason:
        return 'broken', str(reason)


def place(proved, rust, name):
    """The name that rustc has for a function: a closure has a number, of those in a function in turn."""
    around = proved.functions[name].rpartition('::')[0]
    if name in rust.functions or '::fn::' not in around:
        return name
    closures = [other for other, there in proved.functions.items() if there.rpartition('::')[0] == around
                and other not in rust.functions]
    return f'{around.replace("fn::", "")}::{{closure#{closures.index(name)}}}'


def compared(proved, rust, within):
    """The functions of a crate or a module, each with what is said of it, by how they are: 'same', 'differ', 'unknown',
    or 'broken'. What one side has alone differs."""
    found = {'same': [], 'differ': [], 'unknown': [], 'broken': []}
    for name in sorted(proved.functions):
        there = place(proved, rust, name)
        if not name.startswith(f'{within}::') or within != SCHEDULE and name.startswith(f'{SCHEDULE}::') or \
                there in rust.derived - rust.twice and not re.search(DERIVED, there) or \
                name.startswith(UNERASED) or ALONE.has(f'{name}: '):
            continue
        if there in rust.functions or there in rust.constants:
            how, reason = why(proved, rust, name, there)
            found[how].append((name, reason))
        # a drop that only drops isn't erased, nor what does nothing
        elif not ALONE.has(f'{name}: not compiled') and name not in proved.trivial | proved.idle:
            found['differ'].append((name, 'not compiled'))
    own = {name for name in rust.functions if name.startswith(f'{within}::') and '{' not in name} - rust.derived
    found['differ'] += [(name, 'not proved')
                        for name in sorted(own - proved.functions.keys())
                        if not name.startswith(UNERASED) and not ALONE.has(f'{name}: not proved')]
    return found


def wrong(proved, rust, found, is_first=True):
    """What is wrong of these functions, but for those that were read, by the first compiler: each name with its reason."""
    for name, reason in found['broken']:
        yield name, reason
    for name, reason in found['same'] if is_first else ():
        if name in LEFT:
            yield name, 'is the same, so it is to leave the list LEFT'
    for how in ('differ', 'unknown'):
        for name, reason in found[how]:
            if not is_left(proved, rust, name) and (is_first or name not in LEFT):
                again = f'; read it again: {digest(proved, rust, name)} is its digest' if name in LEFT else ''
                yield name, f'{"not understood: " if how == "unknown" else ""}{reason}{again}'


def text(item):
    """An item's steps, without places and the numbers of constants; what `debug_assert!` asks first is one."""
    return re.sub(r' *//[^\n]*|(?<=\balloc)\d+', '', ASKED.sub('= const debug;', item or '')).split('{', 1)[-1]


def builds(root, kit, target, programs):
    """What other builds of the packages and of the example have otherwise than the programs that are compared, by names."""
    unused = {*OTHERWISE}
    for build, (words, flags) in BUILDS.items():
        others = []
        for package, folder in zip(given.PACKAGES, widths.SOURCES):
            widths.rustc(root, kit, target / build, '--lib', words, flags, package.replace('_', '-'), check=True)
            mir = widths.mir_of(target / build, name=package)
            others.append((programs[0], Compiled(root, programs[0].own(mir), folder)))
        if not words:
            widths.rustc(root, kit, target / build, '--example=net_bench', words, flags, check=True)
            mir = widths.mir_of(target / build, 'examples')
            others.append((programs[1], Compiled(root, mir, 'examples/net_bench', library=others[0][1])))
        for rust, other in others:
            for one, two in ((getattr(program, kind) for program in (rust, other))
                             for kind in ('functions', 'constants', 'promoted')):
                for key in sorted(two):
                    name = key if isinstance(key, str) else key[0]
                    rows = {row for row in OTHERWISE if row[0] in (build, 'each') and re.fullmatch(row[1], name)}
                    unused -= rows
                    if is_own(name) and not rows and text(one.get(key)) != text(two[key]):
                        yield name, f'{build}: this build has another text'
    yield from ((name, f'{build}: no such build has it otherwise: parts/same_names.txt') for build, name, _ in sorted(unused))


def kept(crate):
    """Where the prover keeps a library's program."""
    return libraries.rlib(crate) / PROGRAM


def compiled(root, kit, target):
    """Rustc's program of the crate, and of its example."""
    widths.rustc(root, kit, target, check=True)
    library = Compiled(root, widths.mir_of(target, name='net_base_exports'), *widths.SOURCES)
    widths.rustc(root, kit, target, '--example=net_bench', check=True)
    return library, Compiled(root, widths.mir_of(target, 'examples'), 'examples/net_bench', library=library)


def programs(arguments, temporary):
    """The prover's programs by crate; and by compiler what each crate or module is compared with: its name, and rustc's
    program. Where these can't be had a line says why, and the status is what ends this."""
    folders = [Path(word).resolve() for word in arguments]
    folder = [*folders, *[temporary] * 2][1]
    folder.mkdir(parents=True, exist_ok=True)
    libraries.kit()
    missing = [crate for crate in (*given.CRATES, *given.PROGRAM) if crate != given.EXPORTS
               and not kept(crate).is_file()]
    if missing:
        stop(f'not compared: no proved library of {", ".join(missing)}: rt ci')
    sides = {}
    for kit, version in widths.kits_of(folders, temporary).items():
        library, example = compiled(ROOT / 'rust', kit, temporary / version)
        sides[kit, version] = [(crate, library) for crate in given.CRATES] + \
            [(within, example) for within in (SCHEDULE, *given.PROGRAM)]
    made = folder / f'{given.EXPORTS}.rlib'
    libraries.build_exports(folder, made)
    mirs = {crate: kept(crate) for crate in (*given.CRATES, *given.PROGRAM)} | {given.EXPORTS: made / PROGRAM}
    proved = {}
    for crate, mir in mirs.items():                # each after those that it is over
        proved[crate] = Proved(libraries.program(mir), [*proved.values()])
    return proved, sides


def main(arguments):
    try:
        with tempfile.TemporaryDirectory() as temporary, reading('the programs'):
            proved, sides = programs(arguments, Path(temporary))
            (kit, _), first = next(iter(sides.items()))
            bad = [f'{name}: {reason}' for name, reason in builds(ROOT / 'rust', kit, Path(temporary),
                                                                  (first[0][1], first[-1][1]))]
    except (Broken, Unknown) as reason:
        stop(f'{reason}{OTHER}')
    left = {*LEFT}
    for version, within, rust in ((version, *pair) for (_, version), pairs in sides.items() for pair in pairs):
        program = proved[within.split('::')[0]]
        found = compared(program, rust, within)
        bad += [f'{name}: {reason} (rustc {version})' for name, reason in wrong(program, rust, found, rust in (of for _, of in first))]
        left -= {name for some in found.values() for name, _ in some}
        read = sum(is_left(program, rust, name) for name, _ in found['differ'])
        print(f'rustc {version}, {within}: {len(found["same"])} functions are the same, {len(found["differ"]) - read} differ, '
              f'{len(found["unknown"]) + read} are not understood')
    bad += [f'{name}: it is in the list LEFT, and in no program' for name in sorted(left)]
    unused = [*ALONE.unused(), *(of.pattern for of, _ in same_pair.SAME if of.pattern not in same_pair.USED)]
    bad += [f'{name}: a list has it, and nothing is let through by it: tools/parts/same_names.txt or erase_list.py'
            for name in unused]
    bad += [f'{Path(sys.argv[0]).stem}: a form is not known{OTHER}'] * any('not understood: ' in it or ' fails: ' in it for it in bad)
    print(*bad, sep='\n', end='\n' * bool(bad))
    return int(bool(bad))


if __name__ == '__main__':
    sys.exit(main(sys.argv[1:]))
