#!/usr/bin/env python3
"""What tools/same_program.py says of texts and programs that are wrong, after the crates were proved:

    python3 tools/same_program_tests.py [--bodies] [KIT [FOLDER]]

Each part is tested: terms; rustc's side and the pair by bodies that mean the same, or don't; the prover's by changes of
its programs; and the whole by changes of the erased text. With --bodies only what wants no proof is: the terms, the
bodies, small programs of the prover's, and the list of what one side has alone."""
import contextlib
import copy
import io
import json
import os
import random
import re
import shutil
import subprocess
import sys
import tempfile
from pathlib import Path
from unittest import mock

sys.dont_write_bytecode = True
import erase
import libraries
import same_program
import widths
from parts import ROOT, erase_list as given
from parts.mir_text import Listed, cells, tables
from parts.same_body import CompiledSide
from parts.same_compiled import Compiled
from parts.same_proved import SNAPSHOT, Proved, ProvedSide, is_own, tree_of
from parts.same_terms import Broken, cast, integer, negated, operation, put, sliced, take, term

X, Y, LAST = term('par', 1), term('par', 2), term('f', 1)
# Terms that are one, and terms that aren't.
EQUAL = [
    (operation('>', X, Y), operation('<', Y, X)), (operation('!=', X, Y), negated(operation('==', X, Y))),
    (take(put(X, [LAST], Y), LAST), Y), (take(put(X, [LAST], Y), term('f', 0)), take(X, term('f', 0))),
    (put(put(X, [LAST], Y), [term('f', 0)], X), put(put(X, [term('f', 0)], X), [LAST], Y)),
    (sliced(term('sp', X), term('len', X)), X), (operation('+', integer(3), integer(4)), integer(7)),
    (cast(64, 8, integer(255)), integer(255)), (operation('<=', integer(1), X), operation('<', integer(0), X)),
    (operation('<=', operation('+', X, integer(1)), Y), operation('<', X, Y)),
]
UNEQUAL = [
    (negated(X), X), (operation('-', X, Y), operation('-', Y, X)), (operation('<', X, Y), operation('<=', X, Y)),
    (operation('<', X, Y, 64), operation('<', X, Y, -64)), (operation('>>', X, Y, 8), operation('>>', X, Y, -8)),
    (operation('wrapping_add', X, Y, 8), operation('wrapping_add', X, Y, 64)),
    (operation('<<', X, Y, 8), operation('<<', X, Y, 64)), (operation('-', integer(3), integer(4)), integer(1)),
    (cast(8, 64, X), cast(16, 64, X)), (cast(64, 32, X), cast(64, 32, X, True)),
    (cast(8, 64, integer(256)), integer(0)), (cast(8, 64, integer(256)), integer(256)),
    (put(X, [term('i', Y)], X), put(X, [term('i', X)], X)), (sliced(term('sp', X), term('len', Y)), X),
    (take(X, term('v', (0, 0))), take(X, term('v', (1, 0)))),
    (take(term('agg', 1, X), term('v', (0, 0))), X), (take(put(X, [term('i', Y)], Y), LAST), take(X, LAST)),
]
# What bodies call; pairs of bodies that mean the same, and that don't or aren't understood. In the erased text: a file,
# a part of it, what is there in its place, and the function that is then another, here or in another build.
HEAD, *ROWS = tables('same_bodies.txt').values()
MEAN_ONE, MEAN_TWO, PLANTS, OTHERWISE = ([*map(cells, rows)] for rows in (
    *ROWS, *(tables('plants.txt')[name] for name in ('same', 'builds'))))
TEXTS = [(name, how, f'//! A text.\nghost use Rattle.std.specs.Prelude.{{◌≡◌, ◌+◌, ◌*◌, ◌<◌, ◌↔◌, IsTrue, IsFalse, IsOk, IfOk, '
          f'min}};\n\n{text.strip()}\n') for name, how, text in re.findall(
              r'^== (\w+) \| (\w+)\n((?:(?!== |# ).*\n)*)', (Path(__file__).parent / 'parts/planted_texts.txt').read_text(), re.M)]


class AsProved(CompiledSide):
    """Rustc's function in the place of the prover's, which has a place in the place of the name of a number."""
    word, gives_unit = 'A', False

    def constant(self, text):
        made = super().constant(text)
        return term('N', ord(text)) if made[0] == 'N' else made


def bodies(folder, kit):
    """Pairs of bodies: rustc's reader and the pair say of each whether they mean the same."""
    pairs = [(one, two, is_one) for found, is_one in ((MEAN_ONE, True), (MEAN_TWO, False)) for one, two in found]
    source = folder / 'src/pairs.rs'
    source.parent.mkdir(parents=True)
    source.write_text(erase.HEADER.format('crates/pairs/src/lib.rt') + '\n'.join(HEAD) + '\n' +
                      ''.join(f'pub fn f{k}{word}<const N: usize>(a: u64, b: u64, xs: &mut [u8], s: &mut S) -> u64 {{\n    {body}\n}}\n'
                                     for k, pair in enumerate(pairs) for word, body in zip('ab', pair)))
    (folder / 'src/lib.rs').write_text('#![no_std]\npub mod pairs;\npub mod mem {\n'
                                       '    pub fn replace<K>(_: &mut K, new: K) -> K {\n        new\n    }\n}\n')
    subprocess.run([kit / 'rustc', '--edition', '2024', '--crate-type', 'lib', *widths.FLAGS, '-o', 'out.mir',
                    'src/lib.rs'], cwd=folder, check=True,
                   env=dict(os.environ, RUSTC_BOOTSTRAP='1'))
    rust = Compiled(folder, (folder / 'out.mir').read_text())
    proved = mock.Mock(functions={name: name for name in rust.functions})
    for k, (one, two, is_one) in enumerate(pairs):
        names = [f'pairs::f{k}{word}' for word in 'ab']
        for a, b in (names, names[::-1], names[:1] * 2):
            how = same_program.why(proved, rust, a, b, lambda _, name: AsProved(rust, rust.functions[name], name))
            assert how[0] in (('same',) if is_one or a == b else ('differ', 'unknown')), (one, two, how)
    check_faults(rust, names[0], kit)
    check_kit(rust, folder)
    check_graph()
    check_alone(rust)
    return len(pairs)


def check_faults(rust, name, kit):
    """An exception of these scripts says of which function it is, and is wrong whatever the function; so are two functions
    of a name, a function of `LEFT` with another digest, and another build; and what is wrong is said."""
    how, reason = same_program.why(None, rust, name, name, lambda *_: {}['here'])
    assert how == 'broken' and re.match(rf'{name}: same_program_tests.py:\d+ fails: KeyError', reason), reason
    as_it_is = lambda _, name: AsProved(rust, rust.functions[name], name)
    for one, wanted in (('pairs::GHolds::keep', ('differ', 'two functions of this name')),
                        ('pairs::most', ('unknown', 'constant core::num::<impl isize>::MAX'))):
        assert same_program.why(None, rust, one, one, as_it_is) == wanted, one
    one, proved = next(iter(same_program.LEFT)), mock.Mock(functions={})
    found = {'same': [(one, 1)], 'differ': [(name, 'not proved'), (one, 'another digest')], 'unknown': [(name, 'a form')],
             'broken': [(one, 'it fails')]}
    assert [pair[0] for pair in same_program.wrong(proved, rust, found)] == [one, one, name, one, name]
    for found, alone in (([], []), ([(name, 'default: this build has another text')], []), ([], [f'{name}: '])):
        with contextlib.redirect_stdout(io.StringIO()) as told, mock.patch.multiple(
                same_program, programs=lambda *_: ({'pairs': 0}, {(kit, '1.85'): [('pairs', rust)]}),
                builds=lambda *_: found, LEFT={}, ALONE=Listed(alone), same_pair=mock.Mock(SAME=[]),
                compared=lambda *_: dict.fromkeys(('same', 'differ', 'unknown', 'broken'), [])):
            status = same_program.main([str(kit)])
        assert status == len(found + alone) == sum(line.startswith(f'{name}: ') for line in told.getvalue().split('\n'))
    check_compared(rust)


def check_compared(rust):
    """Rustc's functions in the place of the prover's, one of which each side lacks: these, one of a trait and a
    derived one that have other bodies, and an entry of a list that nothing wants are found."""
    names = {name: name for name in rust.functions if name.startswith('pairs::') and '{' not in name}
    names = {**names, 'pairs::gone': 'pairs::gone', 'pairs::ordered': 'pairs::ordered'}
    proved = mock.Mock(functions={name: of for name, of in names.items() if name != 'pairs::more'}, trivial=set(), idle=set())
    other = next(name for name in names if name.endswith('RankPartialOrd::partial_cmp'))
    changed = {other: 'pairs::rank', 'pairs::SKeeps::keep': 'pairs::SHolds::keep'}
    side = lambda _, name: AsProved(rust, rust.functions[changed.get(name, name)], name)
    whole, alone = same_program.why, Listed(['pairs::ordered: not compiled', 'pairs::unused: not compiled'])
    with mock.patch.multiple(same_program, ALONE=alone, is_own=str,
                             why=lambda proved, rust, name, there: whole(proved, rust, name, there, side)):
        found = same_program.compared(proved, rust, 'pairs')
    assert {(name, reason) for name, reason in found['differ'] if reason.startswith('not ')} == {
        ('pairs::gone', 'not compiled'), ('pairs::more', 'not proved')}, found['differ']
    assert {*changed} <= {name for how in ('differ', 'unknown') for name, _ in found[how]}, found
    assert alone.unused() == ['pairs::unused: not compiled']


def check_kit(rust, folder):
    """What another kit may keep is refused in a sentence: a field of another name, one more kind of statement, and a file
    that is cut short."""
    place = {'local': 0, 'steps': []}
    body = ['Seq', {'Assign': [place, {'Opd': {'Copy': {**place, 'local': 1}}}]}, 'Return']
    text = json.dumps([['pairs::go', {'params': 1, 'generics': {'types': [], 'bounds': [], 'impls': []}, 'types': [],
                                      'locals': [{'ty': {'Int': 64}}] * 2, 'body': body}]])
    for old, new, wanted in (('', '', 'same'), ('"generics"', '"general"', "pairs::go: .* KeyError: 'generics'"),
                             ('"locals"', '"places"', "pairs::go: .* KeyError: 'locals'"),
                             ('"Assign"', '"Twice"', 'unknown: step Twice'), (']', '', 'no whole program .* rt ci proves')):
        (folder / 'mir.json').write_text(text.replace(old, new, 1))
        try:
            proved = Proved(libraries.program(folder / 'mir.json'))
            how, said = same_program.why(proved, rust, 'pairs::go', 'pairs::go')
        except (Broken, SystemExit) as reason:
            how, said = 'refused', reason
        assert re.search(wanted, f'{how}: {said}'), (how, said)


def function(kinds, *step, bounds=()):
    """One of the prover's functions with a parameter: the types of its locals, of which the first is its result; at most
    one step with its parts before the return; and the traits that bound its type."""
    return {'params': 1, 'generics': {'types': [], 'bounds': [{'of': of} for of in bounds], 'impls': []},
            'types': [{'name': SNAPSHOT, 'shape': {'Fields': []}}], 'locals': [{'ty': kind} for kind in kinds],
            'body': ['Seq', *step, 'Return'] if step else ['Return']}


def check_graph():
    """What does nothing, what only reads, and what only drops, by what it calls, also of the program below."""
    at = lambda local, *steps: {'local': local, 'steps': [*steps]}
    call = lambda head, given, to=0: {'Call': [head, [{'Copy': at(local)} for local in given], at(to)]}
    calls = lambda name, given=(1,), to=0: call({'Fn': [name, {'types': [], 'dicts': []}]}, given, to)
    asks = lambda local: call({'Method': [{'Given': 0}, 0, []]}, [local])
    number, generic, own = {'Int': 64}, {'Param': 0}, ['net_ring::Own']
    lent, lent_mut = ({'Ref': [{'Named': 0}, way, number]} for way in ('Imm', 'Mut'))
    behind, unit = at(1, {'Deref': number}), ('Unit', number)
    ghost = (*unit, {'Named': [{'name': SNAPSHOT}, []]})
    gives, stores = {'Assign': [at(0), {'Opd': {'Copy': behind}}]}, {'Assign': [behind, {'Opd': 'Unit'}]}
    more, owned = calls('core::more::go'), calls('net_ring::BDrop::drop')
    ring = Proved((f'net_ring::{name}', function(*parts)) for name, parts in {
        'idle': (unit,), 'third': (unit, calls('net_ring::idle')), 'second': (unit, calls('net_ring::third')),
        'gives': ((number, number),), 'stores': (('Unit', lent_mut), stores), 'goes': (unit, more),
        'goes_on': (unit, calls('net_ring::goes')), 'loops': (unit, 'Loop', 'Skip'),
        'counts': (ghost, calls('core::more::go', [2], 2)), 'begins': (ghost, calls('core::more::go', [], 2)),
        'looks': ((number, lent), gives), 'again': ((number, lent), calls('net_ring::looks')),
        'looks_up': ((number, lent), more), 'may_change': ((number, lent_mut), gives),
        'changes': ((number, lent), stores), 'of_number': ((number, number), calls('net_ring::looks')),
        'branches': ((number, lent), {'If': {'Copy': at(1)}}, 'Skip', 'Skip'),
        'ADrop::drop': (('Unit', generic), calls('alloc::vec::Vec::drop')), 'drops': (('Unit', generic), owned),
        'BDrop::drop': (('Unit', generic), calls('net_ring::ADrop::drop')), 'drops_none': (unit, owned),
        'CDrop::drop': (('Unit', generic), more), 'DDrop::drop': (('Unit', lent_mut), stores),
    }.items())
    base = Proved([('net_base::over', function(unit, calls('net_ring::second'))),
                   ('net_base::looks_below', function((number, lent), calls('net_ring::again'))),
                   ('net_base::asks', function((number, lent), asks(1), bounds=own)),
                   ('net_base::asks_std', function((number, lent), asks(1), bounds=['core::Other'])),
                   ('net_base::asks_to_change', function((number, lent, lent_mut), asks(2), bounds=own))], [ring])
    found = [{name.partition('::')[2] for name in names if is_own(name)}
             for names in (ring.trivial, ring.idle, base.idle, ring.readers, base.readers)]
    idle, readers = {'idle', 'third', 'second', 'counts', 'drops_none'}, {'looks', 'again'}
    assert found == [{'ADrop::drop', 'BDrop::drop'}, idle, {*idle, 'over'}, readers,
                     {*readers, 'looks_below', 'asks'}], found


def check_alone(rust):
    """The list of what one side has alone lets no function of these bodies through, and no plant."""
    names = [name for name in rust.functions if re.search(r'::[a-z]\w*$', name)]
    names += [f'{file.removesuffix(".rs").replace("/", "::")}::{name.split(": ")[0]}' for file, *_, name in PLANTS]
    passed = [name for name in names if any(same_program.ALONE.has(f'{name}: {how}')
                                            for how in ('', 'not compiled', 'not proved'))]
    assert not passed, passed


def changed(proved, function, draw):
    """A function of the prover's with one change: another number, callee, or order of operands or ends; none of what is
    for proofs."""
    new = copy.deepcopy(function)
    body, k = new['body'], draw.randrange(len(new['body']))
    step = body[k]
    tag, rest = next(iter(step.items())) if isinstance(step, dict) else (step, None)
    if tag == 'Call' and proved.is_trivial(proved.callee(rest[0], function)):
        return None
    values = re.findall(r'"value": \d+', json.dumps(rest)) if tag in ('Assign', 'Call', 'If', 'Switch') else []
    if tag == 'If':
        one, two = arms = [[], []]
        steps = iter(body[k + 1:])
        for arm in arms:                           # the steps that its tree takes
            tree_of(step for step in steps if not arm.append(step))
        body[k + 1:] = [*two, *one, *steps]
        return new
    if values and draw.random() < 0.5:
        one = draw.choice(values)
        body[k] = {tag: json.loads(json.dumps(rest).replace(one, f'"value": {int(one[9:]) + 1}', 1))}
        return new
    if tag == 'Assign' and 'Op2' in rest[1] and rest[1]['Op2'][0] not in ('Offset', 'Eq', 'Ne', {'Mul': 'Unsigned'}):
        rest[1]['Op2'][1:] = rest[1]['Op2'][:0:-1]
        return new
    # which panic it is isn't compared
    if tag == 'Call' and 'Fn' in rest[0] and rest[0]['Fn'][0] != 'core::assertions::unreachable':
        rest[0]['Fn'][0] += '_too'
        return new
    return None


def drops(proved, name):
    """A function of the prover's with a drop left out, or made twice."""
    side, old = ProvedSide(proved, name), proved.all[proved.functions[name]]
    for k, step in enumerate(old['body']):
        if isinstance(step, dict) and 'Call' in step and \
                proved.callee(step['Call'][0], old).endswith(':Destruct.drop') and \
                    side.needs_drop(side.kind_of(step['Call'][1][0])):
            for steps in (['Skip'], ['Seq', step, step]):
                yield {**old, 'body': [*old['body'][:k], *steps, *old['body'][k + 1:]]}


def programs(programs, sides):
    """Changes of the prover's programs: each is seen. Returns how many."""
    draw, seen = random.Random(7), 0
    for within, rust in sides:
        proved = programs[within.split('::')[0]]
        for name, _ in same_program.compared(proved, rust, within)['same']:
            old = proved.all[proved.functions[name]]
            for new in (*(changed(proved, old, draw) for _ in range(2)), *drops(proved, name)):
                if new in (None, old):
                    continue
                other = copy.copy(proved)
                other.all = {**proved.all, proved.functions[name]: new}
                how = same_program.why(other, rust, name, same_program.place(proved, rust, name))
                assert how[0] in ('differ', 'unknown'), (name, how, new['body'])
                seen += 1
    return seen


def ghosts(programs, sides):
    """Without what makes a ghost one there is none: an idle function with another call, a store or a loop; its callers
    where it isn't one; a type that has a number. Returns how many changes are seen."""
    more = {'Call': [{'Fn': ['core::more', {'types': [], 'dicts': []}]}, [], {'local': 0, 'steps': []}]}
    store = {'Assign': [{'local': 0, 'steps': [{'Deref': {'Int': 64}}]}, {'Opd': 'Unit'}]}
    number, seen = {'Int': 64}, 0
    for within, rust in sides:
        proved = programs[within.split('::')[0]]
        for name in sorted(proved.idle & proved.functions.keys()):
            old, other = proved.all[proved.functions[name]], copy.copy(proved)
            for begin in (['Seq', more], ['Seq', store], ['Loop']):
                other.all = {**proved.all, proved.functions[name]: {**old, 'body': [*begin, *old['body']]}}
                assert not other.holds(ProvedSide.is_idle, name), (name, begin)
                seen += 1
        for name, _ in same_program.compared(proved, rust, within)['same']:
            old, there = proved.all[proved.functions[name]], same_program.place(proved, rust, name)
            other, said = copy.copy(proved), json.dumps(old['body'])
            other.idle, other.readers = ({one for one in found if f'"{one}"' not in said}
                                         for found in (proved.idle, proved.readers))
            if other.idle != proved.idle:
                assert same_program.why(other, rust, name, there)[0] != 'same', name
                seen += 1
            side = ProvedSide(proved, name)
            if side.parameters != old['params']:
                types = [{**one, 'shape': {'Fields': [*one['shape']['Fields'], number]}}
                         if 'Fields' in one['shape'] and one['name'] != SNAPSHOT else one for one in old['types']]
                other.all = {**proved.all, proved.functions[name]: {**old, 'types': types}}
                assert same_program.why(other, rust, name, there)[0] != 'same', name
                seen += 1
    return seen


def planted(kit, temporary, proved):
    """Each plant in the erased text is found, and nothing besides."""
    crate = temporary / 'crate'
    shutil.copytree(ROOT / 'rust', crate, ignore=shutil.ignore_patterns('target', 'rows'))
    config = crate / 'src/config.rs'
    config.write_text(config.read_text() + '\npub(crate) fn head() -> crate::storage::AssemblerHead {\n'
                      '    crate::storage::AssemblerHead::new()\n}\n')
    for file, part, plant, _ in PLANTS + OTHERWISE:
        is_program, module = file.split('/')[0] in same_program.given.PROGRAM, file.removesuffix('.rs')
        folder = erase.EXAMPLE if is_program else erase.OUTS[erase.package_of(module)]
        path = crate / folder.relative_to(ROOT / 'rust') / f'{erase.placed(module)}.rs'
        assert part in path.read_text(), (file, part)
        path.write_text(path.read_text().replace(part, plant, 1))
    library, example = same_program.compiled(crate, kit, temporary / 'target2')
    found = []
    for name in sorted({file.split('/')[0] for file, *_ in PLANTS}):
        rust = example if name in same_program.given.PROGRAM else library
        found += [f'{one}: {reason}' if reason.startswith('not ') else one for one, reason in
                  same_program.wrong(proved[name], rust, same_program.compared(proved[name], rust, name))]
    for name in (name for *_, name in PLANTS):
        assert any(one.endswith(f'::{name}') for one in found), f'not found: {name}: {found}'
    others = [one for one in found if not any(one.endswith(f'::{name}') for *_, name in PLANTS)]
    assert not others, others
    built = {f'{one}: {reason.split(":")[0]}' for one, reason in
             same_program.builds(crate, kit, temporary / 'builds', (library, example))}
    assert all(any(one.endswith(f'::{name}') for one in built) for *_, name in OTHERWISE) and \
        len({one.partition(': ')[0] for one in built}) == len(OTHERWISE), built
    return len(PLANTS) + len(OTHERWISE) + texts(crate, kit, temporary / 'texts')


def texts(crate, kit, temporary):
    """Texts that mean something else once they are erased: proved, and added to a copy of the crate, where each is found.
    Returns how many."""
    source, out = temporary / 'crates/planted/src', crate / 'src/planted'
    for folder in (source, out):
        folder.mkdir(parents=True)
    given.CRATES, given.FOLDERS['planted'] = [*given.CRATES, 'planted'], 'planted'
    files = {name: text for name, how, text in TEXTS if how in ('same', 'widths') or name == 'config'}
    ghosts = erase.Ghosts((Path(f'{name}.rt'), text) for name, text in files.items())
    traits = {name for text in files.values() for name in re.findall(r'^(?:pub )?trait (\w+)', text, re.M)}
    for name, text in files.items():
        (source / f'{name}.rt').write_text(text)
        eraser = erase.Eraser(text, 'planted', (), f'crates/planted/src/{name}.rt', ghosts, traits)
        (out / f'{name}.rs').write_text(erase.relocated(eraser.run()))
    modules = ''.join(f'pub mod {name};\n' for name in files)
    (source / 'lib.rt').write_text(f'//! Texts.\n#![tactic(auto)]\n\n{modules}')
    (out / 'mod.rs').write_text(f'#![allow(unreachable_pub)]\n{modules}')
    (temporary / 'crates.txt').write_text('planted:\n')
    root = crate / 'src/with_exports.rs'
    root.write_text(root.read_text() + '\npub mod planted;\n')
    subprocess.run(['rt', 'lib'], cwd=source.parent, check=True, stdout=subprocess.DEVNULL)
    mir = source.parent / 'out/rlib/planted.rlib' / same_program.PROGRAM
    rust = widths.compiled(crate, kit, temporary / 'target2')
    how = same_program.compared(same_program.Proved(json.loads(mir.read_text())), rust, 'planted')
    assert not how['broken'], how['broken']
    found = dict.fromkeys((name.split('::')[1] for name, item in widths.erased(rust, rust.derived)
                           if name.startswith('planted::') and widths.opened(rust, name, item)[0]), 'widths')
    found |= {name.split('::')[1]: 'same' for name, _ in how['differ'] + how['unknown']}
    assert found == {name: how for name, how, _ in TEXTS if how in ('same', 'widths')}, found
    return len(TEXTS)


def main(arguments):
    assert all(one == two for one, two in EQUAL) and \
            not any(one == two for one, two in UNEQUAL), [pair for pair in EQUAL if pair[0] != pair[1]]
    folders = [word for word in arguments if word != '--bodies']
    with tempfile.TemporaryDirectory() as temporary:
        temporary = Path(temporary)
        kits = widths.kits_of(folders, temporary)
        counts = [bodies(temporary / f'bodies{version}', kit) for kit, version in kits.items()]
        said = f'{len(EQUAL)} terms are one, {len(UNEQUAL)} are two; by {len(kits)} rustcs {counts[0]} pairs of bodies'
        if folders == arguments:
            proved, by_kit = same_program.programs(folders, temporary)
            sides = next(iter(by_kit.values()))
            seen = programs(proved, sides) + ghosts(proved, sides)
            plants = planted(next(iter(kits)), temporary, proved)
            said += f'; {seen} changes of programs and {plants} plants are found'
    print(said)
    return 0


if __name__ == '__main__':
    sys.exit(main(sys.argv[1:]))
