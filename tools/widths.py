#!/usr/bin/env python3
"""Finds the operations of the erased text that are right where a `usize` has 64 bits, and for which nothing proves that
they are so where it has 32; and what of std the text calls:

    python3 tools/widths.py [--write] [FOLDER]

The text is erased again with all bounds, `debug_assert!(sum <= bound, "in any `usize`")`, and the exports for C. Each
function is run as tools/same_program.py runs it, with symbols for numbers, and a `usize` of 32 bits. `usize::MAX`, which
the eraser writes for `most()` alone, is a symbol too. A difference, a quotient, a rest,
`min`, `max` or `saturating_sub` of numbers of a `usize` is one. Any other operation has a cover, on each way from it to
a return:

    bound     a bound of its value, or of a sum of it and others, is tested after it, or was tested of the same value
              before. The right side is a `usize`, or one as a `u64`, that was there before the operation, and holds no
              sum, product or shift; or it is `usize::MAX`
    end       it is the end of the range of a slice, or of `part`: the index is proved to be at most a length
    cut       a cast of the lesser of two numbers, one of which was a `usize`
    wrapped   the negative of a number, as the last argument of a function of `WRAPS`: `wrapping_add` alone is given it,
              whose value has a bound
    index     one less than a number, in numbers that wrap, as the whole argument of `get`: of 0 it is the greatest
              `usize`, an index that no slice has
    lesser    a sum or product that stops at the greatest `usize`, of which the lesser and another number is taken
    constant  a value that is known, and has 32 bits

What isn't known is open: a form that the readers of same_program.py don't know, an `isize`, a greater constant, and a
call of std's with a `usize` or an `isize` in its type that `KNOWN` lacks. Derived code isn't read.

The law `is_usize` is given a parameter, a length, what a method of `self` returned, or a literal: of a sum it would
state what is to be proved. No proof but those of `most` and of this law unfolds `shortfall`, but for that it is below
2^64, and at most 2^64 - 2^32. docs/std-calls.md is to have what std's functions are called, but for operators, indices,
`?`, calls of closures and what prints, and docs/TRUST.md the ported crates of crates.txt; --write writes the first. The
compilers are that of rust/kit.sh, unpacked in FOLDER, or in a temporary one, and the one on PATH, as far as `READS` has
them. The status is 1 if something is open, a page has other lines, or there is no such compiler.
"""
import collections
import os
import re
import shlex
import shutil
import subprocess
import sys
import tempfile
import textwrap
from pathlib import Path

sys.dont_write_bytecode = True
import erase
from parts import ROOT, lacks, stop
from parts.mir_text import Listed, called, tables
from parts.same_body import LIMIT, CompiledSide
from parts.same_compiled import Compiled
from parts.same_pair import Pair
from parts.same_side import Branch, Call, Panic, Return, Store
from parts.same_terms import UNIT, Differ, Unknown, any_part, mentions, reading, term

# The folders of rust that have erased text.
SOURCES = [str(Path(folder).relative_to('rust')) for folder in erase.given.PACKAGES.values()]
PAGE = ROOT / 'docs/std-calls.md'
MARK = '"in any `usize`"'
READS = ('1.85.', '1.95.', '1.96.')               # the versions of rustc whose MIR is read
MOST = 2 ** 32 - 1                                # the greatest `usize` of 32 bits
SIZE = re.compile(r'\b[iu]size\b')
NARROW = {'u8', 'u16', 'u32', 'bool', 'char'}
GREATEST = term('N', 'usize::MAX')
# A bound that was tested is kept among the operations that lack a cover.
KEPT = 'kept'
# Operations, and what covers each; after `wrapping_` and `saturating_` they are calls.
COVERS = {'Add': 'bound end', 'Mul': 'bound end', 'Shl': '', 'usize.wrapping_add': 'bound', 'usize.wrapping_sub': 'index',
          'usize.wrapping_neg': 'wrapped', 'usize.saturating_add': 'lesser', 'usize.saturating_mul': 'lesser'}
KNOWN = Listed(tables('same_names.txt')['known'])
ANY = re.compile(r'\?:(?:(?:Add|Sub|Mul|Div|Rem|Neg|Not|Sh[lr]|Bit\w+)(?:Assign)?|TryFrom|TryInto|FromStr)\.\w+'
                 r'|Iterator\.(?:sum|product)')
OWN = re.compile(r' as (?!core::|std::|alloc::)\w+::')
# Calls that docs/std-calls.md hasn't.
NO_CALL = re.compile(r'slice of a range|Arguments\..*|(?:.*:)?(?:Index|Try|FromResidual|FnOnce|panicking)\..*|.*\.(?:write_fmt|debug_\w+)')
# What follows each use of the last parameter, `by`, of these functions: they pass it on, or give it to `wrapping_add`.
WRAPS = {'take_out': [':', ')'], 'wrapped': [':', '.wrapping_add', '.wrapping_add']}
# A pattern that has a name: of `let`, of `for`, of a closure, of an arm.
HIDES = r'\blet\b[^=;]*{0}|\bfor\b[^{{]*{0}[^{{]*\bin\b|\|[^|;]*{0}[^|;]*\||{0}[^;{{]*=>'
# The proofs that say how many bits a `usize` has.
KNOWING = {'net_ring/proofs/width/most/Answers.antt', 'net_ring/proofs/laws/is_usize/Answers.antt'}
FLAGS = ['--emit=mir', '-Coverflow-checks=on', '-Zmir-opt-level=0', '-Zmir-include-spans=on',
         '-Ztrim-diagnostic-paths=no', '-Awarnings']


def wide(value):
    """A number as it is where a `usize` has 64 bits: without casts to 32 and to 64."""
    while value[:1] == ('cast',) and {abs(value.width), abs(value.old)} == {32, 64}:
        value = value.value
    return value


def is_in(value, total):
    """Whether a number is this one, or one of those that it is the sum of."""
    value, total = wide(value), wide(total)
    return value == total or total[:2] == ('op', '+') and (is_in(value, total.one) or is_in(value, total.two))


def is_widened(value):
    return value[:3] == ('cast', 64, 32)


def grows(value):
    return value[:1] == ('op',) and re.match(r'[+*]|<<|wrapping|saturating', value.sign)


def is_apart(load, to):
    """Whether what is read is another field of what has the place that is stored to."""
    return to is not None and to[0] == 'addr' and to.pointer == load.pointer and load.path[:1] and \
        load.path[0][0] == to.path[0][0] == 'f' and load.path[0] != to.path[0]


def is_young(value, since):
    """Whether a term is a result since then, or what memory has since then, but for other fields than were stored."""
    return value[:1] == ('sym',) and (None, value) in since or value[:1] == ('load',) and \
        any(value.ver == memory for _, memory in since) and not all(is_apart(value, to) for to, _ in since)


class Sized(CompiledSide):
    """A function of rustc's program, with a `usize` of 32 bits.

    In its state 'owed' has the operations that lack a cover, and the bounds that were tested: where it is, what covers
    it, terms that have its value, and what was made since: results, and memory after stores with their places."""
    widths = CompiledSide.widths | {'usize': 32, 'isize': -32}

    def __init__(self, program, item, name):
        super().__init__(program, item, name)
        self.open, self.covers, self.marks, self.bounds, self.into = {}, {}, {}, set(), ''

    def note(self, what):
        self.open[what] = None

    def partial(self, state, value):
        """What may panic is proved not to."""

    def step(self, state, step, after):
        self.site = after
        return super().step(state, step, after)

    # ---- operations

    def owe(self, state, value, covers):
        """Notes that an operation's value wants one of some covers."""
        if value[0] == 'int':
            self.covers[self.site] = 'constant'
        elif 'bound' in covers and (by := [site for site, of, names, _ in state['owed']
                                           if of == KEPT and any(is_in(value, name) for name in names)]):
            self.covers[self.site] = 'bound'
            self.marks |= dict.fromkeys(by, True)
        elif any(one[:2] == (self.site, covers) for one in state['owed']):
            self.note(f'in a loop: {value}')
        else:
            state['owed'] += (self.site, covers, (value,), frozenset()),

    def pay(self, state, cover, value, bound=()):
        """Covers the operations of a value."""
        owed, is_one = [], is_in if cover == 'bound' else lambda one, two: wide(one) == wide(two)
        for one in state['owed']:
            site, covers, names, since = one
            if cover in covers.split() and any(is_one(name, value) for name in names) and \
                    not any_part(bound, lambda part: is_young(part, since)):
                self.covers[site] = cover
                if cover == 'bound':
                    self.marks[self.site] = True
            else:
                owed.append(one)
        state['owed'] = tuple(owed)

    def switch(self, state, value, ends):
        """A branch, which may be a bound's."""
        branch = super().switch(state, value, ends)
        test, end = branch.value, branch.ends.get(0)
        if end and self.is_marked(end.node, state):
            self.marks.setdefault(self.site, any_part(branch.value, lambda one: one == GREATEST))
            if test in self.bounds:
                least = term('op', '+', test.one, term('int', 1)) if test.sign == '<' else test.one
                self.pay(state, 'bound', least, test.two)
                others = [one for one in state['owed'] if one[:2] != (self.site, KEPT)]
                state['owed'] = (*others, (self.site, KEPT, (least,), frozenset()))
        return branch

    def is_marked(self, node, state):
        """Whether the way from a node is the panic of a bound, which has the mark."""
        said = [text for step in self.nodes[node[0]] for text in (step, *(
            self.program.promoted.get((self.path, name), '') for name in re.findall(r'::(promoted\[\d+\])', step)))]
        return any(MARK in text for text in said) and \
            isinstance(self.run(node, dict(state)), Panic)

    def constant(self, text):
        limit, number = LIMIT.fullmatch(text), re.fullmatch(r'(\d+)_usize', text)
        if limit and 'usize' in limit.groups() and limit[3] == 'MAX':
            return GREATEST
        if limit and SIZE.fullmatch(limit[1] or limit[2]) or number and int(number[1]) > MOST:
            self.note(f'the constant {text}')
        return super().constant(text)

    def binary(self, state, sign, how, one, two):
        made = super().binary(state, sign, how, one, two)
        kind, value = self.kind_of(one) or self.kind_of(two), made.parts[0] if how == 'WithOverflow' else made
        if kind in (None, 'isize'):
            self.note(f'{sign} of {kind}: {value}')
        elif kind == 'usize' and sign in COVERS:
            self.owe(state, value, COVERS[sign])
        elif value[0] == 'op' and value.sign in ('<', '<=') and not any_part(value.two, grows) and \
                (kind == 'usize' or kind == 'u64' and is_widened(value.two)):
            self.bounds.add(value)
        return made

    def unary(self, state, word, of):
        if word in ('Not', 'Neg') and self.kind_of(of) in (None, 'usize', 'isize'):
            self.note(f'{word} of {self.kind_of(of)}')
        return super().unary(state, word, of)

    def converted(self, state, text, operand, to, how):
        made, of = super().converted(state, text, operand, to, how), self.kind_of(operand)
        lesser = made.value[2:] if made[0] == 'cast' and made.value[:2] == ('op', 'min') else ()
        if (of, to) == ('u64', 'usize') and any(map(is_widened, lesser)):
            self.covers[self.site] = 'cut'
        elif (of, to) == ('u64', 'usize'):
            self.owe(state, made, 'bound')
        elif how == 'IntToInt' and ('isize' in (of, to) or to == 'usize' and of not in {'usize', *NARROW}):
            self.note(f'cast {of} to {to}')
        return made

    def call(self, state, place, text, after):
        self.into = self.kind_of(place) or ''
        return super().call(state, place, text, after)

    def pure(self, state, head, name, arguments, kind):
        is_own = '::' in name or OWN.search(head) or name in self.program.traits.values()
        is_count = name == 'Iterator.count' and '<core::iter::Filter<core::slice::Iter<' in head
        has_size = SIZE.search(f'{self.into} {head}') and not is_own and not is_count
        if ANY.fullmatch(name) or has_size and not KNOWN.has(name):
            self.note(f'call of {name}')
        for cover, form, given in (('end', r'.*[.:]part(?:_mut)?|slice of a range', arguments[-1:]),
                                   ('index', r'slice\.get', arguments[-1:]), ('lesser', r'usize:Ord\.min', arguments),
                                   ('wrapped', f'.*::(?:{"|".join(WRAPS)})', arguments[-1:])):
            for one in given if re.fullmatch(form, name) else ():
                self.pay(state, cover, one.parts[-1] if name == 'slice of a range' and one[0] == 'agg' else one)
        made = super().pure(state, head, name, arguments, kind)
        if name in COVERS or name.endswith(':Ord.min'):
            made = term('op', name.split('.')[1], arguments[0], arguments[-1])
        if name == 'usize.wrapping_sub' and arguments[1] != term('int', 1):
            self.note(f'call of {name}')
        elif name in COVERS:
            self.owe(state, made, COVERS[name])
        return made


class Walk(Pair):
    """A function from its start on: as a pair with itself, whose two sides are one."""

    def __init__(self, side):
        super().__init__(side, side, {})

    def arguments(self, name, one, two, state):
        return [*zip(one, two)]

    def reach(self, node, state):
        super().reach(node, {'owed': ()} | state)

    def step(self, node, state):
        state['B', 'drops'], side = UNIT, self.b
        event = self.event(side, node[0], state)
        if isinstance(event, Return):
            for _, covers, names, _ in state['owed']:
                covers == KEPT or side.note(f'no cover: {names[:1]}')
        elif isinstance(event, Store):
            state['ver'], to = self.fresh(state, ('ver', node)), side.behind(event.to)
            self.since(state, event.to, state['ver'], lambda names: (side.read(state, to),) * (event.value in names))
            self.reach((event.after,) * 2, state)
        elif isinstance(event, (Branch, Call)):
            self.branch(event, event, state) if isinstance(event, Branch) else self.call(node, event, event, state)

    @staticmethod
    def since(state, to, made, more=lambda names: ()):
        """Notes of each operation what is made after it, and more terms that have its value."""
        state['owed'] = tuple((site, covers, names + more(names), since | {(to, made)})
                              for site, covers, names, since in state['owed'])

    def fresh(self, state, key):
        symbol = super().fresh(state, key)
        if key[0] != 'ver':
            self.since(state, None, symbol)
        return symbol

    @staticmethod
    def joined(key, old, new):
        """What two states have in common: of an operation, what has its value on each way that makes it; of a bound, if
        both have it."""
        both = [{name: value for name, value in state.items() if name != 'owed'} for state in (old, new)]
        out, owed = Pair.joined(key, *both), {}
        at, bounds = out or both[0], [{one[0] for one in state['owed'] if one[1] == KEPT} for state in (old, new)]
        for state in (old, new):
            images = {}
            for name in at.keys() - {'facts', 'done'}:
                note_images(state[name], at[name], images)
            for site, covers, names, since in state['owed']:
                kept = {name for name in names if state is old and out is None or not mentions(name, key)}
                kept.update(*(images.get(name, ()) for name in names))
                _, _, others, more = owed.get((site, covers), (None, None, kept, frozenset()))
                if covers != KEPT or site in bounds[0] & bounds[1]:
                    owed[site, covers] = site, covers, tuple(sorted(kept & {*others}, key=str)), since | more
        owed = tuple(owed[one] for one in sorted(owed))
        return None if out is None and {*owed} == {*old['owed']} else {**at, 'owed': owed}


def note_images(one, two, images):
    """Notes of each part of a term what is there in another one."""
    if isinstance(one, tuple) and isinstance(two, tuple):
        images.setdefault(one, set()).add(two)
        for a, b in zip(one, two) if len(one) == len(two) else ():
            note_images(a, b, images)


def opened(rust, name, item):
    """What is open of a function or constant, each with its place, and the covers of its operations."""
    side = Sized(rust, item, name)
    try:
        with reading(name):
            Walk(side).compare()
    except (Unknown, Differ) as reason:
        side.note(f'not understood: {reason}')
    idle = ['a bound of no operation' for is_used in side.marks.values() if not is_used]
    return [*side.open, *idle], [*side.covers.values()]


def erased(rust, but):
    """The functions and constants of the erased text, but for some: each name with its item."""
    crates = {module.split('::')[0] for module, _ in rust.erased.values()}
    items = [*rust.functions.items(), *rust.constants.items(), *((path, item) for (path, _), item in rust.promoted.items())]
    return [(name, item) for name, item in items if name.split('::')[0] in crates and name not in but]


def wraps(root, files):
    """Where a number that wraps goes elsewhere than to `wrapping_add`: a function of `WRAPS`."""
    for name, uses in WRAPS.items():
        found = [body for file in files for body in re.findall(rf'(?ms)^fn {name}\(.*?^\}}', (root / file).read_text())]
        if any(re.findall(r'\bby\b(\W\w*)', body) != uses for body in found):
            yield f'{name}: `by` is used otherwise'


def of_crate(root, rust):
    """What is open in a crate, and how many operations have which cover."""
    found, counts = [*wraps(root, rust.erased)], collections.Counter()
    for name, item in erased(rust, rust.derived - rust.twice):
        said, covers = opened(rust, name, item)
        counts.update(covers)
        found += [f'{name}: {what}' for what in said]
    return [*found, *(f'{name}: two functions of this name' for name in rust.twice)], counts


def laws(paths):
    """Where the law `is_usize` is given something else than a literal, a parameter, a length, or what `self` says."""
    for path in paths:
        code = re.sub(r'//[^\n]*', '', path.read_text())
        for call in re.finditer(r'\bis_usize\(([^;]*)\);', code):
            given, text = call[1].strip(), code[code.rfind('fn ', 0, call.start()):call.start()]
            if re.fullmatch(r'\d[\d_]*(?:usize)?', given) and int(given.removesuffix('usize')) <= MOST:
                continue
            length = rf'\blet {re.escape(given)} = (?:[\w.]+\.len\(\)|self\.\w+\(\w+\));'
            is_made = re.fullmatch('_?[a-z]\\w*', given) and re.search(rf'[(,]\s*{given}: usize\b|{length}', text)
            if not is_made or re.search(HIDES.format(rf'\b{given}\b'), re.sub(length, '', text)):
                yield f'{path}:{code.count(chr(10), 0, call.start()) + 1}: is_usize({given})'


def unfolded(crates):
    """The proofs that know how many bits a `usize` has: but for the two that say what it is, there is none."""
    # of 0 and 2^64 - 2^32
    of_both = re.compile(r'(?m)^(?:word : shortfall < 2 \^ 64|pub narrow : 2 \^ 32 \+ shortfall ≤ 2 \^ 64)\nunfolding shortfall\n'
                         r'(?:word|narrow) = omega arith$')
    for path in sorted([*crates.glob('*/proofs/**/*.antt'), *crates.glob('*/src/**/*.rt')]):
        if re.search(r'unfolding\b[^\n]*\bshortfall\b',
                     of_both.sub('', path.read_text())) and str(path.relative_to(crates)) not in KNOWING:
            yield f'{path}: a proof unfolds shortfall'


def kits_of(folders, temporary):
    """The compilers whose MIR is read, each a folder with its version: that of rust/kit.sh, in the first of the folders or
    one that is made; and the one on PATH, so that what users compile is what is compared. One is enough; ends the
    script if there is none."""
    kit, own = Path(folders[0]).resolve() if folders else temporary / 'kit', temporary / 'own'
    is_there, found = not subprocess.run(['sh', ROOT / 'rust/kit.sh', kit]).returncode, {}
    if not shutil.which('cargo'):
        lacks('no cargo')
    own.mkdir(exist_ok=True)
    (own / 'rustc').write_text(f'#!/bin/sh\nexec {shlex.quote(shutil.which("rustc") or "rustc")} "$@"\n')
    (own / 'rustc').chmod(0o755)
    for folder in [kit] * is_there + [own]:
        said = subprocess.run([folder / 'rustc', '--version'], capture_output=True, text=True).stdout.split()
        version = said[1] if said[1:] else 'no rustc'
        if version.startswith(READS):
            found.setdefault(version, folder)
        elif folder == kit or not found:
            stop(f'it reads the MIR of rustc {", ".join(it[:-1] for it in READS)}, and {folder} has {version}: name another '
                 'folder, or put one of these on PATH')
        else:
            print(f'the MIR of rustc {version}, which is on PATH, is not read: READS of tools/widths.py')
    return {folder: version for version, folder in found.items()}


def rustc(crate, kit, target, what='--lib', words=('--features', 'segmentation-offload,std'), flags=(),
          package='net-base', **options):
    """Compiles an erased package, or an example of it; if there are no other words all packages as one crate, with the
    exports for C."""
    environment = dict(os.environ, RUSTC=str(kit / 'rustc'), RUSTC_BOOTSTRAP='1', CARGO_TARGET_DIR=str(target))
    is_whole = what == '--lib' and words[:1] == ('--features',)
    named = ['--remap-path-prefix=exports/../src=src', '--remap-path-prefix=exports/../src/../='] if is_whole else []
    command = ['cargo', 'rustc', '--offline', '--quiet', what, '--package', 'net-base-exports' if is_whole else package,
               *words, '--', *FLAGS, *named, *flags]
    return subprocess.run(command, cwd=crate, env=environment, **options)


def mir_of(target, folder='deps', name=''):
    """What `rustc` wrote, of a crate of this name if there are several."""
    mir, = target.glob(f'**/debug/{folder}/{name and name + "-"}*.mir')
    return mir.read_text()


def with_bounds(crate):
    """A copy of the crate that is erased with all bounds."""
    shutil.copytree(ROOT / 'rust', crate, ignore=shutil.ignore_patterns('target', 'rows'))
    erase.Eraser.bounds, said = True, []
    for path, text in erase.formatted(erase.erased(said), said).items():
        (crate / path.relative_to(ROOT / 'rust')).write_text(text)
    erase.Eraser.bounds = False
    if said:
        stop('\n'.join(said))
    return crate


def compiled(crate, kit, target):
    """Rustc's program of an erased crate."""
    rustc(crate, kit, target, check=True)
    return Compiled(crate, mir_of(target), *SOURCES)


def std_calls(rust):
    """The lines of docs/std-calls.md: of each type or trait of std's its functions that the erased text calls."""
    found = collections.defaultdict(set)
    for _, item in erased(rust, ()):
        for text in re.findall(r'^ +[^=]+? = (?:move |copy )?([^\n]+\)) -> ', item, re.M):
            head = called(text)
            name = rust.callee(head)
            of, call = name.split(':')[-1].rpartition('.')[::2]
            if re.match('<|(?:core|std|alloc)::(?!fmt::rt)', head) and not ('::' in name or OWN.search(head) or NO_CALL.fullmatch(name)):
                found['numbers' if re.fullmatch(r'[iu](?:\d+|size)', of) else of].add(call)
    rows = [f'`{of}`: {", ".join(f"`{call}`" for call in sorted(calls))}' for of, calls in sorted(found.items())]
    return '\n'.join('\n  '.join(textwrap.wrap(f'- {row}', 116)) for row in rows)


def ported():
    """The ported crates, as docs/TRUST.md is to name them."""
    rows = re.sub('#.*', '', (ROOT / 'crates.txt').read_text()).split('\n')
    used = {crate for row in rows for crate in row.partition(':')[2].split()}
    return f'({", ".join(f"`{it}`" for it in sorted(used) if not (ROOT / "crates" / it).exists())})'


def main(arguments):
    with tempfile.TemporaryDirectory() as temporary:
        temporary = Path(temporary)
        root, found = with_bounds(temporary / 'crate'), []
        for kit, version in kits_of([word for word in arguments if word != '--write'], temporary).items():
            rust = compiled(root, kit, temporary / version)
            said, counts = of_crate(root, rust)
            found += [f'{what} (rustc {version})' for what in said]
    found += [f'tools/parts/same_names.txt: no call of `known`: {it}' for it in KNOWN.unused()]
    found += [*laws(sorted((ROOT / 'crates').glob('*/src/**/*.rt'))), *unfolded(ROOT / 'crates')]
    head, block = PAGE.read_text().split('\n\n- ', 1)[0], std_calls(rust)
    if '--write' in arguments:
        PAGE.write_text(f'{head}\n\n{block}\n')
    elif PAGE.read_text() != f'{head}\n\n{block}\n':
        found.append(f'{PAGE.name}: tools/widths.py --write has other lines')
    if ported() not in ' '.join((ROOT / 'docs/TRUST.md').read_text().split()):
        found.append(f'docs/TRUST.md has other crates than crates.txt, which has {ported()}')
    print(*(f'open: {what}' for what in found), sep='\n', end='\n' * bool(found))
    print(', '.join(f'{count} {cover}' for cover, count in (('open', len(found)), *sorted(counts.items()))))
    return int(bool(found))


if __name__ == '__main__':
    sys.exit(main(sys.argv[1:]))
