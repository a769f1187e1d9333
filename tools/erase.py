#!/usr/bin/env python3
"""Erases Rattle to Rust: what can't run goes, all else stays.

    python3 tools/erase.py             writes what is erased in the packages of Rust, of the crates that
                                       tools/parts/erase_list.py names, and of the program in rust/examples/net_bench
    python3 tools/erase.py --check     writes nothing, and names each file that isn't so

The status is 2 if there is no rustfmt.
What it does are the rules below, and no more; what they refuse is said with its file and line. What is taken out ends
where its bracket closes. That what is left does in Rust what was proved is for tools/same_program.py.
tools/parts/erase_says.py adds lines of documentation.

The rules:

1. These go: contracts, `requires` and `ensures` between a function's signature and its body, with their comments; ghost
   items and members; attributes `tactic` and `error`; `Drop` and `Error` in lists of derives. The text of `error` becomes
   that of the error's `Display`; `{0}` in it is the only field.
2. Modules of `UNERASED` of `erase_list.py`, and imports from them, go: Rust has them by hand, or not at all. So do the
   crates' roots, whose constants have to stand in Rust's. Before the paths `crate`, `std` and those of crates there is
   the module where Rust has them, as `FOLDERS` and `MOVED` of `erase_list.py` say, behind the package's name if it is
   another one.
3. An impl of `Drop` goes, since rustc drops fields by itself: the comparison finds a `drop` that does more. An impl of
   `Model`, which has ghost members alone, goes too. A `clone` whose body is `Ok(..)` gives what that holds, and no
   `Result`; no other one is erased. A bound by `Drop` is one by `Sized`.
4. What C's exports alone call, by `FOR_C` of `erase_list.py`, is in a folder of theirs. A public item becomes
   `pub(crate)`, unless an import of a root by hand gives its name, or its module, to users, to C's exports, or, in the
   module `internal`, to another package. So do functions whose signature names a head, or a type of snapshots alone,
   all of a type that users can't name but for `SHARED_CALLS`, and `CLOSED` of `erase_list.py`. What is closed has no
   example, since examples are another crate's. An export loses `extern "C"` and its documentation, and becomes
   `inline(always)`.
5. `erase_texts.txt` has what else differs, with its files and how often: lifetimes, attributes, and types.
6. What does nothing goes, as `erase_ghosts.py` finds it: modules of laws; a function that gives nothing, and whose body
   names places at most; a module with a type of snapshots alone; each parameter and argument of that type; and
   statements, with the comment before them: a call of a law or of such a function, one that makes or is of such a
   type, and `let _name` of a method that is lent `self` alone, to be read. What these are given are places. A name
   that then only is what a block gives goes too. So does what `UNCALLED` names: a struct, a free function, or a method whose name
   no trait has. From an import goes what only contracts name, unless it is a trait or std's, and so does a `pub use` of
   another crate. Rustc refuses a text that uses what this rule took out.
7. Refused are imports of all names, attributes that aren't listed, the rest of a struct from an element, the order of
   bytes of a machine (`to_ne_bytes`, `to_be` and their like), `usize::MAX` and its like, which are of 64 bits in proofs,
   and a bound of any `usize` that does more than compare.
8. All other tokens stay, in their order, as rustfmt lays them out: it may add and take commas and braces, and order
   imports. A guard, `prove!`, is `assert!`; if it is about `N`, when a program is compiled. A bound of a `usize` of any
   width is `debug_assert!`; one by the greatest `usize`, `most()`, which is `usize::MAX`, goes. So do comments that begin
   with "Proof:".
9. In documentation what a public function requires and tests is under "Panics".
"""
import functools
import itertools
import re
import subprocess
import sys
import tempfile
import textwrap
from pathlib import Path

sys.dont_write_bytecode = True
from parts import ROOT, erase_list as given, erase_says
from parts.erase_ghosts import CALL, OF_TRAIT, OWNER, PLACES, Ghosts, around, is_ghost
from parts.erase_tokens import SPACE, Refused, Text, words

OUTS = {package: ROOT / folder for package, folder in given.PACKAGES.items()}
OUT, EXAMPLE = OUTS[given.BASE], ROOT / 'rust/examples/net_bench'
FOR_C = OUT / 'exports/for_c'                     # what C's exports alone want of other modules
PROVED, RATTLE = 'crate::proved', 'crate::rattle'   # the second is the program's
WRITTEN = '// Written by tools/erase.py from '
HEADER = WRITTEN + '{}: a change here would be lost.\n'
# What the program's prelude has.
PRELUDE = {'String', 'Vec'}
GHOST_DERIVES = {'Drop', 'Error'}
PLAIN_ATTRIBUTES = {'allow', 'cfg', 'default', 'derive', 'inline', 'must_use', 'non_exhaustive', 'repr', 'track_caller'}
MODIFIERS = {'pub', 'const', 'extern'}
ITEMS = {'struct', 'enum', 'type', 'trait', 'static'}
PROOF = '// Proof: '                              # a comment for those who prove
GONE, NO_CLAUSE = '\0', '\1'                      # where a form, and where a clause, was
# The name of what has an attribute, behind that.
ITEM = re.compile(r'(?:\s*(?:#\[[^\]]*\]|///[^\n]*|pub|struct)(?=\s))*\s*(\w+)')
# What marks a bound of a `usize`, and one that does something: it assigns, lends to be changed, or calls more than
# `most` and `len`.
BOUND = '"in any `usize`"'
WIDE = re.compile(r'(?:\{|\bmut\b|[^=<>!]=[^=]|(?!\b(?:len|most)\()\b[a-z_]\w*\(|\w!\()', re.S)
# Numbers in the order of bytes that a machine has, which isn't the proved one's on each.
NATIVE = {'to_ne_bytes', 'from_ne_bytes', 'to_be', 'to_le', 'from_be', 'from_le'}
EMPTY = re.compile(r'(?m)^(?:///.*\n)*impl(?:(?! for ).)*\{\s*\}\n')  # an impl of which all has gone
# What documentation says of a test that only C's exports call.
TOLD = re.compile(r',? as (?:`is_sound`|\[`is_sound`\]\(\w+::is_sound\)) (?:tells|tests)|(?<=\.) `is_sound` tests it\.')
ALLOC = '#[cfg(feature = "alloc")]'
LINK = re.compile(r'(?<=\]\()(?:crate|net_\w+)(?=::)')


class Eraser(Text):
    """One file of a crate. `new` has the text that is written for a token, where that is another one; `after` what is
    added behind one, by tools/parts/erase_says.py lines of documentation alone. With `bounds` all bounds of a `usize`
    stay as they are, for tools/widths.py."""
    bounds = False

    def __init__(self, text, crate, omitted=(), file='', ghosts=Ghosts(), traits=(), by_hand=(), public=None):
        super().__init__(text)
        self.ghosts, self.traits = ghosts, traits         # those of all sources, and the names of all traits
        self.public = public                              # whether a name is public here, and to whom; None if all are
        self.cut, self.counts = set(), set()              # what of a ghost went; a function's places that are ghosts
        self.crate, self.omitted, self.file, self.by_hand = crate, omitted, file, by_hand
        self.key = file.removeprefix('crates/').replace('/src/', '/', 1).removesuffix('.rt')
        self.uncalled, self.gone, self.imports = given.UNCALLED.get(self.key, ()), set(), []
        self.new, self.after, self.functions, self.errors, self.moved = {}, {}, [], {}, []

    def put(self, start, end, text):
        """Writes a text for the tokens from start to end."""
        self.new.update({k: '' for k in range(start, end)})
        self.new[start] = text
        return end

    def path(self, first, k=None):
        """What is written for the first word of a path, after which k is. What C's exports take of a crate's root they
        find in that of their own."""
        crate = self.crate if first == 'crate' else first
        if self.crate == given.EXPORTS and k and first in given.CRATES and self.tokens[self.next(k + 1)][1] != '::':
            return f'crate::{given.FOLDERS[self.crate]}'
        if crate in self.by_hand or first == 'std':
            return f'{RATTLE}::{crate}' if self.by_hand else 'core'
        return f'{PROVED}::{crate}' if first == 'crate' or first in given.CRATES else first

    def run(self):
        """`head` is where the documentation, the attributes and the modifiers of an item begin."""
        k, head = 0, None
        while self.tokens[k][0] != 'end':
            kind, word, at = self.tokens[k]
            begin = k if head is None else head
            if kind == 'doc':
                said = LINK.sub(lambda m: self.path(m.group()), re.sub('^/// ```rust$', '/// ```text', word))
                self.new[k] = said if self.crate != given.EXPORTS else GONE
                head, k = (begin if word.startswith('///') else head), k + 1
            elif kind in SPACE:
                k = self.proof(k) if word.startswith(PROOF) else k + 1
            elif word == '#':
                head, k = begin, self.attribute(k)
            elif word in MODIFIERS:
                head, after = begin, self.next(k + 1)
                if word == 'extern' and self.crate == given.EXPORTS:
                    after = self.put(k, self.until(k, 'fn'), GONE)
                k = self.group(after) if self.tokens[after][1] == '(' else after
            else:
                head, k = None, self.form(k, kind, word, at, begin)
        return self.finish()

    def form(self, k, kind, word, at, head):
        """Reads a form at k, and returns where it ends."""
        after = self.next(k + 1)
        follows = self.tokens[after][1]
        if kind == 'ghost':
            return self.put(head, k + 1, GONE)
        if kind == 'clause' and k not in self.new:
            self.refuse(at, 'a clause of no function')
        if (word, follows) == ('.', '.') and self.before(k) in (',', '{') and \
                re.compile(r'\.\.\s*[\w(*&][^{};]*\[').match(self.text, at):
            self.refuse(at, 'the rest of a struct from an element, which Rattle may not read: name it before')
        if kind != 'word' or k in self.cut:
            return k + 1
        if word in ITEMS and not self.margin(head):
            if self.tokens[after][1] in self.uncalled:
                self.gone.add(self.tokens[after][1])
                return self.put(head, self.group(self.until(k, '{')), GONE)
            self.close(head, k, [self.tokens[after][1]])
            self.move(head, self.until(k, '{', ';'), self.tokens[after][1])
        if word == 'fn':
            return self.function(k, head)
        if self.before(k) in ('{', '}', ';') and (end := self.statement(k)):
            return end
        is_imported = self.imports and k < self.imports[-1][2]
        if (word in self.counts or word in self.ghosts.types) and not is_imported:
            return self.argument(k)
        if word in ('use', 'mod') and follows in ('thiserror', *self.omitted):
            return self.put(head, self.until(k, ';') + 1, GONE)
        if word == 'use':
            if '*' in self.source(k, self.until(k, ';')):
                self.refuse(at, 'an import of all names')
            self.close(head, k, leaves(self.source(k, self.until(k, ';'))))
            is_public = re.search(r'\bpub(?!\()', self.source(head, k))
            if is_public and follows in given.CRATES:
                return self.put(head, self.until(k, ';') + 1, GONE)
            self.imports.append((head, k, self.until(k, ';'), is_public))
        if word == 'impl' and re.compile(r'impl\b[^{;]*?\b(?:Drop|Model) for\b').match(self.text, at):
            return self.put(head, self.group(self.until(k, '{')), GONE)
        if word == 'impl' and not self.margin(head):
            self.move(head, self.until(k, '{'), OWNER.match(self.source(k, self.until(k, '{')))[1])
        if word == 'Drop' and self.tokens[k - 1][1] != '::':
            return self.put(k, k + 1, 'Sized')
        before, is_member = self.before(k), self.tokens[k - 1][1] == '.' != self.tokens[k - 2][1]
        if follows == '::' and before != '::' and not is_member:
            self.put(k, k + 1, self.path(word, self.next(after + 1)))
        if word in NATIVE:
            self.refuse(at, 'the order of bytes of a machine')
        if (word, follows) == ('usize', '::') and self.tokens[after + 1][1] in ('MAX', 'MIN', 'BITS'):
            self.refuse(at, 'a width, which only `most` knows')
        if (word, follows) == ('most', '('):
            return self.put(k, self.group(after), 'usize::MAX')
        if (word, follows) == ('prove', '!'):
            return self.guard(k, self.next(after + 1))
        return k + 1

    def proof(self, k):
        """Takes out a comment for those who prove, up to where it ends."""
        while self.tokens[k][0] == 'note':
            k = self.put(k, k + 1, GONE) + (self.tokens[k + 1][0] == 'space')
        return k

    def guard(self, k, opening):
        """Writes what is tested. That `N` is something is tested when a program is compiled; a bound of a `usize` in
        debug builds alone, and not at all if that is the greatest `usize`; and all else always."""
        end, said = self.group(opening), self.source(opening, self.group(opening))
        bound = re.fullmatch(rf'\((.*),\s*{re.escape(BOUND)},?\s*\)', said, re.S)
        if bound and WIDE.search(bound[1]):
            self.refuse(self.tokens[k][2], 'more than a bound, which a release build leaves out')
        if bound and bound[1].endswith(' <= most()') and not self.bounds:
            return self.put(k, end + 1, GONE)
        if bound:
            said = re.sub(r'\bmost\(\)', 'usize::MAX', said if self.bounds else f"({bound[1].replace(' + 1 <= ', ' < ')})")
            return self.put(k, end, f'debug_assert!{said}')
        is_constant = said.startswith('(N >= ')
        self.put(end - 1, end, ') }' if is_constant else ')')
        return self.put(k, opening, 'const { assert!' if is_constant else 'assert!')

    def function(self, k, head):
        """A signature and its contract, which goes."""
        begin = body = self.until(k, '{', ';')
        while self.tokens[body][0] == 'clause':
            body = self.next(self.put(body, body + 1, NO_CLAUSE))
        first = max(j for j in range(k, begin) if self.tokens[j][0] not in SPACE) if body != begin else body
        self.new.update({j: NO_CLAUSE for j in range(first, body) if self.tokens[j][0] == 'note'})
        if body != begin and self.tokens[body][1] not in ('{', ';'):
            self.refuse(self.tokens[body][2], 'no body after a contract')
        impl, owner = around(self.text[:self.tokens[k][2]], self.margin(head))
        pub = next((j for j in range(head, k) if self.tokens[j][1] == 'pub' and self.tokens[j + 1][1] != '('), None)
        signature = self.source(k, begin)
        is_of_head = re.search(r'Head\b', signature) or owner and self.public and not self.public(owner, True)
        if is_of_head or self.ghosts.types & {*words(signature)}:
            self.close(head, k, (), self.name(k) in given.SHARED_CALLS.get(self.key, ()))
        elif not owner or self.name(k) in given.CLOSED.get(self.key, ()):
            self.close(head, k, [] if owner else [self.name(k)])
        is_idle = (owner or Path(self.key).stem, self.name(k)) in self.ghosts.idle
        if (is_idle or self.name(k) in self.uncalled) and not OF_TRAIT.search(impl):
            self.gone.add(self.name(k))
            return self.put(head, self.group(body), GONE)
        if pub is not None and pub not in self.new and 'track_caller' in self.source(head, k) and \
                self.crate != given.EXPORTS:
            self.panics(head, k)
        self.functions.append((owner, impl, k, head, begin, body, pub))
        self.move(head, body, f'{owner}::{self.name(k)}'.removeprefix('::'), impl)
        self.counts = {self.parameter(j) for j in range(k, begin) if self.tokens[j][1] in self.ghosts.types}
        if 'Clone for' in impl:
            self.clone(k, begin, body)
        return k + 1

    def move(self, head, body, name, impl=''):
        """Notes an item that C's exports alone want, unless the item around it is one."""
        if name in given.FOR_C.get(self.key, ()) and not (self.moved and head < self.moved[-1][2]):
            end = self.group(body) if self.tokens[body][1] == '{' else body + 1
            self.moved.append((impl, head, end))

    def parameter(self, k):
        """Takes out the parameter whose type is named at k, and returns its name."""
        colon = max(j for j in range(k) if self.tokens[j][1] == ':')
        self.take_out(colon - 1, k + 1)
        return self.tokens[colon - 1][1]

    def take_out(self, start, end):
        """Takes out one of some parameters or arguments, with the comma behind it: rustfmt takes a last one."""
        after = self.next(end)
        if self.before(start) not in ('(', ',') or self.tokens[after][1] not in (')', ','):
            self.refuse(self.tokens[start][2], 'a ghost that is no argument')
        end = after + (self.tokens[after][1] == ',')
        self.cut |= {*range(start, end)}
        return self.put(start, end, '')

    def argument(self, k):
        """Takes out an argument that is a ghost: `turns`, `&mut turns`, `&mut Turns::new()`."""
        start, end = k, k + 1
        while self.before(start) in ('mut', '&'):
            start = max(j for j in range(start) if self.tokens[j][0] not in SPACE)
        if self.tokens[end][1] == '::':
            end = self.group(self.next(end + 2))
        return self.take_out(start, end)

    def statement(self, k):
        """Takes out the statement at k, with the comment before it, if it calls what does nothing, makes or counts with
        a ghost, or gives a name of no use to what a method returns that is lent `self` to be read. Returns its end."""
        end = next(j for j in range(k, len(self.tokens)) if self.tokens[j][1] in (';', '{', '}', '')) + 1
        called = CALL.fullmatch(self.plain(k, end).rstrip())
        if not called:
            return None
        name, path, function, given = called.groups()
        first, *_ = path = path.split() or [function]
        of_self = self.functions[-1][0] if path == ['self', '.'] else ''
        owner = of_self or (path[-2] if path[1:] else self.origin(function))
        is_made, is_idle = owner in self.ghosts.types, (owner, function) in self.ghosts.idle or owner == 'laws'
        is_read = (name or '').startswith('_') and path[-1] == '.' and (of_self, function) in self.ghosts.readers
        if not (is_made if name else is_idle or first in self.counts) and not is_read:
            return None
        if not PLACES.fullmatch(given):
            self.refuse(self.tokens[k][2], 'a ghost that is given more than places')
        self.counts |= {name} if is_made else set()
        start = k
        while self.tokens[start - 2][0] == 'note' and self.tokens[start - 1][1].count('\n') == 1:
            start -= 2
        return self.put(start, end, GONE)

    def origin(self, function):
        """The module that a name is imported from, or this one."""
        imported = (re.search(rf'(\w+)::(?:\{{[^{{}}]*)?\b{function}\b', self.source(k, end))
                    for _, k, end, _ in self.imports)
        return next((found[1] for found in imported if found), Path(self.key).stem)

    def clone(self, k, begin, body):
        """A `clone` that never is refused is one that returns no `Result`."""
        end = self.group(body)
        made = re.fullmatch(r'\{ Ok \((.*)\) \} ', self.plain(body, end))
        result = [j for j in range(k, begin) if self.tokens[j][1] == 'Result']
        if not made or not result:
            self.refuse(self.tokens[k][2], 'a clone that may be refused')
        opening = self.next(self.next(body + 1) + 1)
        if self.next(self.group(opening)) != end - 1:
            self.refuse(self.tokens[k][2], 'a clone that does more')
        self.put(result[0], max(j for j in range(begin) if self.tokens[j][1] == '>') + 1, 'Self')
        self.put(self.next(body + 1), opening + 1, '')
        self.put(self.group(opening) - 1, self.group(opening), '')
        self.cut |= {*range(result[0], begin)} | {self.next(body + 1)}

    def close(self, head, k, names=(), is_shared=False):
        """Makes an item `pub(crate)` if none of these names is public, unless other packages call it, and takes out its
        examples."""
        pub = next((j for j in range(head, k) if self.tokens[j][1] == 'pub' and self.tokens[j + 1][1] != '('), None)
        if pub is None or not self.public or self.crate == given.EXPORTS:
            return
        if not any(map(self.public, names)):
            if not is_shared:
                self.put(pub, pub + 1, 'pub(crate)')
            docs = [j for j in range(head, k) if self.tokens[j][0] == 'doc']
            fences = [i for i, j in enumerate(docs) if self.tokens[j][1].startswith('/// ```')]
            for start, end in zip(fences[::2], fences[1::2]):
                self.new.update(dict.fromkeys(docs[max(start - 1, 0):end + 1], GONE))

    def name(self, k):
        """The name after `fn`."""
        return self.tokens[self.next(k + 1)][1]

    def panics(self, head, k):
        """What a function requires, as what it panics unless."""
        docs = [j for j in range(head, k) if self.tokens[j][0] == 'doc']
        lines = [self.tokens[j][1][3:].strip() for j in docs]
        if '# Requires' not in lines:
            return
        heading = lines.index('# Requires')
        end = next((i for i in range(heading + 2, len(docs)) if not lines[i]), len(docs))
        said = ' '.join(lines[heading + 2:end])
        if lines[heading + 1] or re.match(r'[-*|#]', said):
            self.refuse(self.tokens[docs[heading]][2], 'no sentence after it')
        said = said[0].lower() + said[1:] if re.match(r'[A-Z][a-z]*\b', said) else said
        margin = self.margin(head)
        text = textwrap.wrap(f'Panics unless {said}', 96 - len(margin), break_long_words=False, break_on_hyphens=False)
        self.put(docs[heading], docs[heading] + 1, '/// # Panics')
        self.put(docs[heading + 2], docs[end - 1] + 1, f'\n{margin}'.join(f'/// {line}' for line in text))

    def trim(self, part, is_file=True):
        """Takes from imports what no token of this part names, but for traits and std's of a file."""
        used = {word for j in part for word in words(self.new.get(j, self.tokens[j][1] * (self.tokens[j][0] == 'word')))}
        for head, k, end, is_public in self.imports:
            named = [j for j in range(k + 1, end) if self.tokens[j][0] == 'word']
            kept = lambda name: name in used or is_file and (is_public or name in self.traits)
            leaves = [j for j in named if self.tokens[self.next(j + 1)][1] in (',', ';', '}')]
            by_name = {j: self.tokens[named[at - 2]][1] for at, j in enumerate(named) if at > 1
                       and self.tokens[named[at - 1]][1] == 'as'}
            gone = [j for j in leaves if self.tokens[j][1] in {'Model', 'AllocError'} - used | {'most'} or
                    (self.tokens[named[0]][1] not in ('std', 'thiserror') or not is_file) and not kept(self.tokens[j][1])
                    and by_name.get(j) not in self.traits]
            if len(gone) == len(leaves):
                self.put(head, end + 1, GONE)
            elif gone and re.search(r'\bas\b', self.source(k, end)):
                self.refuse(self.tokens[k][2], 'an import by another name, with what only contracts name')
            else:
                for j in gone:
                    self.put(j, self.next(j + 1) + (self.tokens[self.next(j + 1)][1] == ','), '')

    def attribute(self, k):
        bracket = k + 1 + (self.tokens[k + 1][1] == '!')
        end, name = self.group(bracket), self.tokens[self.next(bracket + 1)][1]
        if name == 'unsafe' and self.crate == given.EXPORTS:
            return self.put(k, end, '#[inline(always)]')
        if name == 'error':
            item = ITEM.match(self.text, self.tokens[end][2])[1]
            owner = re.findall(r'^pub (?:struct|enum) (\w+)', self.text[:self.tokens[end][2]],
                               re.M) if self.margin(k) else [item]
            text = re.fullmatch(r'#\[error\(("(?:[^"{}\\]|\{0\})*")\)\]',
                                self.source(k, end)) or self.refuse(self.tokens[k][2], 'not a text')
            taken, shown = ('(field)', ' (field)') if '{0}' in text[1] else ('', '')
            variant = f'::{item}' if self.margin(k) else ''
            self.errors.setdefault(owner[-1], []).append(f'{owner[-1]}{variant}{taken} => {text[1]}{shown}')
        if name in ('tactic', 'error'):
            return self.put(k, end, GONE)
        if name not in PLAIN_ATTRIBUTES:
            self.refuse(self.tokens[k][2], 'an unknown attribute')
        if name == 'derive':
            old = re.findall(r'\w+', self.source(bracket, end))[1:]
            kept = [trait for trait in old if trait not in GHOST_DERIVES]
            return end if kept == old else self.put(k, end, f'#[derive({", ".join(kept)})]' if kept else GONE)
        return end

    def finish(self):
        """The text, laid out; it has the tokens that are kept, and no word of contracts."""
        if self.crate != given.EXPORTS:
            erase_says.document(self)
        spans = {j for _, k, end, _ in self.imports for j in range(k, end)}
        inside = {j for _, start, end in self.moved for j in range(start, end)}
        self.only_for_c = self.items_for_c(inside) if inside else None
        self.trim({*range(len(self.tokens))} - spans - inside)
        out = self.laid_out(self.text_of(k for k in range(len(self.tokens)) if k not in inside))
        out = TOLD.sub('', EMPTY.sub('', out)) if inside else out
        top = re.match(r'(?://![^\n]*\n)*\n?', out).end()
        said = {*words(out)}
        first = f'use {RATTLE}::prelude::*;\n' if self.by_hand and PRELUDE & said else \
            f'{ALLOC}\nuse alloc::vec::Vec;\n' if 'Vec' in said and not self.by_hand else ''
        return f'{HEADER.format(self.file)}{out[:top]}{first}{out[top:]}{"".join(map(self.error, self.errors))}'

    def text_of(self, tokens):
        """What is written for some tokens."""
        return ''.join(self.new.get(k, self.tokens[k][1]) + self.after.get(k, '') for k in tokens)

    @staticmethod
    def laid_out(kept):
        """A text without the places where something was; and a name goes that a ghost was called with."""
        out = re.sub(rf'(?m)^[ \t]*{GONE}[ \t{GONE}]*\n', '', kept).replace(GONE, '').replace(NO_CLAUSE, '').lstrip()
        return re.sub(r'\blet (\w+) = ([^;]*);\s+\1(?=\s*\})', r'\2', out)

    def items_for_c(self, inside):
        """The text of the items that C's exports alone want. What they call is no more private to the file."""
        before, named = dict(self.new), {*words(self.text_of(inside))}
        self.trim(inside, False)
        text = ''.join(f'{self.text_of(range(head, end + 1))}\n' for head, k, end, _ in self.imports)
        for impl, items in itertools.groupby(self.moved, lambda item: item[0]):
            item = '\n\n'.join(self.text_of(range(start, end)) for _, start, end in items)
            text += f'\n{impl}{{\n{item}\n}}\n' if impl else f'\n{item}\n'
        self.new = before
        for owner, impl, k, head, *_, pub in self.functions:
            is_open = 'pub' in (self.tokens[j][1] for j in range(head, k)) or k in inside or OF_TRAIT.search(impl)
            if self.name(k) in named and not is_open:
                first = min(j for j in range(head, k + 1) if self.tokens[j][1] in ('const', 'fn'))
                self.put(first, first + 1, f'pub(crate) {self.tokens[first][1]}')
        return self.laid_out(text)

    def error(self, name):
        """The text of an error, and that it is one: Rattle derives both."""
        said = self.errors[name]
        if self.by_hand:
            return f'\n{RATTLE}::error_text!({name}, {", ".join(said)});\n'
        text = said[0].partition(' => ')[2] if said[0].startswith(f'{name} ') else \
            f'match self {{ {", ".join(said)} }}'
        return f"""
impl core::fmt::Display for {name} {{
    fn fmt(&self, f: &mut core::fmt::Formatter<'_>) -> core::fmt::Result {{
        f.write_str({text})
    }}
}}

impl core::error::Error for {name} {{}}
"""


def sources(crates=given.CRATES):
    """The files of these crates that are erased: of each its crate, the path in that, and the text."""
    for crate in crates:
        source = ROOT / 'crates' / crate / 'src'
        for path in sorted(file.relative_to(source) for file in source.rglob('*.rt')):
            text = (source / path).read_text()
            if not any(f'{crate}/{path.with_suffix("")}' in names for names in given.UNERASED.values()) and \
                    not is_ghost(path, text):
                yield crate, path, text


def program():
    """The same of the program, which is erased into an example."""
    crate, module = given.SCHEDULE.split('/')
    return [*sources(given.PROGRAM),
            (crate, Path(f'{module}.rt'), (ROOT / 'crates' / crate / 'src' / f'{module}.rt').read_text())]


def leaves(use):
    """The names that an import has."""
    said = words(use)
    return [word for word, after in zip(said, [*said[1:], '}']) if after in (',', '}') and word.isidentifier()]


def exported():
    """What roots by hand say is public: names that users can write, names that C's exports have, those that other
    packages have, and modules."""
    names, of_exports, shared, modules = set(), set(), set(), set()
    for out, file in ((out, file) for out in OUTS.values() for file in out.rglob('*.rs')):
        text = file.read_text()
        if not text.startswith(WRITTEN):
            path = [part for part in file.relative_to(out).with_suffix('').parts
                    if part not in ('mod', 'lib', 'with_exports')]
            uses = re.findall(r'^pub use ([^;]*);', text, re.M)
            of = {'exports': of_exports, 'internal': shared}.get('/'.join(path), names)
            of.update(name for use in uses for name in leaves(use))
            modules |= {'/'.join([*path, name]) for name in re.findall(r'^ *pub mod (\w+);', text, re.M)} | \
                {'/'.join([*path, *module.split('::')]) for use in uses for module in re.findall('^(.*) as ', use)}
    return names, of_exports, shared - names, modules


def omitted(crate, path):
    """The names of the modules in a file that aren't erased."""
    folder = Path(crate) if path.name == 'lib.rt' else crate / path.with_suffix('')
    inside = (ROOT / 'crates' / crate / 'src' / folder.relative_to(crate)).glob('*.rt')
    return {Path(name).name for names in given.UNERASED.values() for name in names if Path(name).parent == folder} | \
        {file.stem for file in inside if is_ghost(file, file.read_text())}


def replaced(file, text):
    """A file's text after the list's replacements, each as often as the list says."""
    for old, new, files in given.REPLACED:
        count = text.count(old)
        if files.get(file, count) != count:
            raise Refused(f' {count} times, and not {files[file]}: {old}')
        text = text.replace(old, new) if file in files else text
    return text


def all_ghosts():
    """What of all sources is a ghost."""
    return Ghosts((path, path.read_text()) for crate in [*given.CRATES, *given.PROGRAM]
                  for path in sorted((ROOT / 'crates' / crate / 'src').rglob('*.rt')))


def erased(said):
    """Each file of the result, by its path, with its text; what is refused is appended to `said`."""
    files = {}
    left = {file for *_, found in given.REPLACED for file in found}
    of_crate, of_program, of_traits, gone = [*sources()], program(), set(), set()
    ghosts, (names, of_exports, shared, modules) = all_ghosts(), exported()
    traits = {name for *_, text in of_crate + of_program
              for name in re.findall(r'^ *(?:pub(?:\([^)]*\))? )?trait (\w+)', text, re.M)}
    for out, by_hand, (crate, path, text) in [*((OUT, (), each) for each in of_crate),
                                              *((EXAMPLE, given.BY_HAND, each) for each in of_program)]:
        file = f'{crate}/{path.with_suffix("")}'
        left -= {file}
        try:
            is_open = placed(file) in modules or file in given.ROOTS
            public = lambda name, to_users=False: is_open or name in names or not to_users and name in of_exports | shared
            eraser = Eraser(replaced(file, text), crate, omitted(crate, path), f'crates/{crate}/src/{path}', ghosts,
                            traits, by_hand, public if out == OUT else None)
            text = eraser.run()
            if file not in given.ROOTS:
                package = package_of(file)
                files[(out if by_hand else OUTS[package]) / f'{placed(file)}.rs'] = relocated(text, package)
                if eraser.only_for_c:
                    path = placed(file).split('/')
                    of_super = re.sub(r'\bsuper(?=::)', '::'.join(['crate', *path[:-1]]), eraser.only_for_c)
                    files[FOR_C / f'{"_".join(path[1:])}.rs'] = relocated(
                        f'{HEADER.format(eraser.file)}use crate::{"::".join(path)}::*;\n{of_super}')
            elif missing := [item for item in constants(text) if item not in by_hand_root(out, file)]:
                said.append(f'{out.relative_to(ROOT)}: {missing[0]} of {eraser.file} is by hand in no root')
            gone |= {f'{file} {name}' for name in eraser.gone}
            of_traits |= {eraser.name(k) for _, impl, k, *_ in eraser.functions if OF_TRAIT.search(impl)}
        except Refused as refused:
            said.append(f'{ROOT / "crates" / crate / "src" / path}:{refused}')
    for file, names in given.UNCALLED.items():
        said += [f'tools/parts/erase_list.py: {file} has no {name}'
                 for name in names if f'{file} {name}' not in gone]
        said += [f'tools/parts/erase_list.py: {name} is also the name of a function of a trait'
                 for name in names if name in of_traits]
    left |= {name for names in given.UNERASED.values() for name in names
             if not (ROOT / 'crates' / name.replace('/', '/src/', 1)).with_suffix('.rt').is_file()}
    said += [f'tools/parts/erase_list.py: no such file: {file}' for file in sorted(left)]
    others = ''.join(text for path, text in files.items() if not {OUT, EXAMPLE} & {*path.parents})
    said += [f'tools/parts/erase_list.py: no other package than net-base calls {name} of {file}'
             for file, names in given.SHARED_CALLS.items() for name in names if not re.search(rf'\b{name}\(', others)]
    return files


def placed(module):
    """Where a module of a crate is in rust/src, without its suffix."""
    for name, place in given.MOVED.items():
        if f'{module}/'.startswith(f'{name}/'):
            return place + module[len(name):]
    crate, _, path = module.partition('/')
    return '/'.join(filter(None, [given.FOLDERS[crate], path]))


def package_of(module):
    """The package that has a module of a crate; none if that is C's exports, which are over the modules of all."""
    folder = placed(module).split('/')[0]
    return given.PARTS.get(folder, given.BASE)


@functools.cache
def homes():
    """The module by hand of net-base in which other packages find a name: a public one, or `internal`."""
    files = {name: OUT / f'{name}.rs' for name in re.findall(r'^pub mod (\w+);', (OUT / 'lib.rs').read_text(), re.M)}
    texts = {name: (file if file.is_file() else OUT / name / 'mod.rs').read_text() for name, file in files.items()}
    return {name: module for module, text in texts.items() for use in re.findall(r'^pub use ([^;]*);', text, re.M)
            for name in leaves(use)}


def relocated(text, package=None):
    """A text with the paths that modules have in this package, or in C's exports. Another package's names are those of
    its modules by hand."""
    names = [name.replace('/', '::') for name in [*given.MOVED, *given.FOLDERS]]
    hidden = '|'.join(crate for crate, folder in given.FOLDERS.items() if folder in given.HIDDEN)

    def shown(use):
        modules = [(homes()[name], name) for name in leaves(use[1])]
        return '\n'.join(f'use {given.BASE}::{module}::{{{", ".join(name for at, name in modules if at == module)}}};'
                         for module in sorted({module for module, _ in modules}))

    if package not in (None, given.BASE):
        text = re.sub(rf'use {PROVED}::(?:{hidden})::([^;]*);', shown, text)

    def place(name):
        module = name[1].replace('::', '/')
        root, path = package_of(module), placed(module).split('/')
        root = 'crate' if package in (None, root) else root
        return '::'.join([root, *path]).removesuffix('::')

    return re.sub(rf'{PROVED}::({"|".join(names)})\b', place, text)


def constants(text):
    """The constants of a root."""
    return re.findall(r'^const .*;$', text, re.M)


def by_hand_root(out, file):
    """The file by hand in the place of a root."""
    module = placed(file.removesuffix('/lib'))
    out = out if out == EXAMPLE else OUTS[package_of(file.removesuffix('/lib'))]
    roots = [out / name for name in (f'{module}.rs', f'{module}/mod.rs', 'lib.rs')]
    return next(root.read_text() for root in roots if root.is_file())


def formatted(files, said):
    """The files as rustfmt leaves them. It may add and take commas and braces, and order imports: no other token."""
    with tempfile.TemporaryDirectory() as folder:
        there = {path: Path(folder, *path.relative_to(ROOT).parts) for path in files}
        for path, text in files.items():
            there[path].parent.mkdir(parents=True, exist_ok=True)
            there[path].write_text(text)
        ran = subprocess.run(['rustfmt', '--edition', '2024', '--config-path', OUT.parent, *there.values()],
                             capture_output=True, text=True)
        said += [ran.stderr] if ran.returncode else []
        new = {path: file.read_text() for path, file in there.items()}
    said += [f'{path}: rustfmt changes a token' for path in files if essence(files[path]) != essence(new[path])]
    return new


def essence(text):
    """The tokens of a text, without commas and braces, and of its imports in any order."""
    imports = re.compile(r'(?m)^ *(?:pub(?:\([^)]*\))? )?use [^;]*;')
    plain = lambda part: [word for word in words(part) if word not in ',{}']
    return sorted(sum(map(plain, imports.findall(text)), [])), plain(imports.sub('', text))


def main(arguments):
    said = []
    files = formatted(erased(said), said)
    old = {file: file.read_text() for out in (*OUTS.values(), EXAMPLE) for file in out.rglob('*.rs')}
    old = {file: text for file, text in old.items() if text.startswith(WRITTEN)}
    differ = [path for path in sorted(files.keys() | old.keys()) if files.get(path) != old.get(path)]
    if arguments == ['--check']:
        said += [f'{path} is not as tools/erase.py writes it: run python3 tools/erase.py' for path in differ]
    for path in differ if not said else []:
        path.parent.mkdir(parents=True, exist_ok=True)
        path.write_text(files[path]) if path in files else path.unlink()
    print(*said, sep='\n', end='\n' * bool(said), file=sys.stderr)
    return bool(said)


if __name__ == '__main__':
    sys.exit(main(sys.argv[1:]))
