"""Rustc's program, its MIR of the erased crate, for tools/same_program.py: its functions, under the names that the
prover has. tools/parts/same_body.py has one as a graph of steps."""
import collections
import re

from parts.mir_text import closing, depths, erased_files, without
from parts.same_proved import tail
from parts.same_terms import Unknown, reading

VARIANTS = {'Option': ['None', 'Some'], 'Result': ['Ok', 'Err'], 'ControlFlow': ['Continue', 'Break'],
            'Ordering': ['Less', 'Equal', 'Greater']}
# What is by hand in Rust in the place of the kit's: short texts, and the example's rattle.rs.
BY_HAND = {'Snapshot', 'InlineText', 'time', 'Vec', 'String', 'ArrayString', 'memchr', 'hex', 'laws'}
STD = ('core', 'std', 'alloc')
IMPL = re.compile(r'<impl at ([^:]*):(\d+):(\d+): (\d+):(\d+)>')
# A field of a struct on a line of its own; and the fields of an enum's variants, in round brackets and in braces.
FIELD = re.compile(r'^ *(?:pub(?:\([^)]*\))? )?\w+: (.*?),?$', re.M)
HELD = re.compile(r'\([^()]*(?:\([^()]*\)[^()]*)*\)|\{[^{}]*\}|<[^<>]*>')


class Compiled:
    """Rustc's program: the texts of its functions and constants by name, and what the erased text declares."""

    def __init__(self, root, mir, *folders, library=None):
        """The crate's folder, its MIR, and the folders of its modules; of an example its library, too."""
        self.root, self.erased, self.files = root, erased_files(root, *folders or ['src']), {}
        self.library = {} if library is None else library.short()
        self.functions, self.constants, self.promoted, self.closures, self.traits = {}, {}, {}, {}, {}
        self.derived, self.twice, self.places = set(), set(), collections.defaultdict(set)
        self.fields, self.enums = {'String': ['Vec<u8>']}, {name: list(names) for name, names in VARIANTS.items()}
        for file, (module, _) in self.erased.items():
            self.declare(module, re.sub(r'//[^\n]*', '', (root / file).read_text()))
        self.numbers = collections.defaultdict(set)
        for names in self.enums.values():
            for k, name in enumerate(names):
                self.numbers[name].add(k)
        mir = mir if library is None else re.sub(r'(?<![\w:])std::', 'core::', mir)
        for item in re.split(r'\n(?=(?:fn|const|static) |proved::)', self.renamed(mir)):
            with reading(item.split('\n', 1)[0]):
                self.note(item)

    def declare(self, module, code):
        """Notes the structs and enums of a text: of `enum E { A(u8), B }` E has A and B."""
        for name in re.findall(r'\b(?:struct|enum) (\w+)', code):
            self.places[name].add(module)
        code = re.sub(r'#\[[^\]]*\]', '', code)
        for name, body in re.findall(r'\bstruct (\w+)[^{;(]*\{([^}]*)\}', code):
            self.fields[name] = FIELD.findall(body)
        for name, body in re.findall(r'\benum (\w+)[^{;]*\{((?:[^{}]|\{[^{}]*\})*)\}', code):
            self.enums[name] = re.findall(r'(?:^|,)\s*([A-Z]\w*)', HELD.sub('', body))

    def renamed(self, mir):
        """The MIR with the prover's names of modules: `proved::net_ring::head` of `storage::ring_head`."""
        module = {place: name for name, place in self.erased.values()}
        return re.sub(rf'(?<![\w:])(?:{"|".join(sorted(module, reverse=True))})(?=::)',
                      lambda m: f'proved::{module[m[0]]}', mir)

    def note(self, item):
        """Notes an item: `fn NAME(_1: u64) -> u64 {..`, `const NAME: u64 = ..`, or `NAME::promoted[0]: &u64 = ..`."""
        head = item.split('\n', 1)[0]
        inner = re.match(r'const (.*)::(promoted\[\d+\]): ', head)
        name = re.match(r'(fn |const |static |)((?:<impl at [^>]*>|.)*?)(?:\(_1: |\(\) ->|: [^:])', head)
        path = self.path(inner[1] if inner else name[2]) if inner or name else None
        if path and inner:
            self.promoted.setdefault((path, inner[2]), item)
        elif path and 'promoted[' not in head:
            self.closures |= {place: path
                              for place in re.findall(r'#\d+\}\(_1: (?:&|&mut )?(\{closure@[^}]*\})', head)}
            kept = self.functions if name[1] == 'fn ' else self.constants
            self.twice |= {path} if path in self.functions and kept[path].split('\n', 1)[0] != head else set()
            kept.setdefault(path, item)

    def own(self, mir):
        """The MIR of a package over another one, whose items have the names that they have here, where all are in one
        crate: `proved::net_receiver::sent_numbers::SentNumbers` of `net_base::finite::SentNumbers`."""
        functions = {path.rpartition('::')[2]: path.rpartition('::')[0] for path in self.functions if path.count('::') == 2}
        place = lambda name: next(iter(self.places.get(name, ())), functions.get(name))
        mir = re.sub(r'(?<![\w:])net_base::(?=(?:\w+::)+<impl )', '', mir)
        return re.sub(r'(?<![\w:])net_base::(?:[a-z_]\w*::)*(\w+)',
                      lambda m: f'proved::{place(m[1])}::{m[1]}' if place(m[1]) else m[0], mir)

    def short(self):
        """The functions by the last two words of their names, where these tell them apart."""
        found = collections.defaultdict(set)
        for path in self.functions:
            found['::'.join(path.split('::')[-2:])].add(path)
        return {short: next(iter(paths)) for short, paths in found.items() if len(paths) == 1}

    def path(self, text):
        """A function's path in the prover's words: `net_ring::head::RingHead::len` of rustc's, whose type is where its
        impl is, `storage::ring_head::<impl at src/storage/ring_head.rs:9:1: 9:14>::len`; notes what trait it is of."""
        impl = IMPL.search(text)
        if not impl:
            return without(text).removeprefix('proved::')
        if impl[1] not in self.erased:
            return None
        name, kind, trait = self.impl(impl[1], *map(int, impl.groups()[1:]))
        text = text.replace(impl[0], name)
        path, place = without(text).removeprefix('proved::'), next(iter(self.places[name]), '')
        if not trait and len(self.places[name]) == 1 and place.startswith(path.split('::')[0]):
            text = f'proved::{place}::{name}::{path.partition(name + "::")[2]}'
        if kind is None:
            self.derived.add(path)
        if kind is None or trait and tail(trait) != 'Drop':
            of = name.removesuffix(trait) if kind is None else self.kind(kind)
            self.traits[path] = f'{of}:{tail(trait)}.{tail(path)}'
        return without(text).removeprefix('proved::')

    def impl(self, name, line, column, end_line, end):
        """The prover's name of an impl, its type, and its trait: RunIterator, Run and Iterator of
        `impl Iterator for Run`; of a derived one there is no type."""
        text = self.files.setdefault(name, (self.root / name).read_text())
        lines = text.splitlines(True)
        start, stop = (sum(map(len, lines[:row - 1])) + place - 1 for row, place in ((line, column), (end_line, end)))
        head = text[start:stop]
        if not head.startswith('impl'):            # a derive's word
            return re.search(r'\b(?:struct|enum) (\w+)', text[stop:])[1] + head, None, head
        head = re.sub(r"<'\w+(?:, '\w+)*>|'\w+ ", '', re.sub(r'\s*where\b.*', '', head, flags=re.S))[4:].strip()
        head = head[closing(head, 1) + 1:].strip() if head.startswith('<') else head
        trait, _, kind = head.rpartition(' for ')
        same = re.fullmatch(r'(\w+)<(\w+)>', trait)
        of = same[1] if same and same[2] == kind and same[1] != 'From' else trait
        return self.camel(kind) + (self.camel(of, True) if trait and tail(trait) != 'Drop' else ''), kind, trait

    @staticmethod
    def camel(kind, is_trait=False):
        """A type or trait as a part of a name: RefMutSliceU8 of `&mut [u8]`."""
        base, _, inner = kind.strip().partition('<')
        text = re.sub(r'\[\w+; \w+\]', 'Array', base.replace('&mut ', 'RefMut').replace('&', 'Ref'))
        text = re.sub(r'\[(\w+)\]', lambda m: 'Slice' + (m[1].capitalize() if len(m[1]) > 1 else ''), text)
        text = ''.join(part[:1].upper() + part[1:] for part in text.split('::')[-2:]) if not is_trait else tail(text)
        given = Compiled.camel(inner.removesuffix('>')) if is_trait and inner else ''
        return text[:1].upper() + text[1:] + (given if len(given) > 1 else '')

    def callee(self, path):
        """A callee in the words of the comparison: Option.map of `core::option::Option::<u64>::map::<..>`, slice.len of
        `core::slice::<impl [T]>::len`, u64:Ord.cmp of `<u64 as Ord>::cmp`, and an own path."""
        if path.startswith('<') and ' as ' in path:
            return self.method(path)
        of_type = re.match(r'(?:core|std|alloc)::(?:\w+::)*<impl (.*?)>::(\w+)', path)
        if of_type:
            return f'{self.kind(of_type[1])}.{of_type[2]}'
        if impl := re.match(r'(proved::[\w:]*)<impl (?:\w+::)*(\w+)>::', path):     # in another file than its type
            path = f'{impl[1]}{impl[2]}::{path[impl.end():]}'
        if impl := re.match(r'net_base::[\w:]*<impl net_base::(?:\w+::)*(\w+)<', path):
            path = f'net_base::{impl[1]}{path[closing(path, impl.end()) + 2:]}'
        parts = without(path).split('::')
        of_library = self.library.get('::'.join(parts[-2:])) if parts[0] == 'net_base' else None
        if parts[0] not in (*STD, 'proved', 'net_base') and len(parts) > 1 and parts[-2] not in BY_HAND:
            return '/'.join(parts)
        return of_library or '::'.join(parts[1:]) if of_library or parts[0] == 'proved' else '.'.join(parts[-2:])

    def method(self, path):
        """A method of a trait, `<A as B>::c`: A:B.c."""
        end = closing(path, 1)
        middle = next((at for at, sign, depth in depths(path, 1) if sign == ' as ' and not depth), end - 1)
        kind, trait, method = path[1:middle], path[middle + 4:end], path[end + 3:].split('::')[0]
        if re.match(r'core::ops::Index(?:Mut)?<core::ops::Range\w*<', trait) and re.match(r'\[|core::vec::Vec<', kind):
            return 'slice of a range'
        kind, trait = self.kind(kind), tail(trait)
        if trait == 'Iterator' and method != 'next' and f'{kind}:Iterator.{method}' not in self.traits.values():
            return f'Iterator.{method}'
        return f'{kind}:{trait}.{method}'

    @staticmethod
    def kind(text):
        """The name of a type: Vec, u64, slice, or ? of a parameter and a closure."""
        text = re.sub(r"^&(?:'\w+ )?(?:mut )?", '', text)
        name = 'slice' if text.startswith('[') else tail(without(text))
        return '?' if re.fullmatch(r'[A-Z]', name) or 'closure' in text else name

    def variant(self, name, kind):
        """The number of a variant, of which all enums have the same, or by its type: 1 of Some."""
        of = self.enums.get(tail(without(kind or '')), ())
        numbers = self.numbers[name] if len(self.numbers[name]) == 1 or name not in of else [of.index(name)]
        if len(numbers) != 1:
            raise Unknown(f'variant {name}')
        return next(iter(numbers))

    def variant_of(self, names):
        """The number of a variant by its path, [.., 'Option', 'Some']; None if it is none."""
        of = (VARIANTS if names[0] == 'core' else self.enums).get(names[-2], ()) if len(names) > 1 else ()
        return of.index(names[-1]) if names[-1] in of else None
