"""A function of rustc's program as a graph of steps, for tools/same_program.py. A node is the number of a block and
that of a step in it: (0, 1) is the second one of `bb0`."""
import ast
import json
import re

from parts.mir_text import called, closing, split, without
from parts.same_proved import WRAPPING, bits, numbers_of, tail
from parts.same_side import Branch, Call, End, Never, Panic, Return, Side, at_local
from parts.same_terms import (FALSE, SIGNS, TRUE, UNIT, Unknown, aggregate, cast, discriminant, integer, length,
                              negated, operation, pointer, sliced, take, term)

WIDTHS = {'bool': 1, 'char': 32, 'usize': 64, 'isize': -64} | {f'{sign}{n}': n * (1 if sign == 'u' else -1)
                                                               for n in (8, 16, 32, 64, 128) for sign in 'ui'}
NUMBERS = r'(?:[iu](?:8|16|32|64|128|size))'
SILENT = re.compile(r'Storage|//|PlaceMention|FakeRead|AscribeUser|Retag|Coverage|nop|ConstEvalCounter')
DROP = re.compile(r'drop\((.*)\) -> \[return: bb(\d+)')
JUMP = re.compile(r'goto -> bb(\d+)|assert\(.*\[success: bb(\d+)|falseEdge.*real: bb(\d+)'
                  r'|falseUnwind -> \[real: bb(\d+)')
CALL = re.compile(r'(.*?) = (.*\)) -> (?:\[return: bb(\d+)|unwind|bb\d).*$')
LIMIT = re.compile(r'(?:core::num::<impl (\w+)>|([iu]\w+))::(MAX|MIN)')
REFERENCE = re.compile(r"^&(?:'\w+ )?(?:mut )?")


def count(text):
    """How many elements an array has: int(9), or N('N')."""
    return integer(int(text)) if text.isdigit() else term('N', text)


def text_of(data):
    """A text of these bytes: a slice of what a program keeps."""
    return term('slice', term('static', json.dumps({'Ints': {'values': data, 'width': 8}})), integer(len(data)))


class CompiledSide(Side):
    """A function of rustc's program, by the text of its item."""
    word, widths = 'B', WIDTHS

    def __init__(self, program, item, name):
        self.program, self.path, self.start = program, name, (0, 0)
        head, *lines = item.split('\n')
        begin = head.find('(_1: ') + 1
        parameters = split(head[begin:closing(head, begin)]) if begin else []
        parameters = dict(re.match(r'_(\d+): (.*)', one).groups() for one in parameters)
        self.parameters = len(parameters)
        self.types = parameters | dict(re.findall(r'let (?:mut )?_(\d+): (.*?);\s+//', item))
        block, written = None, re.search(r' = (const [^\n]*);$', head)
        self.nodes = {0: [f'_0 = {written[1]}', 'return']} if written else {}       # a number, as rustc 1.95 prints it
        for line in lines:
            if start := re.match(r'    bb(\d+)(?: \(cleanup\))?: \{', line):
                block = self.nodes.setdefault(int(start[1]), [])
            step = re.match(r'        (\S.*?);\s*(?:// scope .*)?$', line)
            if block is not None and step and not SILENT.match(step[1]):
                block.append(step[1])

    def place(self, text):
        """A place's local and its steps: of `(*_4)` 4 and deref, of `((*_4).1: u64)` also f(1), of `_5[_6]` 5 and i(6),
        of `((_5 as Some).0: u64)` 5 and v((1, 0))."""
        if local := re.fullmatch(r'_(\d+)', text):
            return int(local[1]), []
        index = re.fullmatch(r'(.*)\[(?:_(\d+)|(\d+) of \d+)\]', text)
        behind, field = re.fullmatch(r'\(\*(.*)\)', text), re.fullmatch(r'\((.*)\.(\d+): .*\)', text)
        variant = field and re.fullmatch(r'\((.*) as (\w+)\)', field[1])
        if index:
            step = term('i', int(index[2]) if index[2] else integer(int(index[3])))
        elif behind:
            step = 'deref'
        elif variant:
            step = term('v', (self.program.variant(variant[2], self.kind_of(variant[1])), int(field[2])))
        elif field:
            step = term('f', int(field[2]))
        else:
            raise Unknown(f'place {text}')
        local, steps = self.place((index or behind or variant or field)[1])
        return local, [*steps, step]

    def at_place(self, state, text):
        return self.find(state, *self.place(text))

    def kind_of(self, text):
        """The type of an operand, if its text or its local tells it: u64 of `const 3_u64`, or of `copy (_3.0: u64)`."""
        if text.startswith('const '):
            limit = LIMIT.fullmatch(text[6:])
            return limit[1] or limit[2] if limit else (re.search(r'_([iu]\w+)$', text) or ['', None])[1]
        text = re.sub(r'^(?:copy|move) ', '', text)
        field, inner = re.fullmatch(r'\(.*\.\d+: (.*)\)', text), re.fullmatch(r'\(\*_(\d+)\)', text)
        if inner:
            return REFERENCE.sub('', self.types.get(inner[1], ''))
        return field[1] if field else self.types.get(text[1:])

    def value(self, state, text):
        """An operand's: of `copy _1` par(1), of `const 3_u64` int(3), of a function's name fn(..)."""
        if text.startswith(('copy ', 'move ')):
            return self.read(state, self.at_place(state, text[5:]))
        if text.startswith('const '):
            return self.constant(text[6:])
        if text.startswith(('proved::', '<proved::')):
            return term('fn', self.program.path(text))
        raise Unknown(f'operand {text[:60]}')

    def constant(self, text):
        """A constant's, of `3_u64`, `true`, `'a'`, `"text"`, `b"text"`, `core::num::<impl u8>::MAX`, `N` or a name."""
        limit = LIMIT.fullmatch(text)
        if number := re.fullmatch(rf'(-?\d+)_{NUMBERS}', text):
            return integer(int(number[1]) % 2 ** 64 if text[0] == '-' else int(number[1]))
        if text in ('true', 'false', '()'):
            return {'true': TRUE, 'false': FALSE, '()': UNIT}[text]
        if re.fullmatch(r"'[^\\]'", text):
            return integer(ord(text[1]))
        written = re.fullmatch(r'(b?)("(?:[^"\\]|\\[^u])*")', text)
        if written and text.isascii():
            made = text_of(list(ast.literal_eval('b' + written[2])))
            return made.pointer if written[1] else made
        if limit and (limit[1] or limit[2]) in self.widths.keys() - {'isize'}:           # widths.py knows a `usize`
            width = WIDTHS[limit[1] or limit[2]]
            most, least = (2 ** width - 1, 0) if width > 0 else (2 ** (-width - 1) - 1, 2 ** (-width - 1))
            return integer(most if limit[3] == 'MAX' else least)
        return term('N', text) if re.fullmatch('[A-Z]', text) else self.named(text)

    def named(self, text):
        """A constant's by its name, whose body is run: int(1500) of `net_base::MTU`; of `f::promoted[0]`, which is
        what a function `f` refers to, a reference."""
        inner, path = re.search(r'::(promoted\[\d+\])', text), self.program.path(text)
        item = self.program.promoted.get((self.path, inner[1])) if inner else self.program.constants.get(path)
        if item:
            side, state = CompiledSide(self.program, item, self.path if inner else path), {'ver': term('ver', None)}
            event = side.run(side.start, state)
            if isinstance(event, Return) and not inner:
                return event.value
            if isinstance(event, Return):
                return term('constant', side.target(state, event.value) if event.value[0] == 'ref' else event.value)
        raise Unknown(f'constant {text[:70]}')

    def compute(self, state, text):
        """What the right side of an assignment gives."""
        if reference := re.match(r'&(mut |raw const |raw mut |fake )?(?:\(fake\) )?(?=[(_])', text):
            return self.address(self.at_place(state, text[len(reference[0]):]), 'mut' in (reference[1] or ''))
        if text.startswith('deref_copy '):
            return self.read(state, self.at_place(state, text[11:]))
        convert = re.match(r'((?:copy|move|const) .*) as (.*?) \((\w+)', text)
        if convert and convert[1].count('(') == convert[1].count(')'):
            return self.converted(state, text, *convert.groups())
        if re.match(r'(?:copy|move|const) ', text):
            return self.value(state, text)
        sign = re.match(r'(\w+?)(WithOverflow|Unchecked)?\((.*)\)$', text)
        if sign and sign[1] in SIGNS:
            return self.binary(state, sign[1], sign[2], *split(sign[3]))
        made = self.unary(state, sign[1], sign[3]) if sign else None
        if made is not None:
            return made
        if repeat := re.match(r'\[(.*); ([^;]+)\]$', text):
            return term('repeat', self.value(state, repeat[1]), count(re.sub('_usize$|^const ', '', repeat[2])))
        if text[0] in '([':
            return aggregate(*(self.value(state, one) for one in split(text[1:-1])))
        return self.composed(state, text)

    def converted(self, state, text, operand, to, how):
        """A cast: of `copy _1 as u8 (IntToInt)` cast(8, 64, par(1)); of an array's reference that of a slice."""
        of = self.kind_of(operand) or ''
        if how == 'IntToInt' and of in self.widths and to in self.widths:
            return cast(abs(self.widths[to]), abs(self.widths[of]), self.value(state, operand), self.widths[of] < 0)
        size = re.search(r'\[.*; (\w+)\]$', of) if how == 'PointerCoercion' and 'Unsize' in text else None
        if size:
            return term('slice', self.value(state, operand), count(size[1]))
        raise Unknown(f'cast {text[:60]}')

    def binary(self, state, sign, how, one, two):
        """An operator: of `Add(copy _1, copy _2)` op('+', par(1), par(2)), of AddWithOverflow also whether it is too
        much, which is tested, and proved never to be."""
        kind = self.kind_of(one) or (sign not in ('Shl', 'Shr') and self.kind_of(two))
        made = operation(SIGNS[sign], self.value(state, one), self.value(state, two), self.widths.get(kind, 64))
        if how == 'WithOverflow' or sign in ('Div', 'Rem', 'Shl', 'Shr'):
            self.partial(state, made)
        return aggregate(made, FALSE) if how == 'WithOverflow' else made

    def unary(self, state, word, of):
        """What begins with a word and is given one operand or place: `Not(copy _1)`, `Len((*_3))`."""
        kind = self.kind_of(of)
        if word == 'Not':
            is_number, one = kind in self.widths and kind != 'bool', self.value(state, of)
            return term('op', f'! {abs(self.widths[kind])}', one, UNIT) if is_number else negated(one)
        if word == 'Neg':
            made = operation('-', integer(0), self.value(state, of), self.widths.get(kind, 64))
            self.partial(state, made)
            return made
        if word == 'discriminant':
            return discriminant(self.read(state, self.at_place(state, of)))
        if word == 'PtrMetadata':
            return length(self.value(state, of))
        if word == 'Len':
            local, steps = self.place(of)
            is_slice = steps[-1:] == ['deref']
            return length(self.read(state, self.find(state, local, steps[:-1]))) if is_slice else term('count')
        return None

    def composed(self, state, text):
        """A struct, a variant or a closure: of `S { m: copy _1 }` agg(None, par(1)), of `Option::<u64>::Some(copy _1)`
        agg(1, par(1))."""
        fields = re.match(r'(\{closure@[^}]*\}|(?=[^({]*::)[\w:<].*?)(?: \{ (.*) \})?$', text)
        if not fields:
            raise Unknown(f'value {text[:60]}')
        named = [one.split(': ', 1)[1] for one in split(fields[2])] if fields[2] else []
        if fields[1][0] == '{':
            held = [one for one in (self.value(state, one) for one in named) if one != UNIT]
            return aggregate(*held, term('closure', self.program.closures[fields[1]]))
        head = fields[1] if fields[2] else called(text)
        parts = named if fields[2] or head == text else split(text[len(head) + 1:-1])
        variant = self.program.variant_of(without(head).split('::'))
        return term('agg', variant, *(self.value(state, one) for one in parts))

    def run(self, node, state):
        """Runs to the next event."""
        for _ in range(4000):
            if node == 'panic':
                return Panic()
            block, k = node
            event, node = self.step(state, self.nodes[block][k], (block, k + 1))
            if event is not None:
                return event
        raise Unknown('runs without an event')

    def step(self, state, step, after):
        """Does a step. Returns its event, if it is one, or the node that comes next."""
        if step == 'return':
            return Return(state.get((self.word, 0), UNIT)), None
        if step in ('unreachable', 'resume') or step.startswith('terminate'):
            return Never(), None
        if switch := re.match(r'switchInt\((.*)\) -> \[(.*)\]$', step):
            return self.switch(state, *switch.groups()), None
        if drop := DROP.match(step):
            self.drop_parts(state, self.read(state, self.at_place(state, drop[1])), self.kind_of(drop[1]) or '')
            return None, (int(drop[2]), 0)
        if jump := JUMP.match(step):
            return None, (int(next(filter(None, jump.groups()))), 0)
        if call := CALL.match(step):
            after = (int(call[3]), 0) if call[3] else None
            return self.call(state, call[1], call[2], after), after
        place, value = re.match(r'(\S.*?) = (.*)$', step).groups()
        if test := self.test(value, after):
            return test, None
        if place.startswith('discriminant('):
            raise Unknown('sets a discriminant')
        return self.write(state, self.at_place(state, place), self.compute(state, value), after), after

    def switch(self, state, value, ends):
        """The branch of `switchInt(move _3) -> [0: bb2, otherwise: bb1]`."""
        ends = {number: End((int(block), 0)) for number, block in re.findall(r'(-?\w+): bb(\d+)', ends)}
        other = ends.pop('otherwise', None)
        if other and self.nodes[other.node[0]][:1] == ['unreachable']:
            other = None
        return Branch(self.value(state, value), {int(number): end for number, end in ends.items()}, other)

    def test(self, value, after):
        """The branch of a test that is made as the text is compiled, `const { assert!(..) }`, if a value is one."""
        path = self.program.path(value[6:]) if value.startswith('const ') and '{constant#' in value else None
        item = self.program.constants.get(path, '')
        if not re.match(r'\S+: \(\) = ', re.sub(r'<impl at [^>]*>', '', item)):
            return None
        side, state = CompiledSide(self.program, item, path), {'ver': term('ver', None)}
        event = side.run(side.start, state)
        while isinstance(event, Branch) and event.value[0] == 'int':
            event = side.run(event.ends.get(event.value.number, event.other).node, state)
        if not isinstance(event, Branch):
            raise Unknown('a constant')
        ends = {**event.ends, 1 - next(iter(event.ends)): event.other}
        is_passed = {number: isinstance(side.run(end.node, dict(state)), Return) for number, end in ends.items()}
        return Branch(event.value, {number: End(after if passed else 'panic') for number, passed in is_passed.items()},
                      None)

    def drop_parts(self, state, value, kind):
        """Notes a drop, of a struct by its fields, and of an enum with the variants that have something to drop."""
        if 'io::Error' in kind:                    # a value of the kit's has nothing to drop
            return
        fields = split(kind[1:-1]) if kind[:1] == '(' else self.program.fields.get(tail(without(kind)), ())
        if kept := [(k, field) for k, field in enumerate(fields) if self.has_drop(field)]:
            for k, field in kept:
                self.drop_parts(state, take(value, term('f', k)), field)
        else:
            of = re.match(r'core::(?:option::(Option)|result::Result)<', kind)
            parts = [''] * bool(of and of[1]) + (split(kind[of.end():-1]) if of else [])
            self.dropped(state, value, [k for k, part in enumerate(parts) if self.has_drop(part)])

    def has_drop(self, kind):
        """Whether a value of a type has something to drop: of a type parameter, or memory."""
        kind = re.sub(r"&(?:'\w+ )?(?:mut )?(?:\[.*?\]|[\w:]+)", '', kind)
        return bool(re.search(r'\b(?:[A-Z]|Vec|String)\b', kind)) or \
            any(map(self.has_drop, self.program.fields.get(tail(without(kind)), ())))

    def call(self, state, place, text, after):
        """The event of a call, or what it is without one, written."""
        head = called(re.sub(r'^(?:move |copy )', '', text))
        words = [one for one in split(text[text.index(head) + len(head) + 1:-1]) if one]
        name = self.program.callee(head)
        if re.match(r'_\d|\(', head):
            raise Unknown('a call of a value')
        if name.startswith(('panicking.', 'panic.')):
            return Panic()
        arguments = [self.value(state, one) for one in words]
        if self.is_next(head, name):
            return self.next_of(state, name, words[0], self.at_place(state, place), after)
        made = self.pure(state, head, name, arguments, self.kind_of(words[0]) or '' if words else '')
        if made is not None:
            return self.write(state, self.at_place(state, place), made, after)
        if head.lstrip('<').startswith(('proved::', 'net_base::')) or '::' in name:
            arguments += numbers_of(re.findall(r'[<,] ?(\d+)(?=[>,])', head))
        return Call(name, arguments, self.at_place(state, place), after)

    def pure(self, state, head, name, arguments, kind):
        """What a call of std's is without an event; `kind` is the first argument's type. None of any other call."""
        of, wraps = name.split(':')[0], WRAPPING.fullmatch(name)
        if name == 'slice.len':
            return length(arguments[0])
        if name == 'slice of a range':
            made = self.part(head, *arguments)
            self.partial(state, made)
            return made
        if wraps:
            return operation(wraps[3], *arguments, bits(wraps[2]))
        if name == 'mem.drop':
            self.drop_parts(state, arguments[0], kind)
        if name.startswith('Snapshot.') or name == 'mem.drop':
            return UNIT
        if name == 'Argument.new_display':         # a reference's text is that of what it refers to
            return self.referred(state, arguments[0], kind)
        if name in ('Arguments.new_v1', 'Arguments.new_const', 'Arguments.new', 'Arguments.from_str'):
            return self.formatted(state, name, arguments)
        if name in ('slice.iter', 'slice.iter_mut', 'slice:IntoIterator.into_iter'):
            return aggregate(term('iter', arguments[0]), FALSE)
        is_iterator = of in ('Range', 'Iter', 'IterMut', 'Zip') or f'{of}:Iterator.next' in self.program.traits.values()
        return arguments[0] if name.endswith(':IntoIterator.into_iter') and is_iterator else None

    def referred(self, state, value, kind):
        """What a reference to references refers to at last."""
        return self.referred(state, self.target(state, value), kind[1:]) if kind.startswith('&&') else value

    def formatted(self, state, name, arguments):
        """What is written, in turn: of `write!(f, "({a})")` "(", a and ")". Rustc 1.85 has the texts in a list, 1.95 a
        text alone, or all in bytes: before each text its length, 0xc0 in the place of a value, and 0 at the end."""
        if name == 'Arguments.from_str':
            return aggregate(aggregate(*arguments))
        given = [*self.target(state, arguments[-1]).parts] if arguments[1:] else []
        if name == 'Arguments.new':
            data, both = json.loads(arguments[0].data)['Ints']['values'], []
            while data[0]:
                if data[0] not in (*range(128), 0xc0):
                    return None                    # a call, as of a text with a width in rustc 1.85
                size = data[0] % 0xc0
                both.append(text_of(data[1:size + 1]) if size else given.pop(0))
                data = data[size + 1:]
            return aggregate(aggregate(*both))
        texts = self.target(state, arguments[0]).parts
        both = [one for k, text in enumerate(texts) for one in (text, *given[k:k + 1])]
        return aggregate(aggregate(*(one for one in both if one[-1] != FALSE)))

    @staticmethod
    def part(head, whole, ends):
        """A slice of a range, `xs[a..]`; of an array, what is before its end."""
        kind = re.search(r'<core::ops::(Range\w*)<', head)[1]
        is_array = kind == 'RangeTo' and re.match(r'<\[.*; \w+\] as ', head)
        is_known = kind in ('Range', 'RangeFrom', 'RangeTo') and 'core::vec::Vec' not in head.split(' as ')[0]
        if ends[0] != 'agg' or not is_known or whole[0] == 'ref' and not is_array:
            raise Unknown('a part of what is no slice, or a range that is made elsewhere')
        start = ends.parts[0] if kind != 'RangeTo' else None
        end = length(whole) if kind == 'RangeFrom' else ends.parts[-1]
        begin = whole if is_array else term('sp', whole) if start is None else pointer(whole, (term('i', start),))
        return sliced(begin, end if start is None else operation('-', end, start))

    @staticmethod
    def is_next(head, name):
        """Whether a call is `next` of a range, or of an iterator of a slice."""
        return name == 'Range:Iterator.next' or \
            name in ('Iter:Iterator.next', 'IterMut:Iterator.next') and '<core::slice::' in head

    def next_of(self, state, name, lent, to, after):
        """The branch of `next` of what is lent: there is no more, or an item, which the range then begins behind."""
        reference = self.read(state, self.at_place(state, lent[5:]))
        if reference[0] != 'ref':
            raise Unknown('an iterator that is lent')
        at, k = at_local(reference), int(name != 'Range:Iterator.next')
        one, two = (take(self.read(state, at), term('f', number)) for number in (k, 1 - k))
        one = operation('+', one.value, integer(1)) if one[0] == 'next' else one
        if k and two[0] != 'iter':
            raise Unknown('an iterator that is made elsewhere')
        end, item = (length(two.slice), pointer(two.slice, (term('i', one),))) if k else (two, one)
        behind = at._replace(path=(*at.path, term('f', k)))
        return Branch(operation('<', one, end), {0: End(after, ((to, term('agg', 0)),))},
                      End(after, ((behind, term('next', one)), (to, term('agg', 1, item)))))
