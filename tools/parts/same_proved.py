"""The prover's program of a crate, as it keeps it beside a proved library, for tools/same_program.py: its functions by
name, and one as a graph of steps."""
import json
import re
from collections import namedtuple

from parts import erase_list as given
from parts.same_side import Branch, Call, End, Held, Never, Panic, Return, Side
from parts.same_terms import (FALSE, SIGNS, TRUE, UNIT, Unknown, aggregate, cast, discriminant, integer, negated,
                              operation, pointer, reading, sliced, take, term)

# The name of an impl of std's: a type's, and a trait's.
IMPL = re.compile(r'(?:RefMut|Ref)?([A-Z]\w*?)(TryFrom|Try|FromResidual|PartialEq|PartialOrd|Ord|Hash|IndexMut|Index|'
                  r'From|Clone|Default|Iterator|IntoIterator)(?:[A-Z]\w*)?')
WRAPPING = re.compile(r'([iu])(8|16|32|64|128|size)\.(wrapping_(?:add|sub|mul))(?:_unsigned)?')
# What is there beside functions of the source: declarations, how closures are called, and how types are dropped.
MADE = re.compile(r'.*(?:\+decl|\+(?:Fn|FnMut|FnOnce|Destruct)::\w+|::Destruct\+\+none::drop)')
# A step with its parts, of which an `If` has two; and as one of a graph, with the node after it, or those of its arms.
Tree, Node = namedtuple('Tree', 'tag rest parts'), namedtuple('Node', 'tag rest after', defaults=[None, None])
SNAPSHOT = 'core::snapshot::Snapshot'
PANICS = ('assertions.unreachable', 'assertions.panic', 'panicking.panic')


def tail(path):
    """The last word of a path: of `a::B<C>` it is B."""
    return path.split('<')[0].split('::')[-1]


def is_own(name):
    """Whether a name is of a crate that is erased."""
    return name.split('::')[0] in (*given.CRATES, *given.PROGRAM)


def numbers_of(words):
    """The numbers that a callee is given between angles, as one more argument."""
    return [aggregate(*(integer(number) for number in sorted({int(word) for word in words})))] if words else []


def plain(name):
    """A function's name without what the type of its impl is made of."""
    return re.sub(r'Over\+\w+Over[\w+]*(?=::)', 'Over', name.replace('fn::', ''))


def bits(number):
    return 64 if number == 'size' else int(number)


def tagged(step):
    """The word of a step, a type or a value, and what is with it: of {'Int': 8} it is Int, 8."""
    return next(iter(step.items())) if isinstance(step, dict) else (step, None)


def given_to(kind, word):
    """What is with this word of a type, if it is one of that word: of {'Int': 8} and Int it is 8."""
    return kind.get(word) if isinstance(kind, dict) else None


def tree_of(steps):
    """The tree of steps, which are written from its root."""
    tag, rest = tagged(next(steps))
    count = len(rest[1]) + bool(rest[2]) if tag == 'Switch' else {'Seq': 2, 'If': 2, 'Loop': 1, 'Block': 1}.get(tag, 0)
    return Tree(tag, rest, [tree_of(steps) for _ in range(count)])


class Proved:
    """The prover's program of a crate."""

    def __init__(self, mir, below=()):
        self.all, self.impls, self.order = dict(mir), {}, {}
        for name, function in self.all.items():
            with reading(name):
                for impl in function['generics']['impls']:
                    self.note_impl(impl['name'], impl['of'], impl['methods'])
        for name in self.all:                      # a trait's methods, as it declares them
            if name.endswith('+decl'):
                self.order.setdefault(name.rpartition('::')[0], []).append(tail(name).removesuffix('+decl'))
        kept = [name for name in self.all if not MADE.fullmatch(name)]
        self.functions = {plain(name): name for name in kept}
        if len(kept) != len(self.functions):
            raise Unknown('two functions of a name')
        self.trivial, before = {'mem.drop', 'Vec.drop'}, None
        while before != len(self.trivial):         # drops that only drop
            before = len(self.trivial)
            self.trivial |= {name for name in self.functions if name.endswith('::drop') and self.only_drops(name)}

        # What does nothing, and what only reads, also of the programs that this one is over.
        self.idle = {name for one in below for name in one.idle}
        self.readers = {name for one in below for name in one.readers}
        for found, is_one in ((self.idle, ProvedSide.is_idle), (self.readers, ProvedSide.is_reader)):
            before = None
            while before != len(found):
                before = len(found)
                found |= {name for name in self.functions.keys() - found if self.holds(is_one, name)}

    def holds(self, is_one, name):
        """Whether a function is understood, and is of this kind."""
        try:
            with reading(name):
                return is_one(ProvedSide(self, name))
        except Unknown:
            return False

    def note_impl(self, name, of, methods):
        """Notes the methods of an impl: `a::SHash::hash` is S:Hash.hash."""
        self.order.setdefault(of['of'], [tail(method) for method in methods])
        for method in map(tail, methods):
            self.impls[f'{name}::{method}'] = f'{self.kind(of["types"][:1])}:{tail(of["of"])}.{method}'

    def only_drops(self, name):
        """Whether a function does no more than take apart and drop."""
        with reading(name):
            function = self.all[self.functions[name]]
            steps = [tagged(step) for step in function['body'] if isinstance(step, dict)]
            return all(self.is_trivial(self.callee(rest[0], function)) if tag == 'Call' else tag != 'Assign'
                       or 'Op2' not in rest[1] and not rest[0]['steps']
                       for tag, rest in steps)

    def is_trivial(self, name):
        return name.startswith('Snapshot.') or name.endswith(':Destruct.drop') or name in self.trivial

    def kind(self, types):
        """The name of a type, without what it is made of: Vec, u64, slice, or ? of a parameter."""
        if not types or not isinstance(types[0], dict):
            return str(types[0] if types else None).lower()
        tag, rest = tagged(types[0])
        if tag == 'Ref':
            return self.kind(rest[2:3])
        return {'Named': lambda: tail(rest[0]['name']), 'Int': lambda: f'u{rest}', 'Param': lambda: '?',
                'Struct': lambda: 'slice'}.get(tag, lambda: tag)()

    def callee(self, head, function):
        """A callee in the words of the comparison: `Option.map`, `u64:Ord.cmp`, `?:Fn.call`, or an own path."""
        if 'Method' in head:
            place, number, _ = head['Method']
            bound = function['generics']['bounds'][place['Given']] if 'Given' in place else {'of': '?'}
            order = self.order.get(bound['of'], [])
            return f'?:{tail(bound["of"])}.{order[number] if number < len(order) else number}'
        if 'Fn' not in head:
            raise Unknown(f'callee {str(head)[:60]}')
        name = plain(head['Fn'][0])
        if tail(name) == 'clone' and not is_own(name):
            return f'{name}, which can be refused'
        if name in self.impls or is_own(name):
            return self.impls.get(name, name)
        *_, owner, method = name.split('::')
        impl = IMPL.fullmatch(owner)
        if impl and owner not in ('PartialOrd', 'PartialEq', 'TryFrom'):
            is_plain = impl[1][1:].isdigit() or impl[1] in ('Usize', 'Isize', 'Slice', 'Bool', 'Char')
            return f'{impl[1].lower() if is_plain else impl[1]}:{impl[2]}.{method}'
        return f'{owner.replace("slice+T", "slice").replace("str+", "str")}.{method}'


class ProvedSide(Side):
    """A function of the prover's program."""
    word = 'A'

    def __init__(self, program, name):
        self.program, self.function = program, program.all[program.functions[name]]
        self.types = {one['name']: one for one in self.function['types']}
        self.locals, self.nodes = [local['ty'] for local in self.function['locals']], []
        self.taken = [k for k in range(1, self.function['params'] + 1) if not self.is_ghost(self.locals[k])]
        self.parameters, self.gives_unit = len(self.taken), self.locals[0] == 'Unit'
        # Rust's clone gives what this one has in `Ok`.
        self.is_clone = name.endswith('Clone::clone') and 'core::alloc::AllocError' in json.dumps(self.locals[0])
        steps = iter(self.function['body'])
        self.start = self.link(tree_of(steps), self.node('Return'), ())
        if next(steps, None) is not None:
            raise Unknown('steps that are in no tree')

    def given(self):
        return {(self.word, local): term('par', k) for k, local in enumerate(self.taken, 1)}

    def node(self, *parts):
        self.nodes.append(Node(*parts))
        return len(self.nodes) - 1

    def link(self, tree, after, exits):
        """The node where a tree begins; `after` is the one that comes next, and `exits` have those of loops and blocks
        around."""
        tag, rest, parts = tree
        if tag == 'Seq':
            return self.link(parts[0], self.link(parts[1], after, exits), exits)
        if tag in ('If', 'Switch'):
            forgets = self.forgets(tree) if tag == 'Switch' else None
            return self.node('forget', forgets, after) if forgets else \
                self.node(tag, rest, [self.link(arm, after, exits) for arm in parts])
        if tag == 'Block':
            return self.link(parts[0], after, (after, *exits))
        if tag == 'Loop':
            head = self.node('goto')
            self.nodes[head] = Node('goto', None, self.link(parts[0], head, (head, *exits)))
            return head
        if tag in ('Skip', 'Exit'):
            return after if tag == 'Skip' else exits[rest]
        return self.node(tag, rest, after)

    def forgets(self, tree):
        """Of a switch that drops each part of a value that may be there: the locals that are assigned for that, and the
        value's place."""
        of, arms = given_to(tree.rest[0], 'Copy'), [self.drops(arm) for arm in tree.parts]
        if not of or None in arms or not any('of a part' in arm for arm in arms):
            return None
        whole, words = {**of, 'steps': of['steps'][:-2]}, [word for arm in arms for word in arm]
        dropped = [word for word in words if isinstance(word, tuple)]
        variants = self.shape(self.place(whole)[1]).get('Variants', ()) if self.place(of)[0][-1:] == ['discr'] else ()
        count = sum(self.needs_drop(part) for variant in variants for part in variant)
        return ([word for word in words if isinstance(word, int)], whole) \
            if len(dropped) == len({*dropped}) == count else None

    def drops(self, tree):
        """What is assigned by a part that only drops, and what is dropped; None if it does more."""
        tag, rest, parts = tree
        if tag == 'Seq':
            both = [self.drops(one) for one in parts]
            return None if None in both else both[0] + both[1]
        if tag == 'Call' and self.program.is_trivial(self.program.callee(rest[0], self.function)):
            return [rest[2]['local'], 'of a part',
                    *(('part', json.dumps(one)) for one in rest[1] if self.needs_drop(self.kind_of(one)))]
        is_plain = tag == 'Assign' and 'Opd' in rest[1] and not rest[0]['steps']
        return [] if tag == 'Skip' else [rest[0]['local']] if is_plain else None

    def place(self, place):
        """The steps of a place in common words, and its type."""
        kind, out, variant = self.locals[place['local']], [], None
        for tag, rest in map(tagged, place['steps']):
            if tag == 'Deref':
                out.append('deref')
                kind = rest
            elif tag == 'Variant':
                variant = rest
            elif tag == 'Field' and variant is not None:
                out.append(term('v', (variant, rest - 1)) if rest else 'discr')
                kind = self.shape(kind).get('Variants', [])[variant][rest - 1] if rest else {'Int': 8}
                variant = None
            elif tag == 'Field':
                struct = given_to(kind, 'Struct')
                out.append(('slice', rest) if struct and struct[0] == '&[]' else term('f', rest))
                kind = struct[1][rest] if struct else self.shape(kind)['Fields'][rest]
            else:
                raise Unknown(f'place {tag}')
        return out, kind

    def shape(self, kind):
        """What a type is made of: {'Fields': types}, or {'Variants': types of each}."""
        if not given_to(kind, 'Named'):
            raise Unknown(f'shape of {str(kind)[:40]}')
        name, inner = kind['Named']

        def filled(one):
            if isinstance(one, dict) and 'Param' in one and len(one) == 1:
                return inner[one['Param']] if one['Param'] < len(inner) else one
            if isinstance(one, dict):
                return {key: filled(value) for key, value in one.items()}
            return [filled(part) for part in one] if isinstance(one, list) else one
        return filled(self.types[name['name']]['shape'])

    def is_ghost(self, kind):
        """Whether a type is of snapshots alone, which has no bytes and isn't in Rust, or a reference to one."""
        kind = (given_to(kind, 'Ref') or [kind])[-1]
        if not given_to(kind, 'Named'):
            return False
        fields = self.shape(kind).get('Fields', ())
        return kind['Named'][0]['name'] == SNAPSHOT or bool(fields) and \
            all(given_to(one, 'Named') and self.is_ghost(one) for one in fields)

    def steps(self):
        """The steps, each with what is with it."""
        return map(tagged, self.function['body'])

    def is_own_place(self, place):
        """Whether a place is in a local, or one that only proofs see."""
        steps, kind = self.place(place)
        return 'deref' not in steps or self.is_ghost(kind)

    def is_idle(self):
        """Whether it gives nothing, and does nothing that is seen: it writes to locals, and calls what does no more."""
        return (self.gives_unit or self.is_ghost(self.locals[0])) and all(
            self.is_own_place(rest[0]) if tag == 'Assign' else self.is_idle_call(*rest) if tag == 'Call' else
            tag in ('Seq', 'If', 'Switch', 'Skip', 'LendStatic', 'Return') for tag, rest in self.steps())

    def is_idle_call(self, head, operands, place):
        """Whether a call does nothing that is seen: it is of what does nothing, or of ghosts alone."""
        name, kinds = self.program.callee(head, self.function), [*map(self.kind_of, operands)]
        if self.program.is_trivial(name):
            return not any(map(self.needs_drop, kinds))
        return name in self.program.idle or bool(kinds) and all(map(self.is_ghost, [*kinds, self.place(place)[1]]))

    def is_reader(self):
        """Whether it is lent all that it is given, to be read, and does no more on its one way than to call what does
        that too."""
        return self.parameters > 0 and all(map(self.is_shared, self.locals[1:self.parameters + 1])) and all(
            self.is_own_place(rest[0]) if tag == 'Assign' else self.reads(rest[0], rest[1]) if tag == 'Call' else
            tag in ('Seq', 'Skip', 'Return') for tag, rest in self.steps())

    def reads(self, head, operands):
        """Whether what is called is an own function that only reads, or a method of an own trait that is lent all to be
        read."""
        if 'Method' not in head:
            return self.program.callee(head, self.function) in self.program.readers
        bound = self.function['generics']['bounds'][head['Method'][0]['Given']] if 'Given' in head['Method'][0] else {}
        return is_own(bound.get('of', '')) and all(map(self.is_shared, map(self.kind_of, operands)))

    @staticmethod
    def is_shared(kind):
        return (given_to(kind, 'Ref') or ['', ''])[1] == 'Imm'

    def at_place(self, state, place):
        """Where a place of the program is."""
        steps, _ = self.place(place)
        if 'discr' not in steps:
            return self.find(state, place['local'], steps)
        return Held(discriminant(self.read(state, self.find(state, place['local'], steps[:steps.index('discr')]))))

    def kind_of(self, operand):
        """The type of an operand that is a place."""
        return self.place(operand['Copy'])[1] if given_to(operand, 'Copy') else None

    def size(self, kind):
        """The bytes of a type, and its alignment: of {'Int': 16} it is 2, 2."""
        if kind in ('Bool', 'Unit'):
            return int(kind == 'Bool'), 1
        if given_to(kind, 'Int'):
            return kind['Int'] // 8, kind['Int'] // 8
        shape = self.shape(kind) if given_to(kind, 'Named') else {}
        ways = [shape['Fields']] if 'Fields' in shape else \
            [[{'Int': 8}, *fields] for fields in shape.get('Variants', ())]
        if not ways:
            raise Unknown(f'size of {str(kind)[:40]}')
        most, longest = 1, 0
        for fields in ways:
            total = 0
            for size, align in map(self.size, fields):
                total, most = -(-total // align) * align + size, max(most, align)
            longest = max(longest, total)
        return -(-longest // most) * most, most

    def needs_drop(self, kind):
        """Whether a value of a type has something to drop: of a type parameter, or memory."""
        if not isinstance(kind, dict) or 'Ref' in kind or 'Int' in kind:
            return False
        if 'Struct' in kind:
            return any(map(self.needs_drop, kind['Struct'][1]))
        if 'Named' not in kind:
            return True
        shape = self.shape(kind)
        return any(map(self.needs_drop, [*shape.get('Fields', ()), *sum(shape.get('Variants', ()), [])]))

    def drop(self, state, place):
        """Notes a drop of what is in a place, by its fields."""
        self.drop_parts(state, self.read(state, self.at_place(state, place)), self.place(place)[1])

    def drop_parts(self, state, value, kind):
        """Notes a drop: of an own struct those of its fields, and of an enum with the variants that have something."""
        shape = self.shape(kind) if given_to(kind, 'Named') else {}
        if 'Fields' in shape and (is_own(kind['Named'][0]['name']) or kind['Named'][0]['name'] == '(,)'):
            for k, field in enumerate(shape['Fields']):
                self.drop_parts(state, take(value, term('f', k)), field)
        elif self.needs_drop(kind):
            kept = [k for k, parts in enumerate(shape.get('Variants', ())) if any(map(self.needs_drop, parts))]
            self.dropped(state, value, kept)

    def value(self, state, operand):
        """An operand's: of {'Copy': place} what is there, of {'Int': {'value': 3, ..}} int(3)."""
        if operand in ('True', 'False', 'Unit'):
            return {'True': TRUE, 'False': FALSE, 'Unit': UNIT}[operand]
        tag, rest = tagged(operand)
        if tag == 'Copy':
            return self.read(state, self.at_place(state, rest))
        if tag == 'Int' and isinstance(rest, dict):
            return integer(rest['value'])
        if tag == 'SizeOf':
            return term('size')
        if tag == 'NumOf':
            return self.number(rest[1])
        raise Unknown(f'operand {str(operand)[:60]}')

    @staticmethod
    def number(one):
        """A number of a type: of {'Lit': 9} it is int(9), and of {'Param': 0} N(0)."""
        word, what = tagged(one)
        return term('int' if word == 'Lit' else 'N', what)

    def compute(self, state, place, value):
        """The value that is assigned to a place."""
        (tag, rest), kind = tagged(value), self.place(place)[1]
        if tag == 'Opd':
            return self.value(state, rest)
        if tag == 'AddrOf':
            return self.address(self.at_place(state, rest), (given_to(kind, 'Ref') or ['', ''])[1] == 'Mut')
        if tag == 'Repeat':
            return term('repeat', self.value(state, rest[0]), self.number(rest[1]))
        made = {'Op1': self.unary, 'Op2': self.binary, 'Aggregate': self.composed}.get(tag, lambda *_: None)
        made = made(state, kind, rest)
        if made is None:
            raise Unknown(f'value {str(value)[:60]}')
        return made

    def unary(self, state, kind, of):
        """`!a`, or a cast: of [{'Cast': ['Unsigned', 64, 8]}, a] it is cast(8, 64, par(1))."""
        one, old, to = self.value(state, of[1]), self.kind_of(of[1]), given_to(of[0], 'Cast')
        if of[0] == 'Not':
            return negated(one) if kind == 'Bool' else term('op', f'! {given_to(kind, "Int")}', one, UNIT)
        return to and cast(to[2], 1 if old == 'Bool' else given_to(old, 'Int') or 0, one, to[0] == 'Signed')

    def binary(self, state, kind, of):
        """An operator: of ['Add', a, b] op('+', par(1), par(2)); of ['Offset', ..] a pointer to an element."""
        (sign, way), one, two = tagged(of[0]), self.value(state, of[1]), self.value(state, of[2])
        if sign == 'Offset':
            made = self.offset(one, two, (given_to(self.kind_of(of[1]), 'Ref') or [None])[-1])
            before = (made.pointer, made.path[:-1]) if made[0] == 'addr' else (None, ())
            self.partial(state, term('at', *before, made.path[-1].which))
            return made
        if sign not in SIGNS:
            return None
        made = operation(SIGNS[sign], one, two, (given_to(kind, 'Int') or 64) * (-1 if way == 'Signed' else 1))
        self.partial(state, made)
        return made

    def composed(self, state, kind, of):
        """What has parts: a slice of a pointer and a length, a closure, a variant behind its number, or a struct."""
        parts, name = [self.value(state, one) for one in of], (given_to(kind, 'Named') or [{'name': ''}])[0]['name']
        if (given_to(kind, 'Struct') or [''])[0] == '&[]':
            made = sliced(*parts)
            self.partial(state, made)
            return made
        if name.endswith('+Self'):
            held = [one for one in parts if one != UNIT]
            return aggregate(*held, term('closure', name.removesuffix('+Self').replace('fn::', '')))
        is_variant = name and 'Variants' in self.shape(kind)
        return term('agg', parts[0].number, *parts[1:]) if is_variant else aggregate(*parts)

    def offset(self, base, by, of):
        """A pointer to an element: of xs, a * size and a type it is addr(par(3), (i(par(1)),))."""
        if base[0] == 'ref' and not base.path:     # of an array that is a local
            of = of or (given_to(self.locals[base.local], 'Array') or [None])[0]
        index = None
        if by[0] == 'op' and by.sign == '*':
            index = by.one if by.two[0] in ('int', 'size') else by.two if by.one[0] in ('int', 'size') else None
        elif by in (term('size'), integer(0)):
            index = integer(int(by[0] == 'size'))
        elif by[0] == 'int':
            index = integer(by.number // self.size(of)[0]) if by.number % self.size(of)[0] == 0 else None
        elif of == {'Int': 8}:
            index = by
        if index is None:
            raise Unknown('offset')
        if base[0] == 'ref':
            return term('ref', base.side, base.local, (*base.path, term('i', index)), base.is_mut)
        return pointer(base.slice if base[0] == 'sp' else base, (term('i', index),))

    def run(self, node, state):
        """Runs to the next event."""
        for _ in range(2000):
            tag, rest, node = self.nodes[node]
            if tag == 'Return':
                value = state.get((self.word, 0), UNIT)
                return Return(value.parts[0] if self.is_clone and value[:2] == ('agg', 0) else value)
            if tag == 'Unreachable':
                return Never()
            if tag in ('If', 'Switch'):
                return self.branch(state, tag, rest, node)
            event = self.step(state, tag, rest, node)
            if event is not None:
                return event
        raise Unknown('runs without an event')

    def branch(self, state, tag, rest, arms):
        """A choice: an `If` of a truth value has the arms of 1 and of 0."""
        if tag == 'If':
            return Branch(self.value(state, rest), {0: End(arms[1]), 1: End(arms[0])}, None)
        value, cases, has_other = rest
        ends = {number: End(arm) for case, arm in zip(cases, arms)
                for number in (case if isinstance(case, list) else [case])}
        return Branch(self.value(state, value), ends, End(arms[-1]) if has_other else None)

    def step(self, state, tag, rest, after):
        """Does a step that is no branch. Returns its event, if it is one."""
        if tag == 'Assign' and self.is_ghost(self.place(rest[0])[1]):
            return None
        if tag == 'Assign':
            return self.write(state, self.at_place(state, rest[0]), self.compute(state, *rest), after)
        if tag == 'Call':
            return self.call(state, *rest, after)
        if tag == 'forget':
            state.update({(self.word, local): term('forgotten') for local in rest[0]})
            self.drop(state, rest[1])
        elif tag == 'LendStatic':
            is_empty = rest[2] == {'Parts': []}    # `&[]`, which rustc has as a constant
            state[self.word, rest[0]['local']] = term('constant', UNIT) if is_empty else \
                term('static', json.dumps(rest[2], sort_keys=True))
        elif tag != 'goto':
            raise Unknown(f'step {tag}')
        return None

    def call(self, state, head, operands, place, after):
        """The event of a call, or what it is without one, written."""
        name, function = self.program.callee(head, self.function), (head.get('Fn') or [''])[0]
        if name in PANICS:
            return Panic()
        if name == 'literal.laid_out':
            raise Unknown('a width')
        if self.program.is_trivial(name) or name in self.program.idle:
            for one in operands if self.program.is_trivial(name) and not name.startswith('Snapshot.') else []:
                self.drop(state, one['Copy']) if 'Copy' in one else None
            if not place['steps']:
                state[self.word, place['local']] = UNIT
            return None
        operands, reads = [one for one in operands if not self.is_ghost(self.kind_of(one))], self.reads(head, operands)
        arguments = [self.value(state, one) for one in operands]
        made = self.pure(name, function, arguments)
        if made:
            return self.write(state, self.at_place(state, place), made, after)
        if is_own(plain(function)):
            arguments += numbers_of(re.findall(r'"Const": (\d+)', json.dumps(head['Fn'][1]['types'])))
        lent = self.functions_lent(head)
        if len(lent) == 1 and operands.count('Unit') == 1:                          # a function as a value
            arguments[operands.index('Unit')] = term('fn', *lent)
        return Call(name, arguments, self.at_place(state, place), after, reads)

    @staticmethod
    def pure(name, function, arguments):
        """What a call is without an event: a.wrapping_add(b) is op('wrapping_add 64', par(1), par(2))."""
        wraps = WRAPPING.fullmatch(name)
        if function.endswith('::AnyIntoIterator::into_iter'):
            return arguments[0]
        if name == 'net_ring::width::most':
            return integer(2 ** 64 - 1)
        if wraps:
            return operation(wraps[3], *arguments, bits(wraps[2]))
        return aggregate(term('iter', arguments[0]), FALSE) if name in ('slice.iter', 'slice.iter_mut') else None

    @staticmethod
    def functions_lent(head):
        """The functions that a callee is given as values: go of apply(go, a)."""
        impls = [one.get('Impl', [''])[0] for one in (head.get('Fn') or ['', {}])[1].get('dicts', ())]
        return {impl.partition('::')[2].rpartition('+Fn')[0].replace('++', '::') for impl in impls if '+Fn' in impl}
