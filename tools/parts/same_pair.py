"""A function in both programs, run side by side, for tools/same_program.py."""
import re

from parts.mir_text import tables
from parts.same_side import Branch, Call, Never, Panic, Return, Store, at_local
from parts.same_terms import (UNIT, Differ, Known, Term, Unknown, any_part, discriminant, holds_ref, is_test,
                              mentions, met, settled, shown, term)

# Names that one of the programs has, and those that both have here.
SAME = [(re.compile(pattern), text) for pattern, text in
        (row.split(' ~~ ') for row in tables('same_names.txt')['names'])]


USED = set()                                       # those of `SAME` that a name had


def common(name, traits):
    """A callee in common words: Vec.from_elem of Vec.filled."""
    name = traits.get(name, name)
    for pattern, text in SAME:
        if pattern.fullmatch(name):
            USED.add(pattern.pattern)
            name = pattern.sub(text, name)
    return name


class Pair:
    """A function in both programs, from its start on. A node is a pair of theirs, and `states` have what holds whenever
    it is reached."""
    MOST = 1500

    def __init__(self, proved, compiled, traits, place=str):
        self.a, self.b, self.sides, self.traits, self.place = proved, compiled, (proved, compiled), traits, place
        self.counts, self.states, self.work = {}, {}, []

    def compare(self):
        """Raises `Differ` or `Unknown`; gives how many pairs of places are reached."""
        state = {'ver': term('sym', 'ver', 0), 'facts': {}, 'done': frozenset(), **self.a.given(), **self.b.given()}
        if self.a.parameters != self.b.parameters:
            raise Unknown('parameters')
        self.reach((self.a.start, self.b.start), state | {(word, 'drops'): UNIT for word in 'AB'})
        for _ in range(self.MOST):
            if not self.work:
                return len(self.states)
            node = self.work.pop()
            self.step(node, {**self.states[node], 'facts': dict(self.states[node]['facts'])})
        raise Unknown('too many turns')

    def same(self, one, two, state, seen=()):
        """Whether two terms are equal: `seen` has the pairs of references that are being compared."""
        if one == two and not holds_ref(one):
            return True
        if not isinstance(one, tuple) or not isinstance(two, tuple) or len(one) != len(two) or one[:1] != two[:1] or \
                one[:1] in (('nothing',), ('forgotten',)):
            return False
        if one[:1] == ('closure',):
            return self.place(one.name) == two.name
        if one[:1] == ('N',):                      # a parameter that is a number, by place and by name
            return one == two and isinstance(one.name, str) or \
                self.counts.setdefault(one, two) == two and self.counts.setdefault(two, one) == one
        if one[:1] == ('ref',) and one.side != two.side:
            ends = [settled(side.read(state, at_local(ref)), state['facts'], {})
                    for side, ref in zip(self.sides, (one, two))]
            return (one, two) in seen or one.is_mut == two.is_mut and self.same(*ends, state, (*seen, (one, two)))
        return all(self.same(a, b, state, seen) if isinstance(a, tuple) else a == b for a, b in zip(one, two))

    def check(self, one, two, state, what):
        """Raises `Differ` if two terms aren't equal."""
        one, two = settled(one, state['facts'], {}), settled(two, state['facts'], {})
        if not self.same(one, two, state):
            raise Differ(f'{what}: proved: {shown(one)}; compiled: {shown(two)}')

    @staticmethod
    def fresh(state, key):
        """A symbol that nothing holds."""
        used = set()
        note = lambda one: one[:1] == ('sym',) and one.key == key and used.add(one.number)
        held = [value for name, value in state.items() if name not in ('facts', 'done')]
        for value in [*held, *state['facts'], *state['done']]:
            any_part(value, note)
        return term('sym', key, next(k for k in range(len(used) + 1) if k not in used))

    def reach(self, node, state):
        """A pair of places is reached: what was equal on each way is equal."""
        old = self.states.get(node)
        if self.counts:
            old, state = (of and {name: self.numbered(value) for name, value in of.items()} for of in (old, state))
        new = state if old is None else self.joined(('phi', node), old, state)
        if new is not None:
            self.states[node] = new
            self.work += [node] if node not in self.work else []

    def numbered(self, value):
        """A term with rustc's names of parameters that are numbers, so that both sides meet as one: N('N') of N(0)."""
        if isinstance(value, dict):
            return {self.numbered(one): known for one, known in value.items()}
        if isinstance(value, Term) and value[0] == 'N' and isinstance(value.name, int):
            return self.counts.get(value, value)
        return type(value)(map(self.numbered, value)) if isinstance(value, (tuple, frozenset)) else value

    @staticmethod
    def joined(key, old, new):
        """What two states have in common; None if that is the old one."""
        pairs, memo_old, memo_new, ones = {}, {}, {}, {}
        before = {name: settled(value, old['facts'], memo_old)
                  for name, value in old.items() if name not in ('facts', 'done')}
        out = {name: met(value, settled(new[name], new['facts'], memo_new), key, pairs)
               for name, value in before.items() if name in new}
        facts = {value: known for value, known in old['facts'].items()
                 if new['facts'].get(value) == known and not mentions(value, key)}
        done = frozenset(one for one in old['done'] & new['done'] if not mentions(one, key))
        is_less = any(not (one[:1] == ('sym',) and one.key == key) or ones.setdefault(one, two) != two
                      for one, two in pairs)
        is_less |= any(before[name] != old[name] for name in before)
        is_less |= (len(done), len(facts), len(out) + 2) != (len(old['done']), len(old['facts']), len(old))
        return {**out, 'facts': facts, 'done': done} if is_less else None

    def event(self, side, at, state):
        """The next event of a side; branches whose end is known are none."""
        for _ in range(500):
            event = side.run(at, state)
            if not isinstance(event, Branch):
                return event
            event = self.choice(event, state['facts'])
            ends = [*event.ends.values(), *[event.other] * (event.other is not None)]
            if len(ends) > 1:
                return event
            if ends[:1] in ([], [None]):
                return Never()
            at = self.enter(side, ends[0], state)
        raise Unknown('branches without an event')

    @staticmethod
    def choice(event, facts):
        """A branch by what is known, with the ends that are left: `if !(a == 3)` is one by a, whose end for 3 is that
        of `else`."""
        value, ends, other = settled(event.value, facts, {}), event.ends, event.other
        while value[0] == 'not':
            value, ends, other = value.value, {0: ends.get(1, other), 1: ends.get(0, other)}, None
            ends = {number: end for number, end in ends.items() if end is not None}
        if value[0] == 'op' and value.sign == '==' and value.two[0] == 'int':       # a test of one value
            value, ends, other = value.one, {value.two.number: ends.get(1, other)}, ends.get(0, other)
        if is_test(value):
            ends, other = {number: ends.get(number, other) for number in (0, 1)}, None
        if value[0] == 'int':
            end = ends.get(value.number, other)
            return Branch(value, {} if end is None else {value.number: end}, None)
        others = facts.get(value, Known()).others
        return Branch(value, {number: end for number, end in ends.items() if number not in others}, other)

    @staticmethod
    def enter(side, end, state):
        """Takes an end of a branch, with what it writes."""
        for at, value in end.writes:
            side.write(state, at, value)
        return end.node

    def step(self, node, state):
        """From a pair of places to the next ones."""
        one, two = (self.event(side, at, state) for side, at in zip(self.sides, node))
        while isinstance(one, Call) and one.reads and not (isinstance(two, Call) and self.is_same_callee(one, two)):
            one = self.left_out(node, one, state)
        self.partial(state, two)
        if not isinstance(one, Store):
            self.drops(state)
        if type(one) is not type(two) and not {type(one), type(two)} <= {Never, Panic}:
            raise Differ(f'proved: {self.told(one)}; compiled: {self.told(two)}')
        if isinstance(one, Return) and not self.a.gives_unit:
            self.check(one.value, two.value, state, 'returned')
        elif isinstance(one, Store):
            self.check(one.to, two.to, state, 'stored at')
            self.check(one.value, two.value, state, 'stored')
            state['ver'] = self.fresh(state, ('ver', node))
            self.reach((one.after, two.after), state)
        elif isinstance(one, Branch):
            self.branch(one, two, state)
        elif isinstance(one, Call):
            self.call(node, one, two, state)

    def is_same_callee(self, one, two):
        return common(one.name, self.traits) == common(two.name, self.traits)

    def left_out(self, node, call, state):
        """The event after a call that only reads, which rustc's program lacks: it has nothing equal to what that gave."""
        if self.a.write(state, call.to, self.fresh(state, ('read', node))):
            raise Unknown('the result of a call is stored')
        return self.event(self.a, call.after, state)

    @staticmethod
    def told(event):
        """An event in short."""
        of = common(event.name, {}) if isinstance(event, Call) else shown(event[0]) if event else ''
        return f'{type(event).__name__.lower()} {of}'.strip()

    def partial(self, state, event):
        """What may panic in Rust is done by the prover's program too, by then."""
        due, done = state.pop('due', frozenset()), {settled(one, state['facts'], {}) for one in state['done']}
        for one in due if not isinstance(event, (Panic, Never)) else ():
            one = settled(one, state['facts'], {})
            if one not in done and not any(self.same(other, one, state) for other in done):
                raise Differ(f'compiled: may panic: {shown(one)}')

    def branch(self, one, two, state):
        """Both choose by the same number, and have the same ends, which are reached in pairs."""
        self.check(one.value, two.value, state, 'condition')
        numbers = frozenset({*one.ends, *two.ends})
        others = state['facts'].get(one.value, Known()).others
        for known in [*map(Known, sorted(numbers)), Known(None, others | numbers)]:
            ends = [event.other if known.number is None else event.ends.get(known.number, event.other)
                    for event in (one, two)]
            if ends == [None, None] or None in ends and known.number is None:         # all that are left of a type
                continue
            if None in ends:
                raise Differ(f'an end that one side has not: {shown(one.value)} {known.number}')
            after = {**state, 'facts': {**state['facts'], one.value: known, two.value: known}}
            self.reach(tuple(self.enter(side, end, after) for side, end in zip(self.sides, ends)), after)

    def drops(self, state):
        """What was dropped since the last event but a store, in whichever order."""
        one, two = ([settled(of, state['facts'], {}).parts for of in state[side.word, 'drops'].parts]
                    for side in self.sides)
        state |= {(word, 'drops'): UNIT for word in 'AB'}
        for value, *_ in (pair for pair in one if self.has_drop(*pair, state)):
            found = next((k for k, pair in enumerate(two) if self.same(value, pair[0], state)), None)
            if found is None:
                raise Differ(f'proved: drops {shown(value)}; compiled: {shown(two)}')
            two.pop(found)
        for value, _ in (pair for pair in two if self.has_drop(*pair, state)):
            raise Differ(f'compiled: drops {shown(value)}')

    @staticmethod
    def has_drop(value, kept, state):
        """Whether a value has something to drop: not a variant, if it is known, or known which it isn't, that has nothing."""
        variant = settled(discriminant(value), state['facts'], {})
        if kept[0] != 'kept' or not kept.numbers:
            return True
        if variant[0] == 'int':
            return variant.number in kept.numbers
        return not {*kept.numbers} <= state['facts'].get(variant, Known()).others

    def call(self, node, one, two, state):
        """Both call the same function with equal arguments; what they are lent may be changed, and so may memory."""
        name, other = common(one.name, self.traits), common(two.name, self.traits)
        if name != other:
            raise Differ(f'proved: {name}; compiled: {other}')
        given = self.arguments(name, one.arguments, two.arguments, state)
        for k, (a, b) in enumerate(given, 1):
            self.check(a, b, state, f'{name}, argument {k}')
        result = self.fresh(state, ('call', node))
        for k, both in enumerate(given):
            self.change(name, result, k, both, state)
        state['ver'] = term('ver', result)
        if two.after is None:
            return
        if one.after is None:
            raise Differ(f'proved: {name} never returns')
        if any([side.write(state, to, result) for side, to in zip(self.sides, (one.to, two.to))]):
            raise Unknown('the result of a call is stored')
        self.reach((one.after, two.after), state)

    def arguments(self, name, one, two, state):
        """The arguments in pairs. Rust's calls of closures have them in a tuple, and comparisons are of what the
        references refer to."""
        if name == '?:Fn.call' and len(two) == 2 and two[1][:2] == UNIT:
            two = [two[0], *two[1].parts]
        if re.search(r'Partial(?:Eq|Ord)\.', name):
            one, two = ([self.end(side, of, state) for of in given] for side, given in zip(self.sides, (one, two)))
        if len(one) != len(two):
            raise Unknown(f'arguments of {name}')
        return [*zip(one, two)]

    def change(self, name, result, place, both, state):
        """What a pair of arguments lends to be changed has new values, the same on both sides."""
        refs = [self.lent(side, settled(one, state['facts'], {}), state) for side, one in zip(self.sides, both)]
        if len(refs[0]) != len(refs[1]):
            raise Unknown(f'what {name} is lent')
        for number, pair in enumerate(zip(*refs)):
            for side, ref in zip(self.sides, pair):
                side.write(state, at_local(ref), term('after', result, place, number))

    def lent(self, side, value, state, seen=()):
        """The references to locals in a value that lend these to be changed, and those in what they refer to."""
        if not isinstance(value, tuple):
            return []
        if value[:1] == ('ref',):
            inner = side.read(state, at_local(value))
            return [] if value in seen else [value] * value.is_mut + self.lent(side, inner, state, (*seen, value))
        return [ref for part in value for ref in self.lent(side, part, state, seen)]

    def end(self, side, value, state):
        """What a reference to a local refers to."""
        return self.end(side, side.read(state, at_local(value)), state) if value[0] == 'ref' else value
