"""One of the two programs of a function, for tools/same_program.py: places, events, and what a state has."""
from collections import namedtuple

from parts.same_terms import NOTHING, UNIT, Unknown, aggregate, length, pointer, put, take, term

# A place in a local, `_5.1`: Local(5, (f(1),)). One behind a pointer, `s.m`: Memory(par(4), (f(0),)). And what has the
# name of a place and none in memory: a constant, or the length of a slice.
Local = namedtuple('Local', 'number path', defaults=[()])
Memory = namedtuple('Memory', 'pointer path', defaults=[()])
Held = namedtuple('Held', 'value')
# Events: `return`, a panic, and what is never reached. Of `s.m = a` it is Store(addr(par(4), (f(0),)), par(1), ..), of
# `let c = go(a)` Call('go', [par(1)], Local(5), ..), each with the node after it, None if a call never returns; of a
# call it also says whether what is called only reads.
Return = namedtuple('Return', 'value')
Panic = namedtuple('Panic', '')
Never = namedtuple('Never', '')
Store = namedtuple('Store', 'to value after')
Call = namedtuple('Call', 'name arguments to after reads', defaults=[False])
# Of `if a < b` it is Branch(op('<', par(1), par(2)), {0: End(..)}, End(..)), whose last end is that of all other
# numbers, or None. An end is the node that comes next, with what places have there.
Branch = namedtuple('Branch', 'value ends other')
End = namedtuple('End', 'node writes', defaults=[()])


def at_local(reference):
    """The place that a reference to a local refers to."""
    return Local(reference.local, reference.path)


class Side:
    """One of the two programs of a function: its nodes, and how its places and values are read.

    A state is a dict. It has, by the side's word and the local's number, what each local has, ('A', 1): par(1); what
    was dropped, ('A', 'drops'); what memory is after the last event that may change it, 'ver'; what may panic and was
    done by the prover's program, 'done', or is due in Rust's, 'due'; and what is known of terms, 'facts'."""
    word, parameters = '?', 0

    def given(self):
        """What the parameters have at first."""
        return {(self.word, k): term('par', k) for k in range(1, self.parameters + 1)}

    def find(self, state, local, steps):
        """The place of a local and steps: of _4, 'deref' and f(0) it is Memory(par(4), (f(0),))."""
        at = Local(local)
        for step in steps:
            if step == 'deref':
                at = self.behind(self.read(state, at))
            elif step[0] == 'slice':               # the two words of a reference to a slice
                of, is_length = self.read(state, at), step[1]
                at = Held(length(of) if is_length else of.pointer if of[0] == 'slice' else term('sp', of))
            else:
                step = self.index(state, at, step) if step[0] == 'i' else step
                at = Held(take(at.value, step)) if isinstance(at, Held) else at._replace(path=(*at.path, step))
        return at

    @staticmethod
    def behind(value):
        """The place that a value points to."""
        if value[0] == 'ref':
            return at_local(value)
        if value[0] == 'constant':
            return Held(value.value)
        return Memory(value.pointer, value.path) if value[0] == 'addr' else Memory(value)

    def index(self, state, at, step):
        """The step to an element, of an index that is a term or a local; notes that it is tested."""
        index = step.which if isinstance(step.which, tuple) else self.read(state, Local(step.which))
        self.partial(state, term('at', *(at if isinstance(at, Memory) else (None, ())), index))
        return term('i', index)

    def read(self, state, at):
        """What a place has."""
        if isinstance(at, Held):
            return at.value
        if isinstance(at, Memory):
            return term('load', at.pointer, at.path, state['ver'])
        value = state.get((self.word, at.number), NOTHING)
        for step in at.path:
            value = take(value, step)
        return value

    def target(self, state, value):
        """What a reference refers to."""
        return self.read(state, self.behind(value))

    def address(self, at, is_mut):
        """A reference to a place: `&s.m` is addr(par(4), (f(0),))."""
        if isinstance(at, Local):
            return term('ref', self.word, at.number, at.path, is_mut)
        if isinstance(at, Memory):
            return pointer(at.pointer, at.path)
        if at.value[0] == 'agg':
            return term('constant', at.value)
        raise Unknown('the address of a value')

    def partial(self, state, value):
        """Notes what may panic in Rust: a sum, a quotient, a shift, an element, a part."""
        name = 'done' if self.word == 'A' else 'due'
        if value[0] != 'int':
            state[name] = state.get(name, frozenset()) | {value}

    def dropped(self, state, value, kept):
        """Notes that a value is dropped, and of which variants it has something to drop."""
        before = state.get((self.word, 'drops'), UNIT).parts
        state[self.word, 'drops'] = aggregate(*before, aggregate(value, term('kept', *kept)))

    def write(self, state, at, value, after=None):
        """Writes, and gives the store if it is one to memory."""
        if isinstance(at, Memory):
            return Store(pointer(at.pointer, at.path), value, after)
        if isinstance(at, Held):
            raise Unknown('a store to a value')
        state[self.word, at.number] = put(state.get((self.word, at.number), NOTHING), at.path, value)
        return None
