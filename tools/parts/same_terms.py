"""The terms of tools/same_program.py: what a program computes, each a word and its parts. Two programs compute the same
where their terms are equal. same_names.txt has an example of each."""
import contextlib
from collections import namedtuple

from parts import fault
from parts.mir_text import tables

# The words of terms, and where their parts are, as same_names.txt lists and shows them.
WORDS = [row.split('  ')[0].split() for row in tables('same_names.txt')['forms']]
PLACES = {(word, name.lstrip('*')): slice(k, None) if name[0] == '*' else k
          for word, *names in WORDS for k, name in enumerate(names, 1)}
# What has parts that are met one by one where ways meet; of some a part is a number, or a way to a part of a value.
MET = {**dict.fromkeys('agg op not slice next iter sp len discr repeat'.split(), ()), 'load': ('path',),
       'part': ('step',), 'addr': ('path',), 'upd': ('step',), 'cast': ('width', 'old')}
# What is known of a number on a way: which it is, or which ones it isn't.
Known = namedtuple('Known', 'number others', defaults=[None, frozenset()])


class Unknown(Exception):
    """A form that isn't understood."""


class Differ(Exception):
    """The two programs differ."""


class Broken(Exception):
    """These scripts failed."""


@contextlib.contextmanager
def reading(name):
    """While a function is read other exceptions are faults of these scripts: it says of which function, and where."""
    try:
        yield
    except (Unknown, Differ, Broken):
        raise
    except Exception as error:
        raise Broken(f'{name}: {fault(error)}') from error


class Term(tuple):
    """A word and its parts, which same_names.txt names: of term('op', '+', a, b) the part `sign` is '+'."""
    __slots__ = ()

    def __getattr__(self, name):
        if (self[0], name) not in PLACES:
            raise AttributeError(f'{self[0]} has no {name}')
        return self[PLACES[self[0], name]]

    def __repr__(self):
        return f's{self.number}' if self[0] == 'sym' else f'{self[0]}({", ".join(map(repr, self[1:]))})'


def term(*parts):
    """A term of its word and parts: term('par', 1)."""
    return Term(parts)


def integer(number):
    return term('int', number)


def aggregate(*parts):
    """A value of parts that is no variant: (a, b), [a, b] or S { m: a, n: b }."""
    return term('agg', None, *parts)


TRUE, FALSE, UNIT, NOTHING = integer(1), integer(0), aggregate(), term('nothing')


def take(value, step):
    """A part of a value: of agg(None, par(1), par(2)) and f(1) it is par(2)."""
    kind, which = step
    if value[0] == 'agg' and value.variant is None:
        k = which if kind == 'f' else which.number if kind == 'i' and which[0] == 'int' else len(value)
        if k < len(value.parts):
            return value.parts[k]
    if value[0] == 'agg' and kind == 'v' and value.variant == which[0]:
        return value.parts[which[1]]
    if value[0] == 'load':
        return term('load', value.pointer, value.path + (step,), value.ver)
    if value[0] == 'upd' and value.step == step:
        return value.new
    if value[0] == 'upd' and kind == value.step[0] == 'f':
        return take(value.value, step)
    return term('part', value, step)


def put(value, path, new):
    """A value with a part replaced: of agg(None, par(1), par(2)), [f(1)] and int(3) it is agg(None, par(1), int(3))."""
    if not path:
        return new
    step, *rest = path
    inner = put(take(value, step), rest, new)
    is_field = step[0] == 'f'
    if is_field and value[0] == 'agg' and value.variant is None and step.which < len(value.parts):
        return aggregate(*value.parts[:step.which], inner, *value.parts[step.which + 1:])
    if value[0] == 'upd' and value.step == step:
        return term('upd', value.value, step, inner)
    if is_field and value[0] == 'upd' and value.step[0] == 'f' and step.which < value.step.which:
        return term('upd', put(value.value, [step], inner), value.step, value.new)
    return term('upd', value, step, inner)


def discriminant(value):
    """The number of a value's variant: of Some(a) it is int(1)."""
    return integer(value.variant) if value[0] == 'agg' and value.variant is not None else term('discr', value)


def pointer(base, path):
    """What points to a part of what is pointed to: `&s.m` of `s`."""
    if not path:
        return base
    return term('addr', base.pointer, base.path + tuple(path)) if base[0] == 'addr' else term('addr', base, tuple(path))


def sliced(start, count):
    """The slice that begins at a pointer: of sp(par(3)) and len(par(3)) it is par(3)."""
    if start[0] == 'sp' and start.slice[0] == 'slice':
        start = start.slice.pointer
    return start.slice if start[0] == 'sp' and count == term('len', start.slice) else term('slice', start, count)


def length(of):
    """How many elements a slice has."""
    return of.size if of[0] == 'slice' else term('len', of)


SIGNS = dict(Add='+', Sub='-', Mul='*', Div='/', Rem='%', BitAnd='&', BitOr='|', BitXor='^', And='&', Or='|', Xor='^',
             Shl='<<', Shr='>>', Lt='<', Gt='>', Le='<=', Ge='>=', Eq='==', Ne='!=',
             WrapAdd='wrapping_add', WrapSub='wrapping_sub', WrapMul='wrapping_mul')
FOLDED = {'+': int.__add__, '-': int.__sub__, '*': int.__mul__, '<<': lambda a, b: a << min(b, 64),
          '==': int.__eq__, '<': int.__lt__, '<=': int.__le__, '/': lambda a, b: a // b if b else -1}


def negated(value):
    """The other of two truth values."""
    if value in (TRUE, FALSE):
        return FALSE if value == TRUE else TRUE
    return value.value if value[0] == 'not' else term('not', value)


def is_test(value):
    return value[0] == 'op' and value.sign in ('<', '<=', '==', 's<', 's<=')


def operation(sign, one, two, width=64):
    """An operator's value: a > b is op('<', par(2), par(1)), and 3 + 4 is int(7). The width is how many bits the
    numbers have, below 0 if they have a sign."""
    if width < 0 and sign in ('<', '<=', '>', '>=', '/', '%', '>>'):
        sign = f's{sign}'
    if sign[-2:].lstrip('s') in ('>', '>='):
        sign, one, two = sign.replace('>', '<'), two, one
    if sign == '!=':
        return negated(operation('==', one, two))
    if sign == '<=' and one[0] == 'op' and (one.sign, one.two) == ('+', integer(1)):     # whose sum is proved
        sign, one = '<', one.one
    if sign == '<=' and one[0] == 'int' and one.number > 0:                     # 1 <= a, which is 0 < a
        sign, one = '<', integer(one.number - 1)
    if sign == '<=' and two == integer(2 ** 64 - 1):                            # the greatest number, which guards test
        return TRUE
    if sign in ('<<', '>>') and two[0] == 'cast' and two.width > two.old > 0:
        two = two.value
    if sign == '==' and one[0] == 'int' and two[0] != 'int':
        one, two = two, one
    if one[0] == two[0] == 'int' and sign in FOLDED:
        number = int(FOLDED[sign](one.number, two.number))
        if 0 <= number < 2 ** abs(width):
            return integer(number)
    return term('op', f'{sign} {abs(width)}' if sign[:4] == 'wrap' or sign == '<<' else sign, one, two)


def cast(width, old, value, has_sign=False):
    """A number in another width: a as u8 is cast(8, 64, par(1)), and 7 as u8 int(7)."""
    if width == old or value[0] == 'int' and 0 <= value.number < 2 ** width:
        return value
    return term('cast', width, -old if has_sign else old, value)


def any_part(value, test):
    """Whether a term, or one in it, is such."""
    return isinstance(value, tuple) and (test(value) or any(any_part(part, test) for part in value))


def holds_ref(value):
    """Whether a term has a reference to a local, a parameter's number, or what isn't known."""
    return any_part(value, lambda one: one[:1] in (('ref',), ('N',), ('nothing',), ('forgotten',)))


def mentions(value, key):
    """Whether a term has a symbol of this key."""
    return any_part(value, lambda one: one[:1] == ('sym',) and one.key == key)


def settled(value, facts, memo):
    """A term under what is known on a way: if a < b is known to be 1, not(a < b) is int(0). `memo` has what was settled
    by the same facts."""
    if not isinstance(value, tuple) or not value:
        return value
    if value not in memo:
        out = value
        if value[0] != 'ref' and facts.get(value, Known()).number is None:
            out = type(value)(settled(part, facts, memo) for part in value)
            if out[0] == 'op' and out != value:
                sign, _, width = out.sign.partition(' ')
                out = operation(sign, out.one, out.two, int(width or 64))
            elif out[0] == 'not':
                out = negated(out.value)
        if out[0] == 'op' and out.sign == '==' and out.two[0] == 'int' and \
                out.two.number in facts.get(out.one, Known()).others:
            out = FALSE
        known = facts.get(out, Known()).number
        memo[value] = out if known is None else integer(known)
    return memo[value]


def met(one, two, key, pairs):
    """What two terms have in common: of (a, b) and (a, 3) it is (a, s0). Where they differ is a symbol of this key, and
    `pairs` has which two it is for."""
    if one == two and not mentions(one, key):
        return one
    is_alike = isinstance(one, tuple) and isinstance(two, tuple) and one and one[:1] == two[:1] and len(one) == len(two)
    fixed = [PLACES[one[0], name] for name in MET[one[0]]] if is_alike and one[0] in MET else None
    if fixed is None or one[0] in ('agg', 'op') and one[1] != two[1] or \
            any(shape(one[k]) != shape(two[k]) for k in fixed):
        return pairs.setdefault((one, two), term('sym', key, len(pairs)))
    return Term(met_way(a, b, key, pairs) if k in fixed else met(a, b, key, pairs) if isinstance(a, tuple) else a
                for k, (a, b) in enumerate(zip(one, two)))


def met_way(one, two, key, pairs):
    """What two ways to a part have in common, of one shape: their indices are met."""
    if not isinstance(one, tuple):
        return one
    return term('i', met(one.which, two.which, key, pairs)) if one[:1] == ('i',) else \
        type(one)(met_way(a, b, key, pairs) for a, b in zip(one, two))


def shape(path):
    """A way to a part, but for the indices."""
    if not isinstance(path, tuple):
        return path
    return 'i' if path[:1] == ('i',) else tuple(map(shape, path))


def shown(value):
    return str(value)[:160]
