"""The documentation of erased functions, for tools/erase.py: marked clauses in Rust's words, under "Guarantees".

What a call returns by its contract is said as that call: `window self.new` as `self.window()`, since `window` has a
clause `result ≡ window self.now`. What else contracts see of `self` has no parentheses: `self.queue`. What isn't known
is refused.
"""
import re

from parts.erase_tokens import Refused

LEVELS = '↔', '→', '⊎', '×', '≡ ≢ ≤ <', '++ ∷', '+ -', '* /', '^'           # the loosest first
RANK = {sign: rank for rank, level in enumerate(LEVELS) for sign in level.split()}
TERM, WHOLE, CASE = RANK['≡'], len(LEVELS), -1    # what is looser than terms is a sentence
SIGNS = {'≡': '==', '≢': '!=', '≤': '<=', '×': 'and', '⊎': 'or', '↔': 'exactly if'}
CASES = {'OnOk': 'Ok', 'IfOk': 'Ok', 'OnErr': 'Err', 'IfSome': 'Some'}
CALLS = {                                         # a capital is what may need parentheses there
    'take': '{B}[..{a}]', 'drop': '{B}[{a}..]', 'length': '{A}.len()', 'min': 'min({a}, {b})', 'max': 'max({a}, {b})',
    'Some': 'Some({a})', 'IsOk': '{A}.is_ok()', 'IsErr': '{A}.is_err()', 'IsTrue': '{A}', 'IsFalse': '!{A}',
}
STATES = {'new', 'now', 'receiver', 'sender'}    # the last two: a stream that ends is said as the one in it
NAME = re.compile(r'(?!(?:let|in|if|then|else|record)$|[A-Z]\w*\.)«?([A-Za-z_]\w*)»?((?:\.\w+)*)')
# before a clause that a user of Rust wants, at most three of a function
MARK, MOST = '// Guarantee.', 3


def needs(true, why="a marked clause that can't be said"):
    if not true:
        raise Refused(why)


def term(said, rank=TERM):
    """A term, in parentheses if it is looser than that."""
    needs(said[1] >= TERM)
    return said[0] if said[1] >= rank else f'({said[0]})'


def sentence(said, rank=0):
    """A sentence that isn't looser than that."""
    needs(said[1] >= rank)
    return f'`{said[0]}`' if said[1] >= TERM else said[0]


def joined(left, sign, right):
    rank = RANK[sign]
    if rank < TERM:
        one, two = map(sentence, (left, right), (TERM, RANK['⊎']) if sign == '↔' else (rank + 1, rank))
        needs(sign != '⊎' or RANK['×'] not in (left[1], right[1]))
        if sign == '→':
            return f'if {one}' + (f' and {two[3:]}' if two[:3] == 'if ' else f', then {two}'), rank
        return f'{one} {SIGNS[sign]} {two}', rank
    if sign == '∷':
        left, sign = (f'[{term(left)}]', WHOLE), '++'
        if right[0] == '[]':
            return left
    if sign == '-':                               # it stops at 0
        return f'{term(left, WHOLE)}.saturating_sub({term(right)})', WHOLE
    needs(rank != TERM or min(left[1], right[1]) > TERM)
    space, sides = ' ' * (sign != '^'), (term(left, rank + (sign in ('++', '^'))), term(right, rank + (sign != '++')))
    return f'{space}{SIGNS.get(sign, sign)}{space}'.join(sides), rank


def read(text, held):
    """What a part of a clause says, and the rank of its loosest sign. `held` has what is in parentheses, by its
    place."""
    for signs in LEVELS:
        found = [*re.finditer(rf' ({"|".join(map(re.escape, signs.split()))}) ', text)]
        if found:
            sign = found[-1 if signs in ('+ -', '* /') else 0]
            return joined(read(text[:sign.start()], held), sign[1], read(text[sign.end():], held))
    name, *given = text.split(' ')
    if name in CASES:
        needs(len(given) == 2 and given[0] == 'result')
        takes, said = held.get(given[1], ('', None))
        return f'on `{CASES[name]}{takes}`: {sentence(said or read(given[1], held))}', CASE
    if not given:
        needs(name not in held or not held[name][0])
        return held[name][1] if name in held else (named(name), WHOLE)
    given = [read(one, held) for one in given]
    if name in CALLS:
        needs(CALLS[name].count('{') == len(given))
        return CALLS[name].format(**dict(zip('abcd', map(term, given))),
                                  **{k: term(one, WHOLE) for k, one in zip('ABCD', given)}), WHOLE
    of_self = len(given) == 1 and given[0][0] in ('self', 'old(self)')
    needs(name.isidentifier())
    return (f'{given[0][0]}.{named(name)}' if of_self else f'{named(name)}({", ".join(map(term, given))})'), WHOLE


def named(word):
    """What a number, a list without elements, or a name with its fields becomes."""
    name = NAME.fullmatch(word)
    needs(name or re.fullmatch(r'\[\]|\d[\d_]*', word))
    before, *fields = name[2].split('.') if name else ['']
    fields = [field for field in fields if field not in STATES]
    needs('old' not in fields[1:])
    # What a call returns has no value before it: `old` is a field there.
    was = fields[:1] == ['old'] and name[1] != 'result'
    return '.'.join([f'old({name[1]})', *fields[1:]] if was else [name[1], *fields]) if name else word


def said(clause, begin=''):
    """A clause, after these words of it, as `read` says it."""
    held, found = {}, re.fullmatch(rf'ensures(?: \w+)? {{ {begin}((?:\((?:\w+ )+: [^()]*\) )+→ )?(.*) }}',
                                   ' '.join(clause.split()))
    needs(found)

    def hold(inside):
        takes = re.match(r'λ (\w+)\. ', inside[1])
        parts = [read(one, held) for one in inside[1][takes.end() if takes else 0:].split(', ')]
        whole = (f'({", ".join(map(term, parts))})', WHOLE) if parts[1:] else parts[0]
        held[f'⟨{len(held)}⟩'] = f'({takes[1]})' if takes else '', whole
        return f'⟨{len(held) - 1}⟩'

    text, count = found[2], 1
    while count:
        text, count = re.subn(r'\(([^()]*)\)', hold, text)
    names = ', '.join(f'`{name}`' for name in ' '.join(re.findall(r'\(([\w ]*):', found[1] or '')).split())
    return (f'for each {names}: {sentence(read(text, held))}', CASE) if names else read(text, held)


def document(eraser):
    """Adds the marked clauses of public functions to their documentation."""
    tokens, shown, calls = eraser.tokens, [], {}
    for owner, header, k, head, begin, body, pub in eraser.functions:
        clauses = [j for j in range(begin, body) if tokens[j][0] == 'clause']
        if (pub is not None
            or re.search(r'\bfor\b|^(?:pub )?trait', header)) and clauses and not owner.endswith('Head'):
            call = re.match(r'fn (\w+)\(&self(?:, (\w+): \w+)?\) -> \w+\s', eraser.source(k, begin))
            shown.append((owner, k, head, clauses))
            for j in clauses if call else ():     # what a call returns that takes `self`, and one number at most
                try:
                    value = said(tokens[j][1], 'result ≡ ')
                    if value[1] == WHOLE and call[2] and (of := re.fullmatch(rf'(\w+)\(self, {call[2]}\)', value[0])):
                        calls.setdefault(owner, {})[of[1]] = call[1]
                    elif value[1] == WHOLE and not call[2] and re.match(r'self\W', value[0]):
                        calls.setdefault(owner, {})[value[0][4:]] = call[1]
                except Refused:
                    pass
    marks = {eraser.next(k): k for k, token in enumerate(tokens) if token[1] == MARK}
    for owner, k, head, clauses in shown:
        # slices, their length
        keeps = lambda one: one[1] if f'{one[1]}: &mut [' in eraser.source(k, clauses[0]) else one[0]
        lines, docs = [], [d for d in range(head, k) if tokens[d][0] == 'doc']
        for j in (j for j in clauses if j in marks):
            marks.pop(j)
            try:
                needs(docs and len(lines) < MOST, f'no documentation, or more than {MOST} marked clauses')
                text = re.sub(r'old\((\w+)\)(?=\.len\(\))', keeps, sentence(said(tokens[j][1]), CASE))
            except Refused as refused:
                eraser.refuse(tokens[k][2], refused)
            for value, call in sorted(calls.get(owner, {}).items(), key=lambda one: -len(one[0])):
                text = re.sub(rf'(?<![\w.])(self|old\(self\)){re.escape(value)}(?![\w(])', rf'\1.{call}()', text)
                text = re.sub(rf'(?<![\w.]){re.escape(value)}\((self|old\(self\)), ', rf'\1.{call}(', text)
            lines.append(f'\n{eraser.margin(head)}/// - {text}')
        if lines:
            lines[:0] = [f'\n{eraser.margin(head)}{line}'
                         for line in ('///', '/// # [Guarantees](crate#guarantees)', '///')]
            eraser.after[docs[-1]] = ''.join(lines)
    for k in marks.values():
        eraser.refuse(tokens[k][2], 'a mark of no clause that is shown')
