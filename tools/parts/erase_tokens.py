"""Rattle's text in tokens, for tools/erase.py: a contract's clause, and a ghost item or member, is one token."""
import re

TOKEN = re.compile(r"""
    (?P<space>\s+) | (?P<doc>//[/!][^\n]*) | (?P<note>//[^\n]*) | (?P<unread>/\*|b?r\#*"|c")
  | (?P<text>b?"(?:\\.|[^"\\])*") | (?P<char>b?'(?:\\(?:x..|u\{[^}]*\}|.)|[^\\'])') | (?P<life>'\w+)
  | (?P<word>[A-Za-z_]\w*) | (?P<number>\d\w*(?:\.\d\w*)?) | (?P<sign>::|->|=>|.)
""", re.X | re.S)
CLAUSE = re.compile(r'(?:requires|ensures\*?)(?:\s+[a-z_]\w*)?\s*(?=\{)')
GHOST = re.compile(r'ghost\s+(?:use\b[^;]*|[A-Za-z_]\w*\s*)(?=[=:;])')      # `= {..};`, `: {..};`, `: {..} = {..};`
BRACKET = re.compile(r'[(\[{)\]}]')
OPEN, CLOSE, SPACE = '([{', ')]}', ('space', 'doc', 'note')


class Refused(Exception):
    pass


def words(text):
    """The tokens of Rust that a text has, without spaces and comments."""
    return [m.group() for m in TOKEN.finditer(text) if m.lastgroup not in SPACE]


class Text:
    """A file's text, and its tokens: kind, text, and where it starts."""

    def __init__(self, text):
        self.text, self.tokens = text, []
        self.read()

    def refuse(self, at, message):
        here = self.text[at:at + 70].split('\n')[0]
        raise Refused(f'{self.text.count(chr(10), 0, at) + 1}: {message}: {here}')

    def logic(self, i):
        """The end of the bracket of logic that opens at i."""
        depth = 0
        for m in BRACKET.finditer(self.text, i):
            depth += 1 if m.group() in OPEN else -1
            if not depth:
                return m.end()
        self.refuse(i, 'a bracket of logic is not closed')

    def read(self, i=0):
        while i < len(self.text):
            m = TOKEN.match(self.text, i)
            kind, end = m.lastgroup, m.end()
            if m.group() in ('requires', 'ensures'):
                clause = CLAUSE.match(self.text, i) or self.refuse(i, 'not a clause')
                kind, end = 'clause', self.logic(clause.end())
            elif m.group() == 'ghost':
                kind, end = 'ghost', self.ghost(i)
            elif kind == 'unread':
                self.refuse(i, 'a form that the eraser does not read')
            self.tokens.append((kind, self.text[i:end], i))
            i = end
        self.tokens.append(('end', '', i))

    def ghost(self, i):
        """The end of the ghost item or member that begins at i."""
        i = (GHOST.match(self.text, i) or self.refuse(i, 'an unknown ghost form')).end()
        while self.text[i:i + 1] in (':', '='):
            brace = re.compile(r'[:=]\s*(?=\{)').match(self.text, i) or self.refuse(i, 'a ghost member without braces')
            i = re.compile(r'\s*').match(self.text, self.logic(brace.end())).end()
        return i + 1 if self.text[i:i + 1] in (';', ',') else self.refuse(i, 'a ghost member that does not end')

    def next(self, k):
        """The first token from k on that isn't space or a comment."""
        while self.tokens[k][0] in SPACE:
            k += 1
        return k

    def before(self, k):
        """The last token before k that isn't space or a comment."""
        return next((self.tokens[j][1] for j in range(k - 1, -1, -1) if self.tokens[j][0] not in SPACE), '')

    def group(self, k):
        """The token after the bracket that opens at k."""
        start, depth = k, 1
        while depth:
            k += 1
            kind, word, _ = self.tokens[k]
            if kind == 'end':
                self.refuse(self.tokens[start][2], 'a bracket is not closed')
            depth += (kind == 'sign') * ((word in OPEN) - (word in CLOSE))
        return k + 1

    def until(self, k, *signs):
        """The first token from k on that is one of these and in no bracket, or a clause."""
        while self.tokens[k][1] not in signs and self.tokens[k][0] != 'clause':
            if self.tokens[k][0] == 'end':
                self.refuse(self.tokens[k][2], f'no {signs[0]}')
            k = self.group(k) if self.tokens[k][1] in ('(', '[') else k + 1
        return k

    def source(self, start, end):
        return self.text[self.tokens[start][2]:self.tokens[end][2]]

    def margin(self, k):
        before = self.text[:self.tokens[k][2]].rpartition('\n')[2]
        return before[:len(before) - len(before.lstrip())]

    def plain(self, *spans):
        """The tokens of some spans that run, with one space after each."""
        return ''.join(f'{word} ' for start, end in zip(spans[::2], spans[1::2])
                       for kind, word, _ in self.tokens[start:end] if kind not in ('clause', 'ghost', *SPACE))

    def function_ends(self, k):
        """Where the signature ends of the function at k, and where its body begins and ends."""
        begin = body = self.until(k, '{', ';')
        while self.tokens[body][0] == 'clause':
            body = self.next(body + 1)
        return begin, body, self.group(body) if self.tokens[body][1] == '{' else body
