"""Ghosts of programs, for tools/erase.py: statements, functions and parameters that do nothing when a program runs, and
are there for contracts alone. What is one is seen by what the sources declare."""
import collections
import re

from parts.erase_tokens import Refused, Text

# A type of snapshots alone, which takes no bytes.
COUNT = re.compile(r'^ *(?:pub(?:\([^)]*\))? )?struct (\w+) \{\n(?: *(?:pub )?\w+: Snapshot<.*>,\n)+ *\}', re.M)
# A body that does nothing: it names places.
IDLE = re.compile(r'\{ (?:let _ = (?:& )?\w+ (?:\. \w+ )*; )*\}')
# A call as a statement: what is assigned, the path, the name, and what it is given.
CALL = re.compile(r'(?:let (?:mut )?(\w+) = )?((?:\w+ (?:::|\.) )*)(\w+) \( ([^(){};]*)\) ;')
# Arguments that do nothing: places, and references to them.
PLACES = re.compile(r'(?:(?:& )?(?:mut )?\w+ (?:\. \w+ )*(?:, )?)*')
OWNER = re.compile(r'(?:.*?\b(?:for|trait) |impl(?:<(?:[^<>]|<(?:[^<>]|<[^<>]*>)*>)*>)? )(\w+)', re.S)
OF_TRAIT = re.compile(r'\bfor\b|\btrait\b')


def is_ghost(path, text):
    """Whether a file is there for contracts alone: laws, or a type of snapshots alone."""
    return path.stem == 'laws' or COUNT.search(text) is not None


def around(text, margin):
    """The head of the impl or trait that a place is in, if it has a margin, and the type's name: of a text up to it."""
    found = re.findall(r'^(?:impl|(?:pub )?trait)\b[^{]*', text, re.M) if margin else []
    return (found[-1], OWNER.match(found[-1])[1]) if found else ('', '')


class Ghosts:
    """What of these sources does nothing: `types` of snapshots alone; `idle` functions, each by its type, or by its
    module, and its name; and `readers`, methods that are lent `self` alone, and to be read, each by its type, and by
    none if all of the name are."""

    def __init__(self, sources=()):
        self.types, self.idle = set(), set()
        methods = collections.defaultdict(set)     # of a type and a name, and of a name: whether each is a reader
        for path, text in sources:
            self.types |= {*COUNT.findall(text)}
            try:
                self.note(path, text, methods)
            except Refused:                        # the eraser of this file says so
                pass
        self.readers = {method for method, are in methods.items() if are == {True}}

    def note(self, path, text, methods):
        """Notes a file's functions."""
        read = Text(text)
        for k, (kind, word, at) in enumerate(read.tokens):
            name = read.tokens[read.next(k + 1)][1] if word == 'fn' else ''
            if name.isidentifier():
                said = read.plain(k, *read.function_ends(k))
                head, owner = around(text[:at], read.margin(k))
                for of in ('', owner):
                    methods[of, name].add(said.startswith(f'fn {name} ( & self ) -> '))
                is_idle = re.fullmatch(rf'fn {name} \([^()]*\) {IDLE.pattern} ', said)
                if is_idle and not OF_TRAIT.search(head):
                    self.idle.add((owner or path.stem, name))
