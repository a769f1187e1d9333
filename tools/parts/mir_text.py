"""The brackets and paths of rustc's MIR, where erased text is, and tables of bodies, for tools/widths.py and
same_program.py."""
import re
from pathlib import Path

WRITTEN = re.compile(r'// Written by tools/erase\.py from crates/(\w+)/src/([\w/]+)\.rt')

SIGN = re.compile(r'"(?:\\.|[^"\\])*"|[-=]>|[][(){}<>,]| as ')


def tables(name):
    """The lines of a text beside this file, by the heading `== WORD` before them, without comments."""
    found = {}
    for line in (Path(__file__).parent / name).read_text().splitlines():
        if line.startswith('== '):
            rows = found.setdefault(line[3:], [])
        elif line and not line.startswith('# '):
            rows.append(line.replace('\\n', '\n'))
    return found


def cells(row):
    """The parts of a table's row, which `~~` is between."""
    return re.split(r' ?~~(?: |\Z)', row)


class Listed:
    """A closed list of what a script lets through: patterns, each with its reason, and which of them let something
    through."""

    def __init__(self, rows):
        self.rows, self.used = [re.compile(cells(row)[0]) for row in rows], set()

    def has(self, what):
        found = {row.pattern for row in self.rows if row.fullmatch(what)}
        self.used |= found
        return bool(found)

    def unused(self):
        return [row.pattern for row in self.rows if row.pattern not in self.used]


def erased_files(root, *folders):
    """The erased files in folders of a crate's, by their paths: of each its module, in the prover's words and in
    rustc's."""
    found = {}
    for folder, file in ((folder, file) for folder in folders for file in sorted((root / folder).rglob('*.rs'))):
        if written := WRITTEN.match(file.read_text()):
            path = file.relative_to(root / folder).with_suffix('').parts
            module = '::'.join([written[1], *written[2].split('/')]).removesuffix('::lib')
            found[str(file.relative_to(root))] = module, '::'.join(part for part in path if part != 'mod')
    return found


def depths(text, start=0):
    """Each bracket, comma and ` as ` that is in no quotes, with its place and how many brackets are open behind it."""
    depth = 0
    for found in SIGN.finditer(text, start):
        sign = found.group()
        depth += (sign in '([{<') - (sign in ')]}>')
        yield found.start(), sign, depth


def closing(text, start):
    """Where the bracket ends that a place is in."""
    for at, _, depth in depths(text, start):
        if depth < 0:
            return at
    raise IndexError('a bracket is not closed')


def split(text):
    """Parts between commas."""
    cuts = [at for at, sign, depth in depths(text) if sign == ',' and not depth]
    parts = [text[begin + 1:end].strip() for begin, end in zip([-1, *cuts], [*cuts, len(text)])]
    return parts if parts[-1] else parts[:-1]


def called(text):
    """The function of a call, without its arguments."""
    return text[:next((at for at, sign, depth in depths(text) if sign == '(' and depth == 1), len(text))]


def without(path):
    """A path without what it has between angles."""
    while (shorter := re.sub(r'<(?:->|[^<>])*>', '', path)) != path:
        path = shorter
    return re.sub('<.*', '', path).replace('::::', '::').removesuffix('::')
