#!/usr/bin/env python3
"""Writes the declarations of the library for C from the exports of crates/net_ffi.

    python3 tools/ffi.py               writes c/net_base.h, net_bound.h, the shim, net_base.pc and abi.txt
    python3 tools/ffi.py --check       compares the files with what it would write; status 1 if one is stale
    python3 tools/ffi.py --tests FILE  writes the program that calls each export at the values of exports.txt
    python3 tools/ffi.py --through FILE     writes the header by which that program makes the calls of net_bound.h
    python3 tools/ffi.py --sequence FILE    writes the program that makes one long sequence of calls of all

It reads, in the order of the modules in lib.rt, but those in FIRST before,
- each `#[unsafe(no_mangle)] pub extern "C" fn`, with its doc comment;
- the types `..Status`, each an enum in C, whose enumerators are those constants `NET_BASE_..` of the type `Status` that
  its comment names, and as `NET_BASE_NONE` what the function `no_number` returns: no constant knows how many bits a
  `usize` has;
- each `#[repr(C)]` struct that one of these takes or returns, of this crate or of one that it uses.

A slice is a pointer and then a length, with `_length` after the slice's name; `&T` and `&mut T` are pointers. In C a
struct's name is in snake case, without `Net` before and `Head` after it, and has the prefix `net_base_`. The doc
comment of a module heads its section, a group of doxygen's, but for what follows its first paragraph: that is in the
comment of the section's head. Of a struct of another crate only the first paragraph is taken. The crate's own comment,
with the duties and refusals, begins the header. The index there is of the sections, in their order.
"""
import argparse
import dataclasses
import hashlib
import pathlib
import re
import sys
import textwrap

from parts import ROOT
from parts.mir_text import split

EXPORTS = ROOT / "crates/net_ffi"
HEADER = ROOT / "c/net_base.h"
CONFIG = ROOT / "c/net_base.pc"
ABI = ROOT / "c/abi.txt"
# Modules whose sections come first, by task.
FIRST = ["refusals", "ring", "packets", "fragments", "parts_sum", "finite_receiver", "receiving_end", "sending_end"]
TEMPLATE = ROOT / "tools/parts/net_base.h.in"
WIDTH = 100
C_TYPES = {"usize": "size_t", "bool": "bool"}
C_TYPES |= {f"{sign}{bits}": f"{'u' * (sign == 'u')}int{bits}_t" for sign in "iu" for bits in (8, 16, 32, 64)}
# The constants that arrays have as lengths.
LENGTHS = dict(re.findall(r"const (\w+): usize = (\d+);",
                          "".join(path.read_text() for path in EXPORTS.glob("src/*.rt"))))
# The type of the numbers of all statuses, an alias of `u32`.
STATUS = "Status"
# The statuses that a call can answer, by the type of its result: an alias of `u32` whose comment names them in its
# first paragraph, and then says what one of them means there, if that isn't what it means elsewhere. Each is an enum.
COMMENTS = {name: re.sub("^/// ?", "", doc, flags=re.M) for doc, name in re.findall(
    r"((?:^///.*\n)+)^pub type (\w+Status) = u32;", (EXPORTS / "src/refusals.rt").read_text(), flags=re.M)}
ALIASES = {name: " ".join(doc.partition("\n\n")[0].split()) for name, doc in COMMENTS.items()}
MEANT = {(name, f"NET_BASE_{status}"): " ".join(f"{words[0].upper()}{words[1:]}".split())
         for name, doc in COMMENTS.items()
         for status, words in re.findall(r"^- `([A-Z_]+)`: (.*(?:\n  .*)*)$", doc, flags=re.M)}
ANSWERS = {name: re.findall(r"`([A-Z_]+)`", doc) for name, doc in ALIASES.items()}
REFUSED_FOR_NULL = {name for name, doc in ALIASES.items() if "`REFUSED` for null alone" in doc}
C_TYPES |= {name: f"enum net_base_{re.sub('Status$', '', name).lower()}_status" for name in ANSWERS}
# Results that a refusal shows in. Of other numbers 0 is returned for null alone.
REFUSES = {"bool", "usize", "u64", *ANSWERS}
C_LIMITS = {"usize": "SIZE"}
C_LIMITS |= {f"{sign}{bits}": f"{'U' * (sign == 'u')}INT{bits}" for sign in "iu" for bits in (8, 16, 32, 64)}


@dataclasses.dataclass
class Item:
    """A struct (fields as members), an enum or a constant (its value as text), or an export (parameters as members).
    The members of an enum are its constants."""

    kind: str
    name: str
    doc: list
    members: list = dataclasses.field(default_factory=list)
    type: str = ""
    text: str = ""
    requires: bool = False


@dataclasses.dataclass
class Member:
    name: str
    type: str
    doc: list
    is_public: bool


def doc_of(text):
    """The lines of the doc comment in a text."""
    return [line[1:] if line.startswith(" ") else line for line in re.findall(r"^\s*///(.*)$", text, flags=re.M)]


def members_of(text):
    """Fields or parameters: a name, a type, a doc comment each."""
    docs, found = [], []

    def kept(match):
        docs.append(match[0])
        return f"\0{len(docs) - 1}\0"

    code = re.sub(r"^\s*//(?!/).*$|#\[[^\]]*\]", "", text, flags=re.M)
    for part in split(re.sub(r"(?:^\s*///.*\n)+", kept, code, flags=re.M)):
        doc, member = re.fullmatch(r"(?:\0(\d+)\0)?(.*)", part, flags=re.S).groups()
        public, name, kind = re.fullmatch(r"(pub )?(?:mut )?(\w+)\s*:\s*(.+)", member.strip(), flags=re.S).groups()
        found.append(Member(name, plain_type(kind), doc_of(docs[int(doc)]) if doc else [], bool(public)))
    return found


def plain_type(text):
    """A type without lifetimes and paths, on one line, with numbers as the lengths of arrays."""
    text = re.sub(r"<\s*'\w+\s*>|'\w+\s*", "", " ".join(text.split()))
    return re.sub(r"(?<=; )[A-Z_]+(?=\])", lambda it: LENGTHS[it[0]], re.sub(r"\b(?:\w+::)+", "", text))


def closing(text, at):
    """The index of the bracket that belongs to the one at an index."""
    depth = 0
    for index in range(at, len(text)):
        depth += (text[index] in "([{") - (text[index] in ")]}")
        if depth == 0:
            return index
    raise ValueError(f"no end: {text[at:at + 40]}")


REQUIRES = "# Requires"
ITEM = re.compile(
    r"(?P<head>(?:^[ \t]*(?:///.*|#\[.*\])\n)*)"
    r'^pub (?:(?P<struct>struct)|(?P<enum>type)|(?P<const>const)|(?:unsafe )?extern "C" (?P<fn>fn)) (?P<name>\w+)',
    flags=re.M,
)


def items_of(path):
    """The exports, constants and `#[repr(C)]` structs of a file, in their order."""
    text = path.read_text()
    for match in ITEM.finditer(text):
        head, name, at = match["head"], match["name"], match.end()
        if match["const"]:
            kind, value = re.match(r"\s*:\s*(\w+)\s*=\s*(.*?);", text[at:], flags=re.S).groups()
            if name.startswith("NET_BASE_"):
                yield Item("const", name, doc_of(head), type=kind, text=value)
        elif match["enum"] and name in ANSWERS:
            yield Item("enum", name, doc_of(head))
        elif match["struct"] and "#[repr(C)]" in head:
            opening = text.index("{", at)
            yield Item("struct", name, doc_of(head), members_of(text[opening + 1 : closing(text, opening)]))
        elif match["fn"] and "no_mangle" in head:
            opening = text.index("(", at)
            end = closing(text, opening)
            result = re.match(r"\s*->\s*(.+?)\s*(?=\n|\{|requires|ensures)", text[end + 1 :])
            members, doc = members_of(text[opening + 1 : end]), doc_of(head)
            requires = bool(re.search(r"^\s*requires\b", text[end : text.index("\n{", end)], flags=re.M))
            if requires != (REQUIRES in doc):
                sys.exit(f"ffi: {name}: a clause `requires` and a heading `{REQUIRES}` go together")
            yield Item("fn", name, doc, members, plain_type(result[1]) if result else "", requires=requires)
    for head in re.findall(r"((?:^///.*\n)+)(?:^#\[.*\n)*^pub fn no_number\(\) -> usize$", text, flags=re.M):
        yield Item("const", "NET_BASE_NONE", doc_of(head), type="usize", text="usize::MAX")


def first_paragraph(lines):
    return lines[: lines.index("")] if "" in lines else lines


def module_doc(path):
    """The lines of a file's own doc comment."""
    lines = re.match(r"(?://!.*\n)*", path.read_text())[0].splitlines()
    return [line[3:].strip() for line in lines]


def modules_of(crate):
    """The files of a crate by section: those in FIRST, then in the order of `mod` in its root. One of src/heads and
    another of the same name are one section."""
    files = [crate / "src/lib.rt"]
    for path in files:
        folder = path.parent if path.name == "lib.rt" else path.with_suffix("")
        for name in re.findall(r"^(?:pub )?mod (\w+);", path.read_text(), flags=re.M):
            files.append(folder / f"{name}.rt")
    sections = {}
    for path in sorted(files, key=lambda path: (FIRST + [path.stem]).index(path.stem)):
        sections.setdefault(path.stem, []).append(path)
    return [sorted(paths, key=lambda path: path.parent.name != "heads") for paths in sections.values()]


def core_type(kind):
    """The type that a reference, a slice or an array is of."""
    return re.sub(r"^[&*](?:mut |const )?|^\[|(?:; \w+)?\]$", "", kind) if kind[:1] in "&*[" else kind


def structs_of(name):
    """What `core_type` leaves at the end, a struct's name or a number's."""
    while core_type(name) != name:
        name = core_type(name)
    return name


def refusal(item):
    """What a refused call returns in place of its result, as code: that of a struct has its own function in net_ffi."""
    if "nothing changes" not in "".join(item.doc) and re.search(r"refused.*: true", " ".join(item.doc)):
        return "true"
    names = {"": "", "bool": "false", "usize": "refusals::no_number()", "u64": "u64::MAX"}
    names |= {name: "refusals::NET_BASE_REFUSED" for name in ANSWERS}
    return names.get(item.type, "0" if item.type in C_TYPES else f"refused_{snake(item.type)}()")


class Library:
    """The sections of the declarations: each a text and its items."""

    def __init__(self, crate):
        self.structs = self.all_structs(crate)
        self.sections, self.done = [], set()
        for paths in modules_of(crate):
            section, statuses = [], {}
            for item in [item for path in paths for item in items_of(path)]:
                if item.kind == "fn":
                    self.need(section, [member.type for member in item.members] + [item.type])
                if item.type == STATUS and item.kind == "const":
                    statuses[item.name.removeprefix("NET_BASE_")] = item
                elif item.kind != "struct":
                    section.append(item)
            for item in [item for item in section if item.kind == "enum"]:
                item.doc = first_paragraph(item.doc)
                item.members = [statuses[name] for name in ANSWERS[item.name]]
                item.members = [dataclasses.replace(it, doc=[MEANT.get((item.name, it.name)) or "\n".join(it.doc)])
                                for it in item.members]
            if section:
                section.sort(key=lambda item: ["struct", "enum", "const", "fn"].index(item.kind))
                self.sections.append((module_doc(paths[0]), section, paths[0].stem))

    def all_structs(self, crate):
        """Each `#[repr(C)]` struct of the crates, by name; the export crate's own take precedence."""
        found = {}
        for path in sorted(crate.parent.glob("*/src/**/*.rt")) + sorted(crate.glob("src/**/*.rt")):
            if "#[repr(C)]" not in path.read_text():
                continue
            for item in items_of(path):
                if item.kind == "struct":
                    found[item.name] = item
                    if not path.is_relative_to(crate):
                        item.doc = first_paragraph(item.doc)
        return found

    def need(self, section, kinds):
        """Adds the structs of these types that no section has yet, inner ones first."""
        for name in map(structs_of, kinds):
            if name and name not in C_TYPES and name not in self.done:
                if name not in self.structs:
                    sys.exit(f"ffi: no #[repr(C)] struct {name}")
                self.done.add(name)
                self.need(section, [field.type for field in self.structs[name].members])
                section.append(self.structs[name])

    def exports(self):
        return [item for _, section, _ in self.sections for item in section if item.kind == "fn"]

    def answer(self, kind):
        """The type of the statuses that a type is, or has first; none else."""
        if kind in self.structs:
            kind = self.structs[kind].members[0].type
        return kind if kind in ANSWERS else None


def snake(name):
    """A type's name in snake case."""
    return re.sub(r"(?<=[a-z0-9])(?=[A-Z])", "_", name).lower()


def c_struct(name):
    return f"struct net_base_{snake(re.sub(r'^Net|Head$', '', name))}"


def c_type(kind):
    return C_TYPES.get(kind) or c_struct(kind)


def c_members(member):
    """How C declares a field or a parameter: two of them for a slice."""
    kind, name = member.type, member.name
    if slice_of := re.fullmatch(r"&(mut )?\[([^;]+)\]", kind):
        const = "" if slice_of[1] else "const "
        return [f"{const}{c_type(slice_of[2])} *{name}", f"size_t {name}_length"]
    if pointer := re.fullmatch(r"[&*](mut |const )?(.+)", kind):
        const = "" if pointer[1] == "mut " else "const "
        return [f"{const}{c_type(pointer[2])} *{name}"]
    if array := re.fullmatch(r"\[(.+); (\w+)\]", kind):
        return [f"{c_type(array[1])} {name}[{array[2]}]"]
    return [f"{c_type(kind)} {name}"]


def plain_text(lines):
    """A doc comment without links."""
    return re.sub(r"\[(`[^`]*`)\](?:\([^)]*\))?", r"\1", "\n".join(lines))


# Words of other crates' comments, as expressions, and what C is told in place of them.
OTHERWISE = {r",\s+and\s+is\s+0\s+if\s+the\s+head\s+is\s+canonical": "",
             r"\bA\s+held\s+run,\s+by\s+absolute\s+positions":
             "A waiting range, or a block of an acknowledgement, by positions of the stream",
             r"\bheld\s+runs\b": "waiting ranges"}


def c_text(lines, structs):
    """A doc comment with the words of C."""
    text = c_limits(plain_text(lines))
    for said, instead in OTHERWISE.items():
        text = re.sub(said, instead, text)
    text = re.sub(r"\n\n# (\w+)\n\n(.)", lambda it: f" {it[1]}: {it[2].lower()}", text)
    text = re.sub(r"\b(\w+)\.len\(\)", r"\1_length", text).replace("`usize`", "`size_t`")
    return re.sub(r"`(\w+)`", lambda it: f"`{c_struct(it[1])}`" if it[1] in structs else it[0], text)


def wrapped_text(text, width):
    """The lines of a text in paragraphs and lists, wrapped."""
    rows = []
    for paragraph in re.split(r"\n\n", text):
        rows += [""] * bool(rows)
        for part in re.split(r"\n(?=- |\d+\. )", paragraph):
            later = " " * len(re.match(r"- |\d+\. |", part)[0])
            rows += textwrap.wrap(
                " ".join(part.split()), width, subsequent_indent=later, break_long_words=False, break_on_hyphens=False
            )
    return rows


def c_comment(lines, structs, indent=""):
    """A comment, wrapped; none if there is no text."""
    if not lines:
        return []
    wrapped = wrapped_text(c_text(lines, structs), WIDTH - len(indent) - 4)
    *rows, last = [f"{indent}/** {wrapped[0]}", *[f"{indent} * {line}".rstrip() for line in wrapped[1:]]]
    return [*rows, last, f"{indent} */"] if len(last) + 3 > WIDTH else [*rows, f"{last} */"]


def documented(code, lines, structs):
    """A field or an enumerator, with its comment behind it, or before it where that is too long."""
    text = wrapped_text(c_text(lines, structs), 1000)
    line = f"    {code} /**< {text[0]} */" if len(text) == 1 else ""
    return [line] if 0 < len(line) <= WIDTH else [*c_comment(lines, structs, "    "), f"    {code}"]


def filled(head, parts, tail):
    """A declaration on one line, or with its parts on lines of their own as far as they fit."""
    line = head + ", ".join(parts) + tail
    if len(line) <= WIDTH:
        return [line]
    kept = ", ".join(part.replace(" ", "\0") for part in parts) + tail
    return [head] + [f"    {row}".replace("\0", " ") for row in textwrap.wrap(kept, WIDTH - 4, break_long_words=False)]


def enumerator(answer, name):
    """C's name of a status, or of the statuses in a text, where the calls of a type answer it."""
    prefix = re.sub("Status$", "", answer).upper()
    return re.sub(rf"\bNET_BASE_({'|'.join(ANSWERS[answer])})\b", rf"NET_BASE_{prefix}_\1", name)


def said(lines, answer):
    """A comment with the names of the statuses that a call answers."""
    return [enumerator(answer, line) for line in lines] if answer else lines


def must_use(item, structs):
    """Whether a result isn't to be thrown away: it may say that the call was refused, or the call does nothing else."""
    return item.type in REFUSES or item.type in structs


def attributes(item):
    """What a compiler is told of an export's slices."""
    parts = [part for member in item.members for part in c_members(member)]
    slices = [(at, part) for at, part in enumerate(parts, start=1) if "*" in part and at < len(parts)
              and parts[at].endswith(f"{part.rpartition('*')[2]}_length")]
    return [f"NET_BASE_{'READS' if part.startswith('const') else 'WRITES'}({at}, {at + 1})" for at, part in slices]


def restricted(parts):
    """Parameters, of which none overlaps what a call may write."""
    pointers = [part for part in parts if "*" in part]
    if len(pointers) < 2 or all(part.startswith("const") for part in pointers):
        return parts
    return [part.replace("*", "*NET_BASE_RESTRICT ") for part in parts]


def c_item(item, library, more=()):
    """The lines that declare an item in C, with `more` lines of its comment."""
    structs, answer = library.structs, library.answer(item.type)
    lines = c_comment([*said(item.doc, answer), *more], structs)
    if item.kind == "const":
        return lines + [f"#define {item.name} {c_limits(item.text)}"]
    if item.kind == "struct":
        lines.append(f"{c_struct(item.name)} {{")
        for field in item.members:
            doc = said(field.doc, library.answer(field.type))
            lines += documented(" ".join(f"{part};" for part in c_members(field)), doc, structs)
        return lines + ["};"]
    if item.kind == "enum":
        lines.append(f"{c_type(item.name).replace('enum', 'enum NET_BASE_32_BITS')} {{")
        for it in item.members:
            lines += documented(f"{enumerator(item.name, it.name)} = {it.text},", it.doc, structs)
        return [*lines, f"    NET_BASE_WIDEST({re.sub('Status$', '', item.name).upper()})", "};"]
    parameters = [part for member in item.members for part in c_members(member)]
    result = c_type(item.type) if item.type else "void"
    must = "NET_BASE_MUST_USE " * must_use(item, structs)
    label = f" NET_BASE_LINK({item.name.removeprefix('net_base_')});"
    lines += filled(f"{must}{result} {item.name}(", restricted(parameters) or ["void"], ")" + label)
    return lines


def c_limits(text):
    """A text with C's names of the greatest and least numbers of a type."""
    return re.sub(r"\b([iu](?:\d+|size))::(MAX|MIN)\b", lambda it: f"{C_LIMITS[it[1]]}_{it[2]}", text)


def root_sections(crate):
    """The sections of the crate's own doc comment: each a heading, '' for the first, and a text."""
    parts = re.split(r"^# (.*)\n\n", "\n".join(module_doc(crate / "src/lib.rt")), flags=re.M)
    return list(zip(["", *parts[1::2]], [part.strip() for part in parts[::2]]))


def version_of(crate):
    """The version of a Cargo crate."""
    return re.search(r'^version = "(.*)"$', (ROOT / crate / "Cargo.toml").read_text(), flags=re.M)[1]


def config():
    """What pkg-config says of the library where cargo builds it."""
    lines = ["prefix=${pcfiledir}", "Name: net_base", "Description: the buffers below a TCP socket, proved",
             f"Version: {version_of('c')}", "Cflags: -I${prefix}", "Libs: -L${prefix}/target/release -lnet_base"]
    return "\n".join(lines) + "\n"


def index_of(library):
    """What each section is for, and its exports."""
    for doc, section, name in library.sections:
        names = [item.name.removeprefix(f"net_base_{name}_") for item in section if item.kind == "fn"]
        if names:
            yield f"- `net_base_{name}_`: {title_of(doc)}: {', '.join(names)}."


def link_name(item, number):
    return f"net_base_{number}_{item.name.removeprefix('net_base_')}"


def interface():
    """The number of the interface: the last of c/abi.txt."""
    return int(ABI.read_text().split("\n")[-2].split()[0])


def c_part(library, crate):
    """The header, by its template."""
    version, exports = version_of("rust"), library.exports()
    sections = [[*[heading, ""] * bool(heading), *wrapped_text(c_text(text.splitlines(), library.structs), WIDTH - 3)]
                for heading, text in root_sections(crate)]
    numbers = zip(("major", "minor", "patch"), version.partition("-")[0].split("."))
    told = [(item.name.removeprefix("net_base_"), " ".join(attributes(item))) for item in exports]
    return filled_in(
        TEMPLATE, VERSION=[version], NUMBER=[str(interface())], DECLARATIONS=declarations(library),
        INDEX=starred(row for line in index_of(library) for row in wrapped_text(line, WIDTH - 3)),
        SECTIONS=starred(row for k, rows in enumerate(sections) for row in [*[""] * bool(k), *rows]),
        VERSIONS=[line for name, number in numbers for line in (
            f"/** The {name} number: until 1.0 names and structs may change with each minor one. */",
            f"#define NET_BASE_VERSION_{name.upper()} {number}")],
        NAMES=[f"#define {item.name} {link_name(item, interface())}" for item in exports],
        SLICES=[f"NET_BASE_SLICES({name}, {it})" for name, it in told if it])


def filled_in(template, **texts):
    """A template with these texts, each lines, in the places of their names; its own comments are left out."""
    said = re.sub(r"^// .*\n", "", template.read_text(), flags=re.M)
    return re.sub("@([A-Z]+)@", lambda it: "\n".join(texts[it[1]]), said)


def starred(lines):
    """Lines of a comment."""
    return [f" * {line}".rstrip() for line in lines]


def declarations(library):
    """The lines of the sections."""
    lines = []
    for doc, section, name in library.sections:
        head = head_of(section)
        lines += ["", *group(first_paragraph(doc) if head else doc, name, library.structs)]
        for item in section:
            more = ["", *doc[doc.index("") + 1 :]] if item is head and "" in doc else []
            lines += [""] + c_item(item, library, more)
        lines += ["", "/** @} */"]
    return lines


def head_of(section):
    """The struct of a section that its calls are of, to whose comment that of the section is added: tools show it
    there."""
    first = next((item for item in section if item.kind == "fn" and item.members), None)
    kind = first and core_type(first.members[0].type)
    return next((item for item in section if item.kind == "struct" and item.name == kind), None)


def title_of(doc):
    """The first words of a section."""
    return re.split(r"[:.](?= |$)", " ".join(first_paragraph(doc)), maxsplit=1)[0]


def group(doc, name, structs):
    """The comment of a section, as doxygen's group."""
    lines = c_comment([f"@defgroup net_base_{name} {title_of(doc)}\0", "", *doc, "", "@{"], structs)
    return [line.replace("\0", "") for line in lines]


def abi(text):
    """The lines of c/abi.txt: each number of the interface, with the digest of the header's declarations without
    comments. A number that has another digest there is refused: a new line with the next number alone gets the
    digest."""
    bare = " ".join(re.sub(r"/\*.*?\*/|#define NET_BASE_VERSION_\w+ \d+", "", text, flags=re.S).split())
    number = str(interface())
    digest = hashlib.sha256(bare.encode()).hexdigest()[:16]
    known = {line.split()[0]: line.split()[-1] for line in ABI.read_text().splitlines()}
    if known[number] not in (number, digest):
        sys.exit(f"ffi: structs or functions aren't those of interface {number}: add a line with the next number alone "
                 f"to {ABI.relative_to(ROOT)}, or make {number} its last line's only word if no release has this "
                 "number")
    return "".join(f"{it} {said}\n" for it, said in (known | {number: digest}).items())


def put(files, only_compares):
    """Writes files, or returns whether one of them is stale, and says so."""
    stale = False
    for path, text in files.items():
        if path.exists() and path.read_text() == text:
            continue
        if not only_compares:
            path.write_text(text)
        else:
            print(f"{path.relative_to(ROOT)}: stale, run python3 tools/ffi.py")
            stale = True
    return stale


def main():
    from parts import bound, exports, layouts, sequence, shim  # which import this file

    parser = argparse.ArgumentParser(description=__doc__.split("\n")[0])
    parser.add_argument("--check", action="store_true", help="compare, write nothing")
    parser.add_argument("--tests", type=pathlib.Path, help="write the program of exports.txt to a file")
    parser.add_argument("--sequence", type=pathlib.Path, help="write the program of a sequence of calls to a file")
    parser.add_argument("--layouts", type=pathlib.Path, help="write the program of the structs' layouts to a file")
    parser.add_argument("--through", type=pathlib.Path, help="write the header that makes tests call net_bound.h's calls")
    options = parser.parse_args()
    programs = {options.tests: exports.program, options.sequence: sequence.sequence, options.layouts: layouts.program,
                options.through: bound.through}
    library = Library(EXPORTS)
    if any(programs):
        for path in filter(None, programs):
            path.write_text(programs[path](library))
        return
    header = c_part(library, EXPORTS)
    texts = {HEADER: header, ABI: abi(header), CONFIG: config(), shim.OUT: shim.text(library),
             bound.OUT: bound.text(library)}
    stale = put(texts, options.check)
    exports.program(library)  # which reads the header, and stops at a row that is wrong
    sys.exit(stale)


if __name__ == "__main__":
    main()
