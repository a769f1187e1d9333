#!/usr/bin/env python3
"""Looks for what the pages quote, name and count in the sources; status 1 if something isn't there.

In doc comments of crates/*/src, each block that is marked `rust` is an example in Rattle: it has to be found, line by
line, in a file of one of EXAMPLES, crates that the gate proves, and to name the item that it documents. A block without
a mark is one in Rust, which `cargo test` runs over the Cargo crate. The pages are README.md, CONTRIBUTING.md,
those of the packages of Rust, overlay/README.md and docs/*.md. Each of their blocks that is marked `rust` has to be found, line by
line, in one file crates/*/src/**/*.rt, which the prover checks, in Rust's examples, or in those of its comments, which
`cargo test` runs; and one that is marked `c` in a program of c/programs, which c/run.sh runs. How far it is indented
doesn't matter, nor does the attribute `#![tactic(auto)]`, which each crate has in its root. Each link of a page has to
lead to a file, and to a heading of it.

docs/laws.md has the comments of all laws, and numbers of pages are those of the files that tools/parts/figures.py
names: `tools/check_quotes.py --write` writes both.

In prose, between backquotes, each name has to be one of the sources, a file's or a folder's, or one of ELSEWHERE: names
of the kit, of Rust or of smoltcp that no source has, and parameters. A name that ends or begins with an underscore is
short for all that begin or end so. A path has to be a file's, from the top, from `crates` or from a crate's folder on,
and a file's name that of a file. Each name after the word "clause", in the crates' roots too, has to be that of a clause
of some function, and where "of" and a function's name follow, of one of that name. Quotations of README.md and
docs/PROVED.md, `> ..`, have to be in a doc comment of crates/*/src.

On Rust's pages each word of a guarantee has to be a public item's, or on docs/CONTRACTS.md; a law has its page's name.

No sentence has more than LONGEST words, and a page with a word of docs/README.md's glossary leads to it.
"""

import functools
import pathlib
import re
import sys
import textwrap

from parts import ROOT, figures
from parts.erase_list import PACKAGES
from parts.erase_tokens import Text

# The crates whose lines doc comments quote as examples.
EXAMPLES = ["net_examples", "net_tests"]
# Where names are looked for.
SOURCES = [*(f"{folder}/**/*" for folder in "crates overlay compare rust c tools .ci .github".split()), "*", "docs/*"]
ELSEWHERE = set("""
    vTaskNotifyGiveFromISR ulTaskNotifyTake DCMAKE_TOOLCHAIN_FILE
    MODULE axioms nat __builtin_add_overflow int32_t spsc defmt Format Debug2Format HOLE
    TcpSeqNumber Interface int8_t c.storage-1.given time_t VecInner Cursor ANTT iface send_with yml
""".split())
LONGEST = 30
NAME = re.compile(r"[A-Za-z_][A-Za-z0-9_]*")
IMPL = re.compile(r"^impl(?:<[^{]*?>)? (?:\w+::)*(\w+)(?:<.*>)? for (\w+)", re.M)


def texts(*patterns):
    return [path.read_text() for pattern in patterns for path in sorted(ROOT.glob(pattern)) if path.is_file()]


def doc_comments(text):
    """Each doc comment of a source: its place, its text, and the name of the item after it, if there is one."""
    for found in re.finditer(r"(?:^ *//[/!].*\n)+(?:\s*#\[[^\]]*\]\n)*(?:\s*(?:pub )?(?:const |unsafe )*"
                             r"(?:fn|const|struct|enum|trait|type) (\w+))?", text, re.M):
        yield found.start(), "\n".join(re.findall(r"^ *//[/!] ?(.*)", found[0], re.M)), found[1]


def has_block(block, source):
    """Whether a text has the lines of a block, indented by any number of spaces."""
    lines = [re.escape(line) for line in block.splitlines()]
    indented = "".join(rf"\n\1{line}" if line else r"\n" for line in lines[1:])
    return lines and re.search(rf"^( *){lines[0]}{indented} *$", source, re.M)


@functools.cache
def functions():
    """Of each function of the crates, by name: the names of its clauses. A clause without one has ''."""
    found = {}
    for text in map(Text, texts("crates/*/src/**/*.rt")):
        for k, (kind, word, _) in enumerate(text.tokens):
            if kind == "word" and word == "fn":
                clauses = found.setdefault(text.tokens[text.next(k + 1)][1], set())
            elif kind == "clause":
                clauses.add(re.match(r"\w+\*?\s*(\w*)", word)[1])
            elif word == "{":
                clauses = set()                    # of a closure in the body
    return found


@functools.cache
def names_of_sources():
    """Each name of the sources, of their files and folders, and of impls as the prover calls them, type and trait."""
    known = set(ELSEWHERE)
    for path in (path for pattern in SOURCES for path in ROOT.glob(pattern)):
        if {"out", "target", "__pycache__"} & set(path.parts):
            continue
        known.update([path.name, path.stem])
        # These name what no other source does.
        if path.is_file() and path.suffix != ".md" and path.stem not in ("check_quotes", "plants"):
            text = path.read_text(errors="replace")
            known.update(NAME.findall(text))
            if path.suffix == ".rt":
                known.update(kind + trait for trait, kind in IMPL.findall(text))
    return known


def is_named(name):
    known = names_of_sources()
    is_sum = re.fullmatch("[0-9a-f]{16}", name)    # a kit's
    return is_sum or name in known or name.endswith("_") and any(it.startswith(name) for it in known) \
        or name.startswith("_") and any(it.endswith(name) for it in known)


def is_there(page, span):
    """Whether a span names no file, or has a parameter, or names a file that is there.

    A path is one from the top, from `crates` or from a crate on; a name without a folder is that of any file.
    """
    kinds = r"\.(antt|rt|py|md|rs|edit|svg|yml)"
    if re.fullmatch(r"\w+" + kinds, span) and not re.search(r"\b[A-Z]{4}\b", span):
        return span in names_of_sources()
    if not re.fullmatch(r"[\w./]+/[\w.]+" + kinds, span) or re.search(r"\b[A-Z]{4}", span):
        return True
    places = [ROOT, ROOT / "crates", page.parent, *page.parent.glob("*"), *ROOT.glob("crates/*")]
    return any((place / span).is_file() for place in places)


@functools.cache
def quotable():
    """The texts that blocks of pages are from, by their marks."""
    sources = texts(*(f"{folder}/**/*.rs" for folder in PACKAGES.values()))
    examples = [re.sub(r"^ *//[/!] ?", "", text, flags=re.M) for text in sources]
    programs = [f"{pathlib.Path(folder).parent}/examples/**/*.rs" for folder in PACKAGES.values()]
    return {"rust": texts("crates/*/src/**/*.rt", *programs) + examples, "c": texts("c/programs/*.[ch]")}


# What follows looks at a page or a source, and yields places in its text, each with what is wrong there.

def quoted(page, text):
    for found in re.finditer(r"^ *```(rust|c)\n(.*?)^ *```$", text, re.M | re.S):
        block = textwrap.dedent(re.sub(r"\A#!\[tactic\(auto\)\]\n\n?", "", found[2]))
        if not any(has_block(block, source) for source in quotable()[found[1]]):
            yield found.start(2), f"is in no source: {block.splitlines()[:1]}"


def exampled(path, text):
    """The examples in Rattle of a source's doc comments."""
    for at, comment, name in doc_comments(text):
        for block in re.findall(r"^```rust.*\n?((?:(?!```).*\n?)*)", comment, re.M):
            if name not in NAME.findall(block):
                yield at, f"an example that doesn't name {name}"
            if not any(has_block(textwrap.dedent(block), source) for source in
                       texts(*(f"crates/{crate}/src/**/*.rt" for crate in EXAMPLES))):
                yield at, f"is in no example: {block.splitlines()[:1]}"


def headings(text):
    """The names by which links lead to the headings of a page."""
    lines = re.findall(r"^#+ (.*)$", re.sub(r"^```.*?^```$", "", text, flags=re.M | re.S), re.M)
    return {re.sub(r"[^\w -]", "", line.lower()).replace(" ", "-") for line in lines}


def linked(page, text):
    for found in re.finditer(r"\]\((?!https?:)([^)#\s]*)#?([^)\s]*)\)", text):
        to = (page.parent / found[1]).resolve() if found[1] else page
        if not to.exists():
            yield found.start(), f"a link to {found[1]}, which isn't there"
        elif found[2] and found[2] not in headings(to.read_text()):
            yield found.start(), f"a link to {found[1]}#{found[2]}, which isn't a heading"


def cited(page, text):
    """Clauses that a page names, and those that it says are of a function."""
    for found in re.finditer(r"[Cc]lauses?\s+((?:`\w+`(?:,\s+|\s+and\s+)?)+)", text):
        for name in re.findall(r"`(\w+)`", found[1]):
            if not any(name in clauses for clauses in functions().values()):
                yield found.start(), f"no function has a clause {name}"
    listed, name = r"(?P<clauses>`\w+`(?:(?:,| and| or|, and)\s+`\w+`)*)", r"`(?:\w+::)*(?P<name>\w+)`"
    for form in (rf"[Cc]lauses?\s+{listed}\s+of\s+{name}", rf"{name},\s+clauses?\s+{listed}"):
        for found in re.finditer(form, text):
            for clause in re.findall(r"`(\w+)`", found["clauses"]):
                if clause not in functions().get(found["name"], [clause]):
                    yield found.start(), f"{found['name']} has no clause {clause}"


def named(page, text):
    """What stands between backquotes in prose."""
    for found in re.finditer(r"`([^`\n]+)`", figures.blanked(r"^ *```.*?^ *```$", text)):
        for name in NAME.findall(found[1]):
            if not is_named(name):
                yield found.start(), f"no source has the name {name}"
        if not is_there(page, found[1]):
            yield found.start(), f"there is no file {found[1]}"


def said(page, text):
    """Quotations."""
    if page.name in ("README.md", "PROVED.md") and page.parent.name != "overlay":
        comments = [" ".join(comment.split()) for source in texts("crates/*/src/**/*.rt")
                    for _, comment, _ in doc_comments(source)]
        for found in re.finditer(r"(?:^> .*\n)+", text, re.M):
            quote = " ".join(found[0].replace("\n> ", " ").removeprefix("> ").split())
            if not any(quote[0].lower() + quote[1:] in comment or quote in comment for comment in comments):
                yield found.start(), f"no comment says: {quote[:60]}"


def counted(page, text):
    """Numbers: those of other files, and in two pages all others."""
    for form, source, values in figures.figures():
        for found in re.finditer(figures.pattern(form), text):
            for number, value in zip(found.groups(), values):
                if number.lower() != value:
                    yield found.start(), f"{number}, where {source} says {value}: {form}"
    if page in (ROOT / "README.md", ROOT / "docs/PERFORMANCE.md"):
        yield from ((at, f"{it}, which no file says: tools/parts/figures.py") for at, it in figures.strays(text))


def shown(page, text):
    """What Rust's pages name that no page explains: words of guarantees, paths that Rust hasn't, laws without a page."""
    known = {*NAME.findall(texts("tools/public_items.txt")[0] + " ".join(re.findall(r"`[^`\n]+`", texts("docs/CONTRACTS.md")[0])))}
    for block in re.finditer(r"\[Guarantees\].*\n *///\n((?: */// - .*\n)+)", text):
        for name in NAME.findall(" ".join(re.findall("`([^`]+)`", block[1]))):
            if name not in known and f".{name}()" not in block[1]:
                yield block.start(), f"docs/CONTRACTS.md doesn't say what {name} is"
    for comment in re.finditer(r"(?: *///.*\n)+", text):
        said = re.sub(r"\s*/// ?", " ", comment[0])
        for found in re.findall(r"`(?:tcp|ends|stream|net_(?!base|tcp)\w+)::\w+`|\b[Ll]aw `\w+`(?! \(`docs/laws.md`\))", said):
            yield comment.start(), f"a page of Rust has {found}"


def clear(page, text):
    """Long sentences, and words of the glossary without a link to it. A colon ends a sentence, in a table a semicolon
    too; what is between backquotes is a word."""
    prose = figures.blanked(r"^```.*?^```$|^(?:    |>|#)[^\n]*$|<!-- Written.*?<!-- END -->|\]\([^)]*\)", text)
    prose, begin = figures.blanked("`[^`]*`", prose, "x"), 0
    for end in re.finditer(r"[.!?:](?=[\s*)])|\n(?=\s*\n| *(?:[-*]|\d+\.) )|\||;(?=[^\n]*\|$)", prose, re.M):
        words = prose[begin:end.start()].split()
        if len(words) > LONGEST:
            yield end.start(), f"a sentence of {len(words)} words: {' '.join(words[:6])} .."
        begin = end.end()
    glossary = (ROOT / "docs/README.md").read_text().split("\n## Words\n")[1]
    words = [it for it in re.findall(r"^\| ([a-z][\w ]*\w)", glossary, re.M) if re.search(rf"\b{it}\b", prose)]
    if words and not re.search("#words|glossary|^## Words", text, re.M):
        yield 0, f"no link to docs/README.md#words, which explains: {', '.join(words)}"


LAWS = """# Laws

<!-- Written by tools/check_quotes.py --write, from the comments of the laws. -->

A law is a theorem about many calls, or about a definition. It is a public function that does nothing, and is called for
its contract. [PROVED](PROVED.md) has the promises that users depend on, with their laws. The first comment of
`crates/NAME/src/lib.rt` says how those of a crate are called. Names in parentheses are clauses of the law.
"""


def laws_page():
    """The text of docs/laws.md."""
    parts = [LAWS]
    for crate in sorted(ROOT.glob("crates/net_*")):
        if crate.name in (*EXAMPLES, "net_bench_lib", "net_ends_tests"):
            continue
        files = sorted(crate.glob("src/**/laws.rt"))
        parts += [f"## {crate.name}\n"] * bool(files)
        for path in files:
            said = [f"- `{name}`" + re.sub("^: States ", " states ", ": " + " ".join(comment.split()))
                    for _, comment, name in doc_comments(path.read_text()) if name]
            rows = ("\n  ".join(textwrap.wrap(it, 118, break_long_words=False, break_on_hyphens=False)) for it in said)
            of = "::".join((crate.name, *path.relative_to(crate / "src").with_suffix("").parts))
            parts.append("\n".join((f"`{of}`:\n", *rows, "")))
    return "\n".join(parts)


WRITTEN = {ROOT / "docs/laws.md": laws_page}


def main():
    pages = [ROOT / name for name in ("README.md", "CONTRIBUTING.md", "overlay/README.md")]
    pages += [(ROOT / folder).parent / "README.md" for folder in PACKAGES.values()]
    pages += [page for page in sorted(ROOT.glob("docs/*.md")) if page.name not in ("laws.md", "std-calls.md")]
    if "--write" in sys.argv[1:]:
        for page in {*pages, *WRITTEN}:
            page.write_text(WRITTEN[page]() if page in WRITTEN else figures.written(page.read_text()))
    generated = {*ROOT.glob("compare/results/*.md"), *ROOT.glob("docs/*.md"), ROOT / "crates/must-fail.md",
                 ROOT / "rust/CHANGELOG.md"} - {*pages}
    looked = {page: (quoted, linked, cited, named, said, counted, clear) for page in pages}
    looked |= {page: (linked,) for page in sorted(generated)}
    looked |= {path: (exampled,) for path in sorted(ROOT.glob("crates/*/src/**/*.rt"))}
    looked |= {path: (exampled, cited) for path in sorted(ROOT.glob("crates/*/src/lib.rt"))}
    looked |= {path: (shown,) for folder in PACKAGES.values() for path in sorted((ROOT / folder).glob("**/*.rs"))}
    wrong = []
    for path, checks in looked.items():
        text = path.read_text()
        wrong += [f"{path.relative_to(ROOT)}:{text.count(chr(10), 0, at) + 1}: {what}"
                  for check in checks for at, what in check(path, text)]
    wrong += [f"{page.relative_to(ROOT)}: tools/check_quotes.py --write has other lines"
              for page, made in WRITTEN.items() if page.read_text() != made()]
    every = [page.read_text() for page in pages]
    wrong += [f"tools/parts/figures.py: no page has the text: {form}" for form, *_ in figures.figures()
              if not any(re.search(figures.pattern(form), text) for text in every)]
    print(*wrong, f"{len(wrong)} things of {len(pages)} pages are in no source", sep="\n")
    return bool(wrong)


if __name__ == "__main__":
    sys.exit(main())
