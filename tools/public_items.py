#!/usr/bin/env python3
"""python3 tools/public_items.py --check | --write: compares the public items of the packages of Rust with
tools/public_items.txt, or writes that list. `git diff` of two versions of it says what a user of them has to know.

Each line is what rustdoc shows of a module, a type, a trait, a function, a constant, a method or an impl, with
attributes, fields and automatic traits. Impls that differ in the trait alone are one line, where `_` is the trait. `+`
are those that only all features give, `-` those that are there without features alone. An alias is one line: its
methods are those of the type that it names. Items of another package than net-base begin with its name.

Status 1 if the lists differ, if a link in the documentation leads nowhere, or if no test and no example names a call.
"""
import difflib
import html
import os
import re
import subprocess
import sys
import tempfile
from pathlib import Path

from parts import ROOT
from parts.erase_list import BASE, PACKAGES

LIST = ROOT / "tools/public_items.txt"
SETS = {"+": "--all-features", "-": "--no-default-features"}
# What is before and after the trait of an impl.
TRAIT = re.compile(r"(.*: impl(?:<.*?>)?) (.*?)( for .*)")
# Traits that programs can't name.
UNNAMED = re.compile(r"\b(?:Freeze|UnsafeUnpin|StructuralPartialEq) for ")
# Of a page: methods of what a type derefs to, and impls for all types.
OF_STD = re.compile(r'<h2 id="deref-methods.*?(?=<h2 id="(?:trait|synthetic)-)|<h2 id="blanket-implementations.*', re.S)


def plain(text):
    """The text of a piece of a page."""
    text = re.sub(r'<a class="(?:src|anchor|doc-anchor).*?</a>|<details.*?</summary>', "", text, flags=re.S)
    text = html.unescape(re.sub(r"<[^>]*>", "", re.sub(r'</div>|<div class="where">', " ", text))).replace("ⓘ", "")
    return re.sub(r"\s+", " ", text).replace("( ", "(").replace(", )", ")").strip()


def items(pages):
    """Each item, by its path, with what its page says of it."""
    package = () if pages.name == BASE else (pages.name,)
    for page in sorted(pages.rglob("*.html")):
        text = OF_STD.sub("", page.read_text())
        path = "::".join([*package, *page.relative_to(pages).parts[:-1]])
        if "Redirecting to" in text:
            continue
        if page.name == "index.html":
            yield f"mod {path or BASE}"
        declared = re.findall(r'<pre class="rust item-decl"><code>(.*?)</code></pre>', text, re.S)
        if page.name.startswith("type."):           # then the struct that it names, which has a page of its own
            yield f"{path}: {plain(declared[0])}"
            continue
        yield from (f"{path}: {plain(said)}" for said in declared)
        name = f"{path}::{page.stem.partition('.')[2]}"
        for said in re.findall(r'<section id="method[^"]*" class="method"><.*?<h4 [^>]*>(.*?)</h4>', text, re.S):
            yield f"{name}: {plain(said)}"
        if page.name.startswith(("struct.", "enum.")):
            for said in re.findall(r'<h3 class="code-header">(impl.*?)</h3>', text, re.S):
                if " for " in plain(said) and not UNNAMED.search(plain(said)):
                    yield f"{path}: {plain(said)}"


def documented(features, folder):
    """The packages' pages with these features."""
    words = [*f"cargo doc --offline --quiet --no-deps --lib {features} --target-dir".split(), folder]
    environment = os.environ | {"RUSTDOCFLAGS": "-D rustdoc::broken_intra_doc_links"}
    subprocess.run(words, cwd=ROOT / "rust", env=environment, check=True)
    return [Path(folder) / "doc" / package for package in PACKAGES]


def together(lines):
    """The lines, where those of impls that differ in the trait alone are one."""
    others, traits = [], {}
    for line in sorted(lines):
        if it := TRAIT.fullmatch(line):
            parts = (re.sub(rf"\b{re.escape(it[2])}(?!\w)", "_", part) for part in it.group(1, 3))
            traits.setdefault(tuple(parts), []).append(it[2])
        else:
            others.append(line)
    return others + [f"{before} {' + '.join(names)}{after}" for (before, after), names in traits.items()]


def listed(pages):
    """The lines of the list, after the version of rustdoc and the packages' own attributes."""
    found = {mark: {it for package in pages[mark] for it in items(package)} for mark in SETS}
    lines = [f"  {it}" for it in found["+"] & found["-"]]
    lines += [f"{mark} {it}" for mark, other in ("+-", "-+") for it in found[mark] - found[other]]
    version = subprocess.run(["rustdoc", "--version"], capture_output=True, text=True, check=True).stdout.split()[1]
    own = [f"{package}: {it}" for package, folder in PACKAGES.items()
           for it in re.findall(r"^#!\[.*\]$", (ROOT / folder / "lib.rs").read_text(), re.M)]
    return [f"rustdoc {version}", *own, *sorted(together(lines), key=lambda line: (line[2:], line))]


def untold(lines):
    """A line for each public call that neither tests and examples nor the examples of documentation name."""
    sources = [ROOT / folder for folder in PACKAGES.values()]
    texts = [path.read_text() for source in sources for folder in ("tests", "examples")
             for path in (source.parent / folder).rglob("*.rs")]
    docs = "".join(re.findall(r"^ *//[/!](.*\n)", "".join(
        path.read_text() for source in sources for path in source.rglob("*.rs")), re.M))
    texts += [block for mark, block in re.findall(r"```(.*?)\n(.*?)```", docs, re.S) if not mark]
    known = {*re.findall(r"\w+", " ".join(texts))}
    calls = re.findall(r"^. ([\w:]+): pub (?:const )?fn (\w+)", "\n".join(lines), re.M)
    return [f"{path}::{name}: no test and no example names it" for path, name in calls if name not in known]


def main(way):
    with tempfile.TemporaryDirectory() as folder:
        pages = {mark: documented(features, f"{folder}/{mark}") for mark, features in SETS.items()}
        now = listed(pages)
    if way == "--write":
        LIST.write_text("\n".join(now) + "\n")
    was = LIST.read_text().splitlines() if LIST.is_file() else [""]
    names = f"tools/public_items.txt, by {was[0]}", now[0]
    different = list(difflib.unified_diff(was[1:], now[1:], *names, n=0, lineterm=""))
    missing = untold(now)
    print("\n".join([*different, *missing]) or f"{len(now) - 1} public items, as listed; tests name each call")
    return bool(different or missing)


if __name__ == "__main__":
    if sys.argv[1:] not in (["--check"], ["--write"]):
        sys.exit(__doc__)
    sys.exit(main(sys.argv[1]))
