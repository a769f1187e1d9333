#!/usr/bin/env python3
"""Compares the clause that each edit of must-fail/ is to be refused by with what refuses it.

    python3 tools/edits.py [CRATE ..]             all edits, or those of some crates, by `rt must-fail`
    python3 tools/edits.py --log FILE             all edits, by what `rt ci` printed into a file
    python3 tools/edits.py --table                the table of crates/must-fail.md alone: edits and tests that it
                                                  names are there
    python3 tools/edits.py --tests [CRATE ..]     the tests that all edits, or those of some crates, break

crates/must-fail.md has a table of wrong bodies. A row names the edit, and the function, as `rt check --only`
takes it, with the name of one of its `ensures`; or the test that refuses the body. The name is `ensures`
if the contract has a single clause without a name, or is proved as one goal, as that of a call that
lends. `rt must-fail`, and so `rt ci`, prints the first goal that is open with the edit, where it arises
in the source or where an answer to it fails; that has to be a goal of this clause of this function. A
callee's precondition, a loop's invariant, and a name that a proof no longer finds refuse an edit too,
and say nothing of the contract.

A line `# test: FILE NAME` of an edit is a test of a package of Rust, by its file or folder and its name, that a call tells the
wrong body. `--tests` runs it over the Cargo crate with the edited text erased, where it must fail, and all of them over
the right text, where they must not. An edit of which no test tells has a line `# no test: REASON`.

Ends with status 1 if an edit isn't in one row of the table, a row of it names nothing, another goal refuses an edit,
or an edit has neither a test nor a reason, or a test that doesn't see it.
"""
import collections
import pathlib
import re
import shutil
import subprocess
import sys
import tempfile

from parts import ROOT, stop
from parts.erase_list import PACKAGES

CRATES = ROOT / "crates"
PAGE = CRATES / "must-fail.md"
# A row: the wrong body; its edit, with the function and the clause, or a test.
ROW = re.compile(r"^\| ([^|]+) \| `(\w+)/(\w+)` \| (?:`([\w:]+)` (\w+)|a test) \|$", re.M)
OPEN_GOAL = re.compile(r"(src/\S+?):(\d+):\d+: .*?\(`([^`]*)(`?)")
FAILED_ANSWER = re.compile(r"proofs/(\S+)/\w+\.antt:\d+:\d+: error: (?:\d+ declarations that depend on )?`([^`]*)`")

# What may be told of an edit, with a function and a clause, and whether that is what refuses it.
GOAL = "src/a.rt:1:4: error: open (`returns-clause-room`)"
TOLD = [(GOAL, "m::f", "room", True), (GOAL, "m::g", "room", False), (GOAL, "m::f", "full", False),
        ("src/a.rt:1:4: error: open (`take-requires`)", "m::f", "ensures", False),
        ("proofs/a/f/Answers.antt:3:1: error: `returns-clause-room`", "m::f", "room", True)]


def table():
    """The function and the clause of each edit that the page names, and the tests that it names."""
    rows = [row[1:] for row in ROW.findall(PAGE.read_text())]
    clauses = {f"{crate}/{name}": (function, clause) for crate, name, function, clause in rows if function}
    return clauses, [(crate, name) for crate, name, function, _ in rows if not function]


def name_of(edit):
    """The name of an edit in the table."""
    return f"{edit.parent.parent.name}/{edit.stem}"


def differing():
    """Prints each edit that isn't in one row, and each row whose edit or test isn't there; returns how many."""
    clauses, tests = table()
    there = {name_of(it) for it in edits_of([])}
    wrong = [f"{it}: no row of {PAGE.name} has this edit" for it in sorted(there - set(clauses))]
    wrong += [f"{it}: {PAGE.name} names this edit, and there is none" for it in sorted(set(clauses) - there)]
    rows = collections.Counter(f"{crate}/{name}"
                               for _, crate, name, function, _ in ROW.findall(PAGE.read_text()) if function)
    wrong += [f"{it}: {PAGE.name} has {count} rows of this edit" for it, count in sorted(rows.items()) if count > 1]
    wrong += [f"{name_of(it)}: it has no test, and says not why" for it in edits_of([])
              if bool(test_of(it)) == bool(re.search(r"^# no test: \w", it.read_text(), re.M))]
    for crate, name in tests:
        files = (it for folder in PACKAGES.values() for it in (ROOT / folder).parent.glob("tests/**/*.rs")) \
            if crate == "rust" else (CRATES / crate / "src").rglob("*.rt")
        texts = "".join(path.read_text() for path in files)
        if not re.search(rf"#\[test\]\nfn {name}\(", texts):
            wrong.append(f"{crate}/{name}: {PAGE.name} names this test, and there is none")
    wrong += [f"edits: `{function}` and `{clause}` are wrongly compared with: {told}" for told, function, clause, fits in TOLD
              if is_refused_by(told, {"src/a.rt": "fn f() {\n}\nfn g() {\n}\n"}, function, clause) != fits]
    print("\n".join([*wrong, f"{len(clauses)} edits and {len(tests)} tests in rows, {len(wrong)} differ"]))
    return len(wrong)


def edited(folder, edit):
    """The texts of the files that an edit changes, by their path in the crate."""
    texts, path, old = {}, "", ""
    for line in edit.read_text().split("\n"):
        word, _, rest = line.partition(": ")
        if word == "file":
            path = rest.strip()
            texts.setdefault(path, (folder / path).read_text())
        elif word == "old":
            old = rest
        elif line.startswith("new:"):
            if old not in texts[path]:
                raise SystemExit(f"{edit}: not in {path}: {old}")
            texts[path] = texts[path].replace(old, line[4:].removeprefix(" "))
    return texts


def function_at(text, line):
    """The name of the function that has a line of a text; its attributes are before its name."""
    lines = text.split("\n")
    while line < len(lines) and lines[line - 1].strip().startswith("#["):
        line += 1
    names = re.findall(r"\bfn (\w+)", "\n".join(lines[:line]))
    return names[-1] if names else ""


def clause_of(goal):
    """The clause that a goal belongs to, if it is one of what a function ensures. A lemma that
    several answers cite is named by the clause that it states.
    """
    if not goal.startswith("returns"):
        return goal
    return goal.rpartition("clause-")[2] if "clause-" in goal else "ensures"


def is_refused_by(told, texts, function, clause):
    """Whether what `rt must-fail` told names this clause of this function. It tells 160 characters, so
    the name of a goal may be cut: then what is left of it has to fit.
    """
    if it := OPEN_GOAL.search(told):
        name, goal, is_cut = function_at(texts.get(it[1], ""), int(it[2])), it[3], not it[4]
    elif it := FAILED_ANSWER.search(told):
        name, goal, is_cut = it[1].rpartition("/")[2], it[2], False
    else:
        return False
    shown = goal.rpartition("-clause-")[2] if "-clause-" in goal else ""
    fits = goal.startswith("returns") and clause.startswith(shown) if is_cut else clause_of(goal) == clause
    return name == function.rpartition("::")[2] and fits


def edits_of(crates):
    """The edits of these crates, or of all."""
    if none := [crate for crate in crates if not [*CRATES.glob(f"{crate}/must-fail/*.edit")]]:
        stop(f"no edits of {', '.join(none)}")
    return [it for crate in crates or ["*"] for it in sorted(CRATES.glob(f"{crate}/must-fail/*.edit"))]


def must_fail(edits):
    """What `rt must-fail` prints for the crates of these edits."""
    words = ["rt", "must-fail", *sorted({it.parent.parent.name for it in edits})]
    ran = subprocess.run(words, cwd=ROOT, capture_output=True, text=True)
    return ran.stdout + ran.stderr


def compare(edits, printed):
    """Prints each edit that has no clause, or that is refused by something else; returns how many."""
    told = dict(re.findall(r"must-fail (\S+)\.edit: (.*)", printed))
    clauses, right, wrong = table()[0], 0, 0
    for edit in edits:
        name = name_of(edit)
        said = told.get(name, "nothing was said of it")
        wanted = clauses.get(name, ())
        is_refused = len(wanted) == 2 and "refused, as it must be:" in said
        if is_refused and is_refused_by(said, edited(edit.parent.parent, edit), *wanted):
            right += 1
            print(f"{name}: {' '.join(wanted)}")
        else:
            wrong += 1
            print(f"{name}: WANTED {' '.join(wanted) or 'a row of must-fail.md'}\n    {said}")
    print(f"{right} edits are refused by their clauses, {wrong} are not")
    return wrong


def test_of(edit):
    """The file and the name of the test that an edit breaks."""
    found = re.findall(r"^# test: (\w+) (\w+)$", edit.read_text(), re.M)
    return found[0] if found else ()


def run(copy, crate, texts, tests):
    """Runs tests, each a file and a name, over a copy of the Cargo crate, with these texts of a crate. Returns the status
    and what they print."""
    import erase

    sources, refused = erase.sources, []
    erase.sources = lambda *of: ((name, path, texts.get(f"src/{path}", text) if name == crate else text)
                                 for name, path, text in sources(*of))
    for file, text in erase.erased(refused).items():
        place = copy / file.relative_to(ROOT / "rust")
        if place.read_text() != text:
            place.write_text(text)
    erase.sources = sources
    files = [word for file in sorted({file for file, _ in tests}) for word in ("--test", file)]
    words = ["cargo", "test", "--offline", "--quiet", *files, "--target-dir", copy.parent / "target", "--",
             *sorted({name for _, name in tests})]
    ran = subprocess.run(words, cwd=copy, capture_output=True, text=True)
    return bool(refused) or ran.returncode, "".join(refused) + ran.stdout + ran.stderr


def try_tests(edits):
    """Runs the test of each edit that has one; returns how many don't see their edit."""
    wrong = 0
    with tempfile.TemporaryDirectory() as room:
        copy = pathlib.Path(room) / "rust"
        shutil.copytree(ROOT / "rust", copy, ignore=shutil.ignore_patterns("target"))
        edits = [it for it in edits if test_of(it)]
        if edits:
            status, said = run(copy, "", {}, [test_of(it) for it in edits])
            if status:
                print(f"over the right text a test fails:\n{said}")
                return 1
        for edit in edits:
            crate, test = edit.parent.parent.name, test_of(edit)
            status, said = run(copy, crate, edited(edit.parent.parent, edit), [test])
            sees = status and "could not compile" not in said
            wrong += not sees
            print(f"{name_of(edit)}: {' '.join(test)} {'fails' if sees else f'DOES NOT FAIL: {said[-300:]}'}")
    print(f"of {len(edits)} edits with a test {wrong} aren't seen")
    return wrong


def main():
    if sys.argv[1:2] == ["--table"]:
        return 1 if differing() else 0
    if sys.argv[1:2] == ["--log"]:
        return 1 if compare(edits_of([]), pathlib.Path(sys.argv[2]).read_text()) else 0
    if sys.argv[1:2] == ["--tests"]:
        return 1 if try_tests(edits_of(sys.argv[2:])) else 0
    edits = edits_of(sys.argv[1:])
    return 1 if compare(edits, must_fail(edits) if edits else "") else 0


if __name__ == "__main__":
    sys.exit(main())
