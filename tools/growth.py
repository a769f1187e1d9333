#!/usr/bin/env python3
"""growth.py [--write]

How the instructions of each call that a packet reaches grow with the runs that are held, or with the packets of a
table: counts them by callgrind at 32 and at 1,024, and prints a table. That of compare/results/growth.md has of each
type and class the most that a call takes: `--write` writes it there. Each case of growth/src/main.rs has a class, that
of the worst case: a call looks at some runs, searches them, or passes them once. One that passed them for each of them
would grow 1,024 times. Status 1 if a call grows more than its class allows, or no more than a call of a better one, if
a public call of the types that have runs, and of the others of `TYPES`, has no case, and no reason in `LEFT_OUT`, if a
case or a reason has no call, or if a number of the page is off by more than a tenth.

A second table has the calls of both ends in Rust and in C, over 16 runs. An export tests first that the end is sound,
and passes numbers on. Status 1 if it takes more than its call in Rust, that test, and `OVER` instructions.
"""
import argparse
import itertools
import os
import re
import shutil
import subprocess
import sys
import tempfile
from pathlib import Path

sys.dont_write_bytecode = True
from parts import ROOT, lacks, stop

FEW, MANY = 32, 1024
# How many times more instructions a call may take with 32 times as many runs.
MOST = {"looks": 1.1, "searches": 2.2, "passes": 36}
# How many times more it has to take, since its class would else be a better one; and calls whose case isn't their
# worst.
LEAST, BETTER = {"looks": 0, "searches": 1, "passes": 2.2}, {"sending_end_next_segment", "send_buffer_next", "send_ranges_next"}
# How many instructions an export may take besides; one of an acknowledgement, which copies its runs as ranges. The copy
# takes 10 of these, and 14 with two runs. The exports are compiled as one crate, where rustc inlines otherwise than in
# Rust's two, by some 20 instructions.
OVER, OVER_OF_RUNS = 30, 90
# What the calls of a type, or of a module, begin with in growth/src/main.rs: then comes the method's name, and the
# case.
TYPES = {
    "assembler": "Assembler", "scoreboard": "Scoreboard", "receiver": "ReceiverOver",
    "finite_receiver": "FiniteReceiverOver", "stream_receiver": "StreamReceiverOver",
    "stream_ranges": "StreamRangesOver",
    "finite_sender": "FiniteSenderOver", "fragments": "FragmentsOver",
    "table": "fragment_table", "send_ranges": "SendRangesOver", "send_buffer": "SendBufferOver", "sending_end": "SendingEndOver",
    "receiving_end": "ReceivingEndOver",
}
# Types whose `N` is a capacity, and one that has no call but that which makes it.
WITHOUT_RUNS = {"SplitReader", "SplitRing", "SplitWriter", "FragmentSlot"}
# The names of calls without a class, by reason.
LEFT_OUT = {
    "it makes a value, takes one apart, or begins anew: a program does that":
        "new new_at empty empty_at over over_at into_storage into_storages clear reset_at forget",
    "it reads numbers of the head, or of what it is given": """
        acknowledged answer capacity empty_segment_position end expires_at final_size first_number first_unread
        first_unreported fits flight_size has_fin has_read_all held_count is_closed is_closed_and_acknowledged is_complete is_done
        is_due is_empty is_expired is_recovering len most_runs nagle_enabled next numbers numbers_end peek_front queued receiver
        round_trip run_count segment_size sent sent_numbers timeouts total_size window window_end""",
    "only a program makes it, and it takes queued bytes": "as_slices peek peek_slice read_with",
    "only a program makes it, and it gives bytes, or ends the stream": "close set_nagle_enabled write",
    "only a program makes it: it compares two values": "same_state",
    "only a program makes it: it copies the storage from before": "grow grow_runs",
    "only a program makes it: it passes once and searches at each run": "in_flight",
}
HERE = ROOT / "tools"
PAGE = ROOT / "compare/results/growth.md"


def public_calls():
    """The public calls of `TYPES`, and a line for each other type, or call of one, that may have runs."""
    items = (HERE / "public_items.txt").read_text()
    aliases = set(re.findall(r": pub type (\w+)", items))
    known = {name: prefix for prefix, name in TYPES.items()}
    others = {it for it in re.findall(r": pub struct (\w+)<.*const N: usize", items) if it not in aliases}
    calls = set()
    for path, name, rest in re.findall(r"^. ([\w:]+): pub (?:const )?fn (\w+)(.*)", items, re.M):
        of = path.split("::")[-1]
        if of in known:
            calls.add(f"{known[of]}_{name}")
        elif "<const N: usize" in rest or ", const N: usize" in rest:
            others.add(of)
    return calls, [f"{it}: has runs, and isn't in TYPES of growth.py" for it in sorted(others - {*known} - WITHOUT_RUNS)]


def call_of(name, calls):
    """The public call that a case of growth/src/main.rs makes, the one with the longest name."""
    return max((it for it in calls if f"{name}_".startswith(f"{it}_")), key=len, default=None)


def unclassed(cases, calls):
    """A line for each call that has neither a case nor a reason, and for each reason without a call."""
    made, left = {call_of(name, calls) for name in cases}, {*" ".join(LEFT_OUT.values()).split()}
    method = lambda it: it.removeprefix(max((of for of in TYPES if it.startswith(f"{of}_")), key=len) + "_")
    wrong = [f"{it}: no case in growth/src/main.rs makes it, and LEFT_OUT has no reason" for it in calls - made
             if method(it) not in left]
    wrong += [f"LEFT_OUT has {it}, and there is no such call" for it in left - {method(it) for it in calls - made}]
    return sorted(wrong + [f"{it}: is no public call" for it in cases if call_of(it, calls) is None])


def page_table(few, many, classes):
    """The table of the page: of each type and class the most instructions that a call takes at each number of runs."""
    rows = ["| Calls of | look at some | search | pass once |", "|---|---:|---:|---:|"]
    for prefix, name in TYPES.items():
        cells = []
        for kind in MOST:
            calls = [it for it in few if it.startswith(f"{prefix}_") and classes[it] == kind]
            cells.append(f"{max(few[it] for it in calls):,.0f}; {max(many[it] for it in calls):,.0f}" if calls else "")
        rows.append(f"| `{name}` | {' | '.join(cells)} |")
    return rows


def differing(rows, writes):
    """A line for each row of the page that is another, or has a number that is off by more than a tenth; or writes
    them."""
    before, begin, rest = PAGE.read_text().partition("<!-- tools/growth.py: begin -->\n")
    said, end, after = rest.partition("<!-- tools/growth.py: end -->")
    if writes:
        PAGE.write_text("".join([before, begin, "\n", *(f"{row}\n" for row in rows), "\n", end, after]))
        return []
    numbers = lambda line: [int(it.replace(",", "")) for it in re.findall(r"[\d,]+", line)]
    same = lambda a, b: re.sub(r"[\d,]+", "", a) == re.sub(r"[\d,]+", "", b) and all(
        abs(one - other) <= max(other / 10, 2) for one, other in zip(numbers(a), numbers(b)))
    pairs = itertools.zip_longest(said.strip().split("\n"), rows, fillvalue="")
    wrong = [row for line, row in pairs if not same(line, row)]
    return [f"{PAGE.name}: growth.py --write has another row: {row or 'none'}" for row in wrong]


def counts(program, runs, folder):
    """How many instructions each call took, what it called included."""
    out = folder / f"{runs}.callgrind"
    words = ["valgrind", "--tool=callgrind", "--compress-strings=no", f"--callgrind-out-file={out}", program, str(runs)]
    subprocess.run(words, check=True, stdout=subprocess.DEVNULL, stderr=subprocess.DEVNULL)
    found, name, calls = {}, None, 0
    for line in out.read_text().splitlines():
        if line.startswith("cfn="):
            said = re.search(r"growth::(?:calls|(in_rust|in_c))::(\w+)", line)
            name = said and (f"{said[1]} {said[2]}" if said[1] else said[2])
        elif line.startswith("calls="):
            calls = int(line.split("=")[1].split()[0])
        elif calls:
            if name:
                cost, times = found.get(name, (0, 0))
                found[name] = (cost + int(line.split()[1]), times + calls)
            calls = 0
    return {name: cost / times for name, (cost, times) in found.items()}


def counted():
    """The instructions of each call at few runs and at many."""
    with tempfile.TemporaryDirectory() as name:
        folder = Path(name)
        source = folder / "growth"
        shutil.copytree(HERE / "growth", source)
        manifest = source / "Cargo.toml"
        manifest.write_text(manifest.read_text().replace("../../rust", str(ROOT / "rust")))
        target = Path(os.environ.get("CARGO_TARGET_DIR", folder / "target"))
        words = ["cargo", "build", "--quiet", "--release", "--offline", "--target-dir", target]
        if subprocess.run(words, cwd=source).returncode:
            stop("growth/src/main.rs doesn't compile over the crate: a call of it has changed")
        return [counts(target / "release/growth", runs, folder) for runs in (FEW, MANY)]


def compared(pairs, counted):
    """Prints the table of both ends' calls in Rust and in C; returns a line for each that takes too much in C. The test
    takes what it does over as many runs, where a case of it counts that."""
    tests = {(end, scene): counted[f"in_c {end}_{call}"] for scene, end, call in pairs if call.startswith("is_sound")}
    print("\n| Call of an end | Rust | C | At most |\n|---|---:|---:|---:|")
    wrong = []
    for scene, end, call in pairs:
        rust, c = counted[f"in_rust {end}_{call}"], counted[f"in_c {end}_{call}"]
        test = tests.get((end, scene), counted[f"in_c {end}_is_sound"])
        most = rust + test + (OVER_OF_RUNS if call.startswith("acknowledged") else OVER)
        print(f"| {end}_{call} | {rust:,.0f} | {c:,.0f} | {most:,.0f} |")
        if c > most:
            wrong.append(f"{end}_{call}: takes {c:,.0f} instructions in C")
    return wrong


def main():
    parser = argparse.ArgumentParser(description=__doc__)
    parser.add_argument("--write", action="store_true")
    arguments = parser.parse_args()
    if not shutil.which("valgrind"):
        lacks("no valgrind")
    few, many = counted()
    source = (HERE / "growth/src/main.rs").read_text()
    classes = {call: kind for kind, call in re.findall(rf"^ +({'|'.join(MOST)}) (\w+) {{", source, re.M)}
    calls, bad = public_calls()
    bad += unclassed(classes, calls)
    print(f"| Call | Class | {FEW} runs | {MANY:,} | Ratio | At most |\n|---|---|---:|---:|---:|---:|")
    for call, kind in classes.items():
        ratio = many[call] / few[call]
        print(f"| {call} | {kind} | {few[call]:,.0f} | {many[call]:,.0f} | {ratio:.2f} | {MOST[kind]} |")
        if ratio > MOST[kind] or ratio <= LEAST[kind] and call not in BETTER:
            bad.append(f"{call}: grows {ratio:.2f} times")
    bad += compared(re.findall(r"^    (\w+) (sending_end|receiving_end)_(\w+)$", source, re.M), few)
    bad += differing(page_table(few, many, classes), arguments.write)
    for line in bad:
        print(line, file=sys.stderr)
    return 1 if bad else 0


if __name__ == "__main__":
    sys.exit(main())
