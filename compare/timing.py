#!/usr/bin/env python3
"""SMOLTCP=path timing.py [--once] [--samples N] [--milliseconds N] [--only WORD]

Times workloads over the crate net-base and over smoltcp in turns, each side linked once for each placement of its code,
both built as a user builds a program, in cargo's default profile without flags; counts instructions, if valgrind is
there. Prints a table in Markdown. Status 1 if results differ. --once: one placement.
"""
import argparse
import datetime
import os
import platform
import re
import shutil
import statistics
import subprocess
import sys
import tempfile
from collections import Counter
from pathlib import Path

sys.dont_write_bytecode = True
import common

# Functions begin at multiples of 16 bytes, and a processor fetches code in blocks of 64.
PLACEMENTS = [0, 16, 32, 48]
# Where a side's code begins, before it is moved by a placement.
TEXT = 0x400000
SYSTEM = ["-lgcc_s", "-lutil", "-lrt", "-lpthread", "-lm", "-ldl", "-lc"]


def placed(built, name, placements):
    """A side as shared libraries, one for each placement of its code."""
    paths = []
    for pad in placements:
        path = built / f"{name}_{pad}.so"
        words = ["cc", "-shared", "-fuse-ld=bfd", "-o", path, "-Wl,-Bsymbolic", "-Wl,-u,side_workloads"]
        words += [f"-Wl,-Ttext={TEXT + pad:#x}", built / f"lib{name}.a", *SYSTEM]
        common.run(words, f"link_{path.stem}")
        paths.append(str(path))
    return ":".join(paths)


def driver(built, sides, arguments, *more):
    """The driver's command."""
    words = [built / "driver", *sides, "--samples", str(arguments.samples)]
    words += ["--milliseconds", str(arguments.milliseconds), *more]
    return words + (["--only", arguments.only] if arguments.only else [])


def workloads(built, sides, arguments):
    """The driver's rows: group, name, and the numbers of its line; and what differs."""
    words = driver(built, sides, arguments)
    done = subprocess.run(words, stdout=subprocess.PIPE, text=True)
    lines = [line.split("\t") for line in done.stdout.splitlines()]
    differ = [line[1] for line in lines if line[0] == "DIFFER"]
    if done.returncode and not differ:
        sys.exit(f"the driver ended with status {done.returncode}")
    rows = [(line[0], line[1], *map(float, line[2:])) for line in lines if line[0] != "DIFFER"]
    return rows, differ


def counted(built, sides, arguments):
    """Of each row the instructions of a call, of the port and of smoltcp; nothing without valgrind."""
    if not shutil.which("valgrind"):
        return {}
    with tempfile.TemporaryDirectory() as folder:
        out = Path(folder) / "counts"
        words = ["valgrind", "--tool=callgrind", f"--callgrind-out-file={out}"]
        words += ["--zero-before=count_begin", "--dump-before=count_end"]
        words += driver(built, sides, arguments, "--count")
        done = subprocess.run(words, stdout=subprocess.PIPE, stderr=subprocess.DEVNULL, text=True, check=True)
        counts = {}
        for at, line in enumerate(done.stdout.splitlines()):
            name, calls = line.split("\t")
            # Of each side one of few rounds, and one of more.
            dumps = ((out.parent / f"{out.name}.{4 * at + k}").read_text() for k in (1, 2, 3, 4))
            few, more, few_there, more_there = (
                int(re.search(r"^(?:totals|summary): (\d+)", dump, re.M)[1]) for dump in dumps)
            counts[name] = f"{(more - few) / int(calls):.1f}/{(more_there - few_there) / int(calls):.1f}"
        return counts


def groups_of(rows, at):
    """The geometric mean of a column for each group of rows."""
    groups = {}
    for row in rows:
        groups.setdefault(row[0], []).append(row[at])
    return {group: statistics.geometric_mean(column) for group, column in groups.items()}


def workload_table(rows, counts):
    """Over placements: the median of the ratios, the lowest and the highest, and smoltcp by itself."""
    print("| Row | in Rust | lowest | highest | smoltcp by itself | instructions in Rust |")
    print("|---|---:|---:|---:|---:|---:|")
    columns = [groups_of(rows, at) for at in (4, 5, 6, 9)]
    large = [group for group, count in Counter(row[0] for row in rows).items() if count > 2]
    shown = None
    for group, name, _, _, *ratios, _, _, itself in rows:
        if group != shown and group in large:
            print(f"| **group {group}** | {' | '.join(f'**{column[group]:.2f}**' for column in columns)} | |")
        shown = group
        print(f"| {name} | {' | '.join(f'{it:.2f}' for it in (*ratios, itself))} | {counts.get(name, 'not counted')} |")


def machine():
    name = platform.machine()
    if Path("/proc/cpuinfo").exists():
        lines = Path("/proc/cpuinfo").read_text().splitlines()
        name = next((line.split(":")[1].strip() for line in lines if line.startswith("model name")), name)
    return f"{name}, {os.cpu_count()} processors, load {os.getloadavg()[0]:.1f}"


def timed(smoltcp, arguments):
    """Times the workloads: tables, and what differs."""
    common.cargo("release", ["side_original", "side_rust"], smoltcp, RUSTFLAGS="", **common.DEFAULT_PROFILE)
    built = common.cargo("release", ["driver"], smoltcp, only=["--bin", "driver"], RUSTFLAGS="")
    placements = PLACEMENTS[:1] if arguments.once else PLACEMENTS
    sides = [placed(built, "side_rust", placements), placed(built, "side_original", placements)]
    print(f"{datetime.date.today()}; {machine()}; {len(placements)} placements of each side, "
          f"{arguments.samples} samples of {arguments.milliseconds:g} ms a row and placement\n")
    rows, differ = workloads(built, sides, arguments)
    workload_table(rows, counted(built, [path.split(":")[0] for path in sides], arguments))
    return differ


def main():
    parser = argparse.ArgumentParser(description=__doc__, formatter_class=argparse.RawDescriptionHelpFormatter)
    parser.add_argument("--once", action="store_true")
    parser.add_argument("--samples", type=int, default=15)
    parser.add_argument("--milliseconds", type=float, default=2)
    parser.add_argument("--only")
    differ = timed(common.need(["cargo"]), parser.parse_args())
    if differ:
        print(f"\nDIFFERENT RESULTS: {'; '.join(differ)}")
    return 1 if differ else 0


if __name__ == "__main__":
    sys.exit(main())
