#!/usr/bin/env python3
"""Runs the commands that pages tell users, as the pages have them, in a copy of this folder without what git ignores:

    python3 tools/pages_run.py [--proved]

A command is a line of a block of a page, or a text of two words or more between backquotes, that begins with one of
FIRST. A block that changes the folder is one command, which ends at the first of its lines that fails. A block of text
after a block of commands is what the last of them prints, but for what is after three spaces in a line of it, a remark;
and so is a text after `# prints`. `my.c` is the program in C of docs/C.md. With `--proved` commands that prove
something are run alone; those of ELSEWHERE never, which has the reasons; a name that ends in ` ..` is the beginning of
commands. Status 1 if a command fails, or if a name of the list is on no page.
"""
import os
import pathlib
import re
import shutil
import subprocess
import sys
import tempfile

sys.dont_write_bytecode = True
from parts import ROOT

# The pages, and where the commands of each are run, unless they name that folder.
PAGES = {"README.md": ".", "rust/README.md": "rust", "rust/net-tcp/README.md": "rust/net-tcp", "overlay/README.md": ".",
         **{f"docs/{name}.md": "." for name in "GUIDE QUIC TCP C PROVED CONTRACTS BENCH DIFFERENCES".split()}}
FIRST = r"cd|cargo|cc|sh|rt|rustup|python3|pkg-config|arm-none-eabi-gcc|echo|\.ci/run"
WORDS = re.compile(rf"\(?(?:[A-Z_]+=\S+ )?(?:{FIRST})(?= |$)")

BLOCK = re.compile(r"(?<=\n\n)(?:    .*\n|\n(?=    ))+")

PROVES = "it proves what it uses first"
GATE = "the gate runs it too, in the repository"
EMULATORS = "it wants compilers and emulators, and takes minutes"
CHECKOUT = "it wants a checkout of smoltcp; overlay/test.py runs the script over its modules alone"
TARGET = "it wants Rust's library, or a compiler, for another processor; c/targets.sh runs it, or builds for it"
ELSEWHERE = {
    "rt new crates/my_crate start_lib ..": PROVES,
    "(cd rust && cargo test --offline) && sh c/run.sh": GATE,
    "sh c/run.sh": GATE,
    "python3 overlay/test.py": GATE,
    "sh c/targets.sh": EMULATORS,
    "sh c/targets.sh --table": EMULATORS,
    "sh examples/endpoint/run.sh": "it wants a TUN device, and takes minutes",
    "sh c/programs/tcp.sh": "it wants a TUN device",
    "rt lemma ..": "a reader gives the words",
    "rt check": "a reader is in a crate's folder",
    "rt version": "it proves nothing",
    "rustup target add": TARGET,
    "(cd c && cargo build --profile small --target ..": TARGET,
    "arm-none-eabi-gcc ..": TARGET,
    "sh rust/examples/cortex_m/run.sh": TARGET,
    "python3 overlay/overlay.py CHECKOUT COPY": CHECKOUT,
    "SMOLTCP=CHECKOUT ..": CHECKOUT,
}


def blocks(text):
    """The blocks of a page, each a list of lines, and what is said to be printed, if anything is."""
    for block in BLOCK.finditer(text):
        said = re.compile(r"\n?```text\n(.*?)\n```$", re.M | re.S).match(text, block.end())
        said = said or re.search(r'# prints "(.*)"$', block[0], re.M)
        yield re.sub("^    ", "", block[0], flags=re.M).split("\n"), said and re.sub(r"   +.*", "", said[1])


def commands(text):
    """The commands of a page, in order, without the comments behind them, each with what it is said to print."""
    for block, said in blocks(text):
        lines = [re.sub(r"  +#.*", "", line).strip() for line in block]
        lines = [line for line in lines if WORDS.match(line)]
        if any(re.search(r"(?:^|&& )cd ", line) for line in lines):
            yield " &&\n".join(lines), said
        else:
            yield from ((line, said if line == lines[-1] else None) for line in lines)
    prose = re.sub(r"^```.*?^```$", "", BLOCK.sub("", text), flags=re.M | re.S)
    for quoted in re.findall(r"`([^`]+)`", prose):
        if WORDS.match(quoted) and re.search(r"\s", quoted):
            yield re.sub(r"\s+", " ", quoted), None


def listed(command):
    """The name of the list that a command is, or begins with."""
    return next((n for n in ELSEWHERE if command == n or n.endswith(" ..") and command.startswith(n[:-2])), None)


def main():
    with tempfile.TemporaryDirectory() as folder:
        clone = pathlib.Path(folder) / "net-base"
        words = ["git", "ls-files", "-z", "--cached", "--others", "--exclude-standard"]
        for name in subprocess.run(words, cwd=ROOT, stdout=subprocess.PIPE, text=True, check=True).stdout.split("\0"):
            if (ROOT / name).is_file():
                (clone / name).parent.mkdir(parents=True, exist_ok=True)
                shutil.copy2(ROOT / name, clone / name)
        program = next(block
                       for block, _ in blocks((clone / "docs/C.md").read_text()) if block[0].startswith("#include"))
        (clone / "my.c").write_text("\n".join(program) + "\n")
        environment = {name: value for name, value in os.environ.items() if name != "CARGO_TARGET_DIR"}
        seen, run, failed, lacking = set(), 0, [], []
        for page, place in PAGES.items():
            for command, said in dict.fromkeys(commands((clone / page).read_text())):
                why = ELSEWHERE.get(listed(command))
                seen.add(listed(command))
                if why != (PROVES if "--proved" in sys.argv[1:] else None):
                    continue
                at = clone if f" {place}/" in command else clone / place
                done = subprocess.run(["sh", "-ec", command], cwd=at, env=environment, capture_output=True, text=True)
                run += 1
                told = f"{page}: {command}: status {done.returncode}\n{done.stdout[-2000:]}{done.stderr[-2000:]}"
                if said is not None and not done.returncode and done.stdout.rstrip("\n") != said:
                    failed.append(f"{told}\nThe page has:\n{said}")
                if done.returncode == 127:
                    lacking.append(f"not run, for want of a program, whose package has its name: {told}")
                elif done.returncode:
                    failed.append(told)
    failed += [f"{name}: on no page" for name in ELSEWHERE if name not in seen]
    print("\n".join([*failed, *lacking, f"{run} commands of {len(PAGES)} pages run"]))
    sys.exit(1 if failed else 2 if lacking else 0)


if __name__ == "__main__":
    main()
