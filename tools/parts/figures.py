"""The numbers that pages have of other files, for tools/check_quotes.py.

A figure is a text of a page, with `{}` in the place of each number, the file that says these, and what it says.
README.md and docs/PERFORMANCE.md have no other number in prose and tables but those of FIXED.
"""
import functools
import re
from pathlib import Path

import guards
import plants
from parts import ROOT
from parts.erase_list import PACKAGES

# What no file counts: what is asked for, and versions.
FIXED = ["has 64 bits", "For 32 bits", "smoltcp 0.14.0", "until 1.0", "Rust 1.87 and Python 3.9", "smoltcp's is 1", "[0BSD]",
         "1,460 bytes", "quinn-proto 0.11.9", "N = 4", "round trip of 1 ms"]
WORDS = [*"none one two three four five six seven eight nine ten eleven twelve".split(), *map(str, range(13, 100))]
NUMBER = rf"(\d(?:[\w.,-]*\w)?|(?i:{'|'.join(WORDS)}))"


def count(form, *patterns):
    """How often files have a form."""
    return sum(len(re.findall(form, file.read_text(), re.M)) for it in patterns for file in ROOT.glob(it))


def cells(path):
    """The rows of a result's tables that have numbers."""
    lines = re.findall(r"^\| (.*\d.*?) *\|$", (ROOT / path).read_text(), re.M)
    return [[cell.strip(" *") for cell in line.split(" | ")] for line in lines]


def value(cell):
    return float(re.match(r"[\d.,]+", cell)[0].replace(",", ""))


def span(ratios):
    return [f"{min(ratios):.2f}", f"{max(ratios):.2f}"]


def tens(number):
    """A count, rounded down to two digits."""
    unit = 10 ** (len(str(number)) - 2)
    return f"{number // unit * unit:,}"


def measured():
    times, sizes, peers = (f"compare/results/{name}.md" for name in ("times", "sizes", "peers"))
    rows = {row[0]: value(row[1]) for row in cells(times)}
    yield "beside smoltcp's loop written again) | {} | {} |", times, span([it for name, it in rows.items() if not name.startswith("group ")])
    # A round of this row has five calls.
    lent = next(row[2].split("/") for row in cells(times) if row[0] == "stream_lent size 1460")
    here, there = (f"{5 * float(count):,.0f}" for count in lent)
    yield "read in place | x86-64 | {} |", times, [here]
    yield "smoltcp's ring and assembler do so | x86-64 | {} |", times, [there]
    ratios = [value(row[k + 1]) / value(row[k]) for row in cells(sizes) if len(row) == 6 for k in (2, 4)]
    paths = {row[0]: [*map(value, row[1:])] for row in cells(sizes) if ";" in row[1]}
    ours = [[here / there for here, there in zip(paths[name], paths["smoltcp"])]
            for name in ("net-base's `Receiver`, `keep`", "the same, `segment`")]
    printed = dict(re.findall(r"^([^:\n]*): (\d+) instructions$", (ROOT / sizes).read_text(), re.M))
    in_place, copied, two, byte = (f"{int(count):,}" for count in printed.values())
    for form, count in [("kept, and read in place", in_place), ("copied out", copied), ("are read in place", two),
                        ("a byte goes through a `SplitRing`", byte)]:
        yield form + " | Cortex-M4 | {} |", sizes, [count]
    rounds = [next(row for row in cells(sizes) if row[0] == name)[1].split("; ")
              for name in ("net-base's `Receiver`, `keep`", "smoltcp", "net-base, joined")]
    yield "its code has {} bytes, smoltcp's ring and assembler have {}, and ours {}", sizes, [it[0] for it in rounds]
    yield "16 bytes take {} instructions, {} and {}", sizes, [it[1] for it in rounds]
    small = dict(re.findall(r"(\w+): (\d+)(?: bytes|$)", (ROOT / sizes).read_text(), re.M))
    for form in ("Receiver 136 # and {}, with", "FiniteReceiver 144 # and {}", "Assembler 80 # and {}",
                 "RingBuffer 40 # and {}", "PacketBuffer 80 # and {}", "PacketMetadata 16 # and {}, with"):
        yield form, sizes, [small[form.split()[0]]]
    processors = WORDS[len({row[0] for row in cells(sizes) if len(row) == 6})]
    yield "bytes of code, on {} processors | {} | {} |", sizes, [
        processors, *span([*ratios, *(ratio for row in ours for ratio in row)])]
    quinn = cells("compare/results/quinn.md")
    tests = next(row[2] for row in quinn if row[0] == "pass")
    yield "passes {} of its {} tests", "compare/results/quinn.md", re.findall(r"\d+", tests)
    times_of = {row[0]: value(row[3]) for row in quinn if len(row) == 6 and re.fullmatch(r"[\d,]+", row[1])}
    sent = {name: ratio for name, ratio in times_of.items() if " by " in name}
    received = [ratio for name, ratio in times_of.items() if name not in sent and "of one byte" not in name]
    yield "time to receive a frame (worst: 1,000 holes) | {} | {} |", "compare/results/quinn.md", span(received)
    yield "time to send a frame, by our adapter | {} | {} |", "compare/results/quinn.md", span([*sent.values()])
    clean = next(row for row in cells(peers) if len(row) == 6 and row[0] == "clean")
    yield "sent {} MB/s, and Linux {}", peers, [it.split(";")[0] for it in clean[1:3]]
    ratios = [float(it) for row in cells(peers) if len(row) == 8 for it in re.findall(r"\(([\d.]+)\)", " ".join(row))]
    yield "take {} to {} times as long as those of Linux in the same role", peers, span(ratios)
    yield "time of a transfer, by an example over net-tcp | {} | {} |", peers, span(ratios)


def counted():
    cargo, models, rattle = "rust/Cargo.toml", "rust/tests/model/main.rs", "crates/*/src/**/*.rt"
    left, calls = "tools/parts/same_names.txt", "overlay/calls.rs"
    first = lambda form, path: (re.search(form, (ROOT / path).read_text(), re.M | re.S) or "00")[1]
    yield "Rust {} or later", cargo, [first(r'^rust-version = "(.*?)"', cargo)]
    yield "version {}, and depend on it by path", cargo, [first(r'^version = "(.*?)"', cargo)]
    for text in ("has to refuse each of {} [wrong", "also broke [{} functions]"):
        yield text, "crates/must-fail.md", [str(count(r"^\| .* \| `.*` \| `", "crates/must-fail.md"))]
    edits = "crates/*/must-fail/*.edit"
    yield "tests catch {} of them", edits, [str(count("^# test: ", edits))]
    model = "rust/examples/plain_model.rs"
    yield "every list of {} calls", model, [WORDS[int(first(r"pow\((\d)\)", model))]]
    ends, reads = first(r"CAPACITY: u64 = (\d+)", model), count(r"Call::Read\(\d", model)
    yield "where each call is one of {}", model, [str(2 * (int(ends) + 1) + reads)]
    kinds = count(r"^    \w+: (?:\w+::)?play\w*,$", models, "rust/net-tcp/tests/model.rs")
    yield "Some {} tests of Rust", f"src and tests of Rust's packages, {models}", [
        tens(count(r"#\[test\]", *(f"{Path(folder).parent}/{it}/**/*.rs" for folder in PACKAGES.values()
                                   for it in ("src", "tests"))) + kinds)]
    seeds = first(r"unwrap_or.([0-9]+)", "rust/tests/model/beside.rs")
    yield "{} runs of random calls", models, [
        f"{kinds * int(seeds):,}"]
    yield "{} calls answer as", "c/targets/run.py", [f'{int(first(r"^CALLS.*? = ([0-9_]+)", "c/targets/run.py")):,}']
    seeds, kinds = first(r"SEEDS: u64 = (\d+)", calls), first(r"KINDS: [^=]*; (\d+)\]", calls)
    for text in ("{} random sequences of calls", "{} sequences of [random calls]"):
        yield text, calls, [f"{int(seeds) * int(kinds):,}"]
    yield "{} functions, each with its reason", left, [WORDS[first(r"^== left\n(.*)", left).count(" ~~ ") // 2]]
    same = ("tools/same_program.py", "tools/parts/same_*.py", "tools/parts/mir_text.py")
    yield "with its parts {} lines of Python", ", ".join(same), [tens(count("\n", *same))]
    yield "What a rustc other than {}, {} and {} makes", "tools/widths.py", re.findall(
        r"'([\d.]+)\.'", first(r"^READS = (.*)", "tools/widths.py"))
    planted = plants.SECTIONS.copy()
    yield "each of {} weakened scripts", "tools/parts/plants.txt", [str(len(planted.pop(("weakened",))))]
    yield "Each of {} faults", "tools/parts/plants.txt", [str(sum(map(len, planted.values())))]
    yield "has {} patterns of", left, [WORDS[first(r"^== alone\n(.*?)\n\n", left).count("\n") + 1]]
    yield "those of {} others are", "tools/guards.py", [WORDS[len([*guards.guarded()])]]
    yield "[{} functions](std-calls.md)", "docs/std-calls.md", [
        str(sum(len(re.findall(r"`\w+`", names)) for names in re.findall(
            r"^- `\w+`: (.*(?:\n  .*)*)", (ROOT / "docs/std-calls.md").read_text(), re.M)))]
    lwip = "compare/results/sizes.md"
    yield "{} bytes of code, {} for a connection, and {} for a queued segment", lwip, [
        f"{int(it):,}" for it in re.search(r"(\d+) bytes of code, (\d+) for a connection, (\d+) for", (ROOT / lwip).read_text()).groups()]
    bytes_of = lambda it: int(first(rf"^\| `net_{it}` \| \d+ \| (\d+) \|", "docs/C.md"))
    yield "row's RAM is {} for both ends and {} for a limit", "docs/C.md", [
        str(bytes_of("bound_receiving_end") + bytes_of("bound_sending_end")), str(bytes_of("base_answer_limit"))]
    yield "which have {} lines", "c/programs", [str(count("\n", "c/programs/tcp.c", "c/programs/headers.h"))]
    yield "declares {}.", rattle, [WORDS[count(r'^\s*(?:unsafe )?extern(?: "\w+")? \{', rattle)]]
    yield "{} `unsafe impl`", rattle, [WORDS[count(r"^\s*unsafe impl\b", rattle)]]
    yield "hand-written proofs of [{} functions]", "crates/*/proofs", [WORDS[len([*ROOT.glob("crates/*/proofs/**/Proof.antt")])]]


@functools.cache
def figures():
    return [*measured(), *counted()]


def pattern(form):
    """The texts of a form, with any numbers in the place of `{}`."""
    return re.escape(form).replace(r"\{\}", NUMBER).replace(r"\ ", r"\s+")


def written(text):
    """A page with the numbers that the files have."""
    for form, _, values in figures():
        for found in [*re.finditer(pattern(form), text)][::-1]:
            for k, it in [*enumerate(values, 1)][::-1]:
                text = text[:found.start(k)] + (it.capitalize() if found[k][0].isupper() else it) + text[found.end(k):]
    return text


def blanked(form, text, kept=""):
    """A text with spaces in the place of a form, but for line feeds, and one character that is kept."""
    return re.sub(form, lambda it: kept + re.sub(r"[^\n]", " ", it[0])[len(kept):], text, flags=re.M | re.S)


def strays(text):
    """The numbers of a page in no figure, no block, no link and not between backquotes, each with its place."""
    for form in (*(form for form, *_ in figures()), *FIXED):
        text = blanked(pattern(form), text)
    text = blanked(r"^```.*?^```$|^    [^\n]*$|`[^`\n]*`|\]\([^)]*\)|<!--.*?-->", text)
    return [(found.start(), found[0]) for found in re.finditer(r"(?<![\w-])\d[\w.,]*", text)]
