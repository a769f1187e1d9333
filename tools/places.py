#!/usr/bin/env python3
"""places.py: what a new call of a packet queue lacks. Status 1 if a public `&mut self` method has no clause `call`, which
says which call of its history it is, or if no clause makes a call of the history, but for those that a list has with its
reason, or if a list has what isn't so.
"""
import re
import sys

sys.dont_write_bytecode = True
from parts import ROOT

CRATES = ROOT / "crates"
# Methods without this clause, and why.
NO_CALLS = {
    "dequeue_with": "clause `handed` says it, by HandsPacket",
    "enqueue_with_infallible": "clause `wrote` says it",
}
# A public method of `&mut self`, up to its body.
METHOD = re.compile(r"^    pub (?:const )?fn (\w+)(?:<[^{}]*?>)?\(\s*&(?:'\w+ )?mut self\b(.*?)(?: \{$|^    \{$)",
                    re.M | re.S)


def lacking():
    """A line for each method without a call of its history, and for each call that none makes."""
    queues = CRATES / "net_packets"
    methods = METHOD.findall((queues / "src/packet_buffer.rt").read_text())
    without = {name for name, contract in methods if "ensures call {" not in contract}
    said = "\n".join(it.read_text() for it in [*queues.glob("src/**/*.rt"), *queues.glob("specs/*.antt")])
    calls = set(re.findall(r"^ *Makes \(?(\w+)", said, re.M))
    said = re.sub(r"^ *(?:--|//|Makes|log_after|\w+ :).*", "", said, flags=re.M)
    yield from (f"no clause makes the call {it}" for it in sorted(calls) if not re.search(rf"\b{it}\b", said))
    yield from (f"{it}: no clause says which call of the history it is" for it in sorted(without - set(NO_CALLS)))
    yield from (f"{it}: NO_CALLS has it, and it has a clause, or there is no such method"
                for it in sorted(set(NO_CALLS) - without))


if __name__ == "__main__":
    WRONG = [*lacking()]
    print(*WRONG, f"{len(WRONG)} places are missing", sep="\n")
    sys.exit(bool(WRONG))
