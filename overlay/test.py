#!/usr/bin/env python3
"""[SMOLTCP=CHECKOUT] python3 overlay/test.py

Tests overlay.py, and what it makes of a checkout of smoltcp 0.14.0 that SMOLTCP names: its items, its tests, and random
calls, which give the same as those over smoltcp with two faults mended. Files that SMOLTCP lacks are those of the folder
`checkout`, so that smoltcp's storage, time.rs and rand.rs are enough. Without SMOLTCP there are these files alone: what
random calls give is then compared with a digest of what they gave over smoltcp, and if nothing is wrong the status is 2.
"""
import contextlib
import io
import os
import re
import shutil
import subprocess
import sys
import tempfile
from pathlib import Path

sys.dont_write_bytecode = True
import overlay

HERE = Path(__file__).resolve().parent
# Sets of features; smoltcp refuses defmt with log, which is one of its default features.
SOCKET = "--no-default-features --features medium-ip,proto-ipv4,socket-tcp"
FEATURES = ["", SOCKET, f"{SOCKET},alloc", f"{SOCKET},defmt", f"{SOCKET},std,defmt"]
# SHA-256 of the lines that calls.rs prints over smoltcp.
CALLS = "6f1a5996ceb60bddb79dccbbf1f18e99a92fd615346c9257d0842e99c7ce0155"

# Edits of smoltcp's text that mend the two faults of its packet queue: a refusal leaves a gap; a queue without bytes
# isn't rewound.
ONE_SLOT = "self.metadata_ring.window() < 2"
FULL = "self.metadata_ring.is_full() {\n            return Err(Full);\n        }\n\n        let window"
REWOUND = "if self.payload_ring.is_empty() {\n            self.payload_ring.clear();\n        }\n        let window"
MENDED = [
    ("if window - contig_window < size {", f"if window - contig_window < size || {ONE_SLOT} {{"),
    ("if window - contig_window < max_size {", f"if window - contig_window < max_size || {ONE_SLOT} {{"),
    (FULL, FULL.replace("let window", REWOUND)),
]


def stop(text):
    sys.exit(f"overlay: {text}")


def tree(folder):
    """Each file of a folder, and its bytes."""
    return {path.relative_to(folder): path.read_bytes() for path in folder.rglob("*") if path.is_file()}


def made(checkout, copy):
    """What overlay.py says, and why it refuses."""
    sys.argv[1:] = map(str, (checkout, copy))
    with contextlib.redirect_stdout(io.StringIO()) as said:
        try:
            overlay.main()
        except SystemExit as refused:
            return said.getvalue(), refused.code
    return said.getvalue(), ""


class Tests:
    def __init__(self, folder, smoltcp):
        self.folder, self.smoltcp, self.refusals = folder, smoltcp, 0
        self.original, self.overlaid = folder / "original", folder / "overlaid"
        self.is_whole = bool(smoltcp and (smoltcp / "Cargo.toml").is_file())
        if not self.is_whole:
            shutil.copytree(HERE / "checkout", self.original)
        if smoltcp:
            shutil.copytree(smoltcp, self.original, dirs_exist_ok=True, ignore=shutil.ignore_patterns("target", ".git"))
        for name in [] if smoltcp else overlay.DIGESTS:
            (self.original / name).parent.mkdir(exist_ok=True)
            (self.original / name).write_text("// Replaced by the overlay.\nuse core::fmt;\n")
            overlay.DIGESTS[name] = overlay.digest((self.original / name).read_bytes())

    def copy(self):
        shutil.rmtree(self.folder / "checkout", ignore_errors=True)
        return Path(shutil.copytree(self.original, self.folder / "checkout"))

    def refused(self, what, checkout, copy="none"):
        """What is refused by one line, and changes nothing."""
        self.refusals += 1
        before = tree(self.folder)
        said, refused = made(checkout, self.folder / copy)
        if said or not re.fullmatch(f".*{re.escape(what)}.*", refused) or tree(self.folder) != before:
            stop(f"{what} {checkout}: {said}{refused}, or something was changed")

    def script(self):
        """The script: what it makes and refuses."""
        before = tree(self.original)
        said, refused = made(self.original, self.overlaid)
        after = tree(self.overlaid)
        differ = {str(path) for path in before if before[path] != after.get(path)}
        if refused or tree(self.original) != before or differ != {*overlay.DIGESTS, "src/lib.rs"}:
            stop(f"changed are {differ}, or the checkout: {refused}")
        self.refused("overlaid exists", self.original, "overlaid")
        self.refused("has no Cargo.toml of smoltcp", self.folder / "none")
        for what, file, old, new in [
            ("is smoltcp 0.13.0", "Cargo.toml", b'version = "0.14.0"', b'version = "0.13.0"'),
            ("is smoltcp of no version", "Cargo.toml", b'version = "0.14.0"', b"version.workspace = true"),
            ("0.14.0 was released: src/time.rs", "src/time.rs", b"use core::", b"use  core::"),
            ("0.14.0 was released: src/rand.rs", "src/rand.rs", b"\n", b"\n\x80"),
            ("src/lib.rs doesn't fit", "src/lib.rs", b"mod rand;", b"pub mod rand;"),
        ]:
            path = self.copy() / file
            path.write_bytes(path.read_bytes().replace(old, new, 1))
            self.refused(what, self.folder / "checkout")
        overlay.NET_BASE, checkout = self.folder / "net-base", self.copy()
        shutil.copytree(HERE.parent / "rust/src", overlay.NET_BASE / "src")
        for name, word in [("storage/error.rs", "struct Full"), ("time.rs", "impl Instant")]:
            path = overlay.NET_BASE / "src" / name
            text = path.read_text()
            for other in [text.replace(word, word.replace(" ", "  ")), ""]:
                path.write_text(other)
                self.refused(f"{name} doesn't fit", checkout)
            path.unlink()
            self.refused(f"{name} doesn't fit", checkout)
            path.write_text(text)
        for name in ["src", "src/storage", "src/time.rs"]:
            path = self.copy() / name
            path.rename(checkout / "moved")
            path.symlink_to(checkout / "moved")
            self.refused(f"{name} is a link", checkout)
        (self.copy() / "src/proved").mkdir()
        self.refused("has a folder src/proved", checkout)
        print(f"script: {said.split(': ')[1].strip()}; {self.refusals} refusals, without a copy")

    def mend(self):
        path = self.original / "src/storage/packet_buffer.rs"
        for old, new in MENDED:
            path.write_text(overlay.changed(path, re.escape(old), new.replace("\\", "\\\\"), 1))

    def cargo(self, checkout, words):
        """What cargo prints, which builds it with sums that are checked."""
        own = {"CARGO_TARGET_DIR": str(self.folder / "target"), "CARGO_PROFILE_TEST_OPT_LEVEL": "1"}
        done = subprocess.run(["cargo", *words.split()], cwd=checkout, env=os.environ | own, capture_output=True, text=True)
        if done.returncode:
            stop(f"{checkout.name}: cargo {words}\n{done.stdout[-3000:]}{done.stderr[-3000:]}")
        return done.stdout, done.stderr

    def compiles(self, checkouts):
        """Each visible item, and each set of features with no more warnings than smoltcp's."""
        for checkout in checkouts:
            with (checkout / "src/lib.rs").open("a") as file:
                file.write(f'#[path = "{HERE / "api_check.rs"}"]\nmod api_check;\n')
                file.write(f'#[cfg(test)]\n#[path = "{HERE / "calls.rs"}"]\nmod calls;\n')
        for words in FEATURES:
            warnings = [self.cargo(checkout, f"check --lib {words}")[1].count("warning:") for checkout in checkouts]
            if warnings[0] > warnings[-1]:
                stop(f"{words}: a new warning")
        print(f"items: each visible one, in {len(FEATURES)} sets of features")

    def tests(self, checkouts):
        """smoltcp's own tests, of which as many pass as over smoltcp, examples of pages, and what defmt writes."""
        words = "test -q --lib --tests --examples -- --skip calls::calls"
        said = [self.cargo(checkout, words)[0] for checkout in checkouts]
        counts = [sum(map(int, re.findall(r"(\d+) passed; 0 failed", text))) for text in said]
        if counts[0] != counts[-1]:
            stop(f"of {counts[1]} tests {counts[0]} passed")
        self.cargo(self.overlaid, "test -q --doc")
        for checkout in [] if self.is_whole else checkouts:
            self.cargo(checkout, f"test -q --lib {SOCKET},std,defmt texts")
        count = sum((self.original / name).read_text().count("#[test]") for name in overlay.DIGESTS)
        print(f"tests: smoltcp's {count} of these modules, and {counts[0] - count} others, passed")

    def calls(self, checkouts):
        """Random calls give the same."""
        said = [self.cargo(checkout, "test --lib calls::calls -- --nocapture")[0] for checkout in checkouts]
        printed = [re.findall(r"^\w+ \d+ \d+ [0-9a-f]{16}$", text, re.M) for text in said]
        differ = [here for here, there in zip(printed[0], printed[-1]) if here != there]
        if differ:
            stop(f"random calls give something else over the overlay: {differ[0]}")
        digest = overlay.digest("\n".join(printed[-1]).encode())
        if digest != CALLS:
            stop(f"random calls gave over smoltcp what has the digest {CALLS}, and here {digest}")
        how = "what they give over smoltcp" if self.smoltcp else "what was recorded over smoltcp"
        print(f"random calls: {len(printed[0]):,} sequences give {how}")


def main():
    smoltcp = os.environ.get("SMOLTCP") and Path(os.environ["SMOLTCP"]).resolve()
    missing = [name for name in overlay.DIGESTS if smoltcp and not (smoltcp / name).is_file()]
    if missing:
        stop(f"SMOLTCP has no file {missing[0]}")
    with tempfile.TemporaryDirectory() as folder:
        tests = Tests(Path(folder).resolve(), smoltcp)
        checkouts = [tests.overlaid, tests.original] if smoltcp else [tests.overlaid]
        tests.script()
        if smoltcp:
            tests.mend()
        for test in [tests.compiles, tests.tests, tests.calls]:
            test(checkouts)
    if not smoltcp:
        print("overlay: not run, since SMOLTCP names no checkout: smoltcp's own tests and files", file=sys.stderr)
        sys.exit(2)


if __name__ == "__main__":
    main()
