#!/usr/bin/env python3
"""python3 overlay/overlay.py CHECKOUT COPY

Copies a checkout of smoltcp 0.14.0, with `storage`, `time` and `rand` that are the proved text of net-base, so that
smoltcp's sockets and interfaces run over it. No dependency is added: `src/proved` is new, `src/storage`, `src/time.rs`
and `src/rand.rs` become what is written by hand around it, and `src/lib.rs` gets one item more. Test modules stay.

Refuses another version, a replaced file whose code, up to its test module, isn't 0.14.0's by SHA-256, a link in place
of one, a copy that exists, and a net-base that doesn't fit: one line says so, the status is 1, and no copy is left.
"""
import hashlib
import re
import shutil
import sys
from pathlib import Path

HERE = Path(__file__).resolve().parent
MODULES, NET_BASE = HERE / "modules", HERE.parent / "rust"
VERSION = "0.14.0"
# SHA-256 of smoltcp's files, up to their test modules, without empty lines at the end.
DIGESTS = {
    "src/storage/mod.rs": "d443e70c0fd4ac7ff33fa4632dc26e4eee8dd790e30477eaa8fe15aa6bf13e7e",
    "src/storage/assembler.rs": "58d74127cf211b7102e9418a00982db0f8e4ec97b0750dbc7b23521d8f9b6716",
    "src/storage/packet_buffer.rs": "458ca5839d2a3c7f905b6af5fec5585ded51cf54231f048ce08fb3de76e6007e",
    "src/storage/ring_buffer.rs": "7c6e4540f3b32162bad555dcebb73f57a7499ddb050f6ff86cf4c833675cf182",
    "src/time.rs": "560b3ddc47fcfa97d4b9b4d5ad2b2efc5ffce613fb95deac43404b1328aacfd8",
    "src/rand.rs": "0d9e7dd2f2077730096a35f94c6feda9c1eb33188e1f5e75b2d3b7ecc48860f9",
}

# What of net-base's erased text is taken, by the source that each file names in its first line.
PROVED = r"// Written by tools/erase\.py from crates/(?:net_(?:ring|packets|assembler)/|net_base/src/(?:time|rand)\b)"
MANAGED = (MODULES / "proved/managed.rs").read_text()
DEFMT = '#[cfg_attr(feature = "defmt", derive(defmt::Format))]\n'

CALL = '''    #[cfg_attr(target_pointer_width = "32", inline(never))]
    #[cfg_attr(not(target_pointer_width = "32"), inline)]
'''

MARK = r"^    #\[must_use\]\n(?=    pub fn "

# A file of it, a pattern in it, what replaces it, and how often it is found there.
CHANGES = [
    # Storage is that of the crate `managed`, and nothing else becomes a ring by `into`.
    ("storage/managed.rs", r"^#\[cfg.*?^(/// The memory of a ring.*?)^impl<T> Storage<T> for &mut .*\Z", r"\1" + MANAGED, 1),
    ("storage/ring_buffer.rs", r"^#\[cfg\(feature = \"alloc\"\)\]\nuse alloc::vec::Vec;\n(.*?)^impl<'a, T> From<&.*?(?=^/// Resets each)",
     r"\1", 1),
    # What is printed, and what smoltcp's tests look at.
    ("storage/ring_buffer.rs", r"^    (?=(?:storage: S|head: RingHead),$)", "    pub(crate) ", 2),
    ("storage/packet_buffer.rs", r"^    (?=(?:head: PacketsHead|slots: M|bytes: B),$)", "    pub(crate) ", 3),
    # What smoltcp derives.
    ("storage/error.rs", r"^(?=pub struct (?:Full|Empty);)", DEFMT, 2),
    ("storage/packet_metadata.rs", r"^(?=pub struct PacketMetadata<H>)", DEFMT, 1),
    # What smoltcp doesn't mark, though it only answers.
    ("storage/ring_buffer.rs", MARK + r"(?:capacity|(?:contiguous_)?window|len|is_empty|is_full)\b)", "", 6),
    ("storage/packet_buffer.rs",
     MARK + r"(?:is_empty|is_full|packet_capacity|payload_capacity|payload_bytes_count)\b)", "", 5),
    ("storage/assembler.rs", MARK + r"(?:peek_front|is_empty)\b)", "", 2),
    # One copy of the assembler's rule.
    ("storage/assembler.rs", r"\bself\.add_counted\(offset, size\)$", "self.head.add(&mut self.runs, offset, size)", 1),
    # Where numbers of 64 bits take two registers, a call is less code than such a sum.
    ("time/instant.rs",
     r"^    #\[inline\]\n(?=    #\[must_use\]\n    pub fn saturating_(?:add|sub)\b|    fn sub\(self, rhs: Instant\))",
     CALL, 3),
]

# In smoltcp's test modules, what names a private field, or what the module around them imports.
TESTS = [
    ("src/storage/ring_buffer.rs", r"\buse super::\*;", "use crate::storage::*;"),
    ("src/storage/packet_buffer.rs", r"\buse super::\*;", "use crate::storage::*;"),
    ("src/storage/ring_buffer.rs", r"\bring\.length\b", "ring.head.length"),
    ("src/storage/packet_buffer.rs", r"\bmetadata_ring\.len\(\)", "slots_used()"),
    ("src/storage/assembler.rs", r"\buse super::\*;",
     "use super::*;\n    use crate::proved::storage::TooManyHolesError;"),
    ("src/storage/assembler.rs", r"^    impl From<Vec<.*?^    }\n",
     (MODULES / "storage/assembler_tests.rs").read_text()),
]

# What net-base's `time` has by hand: conversions, among them those of std's clocks and core's lengths.
TIME = r"\A.*?^(?=impl Instant \{$)"


def digest(data):
    return hashlib.sha256(data).hexdigest()


def read(path):
    """The text of a file, or one that no file has."""
    return path.read_text(encoding="utf-8", errors="replace") if path.is_file() else ""


def parts(text):
    """The code of a file, and its test module, if it has one."""
    code, mark, tests = text.partition("\n#[cfg(test)]\nmod test {\n")
    return code.rstrip("\n") + "\n", (mark + tests).lstrip("\n")


def changed(path, pattern, by, count, text=None):
    text, found = re.subn(pattern, by, read(path) if text is None else text, flags=re.M | re.S)
    if found != count:
        sys.exit(f"{path} doesn't fit: {found} matches, and not {count}, of {pattern}")
    return text


def check(root):
    """Refuses what isn't smoltcp as it was released."""
    package = read(root / "Cargo.toml").partition("[package]\n")[2].partition("\n[")[0]
    facts = dict(re.findall(r'^(name|version) *= *"([^"]*)"', package, flags=re.M))
    if facts.get("name") != "smoltcp":
        sys.exit(f"{root} has no Cargo.toml of smoltcp")
    if facts.get("version") != VERSION:
        sys.exit(f"{root} is smoltcp {facts.get('version', 'of no version')}, and not {VERSION}")
    links = [name for name in ["src", "src/storage", "src/lib.rs", *DIGESTS] if (root / name).is_symlink()]
    if links:
        sys.exit(f"{root / links[0]} is a link, which may lead out of the copy")
    if (root / "src/proved").exists():
        sys.exit(f"{root} has a folder src/proved already")
    edited = [name for name, is_so in DIGESTS.items() if digest(parts(read(root / name))[0].encode()) != is_so]
    if edited:
        sys.exit(f"{root} isn't as smoltcp {VERSION} was released: {', '.join(edited)}")


def unrun(text):
    """A text whose examples aren't run: they are net-base's, which runs them."""
    return re.sub(r"```(.*)\n((?:.*\n)*?.*```)", lambda fence: f"```{fence[1] or 'ignore'}\n{fence[2]}", text)


def proved_files():
    """The files of src/proved."""
    source = NET_BASE / "src"
    texts = {path.relative_to(source).as_posix(): read(path) for path in sorted(source.rglob("*.rs"))}
    new = {name: text for name, text in texts.items() if name == "time/inline_text.rs" or re.match(PROVED, text)}
    new = {name: text for name, text in new.items() if not name.startswith("exports/")}
    for name, pattern, by, count in CHANGES:
        new[name] = changed(source / name, pattern, by, count, new.get(name, ""))
    for name, text in new.items():
        new[name] = unrun(re.sub(r"\bcrate::(storage|time|rand)\b", r"crate::proved::\1", text))
    new["mod.rs"] = (MODULES / "proved/mod.rs").read_text()
    return {f"src/proved/{name}": text for name, text in new.items()}


def tests_of(root, name):
    """The test module of a file of smoltcp, with an empty line before it, over the types of net-base."""
    tests = parts(read(root / name))[1]
    for _, pattern, by in [entry for entry in TESTS if entry[0] == name]:
        tests = re.sub(pattern, by, tests, flags=re.M | re.S)
    return "\n" * bool(tests) + tests


def other_files(root):
    """The files by hand around them, with smoltcp's test modules, and lib.rs."""
    new = {name: (MODULES / name.removeprefix("src/")).read_text() for name in DIGESTS}
    page = read(root / "src/time.rs").partition("use core::")[0]
    new["src/time.rs"] = f"{page}{new['src/time.rs']}{unrun(changed(NET_BASE / 'src/time.rs', TIME, '', 1))}"
    for name in new:
        new[name] += tests_of(root, name)
    item = "#[rustfmt::skip]\nmod proved;\nmod rand;"
    new["src/lib.rs"] = changed(root / "src/lib.rs", r"^mod rand;$", item, 1)
    return new


def main():
    if len(sys.argv) != 3:
        sys.exit(__doc__)
    root, copy = map(Path, sys.argv[1:])
    check(root)
    new = proved_files() | other_files(root)
    try:
        shutil.copytree(root, copy, symlinks=True, ignore=shutil.ignore_patterns("target"))
    except FileExistsError:
        sys.exit(f"{copy} exists")
    try:
        for name, text in new.items():
            (copy / name).parent.mkdir(parents=True, exist_ok=True)
            (copy / name).write_text(text, encoding="utf-8")
    except BaseException:
        shutil.rmtree(copy)
        raise
    added = sum(not (root / name).exists() for name in new)
    print(f"{copy}: {added} files added, {len(new) - added} changed")


if __name__ == "__main__":
    main()
