"""Writes c/src/shim.rs: for each export a line of the macro `export` in c/src/lib.rs, which makes of it a function with
C's convention. It is a part of ffi.py."""
import re
import textwrap

import ffi

OUT = ffi.ROOT / "c/src/shim.rs"
HEAD = """//! The exports with C's convention. Written by tools/ffi.py.
use crate::{new_mut, slice, slice_mut, value, value_mut, Passed};
use proved::exports::*;
"""


def modules():
    """The module of each function and type of net_ffi."""
    found = {}
    for path in ffi.EXPORTS.glob("src/**/*.rt"):
        module = "::".join(path.relative_to(ffi.EXPORTS / "src").with_suffix("").parts)
        for name in re.findall(r'^pub (?:extern "C" fn|fn|struct|type) (\w+)', path.read_text(), flags=re.M):
            found[name] = f"{module}::{name}"
    return found


def soundness(item, library):
    """The test of duties 5, 6 and 7: the call of `_is_sound` that the comment names, with what the export has of its
    parameters; none if it lacks one."""
    said = re.search(r"`(net_base_\w+_is_sound)` tests", " ".join(item.doc))
    if not said or not item.requires:
        return ""
    given, words = {it.name: it.name for it in item.members}, []
    if "storage" in given:
        given.setdefault("capacity", "storage.len()")
    for member in next(it for it in library.exports() if it.name == said[1]).members:
        if member.name not in given:
            return ""
        words.append(given[member.name])
    return f", sound {said[1]}({', '.join(words)})"


def layout(name, library):
    """The fields of a struct, as numbers and structs in memory, of which neighbours of one kind are one: their name, their
    kind, and how many they are. A flag is a byte, and so many neighbours are read at once."""
    found = []
    for member in library.structs[name].members:
        kind, count = member.type, 1
        while kind.startswith("["):
            kind, count = re.fullmatch(r"\[(.+); (\d+)\]", kind)[1], count * int(re.fullmatch(r"\[(.+); (\d+)\]", kind)[2])
        if kind in library.structs:
            inner = layout(kind, library)
            kind, count = (inner[0][1], count * inner[0][2]) if len(inner) == 1 and inner[0][1] != "bool" else (kind, count)
        kind = {"i64": "u64"}.get(kind, kind)
        if found and found[-1][1] == kind and kind not in library.structs:
            found[-1] = (found[-1][0], kind, found[-1][2] + count)
        else:
            found.append((member.name, kind, count))
    return found


def flags_of(name, library, path=""):
    """Where a struct has flags: the path of each group."""
    for field, kind, _ in layout(name, library):
        if kind in library.structs:
            yield from flags_of(kind, library, f"{path}{field}.")
        elif kind == "bool":
            yield f"{path}{field}"


def mirrors(names, library):
    """These structs and those in them, inner ones first."""
    inner = lambda name: [kind for _, kind, _ in layout(name, library) if kind in library.structs]
    return list(dict.fromkeys(it for name in names for it in [*mirrors(inner(name), library), name]))


def mirror(name, library):
    """The lines of a struct with the same layout."""
    plain = lambda kind, count: kind if count == 1 else f"[{kind}; {count}]"
    fields = [f"{field}: " + (f"[u8; {count}]" if kind == "bool" else plain(kind, count))
              for field, kind, count in layout(name, library)]
    return wrapped(f"    {name} {{ {', '.join(fields)} }}")


def wrapped(text):
    return textwrap.wrap(text, 120, subsequent_indent="        ", break_long_words=False, break_on_hyphens=False)


def passed(library):
    """What the shim knows of each type that C passes a pointer to: where its flags are."""
    kinds = sorted({it.type.split()[-1].lstrip("&") for item in library.exports() for it in item.members
                    if it.type.startswith("&") and "[" not in it.type})
    flags = {kind: list(flags_of(kind, library)) if kind in library.structs else [] for kind in kinds}
    with_flags = [kind for kind in kinds if flags[kind]]
    return ["raw! {", *[line for name in mirrors(with_flags, library) for line in mirror(name, library)], "}",
            *[f"passed! {{ {kind}: {', '.join(flags[kind])} }}" for kind in with_flags],
            *wrapped(f"passed! {{ {', '.join(kind for kind in kinds if not flags[kind])} }}")]


def rows(item, library):
    """The lines of an export."""
    refused = re.sub(r"\w+::(?!MAX)", "", ffi.refusal(item))
    is_first = item.name.endswith("_init")
    given = ", ".join(f"{it.name}: {'new ' * (is_first and it.type.startswith('&mut '))}{it.type}" for it in item.members)
    result, other = f" -> {item.type}" * bool(item.type), f", else {refused}" * bool(refused)
    text = f'export! {{ "{ffi.link_name(item, ffi.interface())}" = {item.name}, ({given}){result}' \
           f'{other}{soundness(item, library)}; }}'
    return textwrap.wrap(text, 120, subsequent_indent="    ", break_long_words=False, break_on_hyphens=False)


def text(library):
    """The file."""
    used = sorted({module.rpartition("::")[0] for module in modules().values()})
    uses = [f"use proved::exports::{module}::*;" for module in used]
    return HEAD + "\n".join([*uses, "", *passed(library), "", *[row for it in library.exports() for row in rows(it, library)]]) + "\n"
