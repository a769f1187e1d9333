"""What an export returns for a null pointer, by the words of c/net_base.h alone: the rule of its first comment, and
what the comment of an export says of a refusal. Nothing here asks tools/ffi.py, by which the shim refuses."""
import re

from parts import ROOT

HEADER = ROOT / "c/net_base.h"
# "`bool`: `false`", "a status: its `NET_BASE_.._REFUSED`", "`size_t`: `NET_BASE_NONE`", "`uint64_t`: `UINT64_MAX`",
# "`uint16_t`: 0", "a struct: the same in its first field".
REFUSED = {"bool": "false", "size_t": "NET_BASE_NONE", "uint64_t": "UINT64_MAX"}
EXPORT = re.compile(r"/\*\*((?:(?!\*/).)*)\*/\n(?:NET_BASE_MUST_USE )?(?:struct |enum )?(\w+) (net_base_\w+)\(([^;]*)\)[^;]*;", re.S)
STATUS = re.compile(r"^enum NET_BASE_32_BITS (net_base_\w+) \{(.*?)^\};", re.S | re.M)
STRUCT = re.compile(r"^struct (net_base_\w+) \{\n(.*?)^\};", re.S | re.M)
# "`from` is `NET_BASE_NONE`, `count` and `contiguous` are 0".
FIELDS = re.compile(r"((?:`\w+`(?:, | and )?)+) (?:is|are) `?(NET_BASE_NONE|UINT64_MAX|0|false)\b")


def refusals():
    """Of each export what is compared after a null: a field, or nothing, and its value."""
    text = HEADER.read_text()
    fields = ((name, re.search(r"^ {4}(?:enum )?(\w+) (\w+);", body, re.M)) for name, body in STRUCT.findall(text))
    first = {name: field.groups() for name, field in fields if field}
    said = {name: (" ".join(doc.replace("\n *", " ").split()), kind) for doc, kind, name, _ in EXPORT.findall(text)}

    refused = REFUSED | {name: re.search(r"\w+_REFUSED\b", body)[0] for name, body in STATUS.findall(text)}
    found = {}
    for name, (doc, kind) in said.items():
        if kind in first:
            of_type, field = first[kind]
            sentence = doc.partition("It is refused if")[2]
            values = {it: value for names, value in FIELDS.findall(sentence) for it in re.findall(r"`(\w+)`", names)}
            values[field] = refused[of_type]
            found[name] = [(f".{it}", value) for it, value in values.items()]
        elif kind != "void":
            is_shut = kind == "bool" and doc.partition("It is refused if")[2].partition(": ")[2].startswith("true")
            found[name] = [("", "true" if is_shut else refused.get(kind, "0"))]
    return found
