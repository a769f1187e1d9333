"""Writes the program in C that calls each export at the values of exports.txt: part of ffi.py.

The first lines of exports.txt say what a row is. Each export has one, and so has each constant.
"""
import collections
import pathlib
import re
import sys

import ffi
from parts import nulls

TABLE = pathlib.Path(__file__).resolve().parents[1] / "exports.txt"
ARRAY = re.compile(r"\[(.+); \d+\]")
TOKEN = re.compile(r'"[^"]*"|[\[\]{}]|[^\s\[\]{}"]+')
ANY, SAME, EMPTY = "_", "=", ('""', ["["])
# The program in C, before and after what is written of the rows.
HEAD, TAIL = pathlib.Path(__file__).with_suffix(".c").read_text().split("// ROWS\n")


def stop(line, message):
    sys.exit(f"tools/exports.txt:{line}: {message}")


# A call of an export: its arguments, its result and what it leaves, as trees of texts and lists.
Row = collections.namedtuple("Row", "item arguments result left")


class Table:
    """The rows by export, and the numbers of the constants."""

    def __init__(self, library):
        self.library, self.names, self.numbers = library, {}, {}
        self.exports = {item.name: item for item in library.exports()}
        self.rows = {name: [] for name in self.exports}
        for line, text in enumerate(TABLE.read_text().splitlines(), start=1):
            self.take(line, text.split("#")[0].strip() if text.startswith("#") else text.strip())
        constants = {it.name for _, section, _ in library.sections for item in section
                     for it in ([item] if item.kind == "const" else item.members if item.kind == "enum" else [])}
        for name in sorted(constants - {f"NET_BASE_{name}" for name in self.numbers}):
            sys.exit(f"tools/exports.txt: no number of {name}")
        for name, rows in self.rows.items():
            if not rows:
                sys.exit(f"tools/exports.txt: no row of {name}")
            returned = [row.result[1] if isinstance(row.result, list) else row.result for row in rows]
            for answer in self.answers(self.exports[name]):
                if answer not in returned:
                    sys.exit(f"tools/exports.txt: no row of {name} returns {answer}")

    def answers(self, item):
        """What rows return at least: each status but what null alone is answered, both of a `bool`, or else that a call
        is refused."""
        if answer := self.library.answer(item.type):
            names = ffi.ANSWERS[answer] if item.type == answer else ["REFUSED"]
            return [it for it in names if it != "REFUSED" or answer not in ffi.REFUSED_FOR_NULL]
        is_refused = item.type == "usize" and "It is refused if" in " ".join(item.doc)
        return ["true", "false"] if item.type == "bool" else ["MAX"] * is_refused

    def take(self, line, text):
        if not text:
            return
        if match := re.fullmatch(r"const (\w+) (\S+)", text):
            self.numbers[match[1]] = 2**64 - 1 if match[2] == "MAX" else int(match[2])
        elif match := re.fullmatch(r"let (\w+) = (.+)", text):
            self.names[match[1]] = self.values(match[2])[0]
        else:
            before, after = text.split(" ->", 1)
            name, *_ = before.split()
            item = self.exports.get(f"net_base_{name}") or stop(line, f"no export net_base_{name}")
            arguments, after = self.values(before[len(name) :]), self.values(after)
            written = [member for member in item.members if member.type.startswith("&mut")]
            if len(arguments) != len(item.members) or len(after) != bool(item.type) + len(written):
                stop(line, f"not the arguments, the result and what is left of {item.name}")
            if ANY in after:
                stop(line, f"`{ANY}` is only in what {item.name} returns or leaves")
            result = after.pop(0) if item.type else None
            now = dict(zip([member.name for member in item.members], arguments))
            left = {it.name: now[it.name] if value == SAME else value for it, value in zip(written, after)}
            self.rows[item.name].append(Row(item, now, result, left))

    def values(self, text):
        """The values of a text: a text each, or a list of values with its bracket before them."""
        stack = [[]]
        text = re.sub(r'(\d+)\*"([^"]*)"', lambda it: f'"{it[2] * int(it[1])}"', text).replace('"+"', "")
        for token in TOKEN.findall(text):
            if token in "[{":
                stack.append([token])
            elif token in "]}":
                done = stack.pop()
                stack[-1].append(done)
            else:
                stack[-1].append(self.names.get(token, token))
        return stack[0]

    def number(self, text, kind):
        """The number that a text says, of a type."""
        bits = int(re.sub(r"\D", "", kind) or 64)
        least = -(2 ** (bits - 1)) if kind[0] == "i" else 0
        values = {"MAX": least + 2**bits - 1, "MIN": least} | self.numbers
        match = re.fullmatch(r"(-?)(0x[0-9a-f]+|2\^\d+|\w+)([+-]\d+)?", text)
        sign, word, more = match.groups()
        value = values[word] if word in values else 2 ** int(word[2:]) if word[1:2] == "^" else int(word, 0)
        value = (-value if sign else value) + int(more or 0)
        if not least <= value < least + 2**bits:
            sys.exit(f"tools/exports.txt: {text} is no {kind}")
        return value


class C:
    """How C writes values of a type, and compares them; and the program."""

    def __init__(self, table):
        self.table, self.structs, self.is_wide, self.refused = table, table.library.structs, False, nulls.refusals()

    def value(self, tree, kind):
        if kind == "bool":
            return tree
        if array := ARRAY.fullmatch(kind):
            return "{" + ", ".join(self.value(part, array[1]) for part in tree[1:] or [self.zero(array[1])]) + "}"
        if kind in self.structs:
            return "{" + ", ".join(self.value(it, field.type)
                                   for field, it in zip(self.fields(tree, kind), tree[1:])) + "}"
        return self.literal(self.table.number(tree, kind), kind)

    def zero(self, kind):
        """Zeros, as a tree."""
        return ["{", *[self.zero(it.type) for it in self.structs[kind].members]] if kind in self.structs else "0"

    def fields(self, tree, kind):
        fields = self.structs[kind].members
        if not isinstance(tree, list) or tree[0] != "{" or len(tree) != len(fields) + 1:
            sys.exit(f"tools/exports.txt: {tree} is no {kind}")
        return fields

    def compared(self, name, tree, kind):
        """Comparisons of what has a name with a value."""
        if tree in (ANY, *EMPTY):
            return []
        if slice_of := ARRAY.fullmatch(kind) or re.fullmatch(r"\[(.+)\]", kind):
            if isinstance(tree, str):
                return [f"memcmp({name}, {tree}, {length_of(tree)}) == 0"]
            return [it for at, part in enumerate(tree[1:]) for it in self.compared(f"{name}[{at}]", part, slice_of[1])]
        if kind in self.structs:
            fields = zip(self.fields(tree, kind), tree[1:])
            return [it for field, part in fields for it in self.compared(f"{name}.{field.name}", part, field.type)]
        return [f"{name} == {self.value(tree, kind)}"]

    def left(self, row):
        members = [it for it in row.item.members if it.name in row.left]
        after = [f"is_zero(&{it.name}[{length_of(row.arguments[it.name])}], sizeof *{it.name})" for it in members
                 if "[" in it.type and row.arguments[it.name] not in EMPTY]
        return [it for member in members
                for it in self.compared(member.name, row.left[member.name], pointee(member))] + after

    def literal(self, number, kind):
        if kind == "usize" and 2**64 - 1 - number < 100:
            return "SIZE_MAX" + f" - {2**64 - 1 - number}" * (number < 2**64 - 1)
        self.is_wide |= kind == "usize" and number >= 2**32
        if kind in ffi.ANSWERS:
            return str(number)
        bits = 64 if kind.endswith("size") else int(re.sub(r"\D", "", kind))
        sign = "U" if kind[0] == "u" else ""
        least = 0 if sign else -(2 ** (bits - 1))
        greatest = least + 2**bits - 1
        if greatest - number < 100:
            return f"{sign}INT{bits}_MAX" + f" - {greatest - number}" * (number < greatest)
        if least < 0 and number - least < 100:
            return f"INT{bits}_MIN" + f" + {number - least}" * (number > least)
        return str(number) if abs(number) < 2**31 else f"{sign}INT64_C({number})"

    def argument(self, member, tree):
        """The variable that an argument wants, and how it is passed."""
        kind = pointee(member)
        if slice_of := re.fullmatch(r"\[(.+)\]", kind):
            mutable, length = member.type.startswith("&mut"), length_of(tree)
            if tree in EMPTY:
                return [], "NULL, 0"
            if isinstance(tree, str):
                variable = [f"uint8_t {member.name}[] = {tree};"] if mutable else []
                passed = member.name if mutable else f"text({tree})"
            else:
                parts = ", ".join(self.value(part, slice_of[1]) for part in tree[1:])
                variable = [f"{ffi.c_type(slice_of[1])} {member.name}[{length + 1}] = {{{parts}}};"] if mutable else []
                passed = member.name if mutable else f"({ffi.c_type(slice_of[1])}[]){{{parts}}}"
            return variable, f"{passed}, {length}"
        value = self.value(tree, kind)
        if member.type.startswith("&mut"):
            return [f"{ffi.c_type(kind)} {member.name} = {value};"], f"&{member.name}"
        if kind in self.structs:
            value = f"({ffi.c_type(kind)}){value}"
        return [], "&" * member.type.startswith("&") + value

    def row(self, row):
        """The lines of a row; one with a length of more than 32 bits is left out where a `size_t` has no more."""
        self.is_wide = False
        lines = self.lines(row)
        return ["#if SIZE_MAX > UINT32_MAX", *lines, "#endif"] if self.is_wide else lines

    def nulls(self, row):
        """The lines of calls with each pointer of a row null in turn: they are refused, and nothing changes."""
        return [line for it in row.item.members if it.type.startswith("&")
                for line in self.lines(row._replace(left={name: row.arguments[name]
                                                          for name in row.left if name != it.name}), it)]

    def lines(self, row, null=None):
        arguments = [([], f"NULL, {length_of(row.arguments[it.name]) or 1}" if "[" in it.type else "NULL")
                     if it is null else
                     self.argument(it, row.arguments[it.name]) for it in row.item.members]
        lines = [line for variable, _ in arguments for line in variable]
        call = f"{row.item.name}({', '.join(passed for _, passed in arguments)})"
        if not row.item.type:
            lines.append(f"{call};")
        elif null:
            refused = self.refused[row.item.name]
            lines.append(f"{ffi.c_type(row.item.type)} refused = {call};")
            lines += self.answered(f"refused{field} == {value}" for field, value in refused)
        elif row.item.type in self.structs:
            lines.append(f"{ffi.c_type(row.item.type)} returned = {call};")
            lines += self.answered(self.compared("returned", row.result, row.item.type))
        else:
            lines += self.answered([f"{call} == {self.value(row.result, row.item.type)}"])
        left = self.left(row)
        lines += [f"CHECK({' && '.join(left)});"] if left else []
        return [f"    {lines[0]}"] if len(lines) == 1 else ["    {"] + [f"        {line}" for line in lines] + ["    }"]

    def answered(self, comparisons):
        """The line that checks what a call returns; that nothing is there, by the name of the number that says so."""
        text = re.sub(r"== UINT64_MAX$", "== NO_NUMBER", " && ".join(comparisons))
        return [f"CHECK({re.sub(r'== SIZE_MAX', '== NET_BASE_NONE', text)});"]

    def program(self):
        lines = [HEAD]
        named = {f"NET_BASE_{name}": self.table.numbers[name] for name in ("NONE",)}
        for answer, names in ffi.ANSWERS.items():
            named |= {ffi.enumerator(answer, f"NET_BASE_{name}"): self.table.numbers[name] for name in names}
            lines.append(f'_Static_assert(sizeof({ffi.c_type(answer)}) == 4, "an enum isn\'t as wide as a number of the library");')
        lines += ["#ifndef NET_BOUND_H", *[f'_Static_assert({name} == {self.literal(it, "usize")}, "a number of net_base.h isn\'t that of the table");'
                                          for name, it in named.items()], "#endif"]
        for name, rows in self.table.rows.items():
            lines += ["", f"static void check_{name.removeprefix('net_base_')}(void) {{"]
            lines += [line for row in rows for line in self.row(row)] + self.nulls(rows[0]) + ["}"]
        lines += ["", "static void check_exports(void) {"]
        lines += [f"    check_{name.removeprefix('net_base_')}();" for name in self.table.rows] + ["}"]
        return "\n".join(lines) + "\n" + TAIL


def length_of(tree):
    """How many elements a slice has."""
    return len(tree) - (2 if isinstance(tree, str) else 1)


def pointee(member):
    return re.sub(r"^&(mut )?", "", member.type)


def program(library):
    """The source of the program."""
    return C(Table(library)).program()
