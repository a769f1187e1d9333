"""Writes c/net_bound.h, in which a head has its memory, and the header by which tests of net_base.h's calls make those of
net_bound.h: part of ffi.py."""
import re
import textwrap

import ffi

OUT = ffi.ROOT / "c/net_bound.h"
# The memory that a struct keeps, by the parameter of a call: what it has, and the field of its length.
MEMORY = {"storage": ("uint8_t", "capacity"), "runs": ("struct net_base_run", "runs_length"),
          "slots": ("struct net_base_packet_slot", "slots_length")}
TEMPLATE, THROUGH = (ffi.ROOT / f"tools/parts/{name}.h.in" for name in ("net_bound", "net_bound_through"))


def named(part):
    """The name of a parameter."""
    return part.rpartition(" ")[2].lstrip("*")


def wrapped(line):
    """A line of a function, on several where it is too long."""
    return textwrap.wrap(line, ffi.WIDTH, initial_indent="    ", subsequent_indent="        ", break_long_words=False)


class Call:
    """A call of net_base.h over a head that has memory, as net_bound.h has it."""

    def __init__(self, item, name, memory, library):
        self.item, self.memory, self.structs = item, memory, library.structs
        self.answer = library.answer(item.type)
        self.name, self.it = item.name.replace("net_base_", "net_bound_"), name.rpartition("_")[2]
        self.struct, self.is_init = f"struct net_bound_{name}", item.name == f"net_base_{name}_init"
        self.is_mutable = item.members[0].type.startswith("&mut")
        self.others = [it for it in item.members[1:] if it.name not in (*MEMORY, "capacity")]
        self.kind = ffi.c_type(item.type) if item.type else "void"
        fields = [it.name for it in self.structs[item.type].members] if item.type in self.structs else []
        self.is_place, self.is_span = "slot" in fields, "from" in fields and "slot" not in fields

    def parameters(self):
        """How C declares them."""
        bound = [f"{MEMORY[name][0]} *{name}, size_t {length}" for name, length in self.memory] * self.is_init
        return [f"{'' if self.is_mutable else 'const '}{self.struct} *{self.it}", *bound,
                *[part for member in self.others for part in ffi.c_members(member)],
                *[f"{self.kind} *place"] * self.is_place]

    def call(self):
        """The call of net_base.h."""
        passed = [f"NET_BOUND_HEAD({self.it})"]
        for member in self.item.members[1:]:
            passed += map(named, ffi.c_members(member)) if member in self.others else [
                f"NET_BOUND_{member.name.upper()}({self.it})"]
        return f"{self.item.name}({', '.join(passed)})"

    def body(self):
        """The lines of the function."""
        call = self.call()
        if self.is_init:
            is_told = self.kind == "bool"
            begin = [f"if (!{call}) return false;"] if is_told else [f"{call};", f"if (!{self.it}) return;"]
            return [*begin, *[f"{self.it}->{name} = {name}; {self.it}->{length} = {length};"
                              for name, length in self.memory], *["return true;"] * is_told]
        if self.is_place:
            return [f"if (!place) {self.it} = NULL;", f"{self.kind} found = {call};",
                    "if (found.slot == NET_BASE_NONE) return false;", "*place = found;", "return true;"]
        if self.is_span:
            return [f"{self.kind} found = {call};", "found.from = net_bound_or_0(found.from);", "return found;"]
        if self.item.type == "u64":
            return [f"{self.kind} number = {call};", "return number == UINT64_MAX ? 0 : number;"]
        return [f"return net_bound_or_0({call});" if self.item.type == "usize" else
                f"{'return ' * bool(self.item.type)}{call};"]

    def text(self):
        must = "NET_BASE_MUST_USE " * ffi.must_use(self.item, self.structs)
        # What it does is the comment in net_base.h, but for refusals and for what a struct with its memory hides.
        told = [it for it in re.split(r"(?<=[.])\s+(?=[A-Z`#])", "\n".join(ffi.said(self.item.doc, self.answer)))
                if not re.match(r"It\sis\srefused|# |`capacity` is|Head and runs|The head is", it)]
        if self.is_place or self.name.endswith("_is_sound"):
            told = [re.sub(r"[:;](?=\s).*", ".", told[0], flags=re.S)]
        does = re.sub(r"\bthe head of | over a storage of `capacity` bytes|, which has `capacity` bytes", "",
                      " ".join(told).replace("net_base_", "net_bound_"))
        does = re.sub(r"\b([Rr])eturns(?= where)", lambda it: "writes to `place`" if it[1] == "r" else "Writes to `place`",
                      does) if self.is_place else does
        head = f"{must}static inline {'bool' if self.is_place else self.kind} {self.name}("
        *before, head = head.rsplit(" ", 1) if len(head) > ffi.WIDTH else [head]
        rows = [row for line in self.body() for row in wrapped(line)]
        return [*ffi.c_comment([does], self.structs), *before, *ffi.filled(head, self.parameters(), ") {"), *rows, "}"]

    def through(self):
        """A function with the parameters of the call of net_base.h that makes the one here, and the macro that has it
        called. It ends the program if the memory isn't kept."""
        parts = [part for member in self.item.members for part in ffi.c_members(member)]
        head, own = named(parts[0]), self.item.name.replace("net_base_", "through_")
        lines = [f"{self.struct} bound = {{0}}, after;", f"if ({head}) memcpy(&bound.head, {head}, sizeof bound.head);"]
        for member in [it for it in self.item.members[1:] if it not in self.others]:
            fields = (member.name, *MEMORY.get(member.name, ())[1:])
            lines += [f"memcpy(&bound.{field}, &{named(part)}, sizeof {named(part)});"
                      for field, part in zip(fields, ffi.c_members(member))]
        made = [(name, f"bound_{pointer}" if name == pointer else f"sizeof bound_{pointer} / sizeof *bound_{pointer}")
                for pair in self.memory for pointer, name in [(pair[0], name) for name in pair]] * self.is_init
        lines += ["after = bound;", *[f"after.{name} = {value};" for name, value in made], *self.passed_on(head, made)]
        kept = " && ".join(f"bound.{name} == after.{name}" for pair in self.memory for name in pair)
        is_made = f"{head}{' && returned' * (self.is_init and self.kind == 'bool')}"
        lines += [f"if ({is_made} && !({kept})) abort();"]
        lines += [f"if ({head}) memcpy({head}, &bound.head, sizeof bound.head);"] * self.is_mutable
        lines += ["return returned;"] * bool(self.item.type)
        head = f"static inline {self.kind} {own}({', '.join(parts)}) {{"
        return [head, *lines, "}", f"#define {self.item.name} {own}"]

    def passed_on(self, head, made):
        """The lines that make the call."""
        passed = ", ".join([f"{head} ? &bound : NULL", *[value for _, value in made],
                            *[named(part) for it in self.others for part in ffi.c_members(it)]])
        if self.is_place:
            return [f"{self.kind} returned = {{0, 0, 0, 0}};", f"if ({self.name}({passed}, NULL)) abort();",
                    f"if (!{self.name}({passed}, &returned) && returned.from) abort();"]
        return [f"{f'{self.kind} returned = ' * bool(self.item.type)}{self.name}({passed});"]


def memory_of(section):
    """The fields of memory that the heads of a section have: of a pointer, and of a length."""
    passed = {member.name for item in section if item.kind == "fn" for member in item.members}
    has_some = "capacity" in passed and ffi.head_of(section)
    return [(name, MEMORY[name][1]) for name in MEMORY if has_some and (name in passed or name == "storage")]


def calls(library):
    """The calls by kind."""
    return {name: [Call(item, name, memory_of(section), library) for item in section if item.kind == "fn"]
            for _, section, name in library.sections if memory_of(section)}


def text(library):
    """The header."""
    lines = []
    for name, each in calls(library).items():
        lines += ["", f"/** `struct net_base_{name}`, and each array that `.._init` was passed, with its length. */",
                  f"struct net_bound_{name} {{",
                  f"    struct net_base_{name} head; /**< Its numbers, which only calls write. */"]
        for field, length in each[0].memory:
            lines += [f"    {MEMORY[field][0]} *{field};", f"    size_t {length};"]
        lines += ["};", *[line for call in each for line in call.text()]]
    return ffi.filled_in(TEMPLATE, CALLS=lines)


def through(library):
    """The header for tests."""
    lines = [line for each in calls(library).values() for call in each for line in call.through()]
    return ffi.filled_in(THROUGH, CALLS=["", *lines])
