"""Writes for C one long sequence of calls of all exports, the same on every processor.

Each call gets sensible arguments mostly, and now and then nonsense. The program prints a digest of all that the calls
returned and left in memory.

An export has its arguments in memory of its subject, which is its section, so that
its calls work on one ring, one receiver and so on. One that only looks at a head gets in turn each of that type that is
inside another subject's head, with that subject's slices. A new export is in the sequence by its declaration alone;
`USUAL` and `NEAR` make more of its calls sensible.
"""
import re
from pathlib import Path

import ffi

# What a length or a capacity is mostly; elements of a slice have room for a few more.
USUAL = {"storage": 40, "capacity": 40, "slot_count": 5, "slots": 5, "runs": 6}
OTHER_SLICE, ROOM = 7, 8
# About which number a position is mostly drawn.
NEXT = "now.{0}.receiver.first + now.{0}.receiver.count_read + now.{0}.receiver.place.length"
NEAR = {("finite_receiver", "position"): NEXT.format("finite_receiver_receiver"),
        ("receiving_end", "position"): NEXT.format("receiving_end_end.receiver"),
        ("fragments", "offset"): "0", ("fragments", "size"): "7"}
NEAR |= {("sending_end", name): "now.sending_end_end.sender.sender.first_unacknowledged"
         for name in ("position", "limit")}
NEAR |= {("sending_end", "announcement.ack"): "(below(2) ? now.sending_end_end.sender.sent : now.sending_end_end.sender.sender.first_unacknowledged)",
         ("sending_end", "now"): "(uint64_t)now.sending_end_end.head.timer.ends_at"}
# What a head is made now and then, since calls seldom do: a timer whose probe is due before the timeout passes; and an
# end whose stream is acknowledged, its end too.
MADE = {"sending_end": ["now.sending_end_end.head.timer.reports = 1;", "now.sending_end_end.head.timer.probe_at = "
                        "(int64_t)((uint64_t)now.sending_end_end.head.timer.ends_at - below(48));",
                        "if (now.sending_end_end.sender.sender.place.length == 0 && below(4) == 0) {",
                        "    now.sending_end_end.sender.closed = now.sending_end_end.sender.finished = 1;",
                        "    now.sending_end_end.sender.sent = now.sending_end_end.sender.sender.first_unacknowledged + 1;", "}"]}
# The program in C, before and after what is written of the exports.
HEAD, TAIL = Path(__file__).with_suffix(".c").read_text().split("// CALLS")


class Memory:
    """The static variables of the program: heads and slices, by subject and parameter."""

    def __init__(self, library):
        self.library, self.kinds, self.sizes, self.written = library, {}, {}, set()

    def name(self, subject, member, kind, size=None):
        """The variable of a parameter."""
        name = f"{subject}_{member}"
        self.kinds[name] = kind
        if size:
            self.sizes[name] = size
        return name

    def of(self, subject):
        return [name for name in self.kinds if name.startswith(f"{subject}_")]

    def inside(self, kind, path, of):
        """The paths of the values of a type inside one of another."""
        if of in self.library.structs and of != kind:
            for field in self.library.structs[of].members:
                if field.type == kind:
                    yield f"{path}.{field.name}"
                yield from self.inside(kind, f"{path}.{field.name}", field.type)

    def declared(self):
        bounds = {name: f"[{size}]" for name, size in self.sizes.items()}
        return ["static struct memory {", *[f"    {ffi.c_type(kind)} {name}{bounds.get(name, '')};"
                                            for name, kind in self.kinds.items()], "} now;"]

    def each(self, name, act):
        """Lines that do something to each number of a variable; `act` gives the line for one, with its type."""
        if name not in self.sizes:
            return self.fields(f"now.{name}", self.kinds[name], act)
        inner = self.fields(f"now.{name}[i]", self.kinds[name], act)
        return [f"for (int i = 0; i < {self.sizes[name]}; i++) {{", *["    " + line for line in inner], "}"]

    def fields(self, path, kind, act):
        """The same of a value of a type: a number, a struct, or an array in a struct."""
        if array := re.fullmatch(r"\[(.+); (\d+)\]", kind):
            return [line for index in range(int(array[2])) for line in self.fields(f"{path}[{index}]", array[1], act)]
        if kind in ffi.C_TYPES:
            return [act(path, kind)]
        return [line for field in self.library.structs[kind].members
                for line in self.fields(f"{path}.{field.name}", field.type, act)]


def eaten(path, kind):
    return f"eat((uint64_t){path});"


def spoiled(path, kind):
    return f"{path} = below(2);" if kind == "bool" else f"{path} = ({ffi.C_TYPES[kind]})number();"


def zeroed(path, kind):
    return f"{path} = 0;"


def plain(kind):
    """A type, whether or not it is lent for writing."""
    return kind.replace("&mut ", "&")


class Call:
    """What the program has for one export."""

    def __init__(self, memory, index, item):
        self.memory, self.index, self.item = memory, index, item
        self.subject = max((it for it in memory.subjects if item.name.startswith(f"net_base_{it}_")), key=len)
        self.before, self.arguments, self.statics, self.given, self.runs = [], [], [], {}, []
        self.pointers = {}
        for member in item.members:
            count = len(self.arguments)
            self.add(member)
            self.given[member.name] = ", ".join(self.arguments[count:])
        self.result = ffi.c_type(item.type) if item.type else "void"
        if self.result != "void":
            self.statics.append(f"static {self.result} result_{index};")

    def add(self, member):
        """An argument, and what is drawn for it."""
        kind = member.type
        if inner := re.fullmatch(r"&(?:mut )?\[([^;]+)\]", kind):
            usual = USUAL.get(member.name, OTHER_SLICE)
            variable = self.memory.name(self.subject, member.name, inner[1], usual + ROOM)
            size = self.drawn("size_t", f"{member.name}_length", f"length({usual}, {usual + ROOM})")
            self.arguments += [self.pointer(member, inner[1], f"now.{variable}"), size]
            self.runs += [size] * (inner[1] == "Run")
        elif inner := re.fullmatch(r"[&*](?:mut |const )?(\w+)", kind):
            variable = self.memory.name(self.subject, member.name, inner[1])
            self.arguments.append(self.pointer(member, inner[1], f"&now.{variable}"))
        elif kind in ffi.C_TYPES:
            self.arguments.append(self.drawn(ffi.C_TYPES[kind], member.name, self.number(member.name, kind)))
        else:
            raise SystemExit(f"sequence: {self.item.name}: no argument of type {kind}")

    def pointer(self, member, kind, own):
        """How an argument is passed: by a variable if it is only looked at, for it may be inside another subject's
        head."""
        if member.type.startswith("&mut"):
            self.memory.written.add(re.sub(r"^&?now\.", "", own))
            return own
        variable = f"{member.name}_{self.index}"
        self.statics.append(f"static const {ffi.c_type(kind)} *{variable};")
        self.pointers[member.name] = (variable, own, kind)
        return variable

    def choices(self):
        """What the pointers may be: those of the own subject, and for each head inside another one, with that one's
        slices."""
        found = [{name: own for name, (_, own, _) in self.pointers.items()}]
        head = self.item.members[0] if self.item.members else None
        if head and head.name in self.pointers and head.type[1:] in self.memory.library.structs:
            for name, kind in list(self.memory.kinds.items()):
                if name in self.memory.sizes:
                    continue
                subject = max((it for it in self.memory.subjects if name.startswith(f"{it}_")), key=len)
                for path in self.memory.inside(head.type[1:], f"now.{name}", kind):
                    slices = {it: f"now.{subject}_{it}"
                              for it, (_, own, of) in self.pointers.items() if not own.startswith("&")
                              and self.memory.kinds.get(f"{subject}_{it}") == of}
                    found.append(found[0] | slices | {head.name: f"&{path}"})
        for name, (_, own, kind) in self.pointers.items():
            for of in self.memory.of(self.subject) if own.startswith("&") else ():
                if self.memory.kinds[of] == kind and of in self.memory.sizes:
                    found.append(found[0] | {name: f"&now.{of}[below({self.memory.sizes[of] - ROOM})]"})
        return [[f"{self.pointers[name][0]} = {value};" for name, value in it.items()] for it in found]

    def chosen(self):
        """Lines that choose the pointers, and those that choose the own ones."""
        choices = self.choices()
        if len(choices) == 1:
            return choices[0], []
        lines = [f"switch (below({len(choices)})) {{"]
        for at, it in enumerate(choices):
            lines += [f"default: {' '.join(it)} break;" if at == 0 else f"case {at}: {' '.join(it)} break;"]
        return [*lines, "}"], choices[0]

    def number(self, name, kind):
        """How a number is drawn."""
        if name in USUAL:
            return f"capacity({USUAL[name]})"
        if near := NEAR.get((self.subject, name)):
            return f"({ffi.C_TYPES[kind]})near({near})"
        return "below(2)" if kind == "bool" else f"({ffi.C_TYPES[kind]})number()"

    def redrawn(self, path, kind):
        """The line that draws a number of what the call only looks at."""
        near = NEAR.get((self.subject, path.removeprefix(f"now.{self.subject}_")))
        return f"{path} = ({ffi.C_TYPES[kind]})near({near});" if near else spoiled(path, kind)

    def drawn(self, kind, name, value):
        """A static variable that is drawn before the call."""
        variable = f"{name}_{self.index}"
        self.statics.append(f"static {kind} {variable};")
        self.before.append(f"{variable} = {value};")
        return variable

    def made_sound(self, sounds):
        """Of each head the export that tests it, and lines that make it that of nothing."""
        found, members = [], self.item.members
        for at, member in enumerate(members):
            runs = members[at + 1] if at + 1 < len(members) else None
            kind = ffi.core_type(member.type)
            head = f"now.{self.subject}_{member.name}"
            if kind in sounds:
                found.append(self.unless(sounds[kind], self.given[member.name], head, runs))
        return found

    def unless(self, sound, given, head, after):
        """Whether an export finds a head sound with the slice after it and what it has besides, and lines that make it
        zero."""
        words = [given]
        for member in sound.members[1:]:
            same = [it for it in (after, *self.item.members) if it and plain(it.type) == plain(member.type)]
            named = [it for it in same if it is after or it.name == member.name]
            size = USUAL.get(member.name, OTHER_SLICE)
            if named:
                words.append(self.given[named[0].name])
            elif member.name == "capacity" and "storage" in self.given:
                words.append(self.given["storage"].split(", ")[1])
            else:
                words.append(f"now.{self.subject}_{member.name}, {size}" if "[" in member.type else str(size))
        return f"{sound.name}({', '.join(words)})", self.memory.each(head.removeprefix("now."), zeroed)

    def runs_inside(self):
        """Lines that make heads that have their runs inside hold as many as they can, and lines that say that they hold
        more."""
        full, beyond = [], []
        for member in self.item.members:
            kind, head = ffi.core_type(member.type), f"now.{self.subject}_{member.name}"
            for field in self.memory.library.structs[kind].members if kind in self.memory.library.structs else ():
                if array := re.fullmatch(r"\[Run; (\d+)\]", field.type):
                    held = next(self.memory.inside("AssemblerHead", head, kind))
                    full += self.memory.each(head.removeprefix("now."), zeroed)
                    full += [f"{held}.used = {array[1]};", f"{held}.first_start = 1 + below(8);",
                             f"for (int i = 0; i < {array[1]}; i++) {{",
                             f"    {head}.{field.name}[i].start = (size_t)(2 * i);",
                             f"    {head}.{field.name}[i].end = (size_t)(2 * i + 1);", "}"]
                    beyond += [f"{held}.used = {array[1]} + 1;"]
        return full, beyond

    def functions(self, sounds):
        """The functions that prepare a call, make it, and eat what it returned and left."""
        index, kept = self.index, "" if self.result == "void" else f"result_{self.index} = "
        memory = self.memory.of(self.subject)
        eats = [] if self.result == "void" else self.memory.fields(f"result_{index}", self.item.type, eaten)
        eats += [line for name in memory for line in self.memory.each(name, eaten)]
        spoils = [line for name in memory if name not in self.memory.sizes for line in self.memory.each(name, spoiled)]
        spoils += [line for name in memory if self.memory.kinds[name] == "u8"
                   for line in self.memory.each(name, spoiled)]
        choose, own = self.chosen()
        tests = [] if self.item.name.endswith("_is_sound") else self.made_sound(sounds)
        sound = " && ".join(test for test, _ in tests) if tests and self.item.requires else "true"
        drawn = [line for _, own, _ in self.pointers.values()
                 if (name := re.sub(r"^&?now\.", "", own)) not in self.memory.written
                 for line in self.memory.each(name, self.redrawn)]
        prepare = [*["if (below(4) == 0) {" if drawn else "", *["    " + line for line in drawn], "}" if drawn else ""],
                   *choose, *self.before,
                   *([f"if (!({sound})) {{", *["    " + it for it in own], "}"] if sound != "true" and own else [])]
        full, beyond = self.runs_inside() if tests else ([], [])
        prepare += ["if (below(64) == 0) {", *["    " + line for line in full], "}"] if full else []
        # What isn't sound is refused, unless the caller owes that it is.
        now_and_then = "" if self.item.requires else "below(4) != 0 && "
        for test, zero in tests:
            prepare += [f"if ({now_and_then}!{test}) {{", *["    " + line for line in zero], "}"]
        # Fewer runs than are used are refused.
        prepare += [f"if (below(16) == 0) {length} = below({length} + 1);" for length in self.runs if tests]
        prepare += ["if (below(64) == 0) {", *["    " + line for line in beyond], "}"] if beyond else []
        made = MADE.get(self.subject, []) if tests else []
        prepare += ["if (below(16) == 0) {", *["    " + line for line in made], "}"] if made else []
        return [*self.statics, "",
                f"static void spoil_{index}(void) {{", *["    " + line for line in spoils], "}", "",
                f"static void prepare_{index}(void) {{", *["    " + line for line in prepare], "}", "",
                f"static void call_{index}(void) {{", f"    {kept}{self.item.name}({', '.join(self.arguments)});", "}",
                "",
                f"static void eat_{index}(void) {{", *["    " + line for line in eats], "}", ""]


def sequence(library):
    """The source of the program."""
    memory = Memory(library)
    memory.subjects = {name for _, _, name in library.sections}
    calls = [Call(memory, index, item) for index, item in enumerate(library.exports())]
    sounds = {ffi.core_type(item.members[0].type): item for item in library.exports()
              if item.name.endswith("_is_sound") and not item.requires}
    functions = [line for call in calls for line in call.functions(sounds)]
    rows = [HEAD, *memory.declared(), "", *functions]
    rows += ["static void eat_all(void) {",
             *["    " + line for name in memory.kinds for line in memory.each(name, eaten)], "}", "",
             "static const struct {", "    void (*spoil)(void), (*prepare)(void), (*call)(void), (*eat)(void);",
             "    bool makes;", "} exports[] = {"]
    rows += [f"    {{spoil_{it.index}, prepare_{it.index}, call_{it.index}, eat_{it.index}, "
             f"{str(it.item.name.endswith('_init')).lower()}}}," for it in calls]
    return "\n".join([*rows, "};", "", "enum { EXPORTS = sizeof exports / sizeof exports[0] };", TAIL])
