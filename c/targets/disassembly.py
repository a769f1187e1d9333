"""The stack that the functions of a program take, by their code as objdump shows it."""
import re
import subprocess

# What an instruction takes off the stack pointer: a number, or registers of this number of bytes.
TAKEN = [
    (re.compile(r"sub[lq]?\s+\$(0x[0-9a-f]+),%[re]sp"), None),
    (re.compile(r"sub(?:\.w)?\s+sp,(?: sp,)? #(0x[0-9a-f]+|\d+)"), None),
    (re.compile(r"st[rp](?:\.w|d)?\s+[^\[]*\[sp, #-(\d+)\]!"), None),
    (re.compile(r"addi?\s+sp,sp,-(\d+)"), None),
    (re.compile(r"(?:push|stmdb\s+sp!,|stmfd\s+sp!,)\s*(?:\.w\s*)?(\{.*\})"), 4),
    (re.compile(r"push[lq]?\s+(%r\w+)"), 8),
    (re.compile(r"pushl?\s+(%e|\$|-?0x|\()"), 4),
]
CALL = re.compile(r"(?:blx?|b|b\.[nw]|b\w\w(?:\.[nw])?|callq?|jmpq?|jal|j|tail)\s+(?:ra,|zero,)?([0-9a-f]+)(?: <|$)")
UNKNOWN = re.compile(r"(?:sub|add)(?:\.w)?\s+sp,(?:\s*sp,)?\s*(?!sp|fp, #)[a-z]")


def functions(objdump, path):
    """The instructions of each function of a file, by its address, with its name."""
    code = subprocess.run([objdump, "-d", "--no-show-raw-insn", path], capture_output=True, text=True,
                          check=True).stdout
    found, lines = {}, []
    for line in code.splitlines():
        if head := re.fullmatch(r"([0-9a-f]+) <(.*)>:", line):
            lines = []
            # A library has a section for each function, so that all begin at 0.
            found.setdefault((int(head[1], 16), head[2]), lines)
        elif row := re.match(r"\s*[0-9a-f]+:\s+(.*)", line):
            # A call by a register on a RISC-V, to an address that is said.
            said = re.sub(r"^j(?:al)?r\s.*#\s(\w+) <.*$", r"call \1 <>", row[1])
            lines.append(re.sub(r"\s+(?:;|//|@|#\s).*$", "", said).strip())
    return found


def frame_of(lines, name):
    """How many bytes of stack the instructions of a function take, without what it calls."""
    size = 0
    for line in lines:
        if UNKNOWN.match(line):
            raise ValueError(f"{name}: {line}")
        for pattern, each in TAKEN:
            if match := pattern.match(line):
                size += each * (match[1].count(",") + 1) if each else int(match[1], 0)
    return size


def stack_bounds(objdump, program):
    """The most bytes of stack that each export can take in a program, with all that it calls: the frames along the
    deepest path. What is called by a pointer isn't counted, as the C library's `memmove` under Linux."""
    found = functions(objdump, program)
    names = {at: name for at, name in found}
    by_address = {at: lines for (at, _), lines in found.items()}
    text = " ".join(line for lines in by_address.values() for line in lines)
    returns = 8 if "%rsp" in text else 4 if "%esp" in text else 0
    known = {}

    def depth(at):
        if at not in known:
            known[at] = 0  # of a function of the C library that calls itself
            calls = {int(match[1], 16) for line in by_address[at] if (match := CALL.match(line))} - {at}
            deepest = max([depth(it) for it in calls if it in by_address], default=0)
            known[at] = frame_of(by_address[at], names[at]) + deepest + returns
        return known[at]

    # Equal functions are one, with several names.
    said = subprocess.run([objdump.replace("objdump", "nm"), program], capture_output=True, text=True,
                          check=True).stdout
    return {name: depth(int(at, 16)) for at, name in re.findall(r"^(\w+) T (net_base_\w+)$", said, flags=re.M)}
