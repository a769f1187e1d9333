#!/usr/bin/env python3
"""What c/targets.sh runs: programs over the library that cargo builds for a target, compiled by the target's compiler,
and run by an emulator."""
import argparse
import concurrent.futures
import dataclasses
import os
import pathlib
import platform
import re
import shutil
import subprocess
import sys
import tempfile

HERE = pathlib.Path(__file__).resolve().parent
C = HERE.parent
ROOT = C.parent
sys.path.insert(0, str(ROOT / "tools"))
sys.dont_write_bytecode = True

import disassembly  # noqa: E402
import ffi  # noqa: E402
from parts import bound, exports, layouts, sequence  # noqa: E402

FLAGS = ["-std=gnu11", "-O2", "-Wall", "-Wextra", "-Werror", "-ffunction-sections"]
CXX_FLAGS = ["-std=gnu++17", *FLAGS[1:], "-fno-exceptions", "-fno-rtti"]
IS_X86_64 = platform.machine() == "x86_64"
# Debian's packages of each program that is run.
PACKAGES = {
    "x86_64-linux-gnu-gcc": "gcc libc6-dev" if IS_X86_64 else "gcc-x86-64-linux-gnu libc6-dev-amd64-cross",
    "arm-linux-gnueabihf-g++": "g++-arm-linux-gnueabihf",
    "arm-none-eabi-gcc": "gcc-arm-none-eabi libnewlib-arm-none-eabi",
    "arm-none-eabi-g++": "gcc-arm-none-eabi",
    "riscv64-unknown-elf-gcc": "gcc-riscv64-unknown-elf picolibc-riscv64-unknown-elf",
    "riscv64-unknown-elf-g++": "gcc-riscv64-unknown-elf",
    "qemu-system-x86_64": "qemu-system-x86",
    **{name: name for name in ("valgrind", "qemu-system-arm")},
    **{f"qemu-system-riscv{bits}": "qemu-system-misc" for bits in (32, 64)},
    **{f"qemu-{name}-static": "qemu-user-static" for name in ("x86_64", "aarch64", "arm", "i386", "ppc", "riscv64")},
    **{f"{name}-gcc": f"gcc-{name} libc6-dev-{library}-cross" for name, library in (
        ("i686-linux-gnu", "i386"), ("aarch64-linux-gnu", "arm64"), ("arm-linux-gnueabihf", "armhf"),
        ("powerpc-linux-gnu", "powerpc"), ("riscv64-linux-gnu", "riscv64"))},
}


@dataclasses.dataclass(frozen=True)
class Way:
    """How programs are compiled and run for a target of rustc: the compiler and its words, those for linking, the
    emulator's. A bare one has no operating system, so that a program gets the words of its command line when it is
    compiled. The library may be built with other features of the processor."""

    target: str
    title: str
    compiler: tuple
    linking: tuple
    emulator: tuple
    bare: bool = False
    features: str = ""

    def name(self):
        return f"{self.target} ({self.title})"

    def lacking(self):
        """The programs that aren't here: the compiler, which counts as missing where its C library is, and the
        emulator."""
        wanted = (self.compiler[0], *self.emulator[:1], *[self.tool("g++")] * (self.target in QUICK))
        lacking = [program for program in wanted if not shutil.which(program)]
        if self.compiler[0] not in lacking and "-nostdlib" not in self.linking:
            specs = next((it[8:] for it in (*self.compiler, *self.linking) if it.startswith("--specs=")), "libc.a")
            found = shell([self.compiler[0], f"-print-file-name={specs}"])[1].strip()
            lacking += [self.compiler[0]] * (not os.path.isabs(found))
        return lacking

    def tool(self, name):
        """A program beside the compiler."""
        return re.sub(r"gcc$", name, self.compiler[0])


def profile_of(target):
    """The profile of cargo: where flash is small, so is the library."""
    return "small" if re.match(r"thumb|riscv32", target) else "release"


def linux(target, compiler, emulator):
    is_own = compiler.startswith(platform.machine())
    return Way(target, "this machine" if is_own else emulator, (compiler,), ("-static",), () if is_own else (emulator,))


def memory(rom, rom_size, ram, ram_size):
    return [f"-Wl,--defsym={name}={value:#x}"
            for name, value in (("rom", rom), ("rom_size", rom_size), ("ram", ram), ("ram_size", ram_size))]


def cortex_m(target, machine, words, memory_words, features=""):
    return Way(target, f"qemu-system-arm -M {machine}{features and ', '}{features}",
               ("arm-none-eabi-gcc", "-mthumb", *words),
               ("--specs=rdimon.specs", "-nostartfiles", "-Wl,--gc-sections", f"-T{HERE}/cortex_m.ld", *memory_words),
               ("qemu-system-arm", "-M", machine, "-nographic", "-semihosting", "-kernel"), True, features)


def riscv(target, bits, words):
    places = {"flash": 0x80000000, "flash_size": 0x400000, "ram": 0x80400000, "ram_size": 0x400000,
              "stack_size": 0x10000}
    emulator = f"qemu-system-riscv{bits}"
    return Way(target, f"{emulator} -M virt",
               ("riscv64-unknown-elf-gcc", "--specs=picolibc.specs", "-mcmodel=medany", *words),
               ("--oslib=semihost", "-Wl,--gc-sections",
                *[f"-Wl,--defsym=__{name}={value:#x}" for name, value in places.items()]),
               (emulator, "-M", "virt", "-nographic", "-bios", "none", "-semihosting", "-kernel"), True)


LARGE = memory(0, 0x400000, 0x20000000, 0x400000)
MICROBIT = memory(0, 0x40000, 0x20000000, 0x4000)
SECURE = memory(0x10000000, 0x400000, 0x38000000, 0x200000)
ARMV7, CORTEX_M4, RISCV_32 = "armv7-unknown-linux-gnueabihf", "thumbv7em-none-eabi", "riscv32imac-unknown-none-elf"
BARE_X86 = "x86_64-unknown-none"
# Where words that aren't aligned are a fault: on a Cortex-M0, and where a program has them trapped.
TRAPPED = ["-mno-unaligned-access", "-DTRAPS"]
WAYS = [
    linux("x86_64-unknown-linux-gnu", "x86_64-linux-gnu-gcc", "qemu-x86_64-static"),
    linux(ARMV7, "arm-linux-gnueabihf-gcc", "qemu-arm-static"),
    cortex_m(CORTEX_M4, "mps2-an386", ["-march=armv7e-m"], LARGE),
    cortex_m(CORTEX_M4, "mps2-an386", ["-march=armv7e-m", *TRAPPED], LARGE, "+strict-align"),
    riscv(RISCV_32, 32, ["-march=rv32imac", "-mabi=ilp32"]),
    riscv("riscv32imc-unknown-none-elf", 32, ["-march=rv32imc", "-mabi=ilp32"]),
    linux(BARE_X86, "x86_64-linux-gnu-gcc", "qemu-x86_64-static"),
    linux("i686-unknown-linux-gnu", "i686-linux-gnu-gcc", "qemu-i386-static"),
    linux("aarch64-unknown-linux-gnu", "aarch64-linux-gnu-gcc", "qemu-aarch64-static"),
    linux("aarch64-unknown-none-softfloat", "aarch64-linux-gnu-gcc", "qemu-aarch64-static"),
    linux("powerpc-unknown-linux-gnu", "powerpc-linux-gnu-gcc", "qemu-ppc-static"),
    linux("riscv64gc-unknown-linux-gnu", "riscv64-linux-gnu-gcc", "qemu-riscv64-static"),
    riscv("riscv64gc-unknown-none-elf", 64, ["-march=rv64gc", "-mabi=lp64d"]),
    cortex_m("thumbv6m-none-eabi", "microbit", ["-march=armv6s-m", *TRAPPED], MICROBIT),
    cortex_m("thumbv6m-none-eabi", "mps2-an385", ["-march=armv6s-m", *TRAPPED], LARGE),
    cortex_m("thumbv7m-none-eabi", "mps2-an385", ["-march=armv7-m"], LARGE),
    cortex_m("thumbv7em-none-eabihf", "mps2-an386", ["-march=armv7e-m+fp", "-mfloat-abi=hard"], LARGE),
    cortex_m("thumbv8m.main-none-eabi", "mps2-an505", ["-march=armv8-m.main"], SECURE),
    cortex_m("thumbv8m.main-none-eabihf", "mps2-an505", ["-march=armv8-m.main+fp", "-mfloat-abi=hard"], SECURE),
]
# The rows of docs/C.md for parts of the library on a Cortex-M4, by the order in which c/sizes.sh prints their code: the
# rounds of instructions.c that they have, and the RAM.
PAGE = ROOT / "docs/C.md"
PARTS = {"`net_bound_ring_`": ("ring: 16 bytes in and out", "{net_bound_ring}"),
         "`net_bound_packets_`": ("packets: one in and out", "{net_bound_packets}, and {net_base_packet_slot} a packet"),
         "`net_bound_fragments_`, `net_base_parts_sum_`":
             ("fragments: two of 16 bytes, the size, the packet", "{net_bound_fragments}, and {net_base_run} a range"),
         "`net_bound_finite_receiver_`":
             ("receiver: a segment of 32 bytes and a read", "{net_bound_finite_receiver}, and {net_base_run} a range"),
         "`net_bound_receiving_end_`, `net_bound_sending_end_`":
             ("sending end: 32 bytes written, sent and acknowledged", "{both_ends}")}
BYTE_RING = """#include "programs/byte_ring.h"
bool put(struct byte_ring *ring, uint8_t byte) { return byte_ring_put(ring, byte); }
bool take(struct byte_ring *ring, uint8_t *byte) { return byte_ring_take(ring, byte); }
"""
# The sequence's calls, whose digest depends on how many bits a `size_t` has.
CALLS, DIGESTS = 1_000_000, C / "sequence.txt"
TARGETS = list(dict.fromkeys(way.target for way in WAYS))
# Those of the gate.
QUICK = [ARMV7, CORTEX_M4, RISCV_32]

# A PC without an operating system. A program ends the emulator by a port, with a status that isn't 0: 33 if all is
# right.
PC = Way(BARE_X86, "qemu-system-x86_64",
         ("x86_64-linux-gnu-gcc", "-ffreestanding", "-fno-stack-protector", "-fno-pie", "-mno-red-zone",
          "-mgeneral-regs-only"),
         ("-nostdlib", "-static", "-no-pie", "-Wl,--build-id=none,--gc-sections", f"-Wl,-T,{C}/interrupt/x86_64.ld"),
         ("qemu-system-x86_64", "-display", "none", "-debugcon", "stdio", "-no-reboot", "-device",
          "isa-debug-exit,iobase=0xf4,iosize=4", "-kernel"))
PC_STATUS = 33
# Where the example with an interrupt runs.
INTERRUPTED = [next(way for way in WAYS if way.target == target) for target in (CORTEX_M4, RISCV_32)] + [PC]


class Failed(Exception):
    """A program wasn't built, or didn't end as it should."""


def shell(words, seconds=1200, **more):
    """Runs a command. Returns its status and all that it said."""
    try:
        done = subprocess.run([str(word) for word in words], stdin=subprocess.DEVNULL, stdout=subprocess.PIPE,
                              stderr=subprocess.STDOUT, timeout=seconds, text=True, errors="replace", **more)
    except subprocess.TimeoutExpired:
        return 1, f"not done after {seconds} seconds"
    return done.returncode, done.stdout.replace("\r", "")


def compilers(targets, kit):
    """The compiler of Rust for each target: that of this machine if it has the target, or the kit's. A target that has
    none is left out, and a line says why."""
    found = {}
    for target in targets:
        status, said = shell(["rustc", "--print", "target-libdir", "--target", target])
        if not status and list(pathlib.Path(said.strip()).glob("libcore-*.rlib")):
            found[target] = "rustc"
            continue
        status, said = shell(["sh", ROOT / "rust/kit.sh", kit, target], 3600)
        if status not in (0, 2):
            sys.exit(f"targets: {said}")
        if status:
            print(f"targets: not run: {target}: {last(said)}")
        else:
            found[target] = kit / "rustc"
    return found


def code_size(way, path):
    """Bytes of code and constants of an object file."""
    said = shell([way.tool("size"), "-A", path])[1]
    return sum(int(size) for size in re.findall(r"^\.(?:text|rodata)\S*\s+(\d+)", said, flags=re.M))


class Library:
    """The library that cargo builds for a way's target."""

    def __init__(self, way, compiler, folder):
        self.way, built, profile = way, folder / "cargo", profile_of(way.target)
        flags = {"RUSTFLAGS": f"-C target-feature={way.features}"} if way.features else {}
        status, said = shell(["cargo", "rustc", "--profile", profile, "--target", way.target, "--crate-type",
                              "staticlib", "--offline", "--locked", "--quiet"], cwd=C,
                             env=os.environ | flags | {"RUSTC": str(compiler), "CARGO_TARGET_DIR": str(built)})
        if status:
            raise Failed(f"cargo: {said[:1500]}")
        self.path = built / way.target / profile / "libnet_base.a"
        self.crate = next((self.path.parent / "deps").glob("libnet_base_exports-*.rlib"))
        members = [it for it in shell([way.tool("ar"), "t", self.path])[1].split() if it.startswith("net_base")]
        if len(members) != 1:
            raise Failed(f"the library has {len(members)} objects of its own")
        shell([way.tool("ar"), "x", self.path, *members], cwd=folder)
        self.object = folder / members[0]

    def code_size(self):
        """Bytes of code and constants."""
        return code_size(self.way, self.object)

    def wanted(self):
        """The functions that it wants from elsewhere."""
        return set(re.findall(r" U (\w+)",
                              shell([self.way.tool("nm"), "-u", self.object])[1])) - {"_GLOBAL_OFFSET_TABLE_"}


class Programs:
    """Builds programs for one way, and runs them."""

    def __init__(self, way, compiler, folder):
        self.way, self.rustc, self.folder = way, compiler, folder
        self.folder.mkdir(parents=True, exist_ok=True)
        self.library = Library(way, compiler, folder)

    def compiled(self, source, words=()):
        """An object file of a source; `main` has another name where the harness has its own."""
        made = self.folder / f"{source.name}.o"
        extra = ["-Dmain=program", "-D__int64_t_defined=1"] if self.way.bare else []
        is_cpp = source.suffix == ".cpp"
        compiler = [self.way.tool("g++") if is_cpp else self.way.compiler[0], *self.way.compiler[1:]]
        status, said = shell([*compiler, *(CXX_FLAGS if is_cpp else FLAGS), *extra, *words, f"-I{C}", "-c", source,
                              "-o", made])
        if status:
            raise Failed(f"{source.name} isn't compiled: {said[:1500]}")
        return made

    def harness(self, words):
        """What a bare program has besides: its words, its start."""
        if not self.way.bare:
            return []
        quoted = "".join(f'"{word}", ' for word in words)
        sources = [(HERE / "start.c", self.folder / "start.o", [f"-DWORDS={quoted}"])]
        if self.way.compiler[0] == "arm-none-eabi-gcc":
            sources.append((HERE / "cortex_m.c", self.folder / "cortex_m.o", []))
        for source, made, more in sources:
            status, said = shell([*self.way.compiler, *FLAGS, *more, "-c", source, "-o", made])
            if status:
                raise Failed(f"{source.name} isn't compiled: {said[:1500]}")
        found = [made for _, made, _ in sources]
        if self.way.compiler[0] == "arm-none-eabi-gcc":
            _, crt0 = shell([*self.way.compiler, "-print-file-name=rdimon-crt0.o"])
            found.insert(0, crt0.strip())
        return found

    def built(self, name, sources, words=(), flags=()):
        """A program."""
        program = self.folder / name
        objects = [*self.harness(words), *[self.compiled(source, flags) for source in sources]]
        # C++ has another name for a `main` that has another name.
        alias = ["-Wl,--defsym=program=_Z7programv"] * (self.way.bare and sources[0].suffix == ".cpp")
        status, said = shell([*self.way.compiler, *self.way.linking, *alias, *objects, self.library.path, "-o",
                              program])
        if status:
            raise Failed(f"{name} isn't linked: {said[:1500]}")
        return program

    def run(self, name, sources, words=(), flags=(), emulated=()):
        """What a program prints that ends with status 0."""
        program = self.built(name, sources, words, flags)
        emulator = [*self.way.emulator[:1], *emulated, *self.way.emulator[1:]]
        status, said = shell([*emulator, program, *([] if self.way.bare else words)])
        if status != (PC_STATUS if self.way is PC else 0):
            raise Failed(f"{name} ended with status {status}: {said[-500:]}")
        return said


def stepping(emulator):
    """The word for an emulator to take one instruction at a time: an interrupt may come between any two."""
    _, said = shell([emulator, "-help"])
    return ["-accel", "tcg,one-insn-per-tb=on"] if "one-insn-per-tb" in said else ["-singlestep"]


def interrupted(programs):
    """What the example with an interrupt prints."""
    machine, flags = {CORTEX_M4: (["cortex_m.c"], ()), RISCV_32: (["riscv.c"], ["-march=rv32imac_zicsr"]),
                      BARE_X86: (["x86_64.S", "x86_64.c"], ())}[programs.way.target]
    sources = [C / "interrupt" / name for name in (*machine, "interrupt.c")]
    return last(programs.run("interrupt", sources, (), flags, stepping(programs.way.emulator[0])))


def last(said):
    return (said.strip().splitlines() or ["(nothing)"])[-1]


def by_cmake(programs):
    """Builds the lines of docs/C.md that are for CMake, with the file for a Cortex-M4. Returns whether there is
    CMake."""
    folder = programs.folder / "cmake"
    if not shutil.which("cmake"):
        return False
    folder.mkdir()
    (folder / "net-base").symlink_to(ROOT)
    (folder / "my.c").write_text('#include "net_base.h"\nint main(void) { net_base_ring_init(NULL); return 0; }\n')
    lines = re.findall(r"^    ((?:add_|target_).*)$", (ROOT / "docs/C.md").read_text(), flags=re.M)
    (folder / "CMakeLists.txt").write_text("\n".join(["cmake_minimum_required(VERSION 3.21)", "project(user C)",
                                                      *lines]) + "\n")
    for words in (["-S", folder, "-B", folder / "built", "--toolchain", HERE / "cortex_m4.cmake"],
                  ["--build", folder / "built"]):
        status, said = shell(["cmake", *words], env=os.environ | {"RUSTC": str(programs.rustc)})
        if status:
            raise Failed(f"CMake: {said[-1500:]}")
    return True


def lines_of_page(programs):
    """Runs the lines that docs/C.md has for a target, as they are there, over a copy. Returns whether it has some."""
    text = (ROOT / "docs/C.md").read_text()
    lines = re.search(rf"^    (\(cd c && cargo build .*--target {programs.way.target}\)\n    .*)$", text, flags=re.M)
    if not lines or programs.way.features:
        return False
    copy = programs.folder / "copy"
    for name in ("c", "rust"):
        shutil.copytree(ROOT / name, copy / name, ignore=shutil.ignore_patterns("target"))
    program = re.search(r"^    #include.*\n(?:(?:    .*)?\n)*?    \}\n", text, flags=re.M)[0]
    (copy / "my.c").write_text(re.sub("^    ", "", program, flags=re.M))
    environment = {name: value for name, value in os.environ.items() if name != "CARGO_TARGET_DIR"}
    status, said = shell(["sh", "-ec", lines[1]], cwd=copy, env=environment | {"RUSTC": str(programs.rustc)})
    if status:
        raise Failed(f"the lines of docs/C.md: {said[-1500:]}")
    return True


def exported(programs, generated):
    """What the checks of tools/exports.txt print, by the calls of both headers."""
    checks, others = (re.findall(r"(\d+) checks", programs.run("exports", [generated / "exports.c"], (), flags))
                      for flags in ((), ("-include", generated / "through.h")))
    if not checks or checks != others:
        raise Failed("exports.c counts no checks, or others by the calls of net_bound.h")
    return f"{checks[0]} checks, by net_bound.h too"


def tests(programs, generated, options):
    """Runs the tests. Returns what is printed of them."""
    way = programs.way
    layouts = programs.folder / "layouts.rs"
    layouts.write_text(programs.run("layouts", [generated / "layouts.c"]))
    status, said = shell([programs.rustc, "--target", way.target, "--edition", "2024", "--crate-type", "rlib",
                          "--emit", "metadata",
                          "-C", "panic=abort", "--extern", f"proved={programs.library.crate}", layouts, "-o",
                          f"{layouts}.rmeta"])
    if status:
        raise Failed(f"layouts: a field of a struct isn't where Rust has it: {said[:1500]}")
    # A microbit hasn't flash enough for the others.
    has_room = "microbit" not in way.emulator
    done = [exported(programs, generated)] if has_room else []
    if programs.run("hosted", [C / "hosted.c"]) != (C / "hosted.stdout").read_text():
        raise Failed("hosted.c prints something else than hosted.stdout")
    done.append("hosted.c as it should")
    for name in ("stream", "reassembly", "frames") * has_room:
        if not programs.run(name, [C / f"programs/{name}.c"]).startswith(f"{name}: "):
            raise Failed(f"programs/{name}.c fails")
        done.append(f"{name}.c")
    if way.target in QUICK:
        programs.run("receiver", [C / "programs/receiver.cpp"])
        done.append("receiver.cpp")
    if way.target == CORTEX_M4 and not way.features and by_cmake(programs):
        done.append("CMake")
    if lines_of_page(programs):
        done.append("the lines of docs/C.md")
    if not way.features and compared(programs, generated):
        done.append("the numbers of docs/C.md")
    said = last(programs.run("sequence", [generated / "sequence.c"], [str(options.calls)]))
    digest = re.search(r"digest ([0-9a-f]{16})$", said)
    if not digest:
        raise Failed(f"sequence: {said}")
    _, about = shell(["rustc", "--print", "cfg", "--target", way.target])
    bits = re.sub(r'.*target_pointer_width="(\d+)".*', r"\1 bits", about, flags=re.S)
    if options.record:
        DIGESTS.write_text(re.sub(f"^{bits} .*", f"{bits} {digest[1]}", DIGESTS.read_text(), flags=re.M))
    if options.calls == CALLS and f"{bits} {digest[1]}\n" not in DIGESTS.read_text():
        raise Failed(f"the sequence has digest {digest[1]}, and on {bits} c/sequence.txt has another")
    done.append(f"{options.calls:,} calls with digest {digest[1]}")
    return ", ".join(done)


def stacks(programs, generated):
    """Bytes of stack of the export that can take most and of the one after it, with their names, by the code. Under
    Linux the C library's `memmove` is called by a pointer, and not counted."""
    program = programs.built("stack", [generated / "sequence.c"])
    bounds = disassembly.stack_bounds(programs.way.tool("objdump"), program)
    own = f"net_base_{ffi.interface()}_"
    return sorted(((size, name.removeprefix(own)) for name, size in bounds.items() if name.startswith(own)),
                  reverse=True)[:2]


def longest(programs):
    """Instructions of the longest of each call of a connection, and of one on average, by the emulator's count."""
    said = programs.run("longest", [HERE / "longest.c"], (), (), ["-icount", "shift=0"])
    return {name: [int(it) for it in counts]
            for name, *counts in re.findall(r"^longest: (\w+) (\d+) (\d+)$", said, flags=re.M)}


def figures(programs, generated):
    """The numbers that docs/C.md has for a target, or may have: of each row, by one of its cells, those of columns by
    their heads."""
    stack = "; ".join(f"{size} {name}" for size, name in stacks(programs, generated))
    found = {f"`{programs.way.target}`": {"Code, bytes": f"{programs.library.code_size():,}", "Stack, bytes": stack}}
    return found | (figures_of_parts(programs) if programs.way.target == CORTEX_M4 else {})


def figures_of_parts(programs):
    """Those for parts of the library on a Cortex-M4, and for structs."""
    rounds, said = instructions(programs), shell(["sh", C / "sizes.sh", programs.library.path])[1]
    codes = re.findall(r"^code of .*: (\d+)$", said, flags=re.M)
    sizes = re.findall(r"^\| `(\w+)` \| (\d+) \| (\d+) \|$", said, flags=re.M)
    found = {f"`{name}`": {"64 bits": wide, "Cortex-M4": narrow} for name, wide, narrow in sizes}
    ram = {name: int(narrow) for name, _, narrow in sizes}
    ram["both_ends"] = sum(ram[name] for name in (
        "net_bound_receiving_end", "net_bound_sending_end", "net_base_answer_limit"))
    for (key, (name, kept)), code in zip(PARTS.items(), codes, strict=True):
        found[key] = {"RAM": kept.format(**ram), "Code": f"{int(code):,}", "Instructions": f"{rounds[name]:,}"}
    source = programs.folder / "byte_ring_size.c"
    source.write_text(BYTE_RING)
    found["copy `byte_ring.h`"] = {"RAM": f'{ram["byte_ring"] - 256}, and 256 for its bytes',
                                   "Code": str(code_size(programs.way, programs.compiled(source, ["-Os"]))),
                                   "Instructions": str(rounds["byte_ring.h: a byte in and out"])}
    for name, (most, average) in longest(programs).items():
        found[f"`{name}`"] = {"Most": f"{most:,}", "On average": f"{average:,}"}
    return found


def with_figures(text, found):
    """A page with these numbers, in the rows that it has, and how many rows these are."""
    lines, count, head = text.split("\n"), 0, []
    for k, line in enumerate(lines):
        row = line.strip("| ").split(" | ") if line.startswith("| ") else []
        head = (head or row) if line.startswith("|") else []
        for key in set(row) & set(found):
            if wrong := set(found[key]) - set(head):
                sys.exit(f"targets: docs/C.md: the table with {key} has no column {' or '.join(wrong)}")
            lines[k] = f"| {' | '.join(found[key].get(name, cell) for name, cell in zip(head, row))} |"
            count += 1
    return "\n".join(lines), count


def compared(programs, generated):
    """Compares the numbers of docs/C.md with a target's. Returns whether it has some, of these compilers."""
    text = PAGE.read_text()
    rust, other, gcc = re.search(r"are of Rust (\S+) \(x86-64: (\S+)\) and GCC (\d+\.\d+)", text).groups()
    version = f"rustc {other if programs.way.target.startswith('x86_64') else rust}."
    if f"`{programs.way.target}`" not in text or not shell([programs.rustc, "--version"])[1].startswith(version) or \
            not shell([programs.way.compiler[0], "-dumpfullversion"])[1].startswith(f"{gcc}."):
        return False
    found = figures(programs, generated)
    wanted, count = with_figures(text, found)
    if count != len(found):
        raise Failed(f"docs/C.md has {count} of these rows: {', '.join(found)}")
    if wrong := [f"{said}, and not {line}" for line, said in zip(text.split("\n"), wanted.split("\n")) if line != said]:
        raise Failed(f"docs/C.md has other numbers: sh c/targets.sh --table --record {programs.way.target}: " +
                     "; ".join(wrong))
    return True


def instructions(programs):
    """Instructions of a round of each main call: by the emulator's count, or valgrind's on this machine."""
    way, source, flags = programs.way, [HERE / "instructions.c"], ["-Wno-unused-result"]
    if way.bare:
        said = programs.run("instructions", source, (), flags, ["-icount", "shift=0"])
    elif way.target == TARGETS[0] and not way.emulator and shutil.which("valgrind"):
        program = programs.built("instructions", source, (), flags)
        said = programs.run("instructions", source, (), flags)
        counted = ["valgrind", "--tool=callgrind", "--callgrind-out-file=/dev/null", program]

        def count(kind, rounds):
            return int(re.search(r"Collected : (\d+)", shell([*counted, kind, rounds])[1])[1])

        names = re.findall(r"^instructions: \S+ (.*)$", said, flags=re.M)
        each = [(count(kind, 2000) - count(kind, 1000)) // 1000 for kind in range(len(names) + 1)]
        return {name: it - each[0] for name, it in zip(names, each[1:])}
    else:
        return {}
    return {name: int(count) for count, name in re.findall(r"^instructions: (\d+) (.*)$", said, flags=re.M)}


def each(ways, act):
    """Does something for several ways at once. Yields each with what came out, or how it failed."""
    with concurrent.futures.ThreadPoolExecutor(os.cpu_count()) as pool:
        runs = [(way, pool.submit(act, index, way)) for index, way in enumerate(ways)]
        for way, run in runs:
            try:
                yield way, run.result(), None
            except Failed as failure:
                yield way, None, failure


def table_of(programs, generated):
    """A target's numbers, what its library wants, and its column of instructions."""
    found = figures(programs, generated)
    return found, " ".join(sorted(programs.library.wanted())), instructions(programs)


def print_table(tables):
    """What each library has and wants, and the stack that it takes. Then a row for each main call."""
    print("| Target | Code, bytes | Stack, bytes |\n|---|---:|---:|")
    rows = {f"`{way.target}`": found for way, (found, _, _) in tables.items()}
    print("\n".join(f"| {key} | {' | '.join(found[key].values())} |" for key, found in rows.items()), end="\n\n")
    print("\n".join(dict.fromkeys(f"{way.target} wants {wanted}" for way, (_, wanted, _) in tables.items())))
    counts = {way.target: count for way, (_, _, count) in tables.items() if count}
    if counts:
        print(f"\n| Instructions of a round | {' | '.join(f'`{name}`' for name in counts)} |")
        print(f"|---|{'---:|' * len(counts)}")
        for name in next(iter(counts.values())):
            print(f"| {name} | {' | '.join(str(it[name]) for it in counts.values())} |")


def packages_of(programs):
    return " ".join(sorted({package for program in programs for package in PACKAGES[program].split()}))


def main():
    parser = argparse.ArgumentParser(prog="targets.sh")
    parser.add_argument("--quick", action="store_true")
    parser.add_argument("--table", action="store_true")
    parser.add_argument("--packages", action="store_true")
    parser.add_argument("--install", action="store_true", help="install what is missing, where that can be done")
    parser.add_argument("--numbers", action="store_true")
    parser.add_argument("--record", action="store_true", help="write the digest, or the numbers of docs/C.md")
    parser.add_argument("--calls", type=int, default=CALLS)
    parser.add_argument("--kit", type=pathlib.Path)
    parser.add_argument("targets", nargs="*")
    options = parser.parse_args()
    names = options.targets or (QUICK if options.quick else TARGETS)
    if unknown := set(names) - set(TARGETS):
        sys.exit(f"targets: no target {' '.join(sorted(unknown))}: there are {' '.join(TARGETS)}")
    builds = options.table or options.numbers
    ways = [way for way in WAYS if way.target in names and not (builds and way.features)]
    ways += [] if builds else [way for way in INTERRUPTED if way.target in names]
    gone = {program for way in ways for program in way.lacking()}
    if gone and options.install and os.getuid() == 0 and shutil.which("apt-get"):
        words = ["apt-get", "-qq", "-o", "DPkg::Lock::Timeout=600"]
        shell([*words, "update"])
        shell([*words, "install", "-y", "--no-install-recommends", *packages_of(gone).split()], 3600,
              env=os.environ | {"DEBIAN_FRONTEND": "noninteractive"})
        gone = {program for way in ways for program in way.lacking()}
    if options.packages:
        print(packages_of(gone))
        return
    left_out = [way for way in ways if way.lacking()]
    if gone:
        print(f"targets: not run: {', '.join(dict.fromkeys(way.name() for way in left_out))}: there is no "
              f"{', '.join(sorted(gone))}: apt-get install -y {packages_of(gone)}")
    status, tables = 0, {}
    with tempfile.TemporaryDirectory(prefix="net_base_") as folder:
        folder = pathlib.Path(folder)
        there = [way for way in ways if way not in left_out]
        wanted = list(dict.fromkeys(way.target for way in there))
        rustc = compilers(wanted, (options.kit or folder / "kit").resolve())
        ways = [way for way in there if way.target in rustc]
        is_whole = not gone and len(rustc) == len(wanted)
        generated = folder / "generated"
        generated.mkdir()
        library = ffi.Library(ROOT / "crates/net_ffi")
        (generated / "exports.c").write_text(exports.program(library))
        (generated / "sequence.c").write_text(sequence.sequence(library))
        (generated / "layouts.c").write_text(layouts.program(library))
        (generated / "through.h").write_text(bound.through(library))

        def act(index, way):
            programs = Programs(way, rustc[way.target], folder / str(index))
            if options.table:
                return table_of(programs, generated)
            if options.numbers:
                return "the numbers of docs/C.md" if compared(programs, generated) else "docs/C.md has no numbers of it"
            if way is PC or way in ways[:index]:  # it is there once more for the interrupt
                return interrupted(programs)
            return tests(programs, generated, options)

        for way, result, failure in each(ways, act):
            if failure:
                print(f"{way.name()}: FAILED: {failure}", flush=True)
                status = 1
            elif options.table:
                tables[way] = result
            else:
                print(f"{way.name()}: {result}", flush=True)
    if options.table:
        print_table(tables)
    if options.table and options.record:
        found = {key: values for numbers, _, _ in tables.values() for key, values in numbers.items()}
        PAGE.write_text(with_figures(PAGE.read_text(), found)[0])
    sys.exit(status or (0 if is_whole else 2))


if __name__ == "__main__":
    main()
