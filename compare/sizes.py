#!/usr/bin/env python3
"""SMOLTCP=path [RUST_KIT=folder] python3 compare/sizes.py

Prints what this crate and smoltcp take in a program of one module without std. Of rust/examples/no_std, a ring, an
assembler and a packet queue, the bytes of `.text` and `.rodata` at `opt-level` "s" and "z", with a panic handler that
reads nothing and with one that reads places, and so of receive.rs, a receive path, by `add` and `remove_front`. Of
receive.rs by `add_then_remove_front` those of the Cortex-M4, and there, under QEMU, the instructions of a round and the
bytes of stack. Other processors than this machine's are there if RUST_KIT names the folder that
`sh rust/targets.sh FOLDER` fills, and their linkers are.
"""
import os
import re
import shutil
import subprocess
import sys
import tempfile
from pathlib import Path

sys.dont_write_bytecode = True
import common

MANIFEST = """[package]
name = "program"
version = "0.0.0"
edition = "2021"
[workspace]
[dependencies]
smoltcp = {{ {}, default-features = false }}
[profile.release]
panic = "abort"
lto = true
codegen-units = 1
"""
CRATE = common.REPOSITORY / "rust"
EXAMPLES = CRATE / "examples"
RECEIVE = Path(__file__).parent / "receive.rs"
HANDLER = "fn panic(_: &core::panic::PanicInfo) -> ! {\n    loop {}"
READS_PLACES = "fn panic(info: &core::panic::PanicInfo) -> ! {\n    core::hint::black_box(info.location());\n    loop {}"

HOST = "-C link-arg=-nostartfiles -C link-arg=-static -C relocation-model=static " \
       "-C link-arg=-Wl,--gc-sections,--unresolved-symbols=ignore-all"
BARE = "-C linker-flavor=ld -C linker={}ld -C link-arg=--gc-sections -C link-arg=--unresolved-symbols=ignore-all"
M4 = "thumbv7em-none-eabihf"
# Each target, the prefix of its tools, and flags of rustc; of the first by the machine's rustc.
TARGETS = {
    "x86_64-unknown-linux-gnu": ("", HOST),
    M4: ("arm-none-eabi-", BARE),
    "thumbv6m-none-eabi": ("arm-none-eabi-", BARE),
    "riscv32imac-unknown-none-elf": ("riscv64-unknown-elf-", BARE + " -C link-arg=-melf32lriscv"),
}
EMULATED = f"--cfg emulated -C linker=arm-none-eabi-gcc -C link-arg=-nostartfiles -C link-arg=-Wl,--gc-sections " \
           f"-C link-arg=-T{EXAMPLES}/cortex_m/memory.ld -C link-arg=-lc -C link-arg=-lgcc -C link-arg=-mthumb " \
           f"-C link-arg=-mcpu=cortex-m4 -C link-arg=-mfloat-abi=hard -C link-arg=-mfpu=fpv4-sp-d16"
RUN = "qemu-system-arm -M mps2-an386 -nographic -icount shift=0 -semihosting -kernel".split()


def said(*words, **options):
    return subprocess.run(words, stdout=subprocess.PIPE, text=True, check=True, **options).stdout


def smoltcp_crate(sources, folder):
    """Makes a crate of smoltcp's files, but that what `rand.rs` has for its own crate alone is public."""
    shutil.copytree(common.REPOSITORY / "overlay/checkout", folder)
    (folder / "src/storage").mkdir()
    for file in common.FILES:
        shutil.copy2(sources / file, folder / "src" / file)
    for file, old, new in [("rand.rs", "pub(crate) ", "pub "), ("lib.rs", "\nmod rand;", "\npub mod rand;")]:
        path = folder / "src" / file
        path.write_text(path.read_text().replace(old, new))


class Sizes:
    def __init__(self, smoltcp, folder):
        self.folder, self.kit = folder, os.environ.get("RUST_KIT") and Path(os.environ["RUST_KIT"]).resolve()
        smoltcp_crate(smoltcp / "src", folder / "smoltcp")
        self.crates = {"smoltcp": f'path = "{folder / "smoltcp"}"',
                       "net-base": f'package = "net-base", path = "{CRATE}"'}

    def has(self, target):
        """Whether there is a compiler and a linker, with the core library, which kit.sh builds from its source."""
        prefix, _ = TARGETS[target]
        return not prefix or bool(self.kit and shutil.which(f"{prefix}ld")) and not subprocess.run(
            ["sh", CRATE / "kit.sh", self.kit, target]).returncode

    def built(self, crate, text, target, level, flags):
        """The program of a text, over a crate."""
        folder, prefix = self.folder / "program", TARGETS[target][0]
        (folder / "src").mkdir(parents=True, exist_ok=True)
        (folder / "Cargo.toml").write_text(MANIFEST.format(self.crates[crate]))
        (folder / "src/main.rs").write_text(text)
        words = "cargo build --release --offline --quiet --ignore-rust-version --target"
        # Places have paths, which shouldn't depend on where the crates are.
        paths = f"--remap-path-prefix={self.folder}=. --remap-path-prefix={CRATE}=./net-base"
        variables = {"CARGO_PROFILE_RELEASE_OPT_LEVEL": level, "RUSTFLAGS": f"{flags.format(prefix)} {paths}",
                     "CARGO_TARGET_DIR": str(self.folder / "target" / crate)}
        if prefix:
            variables["RUSTC"] = str(self.kit / "rustc")
        said(*words.split(), target, cwd=folder, env=os.environ | variables)
        return Path(variables["CARGO_TARGET_DIR"]) / target / "release/program"

    def sections(self, crate, text, target, level, flags=""):
        """The bytes of `.text` and of `.rodata`, together."""
        prefix, own = TARGETS[target]
        sizes = said(f"{prefix}size", "-A", self.built(crate, text, target, level, f"{own} {flags}"))
        return sum(map(int, re.findall(r"^\.(?:text|rodata|data\.rel\.ro|srodata)\S*\s+(\d+)", sizes, flags=re.M)))

    def programs(self, title, text, flags=""):
        """A table of the bytes of a program, with a panic handler that reads nothing and with one that reads places."""
        places = text.replace(HANDLER, READS_PLACES)
        print(f"| {title}: `.text` and `.rodata` | | smoltcp | net-base | reads places: smoltcp | net-base |")
        print("|---|---|---:|---:|---:|---:|")
        for target in filter(self.has, TARGETS):
            for level in "sz":
                each = [(crate, it) for it in (text, places) for crate in self.crates]
                sizes = [self.sections(crate, it, target, level, flags) for crate, it in each]
                print(f"| {target} | {level} | {' | '.join(f'{size:,}' for size in sizes)} |", flush=True)

    def receive_path(self):
        if not (self.has(M4) and shutil.which("qemu-system-arm") and shutil.which("arm-none-eabi-gcc")):
            return
        text = RECEIVE.read_text()
        print("\n| Receive path on a Cortex-M4: bytes; instructions a round; bytes of stack | s | z | 3 |")
        print("|---|---:|---:|---:|")
        sums = set()
        for name, crate, flags in [("smoltcp", "smoltcp", ""), ("net-base, joined", "net-base", ""),
                                   ("net-base's `Receiver`, `keep`", "net-base", "--cfg receiver"),
                                   ("the same, `segment`", "net-base", "--cfg receiver --cfg lists")]:
            cells = []
            for level in "sz3":
                size = self.sections(crate, text, M4, level, flags)
                program = self.built(crate, text, M4, level, f"{EMULATED} {flags}")
                printed = said(*RUN, program, stdin=subprocess.DEVNULL, stderr=subprocess.STDOUT, timeout=120)
                ticks, stack, result = map(int, printed.split())
                sums.add(result)
                cells.append(f"{size:,}; {ticks * 40 / 1000:.0f}; {stack}")
            print(f"| {name} | {' | '.join(cells)} |", flush=True)
        if len(sums) > 1:
            sys.exit(f"the receive paths don't give the same: {sums}")


def main():
    with tempfile.TemporaryDirectory() as folder:
        sizes = Sizes(common.need(["cargo"]), Path(folder))
        sizes.programs("Three buffers", (EXAMPLES / "no_std/src/main.rs").read_text())
        print()
        sizes.programs("Receive path by `add` and `remove_front`", RECEIVE.read_text(), "--cfg apart")
        sizes.receive_path()


if __name__ == "__main__":
    main()
