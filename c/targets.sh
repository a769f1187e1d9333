#!/bin/sh
# Builds the library for other processors, and runs the tests of this folder over it, under an emulator:
#
#     sh c/targets.sh [--install] [--record] [--quick] [--calls N] [--kit FOLDER] [TARGET..]
#     sh c/targets.sh --table | --numbers [--record] [--kit FOLDER] [TARGET..]
#     sh c/targets.sh --packages [--install] [--quick] [TARGET..]
#
# TARGET is one of rustc's. Where rustc lacks its core library, Debian's Rust 1.85 is unpacked in FOLDER, or a
# temporary one (rust/kit.sh). It prints a line for each way to run a target: the checks of exports.c that passed,
# whether hosted.c prints what it should, the programs of c/programs, the lines that docs/C.md has for the target,
# and the digest of one long sequence of N calls (1000000) of all exports, which has to be that of sequence.txt, or
# with --record is written there; and a line for the example with an interrupt. Quick are ARMv7, a Cortex-M4 and a
# RISC-V. --table prints sizes, stacks, wanted functions and instructions; with --record docs/C.md gets its numbers, which
# all but --packages compare, if they are of these compilers, and --numbers alone. --packages prints what isn't
# installed; --install installs it.
#
# The status is 1 if something is wrong, and 2 if all is right but a compiler, a C library or an emulator is missing,
# which a line names with the way to install it.
exec python3 "$(dirname "$0")/targets/run.py" "$@"
