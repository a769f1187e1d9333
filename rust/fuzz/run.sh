#!/bin/sh
# Fuzzes one target, or each, for so many seconds: `sh run.sh [TARGET|all] [SECONDS]`. It wants LLVM's libFuzzer, which
# Debian has as libfuzzer-14-dev, and a stable rustc: its pass counts what code an input reaches. Inputs are kept in
# $CARGO_TARGET_DIR/corpus, and one that fails as `crash-..` beside it. cargo-fuzz and its crates aren't needed.
set -eu
cd "$(dirname "$0")"
export CARGO_TARGET_DIR="${CARGO_TARGET_DIR:-$PWD/target}/fuzz"
library=${LIBFUZZER:-$(ls /usr/lib/llvm-*/lib/libFuzzer.a | tail -1)}
export RUSTFLAGS="-Cpasses=sancov-module -Cllvm-args=-sanitizer-coverage-level=4 \
-Cllvm-args=-sanitizer-coverage-inline-8bit-counters -Cllvm-args=-sanitizer-coverage-pc-table \
-Clink-arg=$library -Clink-arg=-lstdc++"
targets=${1:-all}
[ "$targets" != all ] || targets="receiver sending_end fragments lines"
# With a target, so that the flags aren't those of build scripts.
host=$(rustc -vV | sed -n 's/^host: //p')
cargo build --offline --quiet --release --target "$host" --bins
for target in $targets; do
    mkdir -p "$CARGO_TARGET_DIR/corpus/$target"
    "$CARGO_TARGET_DIR/$host/release/$target" -max_total_time="${2:-120}" -max_len=512 -verbosity=0 \
        -print_final_stats=1 -artifact_prefix="$CARGO_TARGET_DIR/" "$CARGO_TARGET_DIR/corpus/$target"
done
