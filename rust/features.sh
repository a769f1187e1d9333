#!/bin/sh
# Compiles both packages and their tests with each set of features, runs what depends on one, and a program that was
# written for smoltcp, and builds one without std that has its own panic handler. The tests themselves run once, from
# the archives: package.sh.
set -eu
cd "$(dirname "$0")"
for features in "" "--no-default-features" "--no-default-features --features alloc" "--all-features"; do
    # shellcheck disable=SC2086
    cargo check --offline --quiet --lib --tests $features
done
for counts in 1 2 3 8 "2 assembler-max-segment-count-16"; do
    cargo test --offline --quiet --test features --features "assembler-max-segment-count-$counts"
done
cargo test --offline --quiet --test features --features segmentation-offload
(cd examples/ported && cargo run --offline --quiet > /dev/null)
cd examples/no_std
RUSTFLAGS="-C link-arg=-nostartfiles -C link-arg=-static -C relocation-model=static \
-C link-arg=-Wl,--unresolved-symbols=ignore-all" cargo build --offline --quiet --release
