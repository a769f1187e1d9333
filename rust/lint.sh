#!/bin/sh
# No difference by rustfmt and no warning of rustc or clippy, with each set of features, in the erased text too; of
# clippy's pedantic lints those about `must_use`. So nothing is dead: what `UNCALLED` or `FOR_C` of
# tools/parts/erase_list.py lacks is named here. Of the program the example is looked at, and its test.
set -eu
cd "$(dirname "$0")"
for folder in . net-tcp benches exports fuzz ../c ../compare; do
    (cd "$folder" && cargo fmt --check)
done
(cd ../tools/growth && cargo fmt --check -- --config-path ../../rust)
for file in ../compare/quinn/*.rs ../compare/quics/*.rs; do
    rustfmt --edition 2021 --config-path ../compare < "$file" | cmp - "$file"
done
for features in "" "--no-default-features" "--no-default-features --features alloc" "--all-features"; do
    # shellcheck disable=SC2086
    cargo clippy --offline --quiet --all-targets $features -- -D warnings
done
for features in "" "--features segmentation-offload,std"; do
    # shellcheck disable=SC2086
    cargo clippy --offline --quiet --package net-base-exports $features -- -D warnings
done
cargo clippy --offline --quiet --features segmentation-offload -- -D warnings \
    -D clippy::must_use_candidate -D clippy::return_self_not_must_use
for folder in fuzz ../c; do
    (cd "$folder" && cargo clippy --offline --quiet -- -D warnings)
done
(cd ../compare && cargo clippy --offline --quiet --package peers -- -D warnings)
