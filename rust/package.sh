#!/bin/sh
# Packs both packages, and builds and tests them from their archives, where each file that a README links or names has to
# be: the libraries' own tests, their examples, those of the documentation, and what must not compile. The archive of
# net-tcp is laid into that of net-base, as the folders are here, with the manifest as it is here, without the workspace's
# other crate. Then the folders `tests`, which the archives lack, are laid into them, and beside them the table that a
# test shares with net_tests; and the tests of these run.
set -eu
cd "$(dirname "$0")"
here=$PWD
out=$(mktemp -d)
trap 'rm -rf "$out"' EXIT
cargo package --offline --quiet --allow-dirty --no-verify --target-dir "$out/target" --package net-base --package net-tcp
# As new files: an archive's have one time, by which cargo would take what it built of an earlier text.
for archive in "$out"/target/package/net-*.crate; do tar -xmzf "$archive" -C "$out"; done
for folder in "$out"/net-base-* "$out"/net-tcp-*; do
    cd "$folder"
    [ -z "$(find . -name '*exports*')" ] || { echo "package: the archive has exports for C" >&2; exit 1; }
    names=$(sed -n 's/.*--example \([a-z]*\).*/examples\/\1*/p; s/.*`sh \(examples[^ `]*\).*/\1/p' README.md)
    links=$(grep -oh '](\([^)#:]*\)' ./*.md | cut -c3- | sed '/^https$/d')
    for file in $names $links; do
        # An example is a file or a folder of its name.
        # shellcheck disable=SC2086
        ls -d $file > /dev/null 2>&1 || { echo "package: README names $file, which isn't in the archive" >&2; exit 1; }
    done
done
cd "$out"/net-base-*
mv ../net-tcp-* net-tcp
sed 's/^members.*/members = ["net-tcp"]/' Cargo.toml.orig > Cargo.toml
cp net-tcp/Cargo.toml.orig net-tcp/Cargo.toml
export CARGO_TARGET_DIR="${CARGO_TARGET_DIR:-$out/target}/package"
# Without Rust's own tests of overflow, and without assertions of debug builds: what must panic does by a test of the
# crate's.
export CARGO_PROFILE_DEV_OVERFLOW_CHECKS=false CARGO_PROFILE_DEV_DEBUG_ASSERTIONS=false
cargo test --offline --quiet --lib
# Codes of what must not compile are compared where rustdoc's unstable features are on.
RUSTC_BOOTSTRAP=1 cargo test --offline --doc > "$out/said" 2>&1 || { cat "$out/said"; exit 1; }
refused=$(grep -c 'Refused.* - compile fail ... ok' "$out/said")
wanted=$(grep -c '^```compile_fail' src/refused.txt)
[ "$refused" = "$wanted" ] ||
    { echo "package: of $wanted texts that must not compile $refused are refused" >&2; exit 1; }
cargo build --offline --quiet --examples
for example in receiver stream quic_stream transfer reassembly bridge interrupt split_ring; do
    "$CARGO_TARGET_DIR/debug/examples/$example" > "$out/said" ||
        { echo "package: the example $example failed" >&2; exit 1; }
done
sh "$here/examples/net_bench/run.sh" "$CARGO_TARGET_DIR/debug/examples/net_bench"
cp -r "$here/tests" .
cp -r "$here/net-tcp/tests" net-tcp
mkdir -p ../crates/net_tests/src/program
cp "$here/../crates/net_tests/src/program/program_rows.rt" ../crates/net_tests/src/program
cargo test --offline --quiet --tests
# What the archive lacks: heads as C calls them.
cd "$here"
cargo test --offline --quiet --lib --package net-base-exports
