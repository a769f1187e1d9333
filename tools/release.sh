#!/bin/sh
# Makes the files of a release: sh tools/release.sh TAG KIT [TARGET..]
#
# For each TARGET of rustc it builds the C library of the tag, at the profile `release` or, for small flash, `small`.
# Into c/assets, which git ignores, it puts an archive for each, net_base-TAG-TARGET.tar.gz, of headers, library,
# net_base.pc and licence, and the digests of all: the same of the same tag and compiler, in a folder of the same path.
# Where rustc lacks the target, the folder KIT has Debian's Rust 1.85 (rust/kit.sh).
set -eu
tag=$1
mkdir -p "$2"
kit=$(cd "$2" && pwd)
shift 2
[ $# -gt 0 ] || set -- x86_64-unknown-linux-gnu aarch64-unknown-linux-gnu armv7-unknown-linux-gnueabihf \
    thumbv6m-none-eabi thumbv7em-none-eabi thumbv7em-none-eabihf thumbv8m.main-none-eabi \
    riscv32imc-unknown-none-elf riscv32imac-unknown-none-elf
cd "$(dirname "$0")/.."
assets=$PWD/c/assets
# Symbols depend on its path.
build=$assets/build
mkdir -p "$build"
trap 'rm -rf "$build"' EXIT
git archive "$tag" c rust LICENSE | tar -x -C "$build"
for target; do
    rustc=rustc profile=release name=net_base-$tag-$target
    if ! ls "$(rustc --print target-libdir --target "$target")"/libcore-*.rlib > /dev/null 2>&1; then
        sh rust/kit.sh "$kit" "$target"
        rustc=$kit/rustc
    fi
    case $target in thumb* | riscv32*) profile=small ;; esac
    mkdir "$build/$name"
    # One that tests duties, and one that doesn't.
    for features in check ""; do
        (cd "$build/c" && RUSTC=$rustc CARGO_TARGET_DIR=$build/target cargo rustc --profile $profile --target "$target" \
            --crate-type staticlib --offline --locked --quiet --features "$features")
        cp "$build/target/$target/$profile/libnet_base.a" "$build/$name/libnet_base${features:+_$features}.a"
    done
    (cd "$build" && cp c/net_base.h c/net_bound.h c/net_base.hpp LICENSE "$name" && sed 's|/target/release||' c/net_base.pc > "$name/net_base.pc")
    tar -C "$build" --sort=name --mtime="@$(git log -1 --format=%ct "$tag")" --owner=0 --group=0 --numeric-owner \
        --mode=u=rw,go=r,a+X -cf "$build/$name.tar" "$name"
    gzip -n9 < "$build/$name.tar" > "$assets/$name.tar.gz"
done
cd "$assets"
sha256sum "net_base-$tag"-*.tar.gz | tee "net_base-$tag.sha256"
