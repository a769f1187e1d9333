#!/bin/sh
# Unpacks Debian's Rust 1.85 in a folder, as FOLDER/rustc, with libraries for other targets; nothing is installed:
#
#     sh rust/kit.sh FOLDER TARGET..
#
# Std for ARMv7 and AArch64 is Debian's. The core library of another target is compiled from its source: of what
# compilers bring besides, the C library and libgcc have those functions that are wanted. What is there already stays.
# The status is 2 if it can't be had, which a line says.
set -eu

kit=$1
shift
version=1.85.0
mkdir -p "$kit/lists/partial" "$kit/debs"
kit=$(cd "$kit" && pwd)

without() {
    echo "kit: not run: $*" >&2
    exit 2
}

unpack() {
    set -- -q -o "Dir::State::lists=$kit/lists" -o APT::Architectures=amd64,armhf,arm64
    apt-get "$@" update > "$kit/log" 2>&1 || true
    full=$(apt-cache "$@" madison libstd-rust-web-dev:armhf |
        awk -v v="$version" 'index($3, v) == 1 { print $3; exit }')
    [ -n "$full" ] || without "Debian has no Rust $version here: $(tail -n 1 "$kit/log")"
    (cd "$kit/debs" && apt-get "$@" download "rustc-web=$full" "rust-web-src=$full" "libstd-rust-web-dev:amd64=$full" \
        "libstd-rust-web-dev:armhf=$full" "libstd-rust-web-dev:arm64=$full" \
        "libstd-rust-web-${version%.*}:amd64=$full" libllvm19:amd64) >> "$kit/log" 2>&1 ||
        without "Debian's Rust can't be downloaded: $(tail -n 1 "$kit/log")"
    for package in "$kit"/debs/*.deb; do dpkg -x "$package" "$kit"; done
    printf '#!/bin/sh\nexport LD_LIBRARY_PATH="%s"\nexec "%s/usr/bin/rustc" --sysroot "%s/usr" "$@"\n' \
        "$kit/usr/lib/x86_64-linux-gnu:$kit/usr/lib:$kit/usr/lib/llvm-19/lib" "$kit" "$kit" > "$kit/rustc"
    chmod +x "$kit/rustc"
}

# Compiles a crate of the library for a target.
compile() {
    RUSTC_BOOTSTRAP=1 "$kit/rustc" --edition 2021 --crate-type rlib --crate-name "$2" --target "$1" -C opt-level=2 \
        -C panic=abort --cap-lints allow --out-dir "$kit/usr/lib/rustlib/$1/lib" "$3" > "$kit/log" 2>&1 ||
        { cat "$kit/log" >&2; echo "kit: Rust's $2 for $1 isn't compiled" >&2; exit 1; }
}

command -v apt-get > /dev/null || [ -x "$kit/rustc" ] || without "there is no apt-get for Debian's Rust $version"
[ -x "$kit/rustc" ] || unpack
printf '#![feature(compiler_builtins)]\n#![compiler_builtins]\n#![no_std]\n' > "$kit/compiler_builtins.rs"
for target; do
    mkdir -p "$kit/usr/lib/rustlib/$target/lib"
    ls "$kit/usr/lib/rustlib/$target/lib"/libcompiler_builtins*.rlib > /dev/null 2>&1 && continue
    compile "$target" core "$kit/usr/src/rustc-$version/library/core/src/lib.rs"
    compile "$target" compiler_builtins "$kit/compiler_builtins.rs"
done
