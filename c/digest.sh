#!/bin/sh
# Compares the digest of a million calls of all exports, over the library that the kit builds of the same text, with
# that of c/sequence.txt, which cargo's library has: sh c/digest.sh [FOLDER], where what is checked stays in FOLDER
set -eu
here=$(cd "$(dirname "$0")" && pwd)
out=$(mktemp -d)
trap 'rm -rf "$out"' EXIT
python3 "$here/../tools/libraries.py" "$out/libnet_ffi.a" ${1:+"$1"}
python3 "$here/../tools/ffi.py" --sequence "$out/sequence.c"
cc -O2 -DNET_BASE_PLAIN_NAMES -I "$here" "$out/sequence.c" "$out/libnet_ffi.a" -o "$out/sequence"
"$out/sequence" > "$out/printed"
grep -q "^$(getconf LONG_BIT) bits $(sed 's/.* //' "$out/printed")$" "$here/sequence.txt" ||
    { echo "digest.sh: the kit's library has another digest than c/sequence.txt: $(cat "$out/printed")"; exit 1; }
