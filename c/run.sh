#!/bin/sh
# Builds the library by cargo, and runs the programs of this folder over it: sh c/run.sh [--record]
#
# It compares the library's symbols with the header, and the structs' layouts; tries the headers in four languages by
# each compiler that is here, and by doxygen; a program of another version, which must not link or load; pkg-config,
# CMake, Meson and the lines of meson.build for rustc alone; and runs bare (no C library), hosted, duties (over a library
# that tests them), those of programs, and a sequence of 1,000,000 calls, whose digest is in c/sequence.txt. By the calls
# of both headers it runs edges, and each export at the values of tools/exports.txt and with each pointer null. CC and
# CXX name the compilers of C and C++. It wants cargo, Python and nothing else. --record writes the digest.
set -eu

here=$(cd "$(dirname "$0")" && pwd)
compiler=${CC:-cc}
warnings="-Wall -Wextra -Wpedantic -Wconversion -Werror"
flags="-std=c11 -O2 -Wall -Wextra -Werror"
sanitizers="-g -fsanitize=address,undefined -fno-sanitize-recover=all"
out=$(mktemp -d)
at=cargo
trap 'status=$?; rm -rf "$out"; [ $status = 0 ] || echo "run.sh: failed at: $at" >&2' EXIT

fail() {
    echo "run.sh: $*" >&2
    exit 1
}

lacks() {
    echo "run.sh: there is no $1 here: $2 tried" >&2
}

for program in "$compiler" nm ar; do
    command -v "$program" > /dev/null ||
        { at="not run: there is no $program: apt-get install -y gcc libc6-dev"; exit 2; }
done

# Some compilers come without the sanitizers' library.
echo 'int main(void) { return 0; }' > "$out/empty.c"
if ! "$compiler" $sanitizers "$out/empty.c" -o "$out/empty" 2> "$out/errors"; then
    echo "run.sh: $compiler has no sanitizers here: the tests run without" >&2
    sanitizers=-g
fi

target=${CARGO_TARGET_DIR:-$out/target}/c
(cd "$here" && CARGO_TARGET_DIR="$target" cargo build --release --offline --locked --quiet)
library=$target/release/libnet_base.a

at="the library's symbols"
# The library's own objects, without those that come with each compiler, want five functions at most from elsewhere.
(cd "$out" && ar t "$library" | grep '^net_base' | xargs ar x "$library" && mv net_base*.o library.o)
nm -u "$out/library.o" | awk 'NF == 2 { print $2 }' | sort -u > "$out/wanted"
if grep -vxE 'memcpy|memmove|memset|memcmp|bcmp|_GLOBAL_OFFSET_TABLE_' "$out/wanted"; then
    fail "the library wants these too"
fi
echo "library: wants only $(tr '\n' ' ' < "$out/wanted")"

# The header declares what the library has, and nothing else can be linked with. Each export has a row in exports.txt,
# or none is written.
python3 "$here/../tools/ffi.py" --tests "$out/exports.c" --layouts "$out/layouts.c" \
    --sequence "$out/sequence.c" --through "$out/through.h"
nm -g --defined-only "$out/library.o" | awk '$2 == "T" { print $3 }' | sort -u > "$out/defined"
number=$(sed -n 's/^#define NET_BASE_INTERFACE //p' "$here/net_base.h")
grep -v '^#' "$here/net_base.h" | sed -n "s/.* NET_BASE_LINK(\([a-z0-9_]*\));/net_base_${number}_\1/p" |
    sort -u > "$out/declared"
diff "$out/defined" "$out/declared" || fail "library (<) and header (>) differ"
echo "header: $(wc -l < "$out/declared") exports"

at="layouts: a field of a struct isn't where Rust has it"
"$compiler" -I "$here" "$out/layouts.c" -o "$out/layouts"
"$out/layouts" > "$out/layouts.rs"
crate=$(ls -t "$target"/release/deps/libnet_base_exports-*.rlib | head -n 1)
rustc --edition 2024 --crate-type rlib --emit metadata -C panic=abort --extern "proved=$crate" \
    "$out/layouts.rs" -o "$out/layouts.rmeta"
echo "layouts: $(grep -c 'offset_of!(' "$out/layouts.rs") fields of $(grep -c 'size_of::' "$out/layouts.rs") structs"
[ "$(grep -c 'size_of::' "$out/layouts.rs")" = "$(grep -c '^struct net_base_.* {$' "$here/net_base.h")" ] ||
    fail "not each struct"

at="a warning of the header"
echo '#include "net_bound.h"' > "$out/bound.c"
for each in "$compiler" gcc clang; do
    command -v "$each" > /dev/null || continue
    "$each" -std=c11 $warnings -I "$here" -fsyntax-only "$out/bound.c"
    "$each" -std=c2x $warnings -I "$here" -fsyntax-only "$out/bound.c"
done
for each in "${CXX:-c++}" g++ clang++; do
    command -v "$each" > /dev/null || continue
    "$each" -std=c++17 $warnings -Wold-style-cast -x c++ -fsyntax-only "$here/net_base.hpp"
    "$each" -std=c++20 $warnings -Wold-style-cast -x c++ -fsyntax-only "$here/net_base.hpp"
    printf '#include "net_bound.h"\n#include "byte_ring.h"\n' |
        "$each" -std=c++17 $warnings -x c++ -I "$here" -I "$here/programs" -fsyntax-only -
done
at="what the header allows"
# Storage and runs without values, a head of zeros, and a result that `(void)` drops; but not one that nothing drops.
cat > "$out/allowed.c" <<'EOF'
#include "net_bound.h"
size_t allowed(const uint8_t *data, size_t size, uint8_t *into) {
    struct net_base_fragments fragments = {0};
    struct net_bound_finite_receiver receiver;
    struct net_base_ring ring = {0, 0};
    struct net_base_run runs[4], others[4];
    struct net_base_kept_counts counts;
    uint8_t storage[64], bytes[64], queue[64];
    (void)net_base_ring_enqueue_slice(&ring, queue, 64, data, size);
    if (net_base_fragments_add(&fragments, storage, 64, runs, 4, 0, data, size)
        || !net_bound_finite_receiver_init(&receiver, bytes, 64, others, 4, 0)
        || net_bound_finite_receiver_segment(&receiver, 0, data, size, false, &counts))
        return 0;
    DROPPED net_bound_finite_receiver_read(&receiver, into, size);
    DROPPED net_base_ring_dequeue_slice(&ring, queue, 64, into, size);
    return counts.kept;
}
size_t allowed(const uint8_t *, size_t, uint8_t *);
EOF
for each in "$compiler" gcc clang arm-none-eabi-gcc; do
    command -v "$each" > /dev/null || continue
    for more in "-std=c11 -O0" "-std=c11 -O2" "-std=c2x -Os"; do
        "$each" $more $warnings "-DDROPPED=(void)" -I "$here" -c "$out/allowed.c" -o "$out/allowed.o"
        ! "$each" $more $warnings -DDROPPED= -I "$here" -c "$out/allowed.c" -o "$out/allowed.o" 2> "$out/said" ||
            fail "$each doesn't tell of a result that is dropped"
        grep -qE "unused-(result|value)" "$out/said"
    done
done
! "$compiler" -x c -fsyntax-only -DBYTE_RING_SIZE=200 "$here/programs/byte_ring.h" 2> "$out/said" ||
    fail "byte_ring.h takes any size"
grep -q "a power of two" "$out/said"
at="the header by another compiler"
# One without GNU's extensions, whose enums are as short as their numbers: tcc, and one that says that it isn't GNU's.
echo '#undef __GNUC__' > "$out/other.h"
more="-std=c11 -fshort-enums"
for name in stdio stddef stdint stdbool string; do more="$more -include $name.h"; done
guided='read abcdef
took 8, read hello
no room for mail
port 53: query
port 54: get'
for each in "$compiler $more -include $out/other.h" tcc; do
    command -v "${each%% *}" > /dev/null || { lacks tcc "the header by it isn't"; continue; }
    $each -I "$here" "$here/programs/guide.c" "$library" -o "$out/program"
    [ "$("$out/program")" = "$guided" ] || fail "$each: guide.c"
    $each -I "$here" "$out/layouts.c" -o "$out/program"
    "$out/program" | cmp - "$out/layouts.rs"
done
at="a warning of the header"
if command -v doxygen > /dev/null; then
    printf 'INPUT = "%s"\nPREDEFINED = __GNUC__=12\nQUIET = YES\nGENERATE_LATEX = NO\nHAVE_DOT = NO\nOUTPUT_DIRECTORY = "%s"\n' \
        "$here/net_base.h" "$out/doxygen" | doxygen - > "$out/said" 2>&1
    ! grep . "$out/said" || fail "doxygen warns"
else
    lacks doxygen "the header's comments aren't"
fi

at="an example"
for each in stream reassembly guide frames; do
    "$compiler" -std=c11 -O2 $warnings $sanitizers -I "$here" "$here/programs/$each.c" "$library" -o "$out/$each"
    "$out/$each"
done
# programs/tcp.sh runs this one.
if [ "$(uname)" = Linux ]; then
    for each in "$compiler" gcc clang; do
        command -v "$each" > /dev/null || continue
        "$each" -std=c11 -O2 $warnings -I "$here" "$here/programs/tcp.c" "$library" -o "$out/tcp"
    done
fi
at="sizes: a struct has other bytes than docs/C.md says: sh c/sizes.sh"
sh "$here/sizes.sh" > "$out/sizes"
# Without clang the last column is unknown.
sed 's/ - |$//' "$out/sizes" | while read -r row; do
    grep -qF "$row" "$here/../docs/C.md" || fail "docs/C.md has no row that begins: $row"
done
at="an example"
"$compiler" -std=c11 -O2 -pthread $warnings $sanitizers "$here/programs/byte_ring.c" -o "$out/byte_ring"
"$out/byte_ring"
# Clang can tell of a race.
threads="-std=c11 -O1 -g -fsanitize=thread -pthread"
if command -v clang > /dev/null && clang $threads "$out/empty.c" -o "$out/empty" 2> "$out/errors"; then
    clang $threads $warnings "$here/programs/byte_ring.c" -o "$out/byte_ring"
    "$out/byte_ring"
else
    lacks "clang with its thread sanitizer" "programs/byte_ring.c isn't by it"
fi
if command -v "${CXX:-c++}" > /dev/null; then
    "${CXX:-c++}" -std=c++17 -O2 $warnings -Wold-style-cast $sanitizers -I "$here" "$here/programs/receiver.cpp" \
        "$library" -o "$out/receiver"
    "$out/receiver"
else
    lacks "C++ compiler" "C++ isn't"
fi

at="pkg-config"
# What pkg-config says is enough, where cargo built the library. Its words come after what uses them, as in build
# systems.
cat > "$out/plain.c" <<'EOF'
#include <net_base.h>
int main(void) { struct net_base_ring it; net_base_ring_init(&it); return it.length != 0; }
EOF
if command -v pkg-config > /dev/null; then
    mkdir "$out/place"
    cp "$here/net_base.h" "$here/net_base.pc" "$out/place"
    ln -s "$target" "$out/place/target"
    words=$(PKG_CONFIG_PATH="$out/place" pkg-config --cflags --libs net_base)
    "$compiler" -c -I "$here" "$out/plain.c" -o "$out/plain.o"
    # It escapes a folder's spaces for the shell.
    eval '"$compiler" "$out/plain.o"' "$words" '-o "$out/plain"'
    "$out/plain"
else
    lacks pkg-config "net_base.pc isn't"
fi

at="duties.c"
# Over a library that tests duties. Calls that keep them aren't told of.
(cd "$here" && CARGO_TARGET_DIR="$target/check" cargo build --release --offline --locked --quiet --features check)
echo '#include "net_base.h"
void net_base_broken(uint32_t duty, const char *name, const char *argument) { (void)name, (void)argument; if (duty) __builtin_trap(); }' \
    > "$out/broken.c"
for each in programs/stream programs/reassembly programs/frames duties; do
    broken="$out/broken.c"
    [ $each != duties ] || broken=
    "$compiler" -std=c11 -O2 $warnings -I "$here" "$here/$each.c" $broken "$target/check/release/libnet_base.a" -o "$out/program"
    "$out/program" > "$out/said" || { cat "$out/said"; exit 1; }
done

at="another version's library"
# A program of another version doesn't link with this one's library, and doesn't run over it.
mkdir "$out/other"
sed "s/net_base_${number}_/net_base_0_/" "$here/net_base.h" > "$out/other/net_base.h"
echo 'void net_base_0_ring_init(void); void net_base_0_ring_init(void) {}' > "$out/other/stub.c"
shared="-shared -fPIC -Wl,-soname,libnet_base.so"
"$compiler" $shared "$out/other/stub.c" -o "$out/other/libnet_base.so"
"$compiler" $shared -Wl,--whole-archive "$library" -Wl,--no-whole-archive -o "$out/libnet_base.so"
for each in "$compiler -x c" "gcc -x c" "clang -x c" "${CXX:-c++} -x c++" "g++ -x c++" "clang++ -x c++"; do
    command -v "${each% -x*}" > /dev/null || continue
    $each -c -I "$here" "$out/plain.c" -o "$out/plain.o"
    "$compiler" "$out/plain.o" "$out/libnet_base.so" -o "$out/plain"
    LD_LIBRARY_PATH=$out "$out/plain"
    $each -c -I "$out/other" "$out/plain.c" -o "$out/other.o"
    ! "$compiler" "$out/other.o" "$library" -o "$out/plain" 2> "$out/said" || fail "a program of another version links"
    grep -q "net_base_0_ring_init" "$out/said"
    "$compiler" "$out/other.o" "$out/other/libnet_base.so" -o "$out/plain"
    ! LD_LIBRARY_PATH=$out "$out/plain" 2> "$out/said" || fail "a program of another version runs"
    grep -q "net_base_0_ring_init" "$out/said"
done

at="CMake"
# The lines of docs/C.md, and over what they install another project.
if command -v cmake > /dev/null; then
    mkdir "$out/user" "$out/found"
    cp "$out/plain.c" "$out/user/my.c"
    ln -s "$here/.." "$out/user/net-base"
    printf 'cmake_minimum_required(VERSION 3.16)\nproject(user C)\n' > "$out/user/CMakeLists.txt"
    grep -E '^    (add_|target_)' "$here/../docs/C.md" >> "$out/user/CMakeLists.txt"
    sed 's/add_subdirectory.*/find_package(net_base REQUIRED)/; s|my\.c|../user/my.c|' "$out/user/CMakeLists.txt" \
        > "$out/found/CMakeLists.txt"
    for each in user found; do
        { cmake -S "$out/$each" -B "$out/$each/built" "-DCMAKE_INSTALL_PREFIX=$out/installed" \
            "-DCMAKE_PREFIX_PATH=$out/installed" && cmake --build "$out/$each/built" && "$out/$each/built/my" &&
            { [ $each = found ] || cmake --install "$out/user/built"; }; } > "$out/said" 2>&1 ||
            { cat "$out/said"; exit 1; }
    done
    # What it is told. A compiler for another processor isn't enough, a library that is there is, without cargo; and one
    # that tests duties wants the program's function.
    cmake -S "$out/user" -B "$out/user/cross" -DCMAKE_SYSTEM_NAME=Generic -DCMAKE_SYSTEM_PROCESSOR=cortex-m4 \
        -DCMAKE_TRY_COMPILE_TARGET_TYPE=STATIC_LIBRARY > "$out/said" 2>&1 && fail "CMake takes no target"
    grep -q "for another processor, cortex-m4" "$out/said"
    cmake -S "$out/user" -B "$out/user/there" "-DNET_BASE_LIBRARY=$library" "-DCMAKE_INSTALL_PREFIX=$out/there" \
        > "$out/said" && cmake --build "$out/user/there" --target install >> "$out/said" && "$out/user/there/my" &&
        cmp "$library" "$out/there/lib/libnet_base.a" && ! ls "$out/user/there/net-base/c/cargo" 2> "$out/errors" ||
        { cat "$out/said"; fail "NET_BASE_LIBRARY"; }
    cmake -S "$out/user" -B "$out/user/check" -DNET_BASE_CHECK=ON > "$out/said" &&
        ! cmake --build "$out/user/check" >> "$out/said" 2>&1 && grep -q "net_base_broken" "$out/said" ||
        { cat "$out/said"; fail "NET_BASE_CHECK"; }
else
    lacks CMake "CMakeLists.txt isn't"
fi

at="Meson"
if command -v meson > /dev/null && command -v ninja > /dev/null; then
    mkdir -p "$out/mesons/subprojects"
    cp "$out/plain.c" "$out/mesons/my.c"
    ln -s "$here/.." "$out/mesons/subprojects/net-base"
    { echo "project('my', 'c')" && sed -n "s/^#     \(net_base = dependency\|executable(\)/\1/p" "$here/../meson.build"; } \
        > "$out/mesons/meson.build"
    { meson setup "$out/mesons/built" "$out/mesons" && ninja -C "$out/mesons/built"; } > "$out/said" 2>&1 ||
        { cat "$out/said"; exit 1; }
    "$out/mesons/built/my"
else
    lacks "Meson or ninja" "meson.build isn't"
fi

at="rustc alone"
mkdir -p "$out/rustc/c" "$out/rustc/rust/net-tcp"
cp -R "$here/src" "$out/rustc/c"
cp -R "$here/../rust/src" "$out/rustc/rust"
cp -R "$here/../rust/net-tcp/src" "$out/rustc/rust/net-tcp"
sed -n 's/^#     \(rustc .*\)/\1/p' "$here/../meson.build" > "$out/rustc/lines"
(cd "$out/rustc" && sh -e lines)
"$compiler" -I "$here" "$here/programs/guide.c" "$out/rustc/c/target/libnet_base.a" -o "$out/program"
[ "$("$out/program")" = "$guided" ]

at="edges.c"
# Also by the calls of net_bound.h, and over a library with debug assertions, which tell of a pointer to nothing that is
# used.
(cd "$here" && CARGO_TARGET_DIR="$target" cargo build --offline --locked --quiet)
for each in "$library" "$target/debug/libnet_base.a"; do
    for through in "" "-include $out/through.h"; do
        "$compiler" $flags -D_DEFAULT_SOURCE $through -I "$here" "$here/edges.c" "$each" -o "$out/edges"
        "$out/edges"
    done
done

at="bare.c"
"$compiler" $flags -ffreestanding -fno-stack-protector -fno-builtin -nostdlib -static \
    -Wl,--gc-sections "$here/bare.c" "$library" -o "$out/bare"
"$out/bare"

at="hosted.c"
"$compiler" $flags "$here/hosted.c" "$library" -o "$out/hosted"
"$out/hosted" > "$out/printed"
diff "$here/hosted.stdout" "$out/printed" || fail "hosted.c prints something else"
echo "hosted: as in hosted.stdout"

at="tools/exports.txt"
# Each check of the program is made once, and what is wrong is told of: with an argument its last check doesn't hold.
made=$("$compiler" $flags -E -I "$here" "$out/exports.c" | grep -c 'check((')
for through in "" "-include $out/through.h"; do
    "$compiler" $flags -O1 $sanitizers $through -I "$here" "$out/exports.c" "$library" -o "$out/exports"
    "$out/exports" > "$out/printed" || { cat "$out/printed"; fail "a value of tools/exports.txt, $through"; }
    cat "$out/printed"
    [ "$(cat "$out/printed")" = "exports: $made checks passed" ] || fail "$made checks aren't made"
    "$out/exports" wrong > "$out/said" && fail "exports.c tells of nothing"
    grep -q "count < 2 is false" "$out/said"
done

at="the sequence"
"$compiler" $flags -O1 $sanitizers -I "$here" "$out/sequence.c" "$library" -o "$out/sequence"
"$out/sequence" > "$out/printed" || { cat "$out/printed"; exit 1; }
cat "$out/printed"
bits="$(getconf LONG_BIT) bits" digest=$(sed 's/.* //' "$out/printed")
[ "${1:-}" != --record ] || sed -i "s/^$bits .*/$bits $digest/" "$here/sequence.txt"
grep -qE "bits $digest$" "$here/sequence.txt" ||
    fail "c/sequence.txt has another digest: run with --record if exports or structs are meant to differ"
