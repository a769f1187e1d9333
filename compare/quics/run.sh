#!/bin/sh
# Runs tests of other QUICs, as Debian 12 has them, as they are and over net-base's `StreamRanges`:
#
#     sh compare/quics/run.sh --ngtcp2    ngtcp2 0.12.1, in C: all its tests, over rob.c and gaptr.c beside this. They say
#                                         what is new of frames, packet numbers, streams and acknowledged bytes
#     sh compare/quics/run.sh --quic-go   quic-go 0.29.0: the tests of its frame sorter, over frame_sorter.go
#
# All that it builds is in a folder that goes when it ends. Status 1 if another test fails than those that must, and 2 if
# the machine has no such package. TERM ends all of it.
set -eu
here=$(cd "$(dirname "$0")" && pwd)
name=quics
. "$here/../../rust/net-tcp/examples/endpoint/namespace.sh"
. "$here/../debian.sh"

fail() {
    tail -n 40 "$1" >&2
    exit 1
}

# Builds net-base as a library for C.
build_ranges() {
    mkdir -p "$out/ranges/src"
    cp "$here/ranges.rs" "$out/ranges/src/lib.rs"
    printf '[package]\nname = "ranges"\nedition = "2021"\n[lib]\ncrate-type = ["staticlib"]\n[workspace]\n[dependencies]\n' \
        > "$out/ranges/Cargo.toml"
    echo "net-base.path = \"$here/../../rust\"" >> "$out/ranges/Cargo.toml"
    CARGO_TARGET_DIR=$out/target guarded cargo build --offline --quiet --manifest-path "$out/ranges/Cargo.toml" > built \
        2>&1 || fail built
}

# Prints how many tests pass as they are, and over net-base.
print_table() {
    echo '| | as it is | over net-base |'
    echo '|---|---:|---:|'
}

# Links ngtcp2's tests with these files, and runs them. Prints how many pass.
run_ngtcp2() {
    guarded cc -o run objects/*.o "$@" -lcunit > built 2>&1 || fail built
    guarded timeout 300 ./run > tests.said 2>&1 || :
    sed -n 's/^ *Test: \([^ ]*\) \.\.\.FAILED.*/\1/p' tests.said > failed
    sed -n 's/^ *tests *\([0-9]*\) *[0-9]* *\([0-9]*\) .*/\2 of \1/p' tests.said | grep . || fail tests.said
}

# This test of ngtcp2 alone fails over net-base. It keeps the byte at 2^64 - 2, and no stream of net-base has that one,
# since an end after it would have no number beyond. QUIC's streams end below 2^62.
last_number=rob_push

ngtcp2() {
    want /usr/include/CUnit/CUnit.h libcunit1-dev
    unpack ngtcp2 "$out"
    [ -e tests/ngtcp2_rob_test.c ] && grep -q 'VERSION 0\.12\.1' CMakeLists.txt ||
        not_run "these sources of ngtcp2 aren't 0.12.1"
    build_ranges
    # All but two files are compiled once, for both.
    sed 's/@PACKAGE_VERSION_NUM@/0x000c01/; s/@PACKAGE_VERSION@/0.12.1/' lib/includes/ngtcp2/version.h.in \
        > lib/includes/ngtcp2/version.h
    for it in rob gaptr; do
        sed "s/^} ngtcp2_$it;/  void *ranges;\n&/" "lib/ngtcp2_$it.h" > header
        mv header "lib/ngtcp2_$it.h"
        mv "lib/ngtcp2_$it.c" .
    done
    compile="guarded cc -c -O1 -w -D_GNU_SOURCE -DHAVE_ARPA_INET_H -DHAVE_NETINET_IN_H -DHAVE_UNISTD_H -DHAVE_ENDIAN_H
        -DHAVE_BE64TOH -DNGTCP2_STATICLIB -DBUILDING_NGTCP2 -I$out -I$out/lib -I$out/lib/includes"
    mkdir objects
    cd objects
    $compile ../lib/*.c ../tests/*.c > ../built 2>&1 || fail ../built
    cd ..
    $compile ngtcp2_rob.c ngtcp2_gaptr.c "$here/rob.c" "$here/gaptr.c" > built 2>&1 || fail built
    as_it_is=$(run_ngtcp2 ngtcp2_rob.o ngtcp2_gaptr.o)
    [ ! -s failed ] || fail tests.said
    over=$(run_ngtcp2 rob.o gaptr.o target/debug/libranges.a)
    print_table
    echo "| ngtcp2's tests pass | $as_it_is | $over |"
    [ "$(cat failed)" = "$last_number" ] || { echo "quics: not $last_number fails, but" $(cat failed) >&2; exit 1; }
}

# Runs the tests of a frame sorter, with what a command of sed leaves of them. Prints how many pass.
run_quic_go() {
    mkdir -p "$sorter/$1"
    cp "$2" "$sorter/$1/frame_sorter.go"
    sed "$3" "$quic_go/frame_sorter_test.go" > "$sorter/$1/frame_sorter_test.go"
    echo 'package quic
        import ("testing"; "github.com/onsi/ginkgo"; "github.com/onsi/gomega")
        func TestAll(t *testing.T) { gomega.RegisterFailHandler(ginkgo.Fail); ginkgo.RunSpecs(t, "frame sorter") }' \
        > "$sorter/$1/suite_test.go"
    (cd "$sorter/$1" && GO111MODULE=off GOPATH=$out/go:/usr/share/gocode GOCACHE=$out/go.cache \
        CGO_LDFLAGS=-L$out/target/debug guarded go test . -ginkgo.noColor -v) > tests.said 2>&1 || :
    sed -n 's/.* \([0-9]*\) Passed | \([0-9]*\) Failed.*/\1 \2/p' tests.said | while read -r passed failed; do
        echo "$passed of $((passed + failed))"
    done | grep . || fail tests.said
}

# In each case of these it looks at the pieces in which frames are cut, and at when they are freed. The others look at gaps.
pieces='/Context("Gap handling"/,/Context("receiving data after reads"/{
    s/checkQueue := .*/&\n return/
    s/checkCallback[A-Za-z]*(\(t[0-9]*\))/_ = \1/
}'

quic_go() {
    quic_go=/usr/share/gocode/src/github.com/lucas-clemente/quic-go
    want "$quic_go/frame_sorter_test.go" golang-github-lucas-clemente-quic-go-dev golang-go golang-ginkgo-dev golang-gomega-dev
    build_ranges
    sorter=$out/go/src/github.com/lucas-clemente/quic-go
    mkdir -p "$sorter"
    cp -r "$quic_go/internal" "$sorter"
    as_it_is=$(run_quic_go original "$quic_go/frame_sorter.go" '')
    all=$(run_quic_go ported "$here/frame_sorter.go" '')
    gaps=$(run_quic_go gaps "$here/frame_sorter.go" "$pieces")
    print_table
    echo "| tests of quic-go's frame sorter pass | $as_it_is | $all |"
    echo "| without what looks at pieces and at when they are freed | $as_it_is | $gaps |"
    [ "$gaps" = "$as_it_is" ] || fail tests.said
}

cd "$out"
case "${1-}" in
    --ngtcp2) ngtcp2 ;;
    --quic-go) quic_go ;;
    *) echo "usage: sh run.sh --ngtcp2|--quic-go" >&2; exit 1 ;;
esac
