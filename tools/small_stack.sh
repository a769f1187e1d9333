#!/bin/sh
# Runs the program and the tests with little stack: sh tools/small_stack.sh
#
# It runs net_bench, as `rt ci` or `rt run` built it, on the words and the input that are stored beside its sources,
# under `ulimit -s 256`. A program that takes more stack than that many KiB is ended by a signal. What it writes must be
# what is stored. Then it runs each test of the crates of tests, as `rt ci` or `rt test` built them.
set -eu

root=$(cd "$(dirname "$0")/.." && pwd)
kib=256
out=$(mktemp -d)
trap 'rm -rf "$out"' EXIT

fail() {
    echo "small_stack.sh: $*" >&2
    exit 1
}

crate=$root/crates/net_bench
program=$crate/out/net_bench
[ -x "$program" ] || fail "there is no $program: rt ci, or rt run in crates/net_bench"
status=0
(
    ulimit -c 0
    ulimit -s "$kib"
    # One word a line, and none has a space.
    exec "$program" $(cat "$crate/args")
) < "$crate/stdin" > "$out/net_bench" 2> "$out/errors" || status=$?
[ "$status" = 0 ] || fail "net_bench ended with status $status with $kib KiB of stack"
cmp "$crate/stdout" "$out/net_bench" || fail "net_bench writes something else with $kib KiB of stack"

count=0
for tests in "$root"/crates/*_tests/out/*_tests_tests; do
    [ -x "$tests" ] || fail "there is no $tests: rt ci, or rt test in each crate of tests"
    for name in $("$tests" --list | sed -n 's/: test$//p'); do
        (
            ulimit -c 0
            ulimit -s "$kib"
            cd "$out"
            exec "$tests" "$name"
        ) > "$out/said" 2>&1 || fail "$name of $(basename "$tests") failed with $kib KiB of stack"
        count=$((count + 1))
    done
done
echo "small stack: 1 program, $count tests, $kib KiB"
