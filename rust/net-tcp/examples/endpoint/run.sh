#!/bin/sh
# Runs the endpoint against the kernel's TCP, in a network namespace with nothing but a TUN device.
#
#     sh run.sh [BYTES]            each way at 0, 1 and 3 % loss, with 4 and 32 held runs; 64 MiB
#     sh run.sh --runs [BYTES]     how many held runs a receiver needs, by its capacity and the path
#
# Files are compared by SHA-256. Status 1 if one differs or a run doesn't end in time, and 2 if the
# machine has no TUN device, lends no namespace, or has no command `ip`. TERM ends all of it.
set -eu
here=$(cd "$(dirname "$0")" && pwd)
crate=$here/../..
endpoint=${CARGO_TARGET_DIR:-$crate/../target}/release/examples/endpoint
name=endpoint
. "$here/namespace.sh"

# In the namespace: one run. What the program prints, then the segments that the kernel sent again.
if [ "${1-}" = --inside ]; then
    shift
    ip link set lo up
    ip tuntap add dev tun0 mode tun
    ip address add 10.77.0.1/24 dev tun0
    ip link set tun0 up
    guarded "$endpoint" "$@"
    awk '/^Tcp:/ { for (i = 1; i <= NF; i++) if ($i == "RetransSegs") at = i; again = $at }
        END { print again }' /proc/net/snmp
    exit
fi

usage="usage: sh run.sh [BYTES] | --runs [BYTES]"
case "$#,${1-}" in
    1,--help) echo "$usage"; exit ;;
    1,--runs | 2,--runs) call=runs given=${2-33554432} ;;
    0,* | 1,*) call=table given=${1-67108864} ;;
    *) call=table given= ;;
esac
case "$call $given" in
    *' ' | *' '*[!0-9]* | *' '???????????*) echo "$usage" >&2; exit 1 ;;
esac

find_space

export CARGO_PROFILE_RELEASE_OVERFLOW_CHECKS=true
cd "$crate"
guarded cargo build --offline --quiet --release --example endpoint
cd - > /dev/null

# One run, compared: DIRECTION and the settings. Its counts are then in $counts.
run() {
    direction=$1
    shift
    guarded $space sh "$here/run.sh" --inside "$direction" "$out/source" "$out/target" "$@" > "$out/counts" || {
        echo "endpoint: $direction $*: $(cat "$out/counts")" >&2
        exit 1
    }
    counts=$(tr '\n' ' ' < "$out/counts")
    sum=$(sha256sum < "$out/source")
    [ "$sum" = "$(sha256sum < "$out/target")" ] || {
        echo "endpoint: $direction $*: another SHA-256" >&2
        exit 1
    }
    rm "$out/target"
}

# The source: BYTES random bytes.
make_source() {
    head -c "$1" /dev/urandom > "$out/source"
}

# A run may take 2 s, and 1 s for each 4 MiB: a loss that is found by a timeout alone costs 0.2 s.
table() {
    make_source "$1"
    echo "The kernel's congestion control: $(cat /proc/sys/net/ipv4/tcp_congestion_control)"
    echo "Where packets are lost, 1 of 100 is doubled, and 3 are delayed by up to 2 ms, many round trips:" \
        "they look lost, and are sent again."
    echo "| The kernel | N | Lost of 100 | Seconds | MB/s | Segments | Lost | Refused | Sent again | SHA-256 |"
    echo "|---|---:|---:|---:|---:|---:|---:|---:|---:|---|"
    for way in in out; do
        for n in 4 32; do
            for lost in 0 1 3; do
                others=$((lost > 0))
                run $way runs=$n lost=${lost}00 doubled=${others}00 delayed=$((others * 300)) \
                    seed=$((lost + 1)) seconds=$((20 + $1 / 4194304))
                echo "$way $n $lost $counts ${sum%% *}" | awk '{
                    printf "| %s | %s | %s | %s | %s | %s | %s | %s | %s | %.16s.. |\n",
                        $1 == "in" ? "sends" : "receives", $2, $3, $4, $5, $6, $7, $8,
                        $1 == "in" ? $(NF - 1) : $10, $NF }'
            done
        done
    done
}

# Five runs: the middle and the longest time, and the share of segments that were refused. The
# counts stay in a file.
five() {
    : > "$out/five"
    for seed in 1 2 3 4 5; do
        run in "$@" seed=$seed
        echo "$counts" >> "$out/five"
    done
    sort -n "$out/five" | awk '{ time[NR] = $1; came += $3; refused += $5 }
        END { printf " %.1f (%.1f) s, %.1f %% |", time[3], time[5], came ? 100 * refused / came : 0 }'
}

runs() {
    make_source "$1"
    echo "Each cell: the middle and the longest of five times, and how many segments were refused."
    echo "The kernel's congestion control: $(cat /proc/sys/net/ipv4/tcp_congestion_control)"
    echo "| Capacity | Lost | Delayed | N = 4 | N = 8 | N = 16 | N = 32 | Most held |"
    echo "|---:|---:|---:|---:|---:|---:|---:|---:|"
    for capacity in 65536 262144 1048576; do
        for delayed in 0 3 5; do
            printf '| %d KiB | 1 %% | %d %% |' $((capacity / 1024)) $delayed
            for n in 4 8 16 32; do
                five lost=100 doubled=100 delayed=${delayed}00 capacity=$capacity runs=$n
            done
            awk '$6 > most { most = $6 } END { print " " most + 0 " |" }' "$out/five"
        done
    done
}

$call "$given"
