#!/bin/sh
# Joins the endpoint of rust/net-tcp/examples, by a path that loses, doubles, delays, stops, cuts and forges IP packets, with
# itself, with lwIP, which reports no blocks as Debian builds it, and does from its sources, with gVisor's netstack, and
# with Linux:
#
#     sh compare/peers/run.sh --sample [WORD [SEED]]   short cases, each with bounds
#     sh compare/peers/run.sh --matrix [WORD]          each pair on each path, nine seeds in turn: a table, in half an hour
#     sh compare/peers/run.sh --goodput [WORD]         MB/s to Linux, beside Linux with Reno and with CUBIC: a table
#     sh compare/peers/run.sh --runs [WORD]            what receivers refuse with a queue that overflows: a table
#     sh compare/peers/run.sh --code                   the bytes of lwIP's TCP on a Cortex-M4
#
# With a word only the cases or rows that have it are run. All packets stay in network namespaces that it makes. The
# first two want lwIP and netstack, which are Debian's; it installs them if it can. Status 1 if a case fails, and 2 if
# the machine has none of these, or no TUN device, or lends no namespace. TERM ends all of it.
set -eu
here=$(cd "$(dirname "$0")" && pwd)
name=peers
. "$here/../../rust/net-tcp/examples/endpoint/namespace.sh"
. "$here/../debian.sh"

case "${1-}" in
    --sample | --matrix | --goodput | --runs | --code) call=${1#--} ;;
    *) echo "usage: sh run.sh --sample|--matrix|--goodput|--runs|--code [WORD [SEED]]" >&2; exit 1 ;;
esac
shift

unpack_lwip() {
    want /usr/include/lwip/lwipopts.h liblwip-dev
    unpack "lwip=$(dpkg-query -W -f '${source:Version}' liblwip-dev)" "$out/lwip.sources"
}

# Prints what lwIP's TCP takes on a Cortex-M4, without assertions: code, and the structs of a connection and of a segment
# that is queued.
print_code() {
    want /usr/bin/arm-none-eabi-gcc gcc-arm-none-eabi libnewlib-arm-none-eabi
    unpack_lwip
    cd "$out"
    mkdir arch
    : > arch/cc.h
    printf '#define %s\n' 'NO_SYS 1' 'SYS_LIGHTWEIGHT_PROT 0' 'LWIP_SOCKET 0' 'LWIP_NETCONN 0' LWIP_NOASSERT \
        'LWIP_TCP_SACK_OUT 1' > lwipopts.h
    printf '#include "lwip/priv/tcp_priv.h"\nchar %s[sizeof(struct %s)];\nchar %s[sizeof(struct %s)];\n' \
        connection tcp_pcb segment tcp_seg > structs.c
    guarded arm-none-eabi-gcc -mcpu=cortex-m4 -mthumb -Os -w -I . -I lwip.sources/src/include -c structs.c \
        lwip.sources/src/core/tcp.c lwip.sources/src/core/tcp_in.c lwip.sources/src/core/tcp_out.c
    code=$(arm-none-eabi-size tcp.o tcp_in.o tcp_out.o | awk '{ sum += $1 } END { print sum }')
    of() { echo $((0x$(arm-none-eabi-nm -S structs.o | awk -v name="$1" '$4 == name { print $2 }'))); }
    echo "lwIP's TCP: $code bytes of code, $(of connection) for a connection, $(of segment) for a segment"
}

# lwIP as Debian builds it reports no blocks; its sources do if they are told to.
build_programs() {
    unpack_lwip
    want /usr/share/gocode/src/gvisor.dev golang-go golang-gvisor-gvisor-dev
    build="guarded cc -O2 -isystem /usr/include/lwip"
    $build -Wall -Wextra -Werror -o "$out/lwip" "$here/lwip.c" -llwip
    $build -w -DLWIP_TCP_SACK_OUT=1 -o "$out/lwip_sack" "$here/lwip.c" \
        "$out"/lwip.sources/src/core/*.c "$out"/lwip.sources/src/core/ipv[46]/*.c -llwip
    GO111MODULE=off GOPATH=/usr/share/gocode GOCACHE=$out/go guarded go build -o "$out/netstack" "$here/netstack.go"
}
case $call in
    code) print_code; exit ;;
    sample | matrix) build_programs ;;
esac
find_space

export CARGO_PROFILE_RELEASE_OVERFLOW_CHECKS=true CARGO_PROFILE_RELEASE_LTO=false
cd "$here/.."
guarded cargo build --offline --quiet --release --package peers
PEERS_PROGRAMS=$out guarded $space "${CARGO_TARGET_DIR:-$here/../target}/release/peers" "$call" "$@"
