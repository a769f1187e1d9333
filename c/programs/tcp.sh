#!/bin/sh
# Runs tcp.c, an echo server over a TUN device in a network namespace, against Linux's TCP, where 0, 1 and 5 of 100
# packets are lost; and then as the one who connects, where 0 and 3 are: sh c/programs/tcp.sh [BYTES]
#
# Status 1 if other bytes come back or a connection doesn't end in time, and 2 if the machine has no TUN device, lends no
# namespace, or lacks a command. TERM ends all of it.
set -eu
here=$(cd "$(dirname "$0")" && pwd)
name=tcp
. "$here/../../rust/net-tcp/examples/endpoint/namespace.sh"

# Linux's end: it sends and reads at once, for a minute at most, and compares. It starts the server and waits for it.
client='
import random, signal, socket, subprocess, sys, threading, time

program, lost, size = sys.argv[1], sys.argv[2], int(sys.argv[3])
what = f"echo of {size} bytes, {lost} of 100 lost:"
sent, came = random.Random(1).randbytes(size), bytearray()

def write(end):
    end.sendall(sent)
    end.shutdown(socket.SHUT_WR)

signal.signal(signal.SIGTERM, lambda *_: sys.exit(143))
signal.signal(signal.SIGALRM, lambda *_: sys.exit(f"{what} {len(came)} came in a minute"))
signal.alarm(60)
server = subprocess.Popen([program, "tun0", "1", lost], stdout=subprocess.PIPE)
try:
    server.stdout.readline()
    begun = time.monotonic()
    with socket.create_connection(("10.77.0.2", 7)) as end:
        threading.Thread(target=write, args=[end], daemon=True).start()
        while part := end.recv(65536):
            came += part
    same = "same" if came == sent else "other bytes"
    print(f"{what} {same}, {time.monotonic() - begun:.2f} s", flush=True)
    sys.exit(server.wait() or came != sent)
finally:
    server.kill()
'

# The other way: Linux's end is the echo server, and the program compares. If any packet is lost its SYN is, the first
# one, and comes again after a second, which isn't counted.
server='
import signal, socket, subprocess, sys, time

program, lost = sys.argv[1:]
echoed = 0
signal.signal(signal.SIGTERM, lambda *_: sys.exit(143))
signal.signal(signal.SIGALRM, lambda *_: sys.exit(f"connect, {lost} of 100 lost: {echoed} bytes came in a minute"))
signal.alarm(60)
listener = socket.create_server(("10.77.0.1", 7))
client = subprocess.Popen([program, "tun0", "connect", lost], stdout=subprocess.DEVNULL)
try:
    with listener.accept()[0] as end:
        begun = time.monotonic()
        while part := end.recv(65536):
            end.sendall(part)
            echoed += len(part)
    seconds = time.monotonic() - begun
    status = client.wait()
    same = "same" if status == 0 else "other bytes"
    print(f"connected, {echoed} bytes echoed, {lost} of 100 lost: {same}, {seconds:.2f} s", flush=True)
    sys.exit(status)
finally:
    client.kill()
'

# In the namespace: one run, of PROGRAM LOST BYTES, or of PROGRAM LOST.
if [ "${1-}" = --inside ]; then
    shift
    ip tuntap add dev tun0 mode tun
    ip address add 10.77.0.1/24 dev tun0
    ip link set tun0 up
    if [ $# = 3 ]; then guarded python3 -c "$client" "$@"; else guarded python3 -c "$server" "$@"; fi
    exit
fi

for program in cargo "${CC:-cc}" python3; do
    command -v "$program" > /dev/null || not_run "no $program here"
done
find_space

target=${CARGO_TARGET_DIR:-$out/target}/c
guarded cargo build --manifest-path "$here/../Cargo.toml" --target-dir "$target" --release --offline --locked --quiet
"${CC:-cc}" -std=c11 -O2 -Wall -Wextra -Wpedantic -Wconversion -Werror -I "$here/.." "$here/tcp.c" \
    "$target/release/libnet_base.a" -o "$out/tcp"
for lost in 0 1 5; do
    guarded $space sh "$here/tcp.sh" --inside "$out/tcp" "$lost" "${1-4194304}"
done
for lost in 0 3; do
    guarded $space sh "$here/tcp.sh" --inside "$out/tcp" "$lost"
done
