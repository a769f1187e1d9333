# What scripts share that run the endpoint in a network namespace with a TUN device; they source it, and set `name`.
# $out is a folder that goes when the script ends, as do commands that it runs by `guarded`. TERM ends all of it.
child= out=$(mktemp -d)

leave() {
    [ -z "$child" ] || { kill "$child"; wait "$child" || :; } 2> /dev/null
    rm -rf "$out"
}
trap leave EXIT
trap 'exit 143' TERM INT HUP

# Runs a command that doesn't outlive this one. Returns its status.
guarded() {
    "$@" &
    child=$! status=0
    wait "$child" || status=$?
    child=
    return $status
}

not_run() {
    echo "$name: not run: $1"
    exit 2
}

# Sets $space, what begins a command in a namespace of its own.
find_space() {
    command -v ip > /dev/null || not_run "no command ip here: apt-get install -y iproute2"
    space="unshare --net"
    $space true 2> /dev/null || space="unshare --map-root-user --net"
    $space true 2> /dev/null || not_run "no right to make a network namespace here"
    $space ip tuntap add dev tun0 mode tun 2> /dev/null || not_run "no TUN device here, or no right to make one"
}
