#!/bin/sh
# Builds quinn-proto 0.11.9, as Debian 13 has it, twice: as it is, and with types over net-base's `StreamRanges` and
# `SendRanges` in the place of its `Assembler` and `SendBuffer` (assembler.rs and send_buffer.rs beside this):
#
#     sh compare/quinn/run.sh --sample   quinn's tests, and transfers over a path that loses, which must be equal
#     sh compare/quinn/run.sh --runs     the transfers, where a sender remembers few ranges: a table
#     sh compare/quinn/run.sh --speed    the two types of both by themselves, and rings: tables of times, of instructions
#                                        by callgrind, and of memory, in some minutes
#
# quinn's sources and what they depend on are downloaded from Debian, and not installed. They stay in $CARGO_TARGET_DIR,
# if that is set. All else is in a folder that goes when it ends. Status 1 if something fails, and 2 if they can't be
# had. TERM ends all of it.
set -eu
here=$(cd "$(dirname "$0")" && pwd)
name=quinn
. "$here/../../rust/net-tcp/examples/endpoint/namespace.sh"
. "$here/../debian.sh"

case "${1-}" in
    --sample | --runs | --speed) call=${1#--} ;;
    *) echo "usage: sh run.sh --sample|--runs|--speed" >&2; exit 1 ;;
esac

crates librust-quinn-proto-dev librust-assert-matches-dev librust-hex-literal-dev librust-lazy-static-dev \
    librust-rcgen-dev librust-tracing-subscriber-dev

# Changes a file by a command of sed, or ends all if the file lacks what that looks for.
change() {
    sed "$2" "$1" > "$out/changed"
    ! cmp -s "$1" "$out/changed" || { echo "quinn: $1 isn't as expected: sed '$2' changes nothing" >&2; exit 1; }
    cp "$out/changed" "$1"
}

# Makes a package of quinn's sources, with the transfers among its tests. Debian hasn't what tests it in browsers.
copy() {
    cp -r "$registry/quinn-proto-0.11.9" "$out/$1"
    cp "$here/lossy.rs" "$out/$1/src/tests"
    echo 'mod lossy;' >> "$out/$1/src/tests/mod.rs"
    change "$out/$1/Cargo.toml" "s/^name = \"quinn.proto\"/name = \"$1\"/; /wasm-bindgen-test/,/^\$/d"
}

# Puts a type over net-base in the place of quinn's, with quinn's tests of it. These look at fields, which are calls
# here.
replace() {
    file=$out/ported/src/connection/$1.rs
    { cat "$here/$1.rs"; sed -n '/^#\[cfg(test)\]/,$p' "$out/original/src/connection/$1.rs"; } > "$file"
}

# These want a frame's bytes in one chunk where other frames have some of them. Each byte is stored once here, as it
# first came.
parted="assemble_complex assemble_contains chunks_dedup defrag_read_chunk"

# Puts before each of these a copy, which reads all chunks as one.
join() {
    for test in $parted; do
        { sed "/fn $test()/,\$d" "$1"
            sed -n "/fn $test()/,/^ \{0,4\}}\$/p" "$1" | sed "s/fn $test/&_joined/; s/x\.read(usize::MAX, true)/x.read_joined()/
                s/next(&mut x, 32)/x.read_joined().map(|it| it.bytes)/; s/\"abcd\")))/\"abcdefghi\")))/; s/Some(Chunk::new(4.*/None/"
            echo '#[test]'; sed -n "/fn $test()/,\$p" "$1"; } > "$out/changed"
        cp "$out/changed" "$1"
    done
}

# Makes the package over net-base. Where more ranges would wait than may, the connection is closed.
port() {
    copy ported
    printf '\n[dependencies.net-base]\npath = "%s"\n' "$here/../../rust" >> "$out/ported/Cargo.toml"
    change "$out/ported/src/connection/streams/recv.rs" \
        's/\(assembler.insert(.*)\);/\1.map_err(|_| TransportError::INTERNAL_ERROR("too many ranges"))?;/'
    change "$out/ported/src/connection/mod.rs" \
        's/\(\.insert(crypto\.offset.*)\);/\1.map_err(|_| TransportError::CRYPTO_BUFFER_EXCEEDED("too many ranges"))?;/'
    replace assembler
    change "$file" 's/x\.data\.peek()/x.data().front()/'
    change "$file" 's/x\.data\.len()/x.data().len()/'
    change "$file" 's/Buffer::new(\(.*\), 2)/Chunk::new(\1)/'
    join "$file"
    replace send_buffer
    change "$file" 's/buf\.acks\./buf.acks()./'
    change "$file" 's/buf\.unacked_segments\./buf.unacked_segments()./'
}

# Makes a package of what times the types of both.
pair() {
    mkdir -p "$out/speed/src/quinn" "$out/speed/src/ported"
    printf '[package]\nname = "speed"\nedition = "2021"\n[dependencies]\nbytes = "1"\nnet-base.path = "%s"\n' \
        "$here/../../rust" > "$out/speed/Cargo.toml"
    cp "$here/speed.rs" "$out/speed/src/main.rs"
    cp "$here/rings.rs" "$out/speed/src"
    cp "$out/original/src/range_set/btree_range_set.rs" "$out/speed/src/range_set.rs"
    for file in assembler.rs send_buffer.rs; do
        cp "$out/original/src/connection/$file" "$out/speed/src/quinn"
        change "$out/speed/src/quinn/$file" 's/pub(super)/pub(crate)/'
        cp "$here/$file" "$out/speed/src/ported"
    done
}

# Makes a workspace of all.
prepare() {
    mkdir -p "$out/.cargo"
    printf '[source.crates-io]\nreplace-with = "debian"\n[source.debian]\ndirectory = "%s"\n' "$registry" \
        > "$out/.cargo/config.toml"
    printf '[workspace]\nresolver = "2"\nmembers = ["original", "ported", "speed"]\n' > "$out/Cargo.toml"
    copy original
    port
    pair
}

# Builds the tests of both. Sets $original and $ported, the programs.
build() {
    guarded cargo test --offline --no-run --lib --package original --package ported > built 2>&1 || fail built
    original=$(sed -n 's/.*Executable.*(\(.*\/original-.*\))/\1/p' built)
    ported=$(sed -n 's/.*Executable.*(\(.*\/ported-.*\))/\1/p' built)
}

fail() {
    tail -n 40 "$1" >&2
    exit 1
}

# Writes which of quinn's tests pass into a file. Each has a process, since one that fails may abort. quinn skips packet
# numbers at random: as it is, key_update_reordered fails in one run of 500. So a test that fails once may pass ten times.
run_tests() {
    for test in $("$1" --list | sed -n 's/: test$//p' | grep -v ::lossy::); do
        if run_test "$1" "$test" 1 || run_test "$1" "$test" 10; then how=passed; else how=failed; fi
        echo "$how ${test##*::}"
    done > "$2"
}

# Runs one test so many times, as long as it passes.
run_test() {
    for run in $(seq "$3"); do guarded timeout 60 "$1" --exact "$2" > test 2>&1 || return 1; done
}

# Writes what the transfers took into a file.
run_transfers() {
    guarded "$1" ::lossy:: --nocapture > transfers 2>&1 || fail transfers
    sed -n 's/.*lossy|//p' transfers | sort > "$2"
}

# Prints how many of a file's tests pass.
passed() {
    echo "$(grep -c ^passed "tests.$1") of $(grep -c '' "tests.$1")"
}

sample() {
    build
    guarded cargo build --offline --package speed > built 2>&1 || fail built
    run_tests "$original" tests.original
    run_tests "$ported" tests.all
    grep -v _joined tests.all > tests.ported
    grep _joined tests.all > tests.joined
    echo "| quinn's tests | quinn as it is | over net-base |"
    echo '|---|---:|---:|'
    echo "| pass | $(passed original) | $(passed ported) |"
    echo "| the four that fail, where they compare joined bytes | | $(passed joined) |"
    run_transfers "$original" transfers.original
    run_transfers "$ported" transfers.ported
    echo
    echo '| Transfer, with three seeds | ms | Packets | Lost | Over net-base |'
    echo '|---|---:|---:|---:|---:|'
    paste -d '|' transfers.original transfers.ported | awk -F '|' '
        function row() {
            same = ms packets lost == their_ms their_packets their_lost ? "equal" : ms ", " packets ", " lost
            if (name) printf "| %s | %s | %s | %s | %s |\n", name, their_ms, their_packets, their_lost, same
            ms = packets = lost = their_ms = their_packets = their_lost = ""
        }
        $1 != name { row(); name = $1; and = "" }
        {
            their_ms = their_ms and $3; their_packets = their_packets and $4; their_lost = their_lost and $5
            ms = ms and $8; packets = packets and $9; lost = lost and $10; and = "; "
        }
        END { row() }'
    failed=$(sed -n 's/^failed //p' tests.ported | sort)
    [ "$failed" = "$(printf '%s\n' $parted)" ] || { echo "quinn: not those four fail, but" $failed >&2; exit 1; }
    ! grep -h ^failed tests.original tests.joined >&2 || exit 1
    cmp -s transfers.original transfers.ported || { echo 'quinn: a transfer differs' >&2; exit 1; }
    echo
    print_runs
    run_with 1
}

# Prints a row of what the transfers take where a sender has so many runs, beside what quinn's took. Ends all if it is too
# much. quinn acknowledges no byte twice, and counts a range's bytes when it does. With few runs net-base has it send more
# than what is lost. So here bytes are counted once, and a stream of which something is to be sent again is pending.
run_with() {
    if ! grep -q was_pending ported/src/connection/streams/state.rs; then
        change ported/src/connection/streams/state.rs 's/self\.unacked_data -= frame\..*/\
            let was_pending = stream.is_pending();\
            self.unacked_data -= stream.pending.ack(frame.offsets.clone());\
            if !was_pending \&\& stream.is_pending() {\
                self.pending.push_pending(id, stream.priority);\
            }/'
    fi
    change ported/src/connection/send_buffer.rs "s/^const MOST_RUNS: usize = .*/const MOST_RUNS: usize = $1;/"
    build
    run_transfers "$ported" transfers.ported
    paste -d '|' transfers.original transfers.ported | awk -F '|' -v count="$1" '
        { equal += $3 == $8 && $4 == $9; their_ms += $3; ms += $8; their_packets += $4; packets += $9 }
        END {
            printf "| %d | %d of %d | %.3f | %.3f |\n", count, equal, NR, packets / their_packets, ms / their_ms
            exit packets > 1.2 * their_packets || ms > 1.2 * their_ms
        }' || { echo 'quinn: more than 1.2 of the packets or of the time' >&2; exit 1; }
}

runs() {
    build
    run_transfers "$original" transfers.original
    print_runs
    for count in 1 4 16 64 256; do run_with "$count"; done
}

print_runs() {
    echo '| Runs | Equal transfers | Packets | Time |'
    echo '|---:|---:|---:|---:|'
}

# Counts the instructions of each run by itself. Callgrind numbers what it writes after each.
count_instructions() {
    guarded valgrind --tool=callgrind --callgrind-out-file=counts --zero-before=counted --dump-after=counted \
        "$CARGO_TARGET_DIR/release/speed" count > counted 2> valgrind.said || fail valgrind.said
    ls counts.* | sort -t . -k 2n | xargs sed -n 's/^totals: //p' | paste -d '|' - - - | paste -d '|' counted -
}

speed() {
    want /usr/bin/valgrind valgrind
    guarded cargo build --offline --release --package speed > built 2>&1 || fail built
    echo '| | quinn, ns a frame | over net-base | ratio | ring | ratio |'
    echo '|---|---:|---:|---:|---:|---:|'
    guarded "$CARGO_TARGET_DIR/release/speed" | awk -F '|' '{
        printf "| %s | %.0f | %.0f | %.*f | %.0f | %.*f |\n",
            $1, $2, $3, $5 < .1 ? 4 : 2, $5, $4, $6 < .1 ? 4 : 2, $6 }'
    echo
    echo '| | quinn, instructions a frame | over net-base | ratio | ring | ratio |'
    echo '|---|---:|---:|---:|---:|---:|'
    count_instructions | awk -F '|' '{
        printf "| %s | %.0f | %.0f | %.*f | %.0f | %.*f |\n", $1, $3 / $2, $4 / $2, $4 < .1 * $3 ? 4 : 2, $4 / $3,
            $5 / $2, $5 < .1 * $3 ? 4 : 2, $5 / $3 }'
    echo
    echo '| Bytes | quinn | over net-base | ring |'
    echo '|---|---:|---:|---:|'
    guarded "$CARGO_TARGET_DIR/release/speed" memory | sed 's/|/ | /g; s/^/| /; s/$/ |/'
}

export CARGO_TARGET_DIR="$out/target" CARGO_PROFILE_DEV_DEBUG=0
cd "$out"
prepare
$call
