"""All that tools/erase.py knows by name: the modules that aren't erased, and what else Rust has in place of Rattle's
text. The texts that it replaces are in erase_texts.txt."""
from parts.mir_text import cells, tables

# The program, which is erased into an example: its library, and the module of the core that only it has. In it these
# crates are modules of the example's `rattle.rs`.
PROGRAM, SCHEDULE = ['net_bench_lib'], 'net_receiver/schedule'
BY_HAND = ['net_ring', 'net_assembler', 'net_receiver', 'arrayvec', 'hex', 'memchr']

# The crates that are erased, and the folder of rust/src that each one's modules are in; the program's is one of
# rust/examples/net_bench.
FOLDERS = {
    'net_ring': 'storage', 'net_packets': 'storage', 'net_assembler': 'storage', 'net_receiver': 'stream',
    'net_base': '', 'net_tcp': 'tcp', 'net_ends': 'ends', 'net_ffi': 'exports',
    'net_bench_lib': 'lines',
}
CRATES = [crate for crate in FOLDERS if crate not in PROGRAM]

# The packages of Rust: the folder of each one's sources, and which of the folders above it has. What is in none of
# these is net-base's. The exports for C are another crate, over the sources of all.
BASE = 'net_base'
PACKAGES = {BASE: 'rust/src', 'net_tcp': 'rust/net-tcp/src'}
PARTS = {'tcp': 'net_tcp', 'ends': 'net_tcp'}
# The folders of net-base whose names its other packages take from modules by hand: from public ones, and from
# `internal`, which has no documentation.
HIDDEN = ['storage', 'stream']
# The methods that these call of a type that users can't name.
SHARED_CALLS = {'net_receiver/scoreboard_head': [
    'new_at', 'report', 'acknowledge', 'first_unreported', 'contains', 'highest_reported', 'first_missing',
    'missing_between', 'lost_below', 'next_hole']}

# Modules that have another place there: two heads of one folder, what smoltcp has in `phy/mod.rs`, and the program's.
MOVED = {'net_ring/head': 'storage/ring_head', 'net_packets/head': 'storage/packets_head',
         'net_packets/packet_slot': 'exports/for_c/packet_slot',
         'net_base/phy': 'phy/capabilities', SCHEDULE: 'schedule'}

# The roots, in whose place are files by hand: they list modules, and their constants stand there too.
ROOTS = {f'{crate}/lib' for crate in FOLDERS} | {'net_base/checksum', 'net_base/storage', 'net_base/time'}

# The modules of them that aren't, and why.
UNERASED = {
    "Rust's take all that converts to storage, or to a number, as smoltcp's":
        ['net_ring/ring_buffer/managed', 'net_packets/packet_buffer/managed', 'net_receiver/receiver/managed',
         'net_base/storage/fragments/managed', 'net_base/time/instant/numbers'],
    "Rust's has no `N`, as smoltcp's": ['net_assembler/assembler/new'],
    "Rust's tokens borrow their device, which Rattle's can't": [f'net_base/phy/{name}'
                                                                for name in ('device', 'loopback', 'echo')],
    "in Rust it is core's": ['net_base/phy/non_zero', 'net_ring/width'],
    'only proofs want them': ['net_base/phy/frame_lists'],
    'the example `net_bench` alone has it': [SCHEDULE],
    "in the example `net_bench` the words are Rust's": ['net_bench_lib/arguments'],
}

# Functions, and structs, that nothing of Rust uses, by rustc's word: in Rattle laws, proofs and tests do.
UNCALLED = {
    'net_ring/ring_buffer': ['from_parts', 'into_parts'],
    'net_packets/packet_buffer': ['last_mut', 'last_size'],
    'net_ring/head': ['enqueue_span', 'dequeue_span'],
    'net_packets/head': ['has_sound_slots', 'progress', 'Progress'],
    'net_receiver/finite_receiver_head': ['count_new'],
    'net_receiver/receiver': ['from_parts'],
    'net_receiver/schedule': ['replay', 'replay_core'],
    'net_receiver/scoreboard': ['is_sound'],
    'net_receiver/finite_receiver': ['from_parts', 'into_parts', 'is_sound'],
    'net_receiver/finite_sender': ['from_parts', 'into_parts'],
}

# Methods that only the Cargo crate calls: Rust's callers have `enqueue`, `dequeue`, `Deref` and `From` in their place,
# or need none.
CLOSED = {
    'net_packets/packet_buffer': ['has_room', 'place', 'take', 'last_dequeued_mut'],
    'net_ring/managed': ['len', 'as_slice', 'as_mut_slice'],
    'net_base/time/duration': ['from_core'],
    'net_tcp/retransmission': ['from_parts', 'from_scaled', 'srtt_8', 'rttvar_4'],
}

# The exports for C, which the shim of `c` calls: only the crate in rust/exports has them, and they have no
# documentation.
EXPORTS = 'net_ffi'

# What of other modules only the exports call, by rustc's word: it is in a folder of theirs.
HEADS = {'net_ring/head': 'RingHead', 'net_packets/head': 'PacketsHead', 'net_assembler/assembler/head': 'AssemblerHead',
         'net_base/storage/fragments/head': 'FragmentsHead', 'net_receiver/receiver_head': 'ReceiverHead',
         'net_receiver/finite_sender_head': 'FiniteSenderHead', 'net_receiver/sender_head': 'SenderHead',
         'net_receiver/scoreboard_head': 'ScoreboardHead', 'net_ends/tcp_buffer': 'BufferHead'}
FOR_C = {file: [f'{head}::is_sound'] for file, head in HEADS.items()} | {
    'net_receiver/finite_receiver_head': [f'FiniteReceiverHead::{name}' for name in (
        'is_sound', 'acknowledged', 'window_end', 'count_new')],
}
FOR_C['net_packets/head'] += ['FirstPacket', 'write_slots'] + [f'PacketsHead::{name}' for name in (
    'can_take', 'take_slot', 'can_shorten', 'shorten_slot', 'shorten_last_in', 'enqueue',
    'dequeue', 'peek', 'take_first', 'skip_gap', 'take_packet')]
FOR_C['net_assembler/assembler/head'] += ['rise_after']
FOR_C['net_receiver/receiver_head'] += ['ReceiverHead::reads_in_turn', 'ReceiverHead::next_fits']


def counted(files):
    """How often a text is in each file: of `a/b 2, c 1` it is {'a/b': 2, 'c': 1}."""
    return {name: int(count) for name, count in (file.split() for file in files.split(', '))}


# What is replaced: the old text, the new one, and how often it is in each of these files.
TEXTS = {name: [(counted(files), *parts) for files, *parts in map(cells, rows)]
         for name, rows in tables('erase_texts.txt').items()}
REPLACED = [(old, new, files) for kind in ('lifetimes', 'attributes') for files, old, new in TEXTS[kind]]
REPLACED += [(item, f'{" " * item.find(item.strip())}#[allow(clippy::{name})] // {why}\n{item}', files)
             for files, item, name, why in TEXTS['forms']]
REPLACED += [(f'\npub {item}', f'\n#[non_exhaustive]\npub {item}', files) for files, item in TEXTS['growing']]
REPLACED += [(old, new, files) for files, old, new in TEXTS['types']]
