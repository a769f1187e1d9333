//! The rows: each a workload with the numbers that it is run on.
use workloads::NAMES;

/// A workload with its numbers. A round makes `calls` calls.
pub struct Row {
    pub name: String,
    pub workload: usize,
    pub calls: usize,
    pub storage: usize,
    pub source: usize,
    pub sink: usize,
    pub number: u64,
    pub ops: Vec<usize>,
}

const RING: usize = 65_536;
const SEGMENT: usize = 1_460;

pub fn rows() -> Vec<Row> {
    let mut all = Vec::new();
    for chunk in [1, 16, 64, 536, 1_460, 8_192] {
        let more = format!("chunk {chunk}");
        all.push(Row { storage: RING, source: chunk, sink: chunk, calls: 2, ..row("ring_slice", &more) });
    }
    for chunk in [16, 1_460] {
        let more = format!("chunk {chunk}");
        all.push(Row { storage: RING, number: chunk as u64, calls: 2, ..row("ring_many", &more) });
        all.push(Row { storage: RING, source: chunk, calls: 4, ..row("ring_ahead", &more) });
    }
    all.push(Row { storage: RING, calls: 2, ..row("ring_one", "") });
    for size in [64, 1_400] {
        all.push(Row { storage: 16_384, source: size, calls: 2, ..row("packet", &format!("size {size}")) });
    }
    for runs in [4, 32] {
        for (what, ops) in additions(runs) {
            let more = format!("{runs} {what}");
            all.push(Row { number: runs as u64, calls: ops.len() / 2, ops, ..row("asm_add", &more) });
        }
        for (what, ops) in fronts(runs) {
            let more = format!("{runs} {what}");
            all.push(Row { number: runs as u64, calls: ops.len() / 2, ops, ..row("asm_front", &more) });
        }
        for (what, ops) in [("in order", in_order(44)), ("swapped", swapped(44)), ("shuffled", shuffled(44))]
        {
            let more = format!("{runs} {what}");
            let memory = Row { storage: RING, source: 44 * SEGMENT, sink: 4_096, ..row("stream", &more) };
            all.push(Row { number: runs as u64, calls: 44, ops, ..memory });
        }
    }
    for runs in [4, 32, 256, 1_024] {
        let ranges = |what: &str| format!("{runs} {what}");
        let back = flat((0..runs).rev().map(|at| (2 * at * SEGMENT, SEGMENT)));
        all.push(Row {
            number: runs as u64,
            calls: runs,
            ops: back,
            ..row("asm_add", &ranges("holes, from above"))
        });
        let window = flat(random(4_096, 32, 1).chunks_exact(2).map(|op| (op[0] * SEGMENT, SEGMENT)));
        let calls = window.len() / 2;
        all.push(Row {
            number: runs as u64,
            calls,
            ops: window,
            ..row("asm_front", &ranges("window of 32 segments"))
        });
        // Each second segment is lost: those after are there, and the first is sent again.
        let waiting = (1..runs).map(|at| ((2 * at - 1) * SEGMENT, SEGMENT));
        let slide = flat(waiting.chain([(0, SEGMENT), ((2 * runs - 3) * SEGMENT, SEGMENT)]));
        all.push(Row { number: runs as u64, ops: slide, ..row("asm_slide", &ranges("recovery")) });
    }
    for size in [64, 1_460] {
        let more = format!("size {size}");
        all.push(Row { storage: RING, source: size, calls: 5, ..row("stream_lent", &more) });
    }
    all.push(Row { number: 1, ..row("rand", "") });
    all.push(Row { number: 1, ..row("port", "") });
    for size in [20, 40, 64, 576, 1_460, 9_000, 65_535] {
        all.push(Row { source: size, ..row("checksum", &format!("size {size}")) });
    }
    all.sort_by_key(|row| row.workload);
    all
}

fn row(name: &str, more: &str) -> Row {
    Row {
        name: format!("{name} {more}").trim().to_string(),
        workload: NAMES.iter().position(|&known| known == name).expect("a workload"),
        calls: 1,
        storage: 0,
        source: 0,
        sink: 0,
        number: 0,
        ops: Vec::new(),
    }
}

fn flat(ranges: impl IntoIterator<Item = (usize, usize)>) -> Vec<usize> {
    ranges.into_iter().flat_map(|(offset, size)| [offset, size]).collect()
}

/// What is added to an assembler of `runs` runs.
fn additions(runs: usize) -> [(&'static str, Vec<usize>); 5] {
    let apart = (0..runs).map(|at| ((2 * at + 1) * 100, 100));
    let between = (0..runs).map(|at| (2 * at * 100, 100));
    let refused = (0..64 - runs).map(|at| ((2 * (runs + at) + 1) * 100, 100));
    [
        ("in order", in_order(64)),
        ("reverse", flat((0..64).rev().map(|at| (at * SEGMENT, SEGMENT)))),
        ("holes, fill", flat(apart.clone().chain(between))),
        ("random", random(64, 8_192, 256)),
        ("full, refused", flat(apart.chain(refused))),
    ]
}

/// What is added to an assembler of `runs` runs whose front is removed each time.
fn fronts(runs: usize) -> [(&'static str, Vec<usize>); 6] {
    let waiting = (1..runs).map(|at| ((1_000 + 2 * at) * SEGMENT, SEGMENT));
    let next = (0..64).map(|_| (0, SEGMENT));
    let one = std::iter::once((1_000 * SEGMENT, SEGMENT));
    let gaps = (0..64).map(|at| (if at % 2 == 0 { SEGMENT } else { 0 }, SEGMENT));
    [
        ("in order", in_order(64)),
        ("swapped", swapped(64)),
        ("next, all but one wait", flat(waiting.chain(next.clone()))),
        ("one waits", flat(one.chain(next))),
        ("second first, then the gap", flat(gaps)),
        ("random, never learnt", random(16_384, 2_048, 32)),
    ]
}

/// So many ranges with offsets below `offsets` and sizes up to `sizes`, which a branch predictor
/// learns if there are few.
fn random(count: usize, offsets: u64, sizes: u64) -> Vec<usize> {
    let mut word: u64 = 7;
    let mut below = |bound: u64| {
        word = word.wrapping_mul(6364136223846793005).wrapping_add(1442695040888963407);
        ((word >> 33) % bound) as usize
    };
    flat((0..count).map(|_| (below(offsets), 1 + below(sizes))))
}

fn in_order(count: usize) -> Vec<usize> {
    flat((0..count).map(|at| (at * SEGMENT, SEGMENT)))
}

/// Each second segment before the one that it follows. `count` is even.
fn swapped(count: usize) -> Vec<usize> {
    flat((0..count).map(|at| ((at ^ 1) * SEGMENT, SEGMENT)))
}

/// Each four segments in the order third, first, fourth, second. `count` is a multiple of 4.
fn shuffled(count: usize) -> Vec<usize> {
    flat((0..count).map(|at| ((at / 4 * 4 + [2, 0, 3, 1][at % 4]) * SEGMENT, SEGMENT)))
}
