//! Times the port and smoltcp over placements of their code, in turns in one process; with
//! `--count` runs each row for a counter of instructions.
//!
//! `driver PORT.so[:..] ORIGINAL.so[:..] [--count] [--samples N] [--milliseconds N] [--only WORD]`: a
//! line of words, separated by tabs, for each row. Status 1 if a checksum, the storage or the sink differs.
mod rows;

use rows::Row;
use std::ffi::{CString, c_char, c_int, c_void};
use std::hint::black_box;
use std::process::ExitCode;
use std::time::Instant;
use workloads::{COUNT, Memory, NAMES, Part, Workload};

/// The rounds of the two runs that are counted: what the longer one takes beyond the shorter is what is counted.
const COUNTED: [u64; 2] = [40, 140];
/// Those of a row of more than `MANY` calls a round.
const FEWER: [u64; 2] = [4, 14];
const MANY: usize = 200;

unsafe extern "C" {
    fn dlopen(path: *const c_char, flags: c_int) -> *mut c_void;
    fn dlsym(library: *mut c_void, name: *const c_char) -> *mut c_void;
}

/// The workloads of a side, in one placement.
fn side(path: &str) -> &'static [Workload; COUNT] {
    let path = CString::new(path).expect("a path");
    unsafe {
        let library = dlopen(path.as_ptr(), 2);
        assert!(!library.is_null(), "{path:?} can't be loaded");
        let function = dlsym(library, c"side_workloads".as_ptr());
        assert!(!function.is_null(), "{path:?} has no side_workloads");
        std::mem::transmute::<*mut c_void, extern "C" fn() -> &'static [Workload; COUNT]>(function)()
    }
}

/// What a row is run on, zeroed before each run.
struct Buffers {
    storage: Vec<u8>,
    source: Vec<u8>,
    sink: Vec<u8>,
    ops: Vec<usize>,
    number: u64,
}

impl Buffers {
    fn new(row: &Row) -> Buffers {
        Buffers {
            storage: vec![0; row.storage],
            source: (0..row.source).map(|at| (at * 31 + at / 256 * 7 + 5) as u8).collect(),
            sink: vec![0; row.sink],
            ops: row.ops.clone(),
            number: row.number,
        }
    }

    /// Runs a workload: how many nanoseconds it took, and its checksum.
    fn run(&mut self, workload: Workload, rounds: u64) -> (f64, u64) {
        self.storage.fill(0);
        self.sink.fill(0);
        let memory = Memory {
            storage: part(&mut self.storage),
            source: part(&mut self.source),
            sink: part(&mut self.sink),
            ops: part(&mut self.ops),
            number: self.number,
            rounds,
        };
        let start = Instant::now();
        let sum = black_box(workload)(black_box(&memory));
        (start.elapsed().as_nanos() as f64, sum)
    }
}

fn part<T>(slice: &mut [T]) -> Part<T> {
    Part { at: slice.as_mut_ptr(), len: slice.len() }
}

/// Whether two sides leave the same after a few numbers of rounds; in the storage too if both use it.
fn agree(buffers: &mut Buffers, one: Workload, other: Workload, both_store: bool) -> bool {
    [0, 1, 2, 3, 100, 1000].into_iter().all(|rounds| {
        let (_, sum) = buffers.run(one, rounds);
        let (storage, sink) = (buffers.storage.clone(), buffers.sink.clone());
        let (_, other) = buffers.run(other, rounds);
        (sum, sink) == (other, buffers.sink.clone()) && (!both_store || storage == buffers.storage)
    })
}

/// The middle value.
fn median(all: &[f64]) -> f64 {
    let mut sorted = all.to_vec();
    sorted.sort_by(f64::total_cmp);
    let middle = sorted.len() / 2;
    if sorted.len() % 2 == 1 { sorted[middle] } else { (sorted[middle - 1] + sorted[middle]) / 2.0 }
}

/// The rounds with which a run takes so long.
fn rounds_for(buffers: &mut Buffers, workload: Workload, nanoseconds: f64) -> u64 {
    let mut rounds = 1;
    loop {
        let (took, _) = buffers.run(workload, rounds);
        if took >= nanoseconds / 4.0 {
            return ((rounds as f64 * nanoseconds / took) as u64).max(1);
        }
        rounds *= 2;
    }
}

/// The times of all sides, in turns: forwards and backwards.
fn times(row: &Row, sides: &[Workload], samples: usize, nanoseconds: f64) -> (Vec<Vec<f64>>, f64) {
    let mut buffers = Buffers::new(row);
    let rounds = rounds_for(&mut buffers, sides[sides.len() - 1], nanoseconds);
    let mut times = vec![vec![]; sides.len()];
    for sample in 0..samples {
        for turn in 0..sides.len() {
            let at = if sample % 2 == 0 { turn } else { sides.len() - 1 - turn };
            times[at].push(buffers.run(sides[at], rounds).0);
        }
    }
    (times, rounds as f64 * row.calls as f64)
}

/// The median, the lowest and the highest ratio of a pair of sides, of which each ratio is the median over the
/// turns.
fn ratios(pairs: impl Iterator<Item = (usize, usize)>, times: &[Vec<f64>]) -> [f64; 3] {
    let ratio = |(a, b): (usize, usize)| {
        median(&times[a].iter().zip(&times[b]).map(|(a, b)| a / b).collect::<Vec<f64>>())
    };
    let all: Vec<f64> = pairs.map(ratio).collect();
    let least = all.iter().copied().fold(f64::INFINITY, f64::min);
    [median(&all), least, all.iter().copied().fold(0.0, f64::max)]
}

fn print(group: &str, name: &str, numbers: &[f64]) {
    let words: Vec<String> = numbers.iter().map(|number| format!("{number:.4}")).collect();
    println!("{group}\t{name}\t{}", words.join("\t"));
}

/// Times a row over all placements: nanoseconds a call of smoltcp and of the port, the ratios of port and smoltcp,
/// and those of smoltcp's placements with one another.
fn time(
    group: &str,
    row: &Row,
    ports: &[Workload],
    originals: &[Workload],
    samples: usize,
    nanoseconds: f64,
) {
    let sides = [ports, originals].concat();
    let (times, calls) = times(row, &sides, samples, nanoseconds);
    let (first, all) = (ports.len(), sides.len());
    let call = |sides: std::ops::Range<usize>| {
        median(&sides.map(|at| median(&times[at])).collect::<Vec<f64>>()) / calls
    };
    let pairs = (0..first).flat_map(|port| (first..all).map(move |original| (port, original)));
    let among = (first..all).flat_map(|one| (first..all).map(move |other| (one, other)));
    let mut numbers = vec![call(first..all), call(0..first)];
    numbers.extend(ratios(pairs, &times));
    numbers.extend(ratios(among, &times));
    print(group, &row.name, &numbers);
}

/// What a counter begins at. It differs from the next function, so that the compiler keeps both.
#[unsafe(no_mangle)]
#[inline(never)]
extern "C" fn count_begin() -> u32 {
    black_box(1)
}

/// What a counter ends at.
#[unsafe(no_mangle)]
#[inline(never)]
extern "C" fn count_end() -> u32 {
    black_box(2)
}

/// Runs a row twice on each side between the two functions above.
fn count(row: &Row, sides: [Workload; 2]) {
    let mut buffers = Buffers::new(row);
    let counted = if row.calls > MANY { FEWER } else { COUNTED };
    for side in sides {
        for rounds in counted {
            count_begin();
            black_box(buffers.run(side, rounds));
            count_end();
        }
    }
    println!("{}\t{}", row.name, (counted[1] - counted[0]) * row.calls as u64);
}

fn main() -> ExitCode {
    let words: Vec<String> = std::env::args().collect();
    let flag = |name: &str| words.iter().position(|word| word == name).and_then(|at| words.get(at + 1));
    let has = |name: &str| words.iter().any(|word| word == name);
    let number =
        |name: &str, default: f64| flag(name).map_or(default, |word| word.parse().expect("a number"));
    let (samples, nanoseconds) = (number("--samples", 15.0) as usize, number("--milliseconds", 2.0) * 1e6);
    let sides = |at: usize| -> Vec<&'static [Workload; COUNT]> {
        words.get(at).expect("the paths of a side").split(':').map(side).collect()
    };
    let (ports, originals) = (sides(1), sides(2));
    let mut status = ExitCode::SUCCESS;
    for row in rows::rows() {
        if flag("--only").is_some_and(|word| !row.name.contains(word)) {
            continue;
        }
        let of = |sides: &[&'static [Workload; COUNT]]| -> Vec<Workload> {
            sides.iter().map(|side| side[row.workload]).collect()
        };
        let (ports, originals, group) = (of(&ports), of(&originals), NAMES[row.workload]);
        let mut buffers = Buffers::new(&row);
        let others = ports.iter().chain(&originals);
        if has("--count") {
            count(&row, [ports[0], originals[0]]);
        } else if !others.into_iter().all(|&side| agree(&mut buffers, originals[0], side, true)) {
            println!("DIFFER\t{}", row.name);
            status = ExitCode::FAILURE;
        } else {
            time(group, &row, &ports, &originals, samples, nanoseconds);
        }
    }
    status
}
