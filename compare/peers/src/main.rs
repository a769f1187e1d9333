//! The example's endpoint, lwIP, gVisor's netstack and Linux, joined by a path that loses, doubles, delays, stops, cuts
//! and forges IP packets by a seed: `run.sh` beside it builds it and them, and runs it in a network namespace of its
//! own.
//!
//!     peers sample|matrix|goodput|runs [WORD [SEED]]
//!
//! What each end reads is compared with what the other one sends, byte by byte. With a word only the cases or rows
//! with it are run; with a seed the sample by that. The status is 1 if a byte differs, a stream ends too early, or a
//! case of the sample exceeds its bounds.
mod ends;
mod relay;
mod watch;

// Formatted with the example.
#[rustfmt::skip]
#[path = "../../../rust/net-tcp/examples/endpoint/channel.rs"]
mod channel;
#[allow(dead_code)]
#[rustfmt::skip]
#[path = "../../../rust/net-tcp/examples/endpoint/os.rs"]
mod os;
#[allow(dead_code)]
#[rustfmt::skip]
#[path = "../../../rust/net-tcp/examples/endpoint/tcp.rs"]
mod tcp;
#[rustfmt::skip]
#[path = "../../../rust/net-tcp/examples/endpoint/timestamps.rs"]
mod timestamps;
#[allow(dead_code)]
#[rustfmt::skip]
#[path = "../../../rust/net-tcp/examples/endpoint/wire.rs"]
mod wire;

use std::process::exit;
use std::sync::atomic::{AtomicU32, Ordering};
use std::sync::Mutex;
use std::thread;

use channel::Fates;
use ends::Kind;
use relay::{Case, Outcome, Path, Traffic};

const ENDPOINT: Kind = Kind::Example(0x4_0000, 32);
const LWIP: Kind = Kind::Program("lwip");
/// The same with selective acknowledgements, and that of gVisor.
const LWIP_SACK: Kind = Kind::Program("lwip_sack");
const NETSTACK: Kind = Kind::Program("netstack");
const RENO: Kind = Kind::Linux("reno");
const CUBIC: Kind = Kind::Linux("cubic");

/// How many of 10,000 packets are lost, delayed by up to 2 ms, and doubled, with a round trip of some microseconds.
fn path(lost: u32, delayed: u32, doubled: u32, round_trip: u32) -> Path {
    let fates =
        Fates { lost, doubled, delayed, longest_delay: 2_000, latency: round_trip / 2, rate: 0, queue: 0 };
    Path { fates, ..Path::default() }
}

/// A line of 0.4 MB/s, on which the receiver's end stops for 3 s.
fn stopped() -> (Path, Traffic) {
    let fates = Fates { rate: 400_000, queue: 64, ..path(0, 0, 0, 2_000).fates };
    (Path { fates, stop: Some((300, 3_000)), ..Path::default() }, send(400_000))
}

fn send(bytes: u64) -> Traffic {
    Traffic::Send { bytes, chunk: 0x1_0000, rest: 0 }
}

fn run(case: Case, what: &str) -> Outcome {
    let outcome = case.run().unwrap_or_else(|error| {
        eprintln!("peers: {what}: {error}");
        exit(1)
    });
    if let Some(wrong) = &outcome.wrong {
        eprintln!("peers: {what}, seed {}: {wrong}", case.seed);
        exit(1);
    }
    outcome
}

/// What a case of the sample may take: seconds, timeouts of the first end, and segments of it sent again for nothing.
type Bounds = (f64, u64, u64);

/// Prints a line about a case, and returns whether it is within its bounds.
fn judge(what: &str, it: &Outcome, bounds: Bounds) -> bool {
    let [first, _second] = &it.watches;
    let seconds = it.seconds.unwrap_or(f64::INFINITY);
    let is_within = seconds <= bounds.0 && first.timeouts <= bounds.1 && first.needless <= bounds.2;
    let is_ok = is_within && it.is_closed && it.resets == 0;
    println!(
        "{} {what}: {seconds:.2} s, {} segments, {} again, {} for nothing, {} timeouts, {} resets{}",
        if is_ok { "ok  " } else { "over" },
        first.segments,
        first.again,
        first.needless,
        first.timeouts,
        it.resets,
        if it.is_closed { "" } else { ", not closed" },
    );
    is_ok
}

fn sample(word: &str, seed: u64) {
    let (mib, any) = (send(1 << 20), u64::MAX);
    let hidden = Path { without_blocks: true, ..path(100, 0, 0, 1_000) };
    let forged = Path { forged: 1_000, ..path(100, 0, 0, 1_000) };
    let cut = Path { cut: Some((20, 1_000)), ..path(0, 0, 0, 2_000) };
    let (stop, stops) = stopped();
    let slow = Traffic::Send { bytes: 200_000, chunk: 2_000, rest: 5_000 };
    let requests = |count, thinks| Traffic::Requests { count, thinks };
    let both = |bytes, chunk, rest| Traffic::Both { bytes, chunk, rest };
    let of_endpoint: [(&str, Path, Traffic, Bounds); 13] = [
        ("clean", path(0, 0, 0, 0), mib, (1.0, 1, 5)),
        ("1 % lost", path(100, 0, 0, 1_000), mib, (1.2, 1, 5)),
        ("1 % lost, without blocks", hidden, mib, (1.2, 1, 10)),
        ("20 % delayed", path(0, 2_000, 0, 1_000), mib, (1.5, 1, 80)),
        // Of lwIP, which sends no blocks, three acknowledgements of a number tell of a loss, doubled ones too.
        ("20 % doubled", path(0, 0, 2_000, 1_000), mib, (1.0, 0, 15)),
        ("both send, 1 % lost", path(100, 0, 0, 1_000), both(500_000, 0x1_0000, 0), (4.0, 1, 5)),
        ("both send to slow readers", path(0, 0, 0, 1_000), both(200_000, 2_000, 5_000), (5.0, 1, 10)),
        // lwIP waits for a timeout where two segments of a window are lost.
        ("half closed, 1 % lost", path(100, 0, 0, 1_000), Traffic::Closed { bytes: 1 << 20 }, (9.0, 1, 5)),
        ("a slow reader", path(0, 0, 0, 1_000), slow, (5.0, 1, 10)),
        ("answers after 40 ms", path(0, 0, 0, 1_000), requests(20, 40), (2.0, 0, 0)),
        ("answers after 300 ms", path(0, 0, 0, 1_000), requests(4, 300), (2.0, 0, 0)),
        ("a stop of 3 s", stop, stops, (6.0, 5, 150)),
        ("1 % lost, forged packets", forged, mib, (6.0, 12, 60)),
    ];
    let to_endpoint: [(&str, Path, Traffic, f64); 5] = [
        ("clean", path(0, 0, 0, 0), mib, 1.0),
        ("1 % lost", path(100, 0, 0, 1_000), mib, 6.0),
        ("20 % delayed", path(0, 2_000, 0, 1_000), mib, 3.0),
        ("1 % lost, forged packets", forged, mib, 6.0),
        ("cut for 1 s", cut, mib, 6.0),
    ];
    let mut cases = vec![];
    for peer in [ENDPOINT, LWIP, LWIP_SACK, NETSTACK, RENO] {
        for (what, path, traffic, bounds) in of_endpoint {
            cases.push(([ENDPOINT, peer], what, path, traffic, bounds));
        }
        // After a cut netstack sends two segments with each timeout.
        let is_fair = |path: &Path| peer != ENDPOINT && (peer != NETSTACK || path.cut.is_none());
        for (what, path, traffic, most) in to_endpoint.into_iter().filter(|it| is_fair(&it.1)) {
            cases.push(([peer, ENDPOINT], what, path, traffic, (most, any, any)));
        }
    }
    // Three at once: most of them wait.
    let (cases, failed) = (Mutex::new(cases.into_iter()), AtomicU32::new(0));
    let next = || cases.lock().expect("no run panics").next();
    thread::scope(|scope| {
        for _worker in 0..3 {
            scope.spawn(|| {
                while let Some((ends, what, path, traffic, bounds)) = next() {
                    let what = format!("{} to {}: {what}", ends[0].name(), ends[1].name());
                    if !what.contains(word) {
                        continue;
                    }
                    // A machine that is busy is late: three runs in a row fail.
                    let case = Case { ends, path, traffic, seed, most: 10 };
                    if !(0..3).any(|_time| judge(&what, &run(case, &what), bounds)) {
                        failed.fetch_add(1, Ordering::Relaxed);
                    }
                }
            });
        }
    });
    let failed = failed.into_inner();
    if failed > 0 {
        println!("failed: {failed}, each three times over its bounds in main.rs, reset, or not closed");
        exit(1);
    }
}

fn median(mut values: Vec<f64>) -> f64 {
    values.sort_by(f64::total_cmp);
    values[values.len() / 2]
}

/// Of each pair the median time of some seeds, or infinity, and how many segments of the first end went again for
/// nothing, and how many by a timeout. The pairs take turns, some at once, so that whatever else the machine does meets
/// each of them.
fn in_turn<const N: usize>(
    pairs: [[Kind; 2]; N],
    what: &str,
    (seeds, at_once): (u64, usize),
    case: impl Fn([Kind; 2], u64) -> Case + Sync,
) -> [(f64, u64, u64); N] {
    let (mut runs, case) = ([(); N].map(|()| vec![]), &case);
    for seed in 1..=seeds {
        for (pairs, runs) in pairs.chunks(at_once).zip(runs.chunks_mut(at_once)) {
            thread::scope(|scope| {
                for (ends, runs) in pairs.iter().zip(runs) {
                    let what = format!("{what}: {} to {}", ends[0].name(), ends[1].name());
                    scope.spawn(move || runs.push(run(case(*ends, seed), &what)));
                }
            });
        }
    }
    runs.map(|it| summed(&it))
}

/// The same of runs.
fn summed(runs: &[Outcome]) -> (f64, u64, u64) {
    let seconds = median(runs.iter().map(|it| it.seconds.unwrap_or(f64::INFINITY)).collect());
    let sum = |of: fn(&Outcome) -> u64| runs.iter().map(of).sum();
    (seconds, sum(|it| it.watches[0].needless), sum(|it| it.watches[0].timeouts))
}

fn ratio(a: f64, b: f64) -> String {
    if a.is_finite() && b.is_finite() {
        format!("{:.2}", a / b)
    } else {
        "-".into()
    }
}

/// Each pair, beside Linux (Reno) in the place of the endpoint.
fn matrix(word: &str) {
    let (mib, most, seeds) = (send(1 << 20), 20, 9);
    let (late, lost) = (path(0, 2_000, 0, 1_000), path(100, 0, 0, 1_000));
    let requests = |count, thinks| Traffic::Requests { count, thinks };
    let slow = Traffic::Both { bytes: 200_000, chunk: 2_000, rest: 5_000 };
    let (stop, stops) = stopped();
    let pairs = [
        [ENDPOINT; 2],
        [ENDPOINT, LWIP],
        [LWIP, ENDPOINT],
        [ENDPOINT, NETSTACK],
        [NETSTACK, ENDPOINT],
        [ENDPOINT, RENO],
        [RENO, ENDPOINT],
        [RENO; 2],
        [RENO, LWIP],
        [LWIP, RENO],
        [RENO, NETSTACK],
        [NETSTACK, RENO],
    ];
    let in_its_place = |ends: [Kind; 2]| ends.map(|it| if it == ENDPOINT { RENO } else { it });
    println!("Seconds, the median of {seeds} runs, in turn with the others of the row, and the ratio to Linux in the");
    println!("endpoint's place. Then, of all {seeds}, segments sent again for nothing, and those of Linux. 1 MiB; a round");
    println!("trip of 1 ms.");
    println!(
        "| Path | to itself | to lwIP | from lwIP | to netstack | from netstack | to Linux | from Linux |"
    );
    println!("|---|---:|---:|---:|---:|---:|---:|---:|");
    // The last three wait most of their time.
    for (what, path, traffic, at_once) in [
        ("1 % lost", lost, mib, 1),
        ("3 % lost", path(300, 0, 0, 1_000), mib, 1),
        ("20 % delayed", late, mib, 1),
        ("20 % doubled", path(0, 0, 2_000, 1_000), mib, 1),
        ("half closed, 1 % lost", lost, Traffic::Closed { bytes: 1 << 20 }, 1),
        ("both send to slow readers", path(0, 0, 0, 1_000), slow, 1),
        ("100 answers at once, 10 % lost", path(1_000, 0, 0, 1_000), requests(100, 0), 3),
        ("50 answers after 40 ms", path(0, 0, 0, 1_000), requests(50, 40), 3),
        ("a stop of 3 s", stop, stops, 3),
    ] {
        if !what.contains(word) {
            continue;
        }
        let case = |ends, seed| Case { ends, path, traffic, seed, most };
        let all = in_turn(pairs, what, (seeds, at_once), case);
        let mut row = String::new();
        for (ends, mine) in pairs.into_iter().zip(all).filter(|it| it.0.contains(&ENDPOINT)) {
            let place = in_its_place(ends);
            let linux = all[pairs.iter().position(|it| *it == place).expect("each has its pair")];
            let seconds = if mine.0.is_finite() { format!("{:.2}", mine.0) } else { format!("> {most}") };
            row += &format!(" | {seconds} ({}); {}/{}", ratio(mine.0, linux.0), mine.1, linux.1);
        }
        println!("| {what}{row} |");
    }
}

fn goodput(word: &str) {
    let (bytes, seeds) = (2 << 20, 15);
    println!("To Linux, 2 MiB, a round trip of 1 ms, no rate; a delay is up to 2 ms. Each cell: MB/s, the median of");
    println!("{seeds} runs, in turn with the others; timeouts of all; of 10,000 segments those sent again for nothing.");
    println!("| Path | endpoint | Linux, Reno | Linux, CUBIC | of Reno | of CUBIC |");
    println!("|---|---:|---:|---:|---:|---:|");
    for (what, path) in [
        ("clean", path(0, 0, 0, 1_000)),
        ("0.5 % lost", path(50, 0, 0, 1_000)),
        ("1 % lost", path(100, 0, 0, 1_000)),
        ("3 % lost", path(300, 0, 0, 1_000)),
        ("10 % lost", path(1_000, 0, 0, 1_000)),
        ("5 % delayed", path(0, 500, 0, 1_000)),
        ("20 % delayed", path(0, 2_000, 0, 1_000)),
    ] {
        if !what.contains(word) {
            continue;
        }
        let pairs = [ENDPOINT, RENO, CUBIC].map(|it| [it, RENO]);
        let traffic = send(bytes);
        let case = |ends, seed| Case { ends, path, traffic, seed, most: 60 };
        let all = in_turn(pairs, what, (seeds, 1), case);
        let cell = |it: (f64, u64, u64)| {
            let segments = seeds * bytes / 1_460;
            format!("{:.1}; {}; {}", bytes as f64 / 1e6 / it.0, it.2, it.1 * 10_000 / segments)
        };
        let [mine, reno, cubic] = all;
        let cells = all.map(cell).join(" | ");
        println!("| {what} | {cells} | {} | {} |", ratio(reno.0, mine.0), ratio(cubic.0, mine.0));
    }
}

/// What a queue that overflows asks of a receiver: each second segment of a slow start is lost.
fn runs(word: &str) {
    let (capacity, bytes, seeds) = (1 << 20, 4 << 20, 5);
    println!(
        "4 MiB to an endpoint of 1 MiB, over 20 Mbit/s, 80 ms, and a queue of 200 packets: {seeds} runs."
    );
    println!("| Sender | N | Seconds: middle, longest | Refused of 100 | Most held |");
    println!("|---|---:|---:|---:|---:|");
    let fates = Fates { rate: 2_500_000, queue: 200, ..path(0, 0, 0, 80_000).fates };
    let path = Path { fates, ..Path::default() };
    for sender in [RENO, CUBIC, Kind::Example(capacity, 256)] {
        for n in [32, 64, 128, 256] {
            let (ends, traffic) = ([sender, Kind::Example(capacity, n)], send(bytes));
            let what = format!("{} {n}", sender.name());
            if !what.contains(word) {
                continue;
            }
            let runs = (1..=seeds).map(|seed| run(Case { ends, path, traffic, seed, most: 60 }, &what));
            let runs = runs.collect::<Vec<_>>();
            let seconds = runs.iter().map(|it| it.seconds.unwrap_or(f64::INFINITY)).collect::<Vec<_>>();
            let sum = |of: fn(&Outcome) -> u64| runs.iter().map(of).sum::<u64>() as f64;
            println!(
                "| {} | {n} | {:.1}, {:.1} | {:.1} | {} |",
                sender.name(),
                median(seconds.clone()),
                seconds.iter().copied().fold(0.0, f64::max),
                100.0 * sum(|it| it.refused[1].0) / sum(|it| it.watches[0].segments),
                runs.iter().map(|it| it.refused[1].1).max().unwrap_or(0),
            );
        }
    }
}

fn main() {
    let words = std::env::args().skip(1).collect::<Vec<_>>();
    let word = words.get(1).map_or("", |word| word);
    match words.first().map(String::as_str) {
        Some("sample") => sample(word, words.get(2).and_then(|it| it.parse().ok()).unwrap_or(1)),
        Some("matrix") => matrix(word),
        Some("goodput") => goodput(word),
        Some("runs") => runs(word),
        _ => {
            eprintln!("usage: peers sample|matrix|goodput|runs [WORD [SEED]]");
            exit(1);
        }
    }
}
