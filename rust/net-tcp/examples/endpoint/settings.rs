//! What the command line says.
use net_base::time::Duration;

use crate::channel::Fates;
use crate::tcp::Options;

/// How many runs a receiver may hold.
const RUNS: [u64; 7] = [4, 8, 16, 32, 64, 128, 256];

/// The names of the settings, each with its number if none is given, and the greatest. `lost`,
/// `doubled` and `delayed` are how many packets of 10,000 meet that; `delay` is the longest delay in
/// microseconds; `runs` the receiver's bound of held runs; `capacity` the bytes of each buffer;
/// `rest` how long the reader rests after it has read, in microseconds; `seconds` how long a run may
/// take. `rate` is that of the line, in bytes a second, and `queue` how many packets wait for it, or 0
/// where it has none. After `gives_up` seconds without an answer the endpoint gives up; `keep_alive`
/// is after how many it asks, or 0: never; `nagle` is 1 or 0.
const NUMBERS: [(&str, u64, u64); 15] = [
    ("lost", 0, 10_000),
    ("doubled", 0, 10_000),
    ("delayed", 0, 10_000),
    ("delay", 2_000, 1_000_000),
    ("latency", 0, 1_000_000),
    ("seed", 1, u64::MAX),
    ("runs", 32, 256),
    ("capacity", 0x4_0000, 1 << 30),
    ("rest", 0, 1_000_000),
    ("seconds", 120, 86_400),
    ("rate", 0, 1 << 30),
    ("queue", 200, 1 << 20),
    ("gives_up", 100, 86_400),
    ("keep_alive", 0, 86_400),
    ("nagle", 1, 1),
];

/// What a run is told.
pub struct Settings {
    pub incoming: bool,
    pub source: String,
    pub target: String,
    pub fates: Fates,
    pub seed: u64,
    /// One of `RUNS`.
    pub runs: u64,
    pub capacity: usize,
    pub rest: Duration,
    pub most: Duration,
    pub options: Options,
    pub nagle: bool,
}

impl Settings {
    /// Reads the words of a command, or returns what is wrong with them.
    pub fn parse(words: &[String]) -> Result<Settings, String> {
        let [direction, source, target, named @ ..] = words else {
            return Err("too few words".into());
        };
        let incoming = match direction.as_str() {
            "in" => true,
            "out" => false,
            _ => return Err(format!("{direction}: neither in nor out")),
        };
        let mut numbers = NUMBERS.map(|it| it.1);
        for word in named {
            let (name, value) = word.split_once('=').ok_or(format!("{word}: not NAME=NUMBER"))?;
            let at = NUMBERS.iter().position(|it| it.0 == name);
            let at = at.ok_or(format!("{word}: no such name"))?;
            let number = value.parse().ok().filter(|number| *number <= NUMBERS[at].2);
            numbers[at] = number.ok_or(format!("{word}: not a number up to {}", NUMBERS[at].2))?;
        }
        let [lost, doubled, delayed, longest_delay, latency, seed, runs, capacity, others @ ..] =
            numbers;
        let [rest, seconds, rate, queue, gives_up, keep_alive, nagle] = others;
        if !RUNS.contains(&runs) {
            return Err(format!("runs={runs}: not one of {RUNS:?}"));
        }
        if capacity == 0 {
            return Err("capacity=0: no room for a byte".into());
        }
        let [lost, doubled, delayed, longest_delay, latency, rate, queue] =
            [lost, doubled, delayed, longest_delay, latency, rate, queue].map(|it| it as u32);
        Ok(Settings {
            incoming,
            source: source.clone(),
            target: target.clone(),
            fates: Fates { lost, doubled, delayed, longest_delay, latency, rate, queue },
            seed,
            runs,
            capacity: capacity as usize,
            rest: Duration::from_micros(rest),
            most: Duration::from_secs(seconds),
            options: Options {
                gives_up: Duration::from_secs(gives_up),
                keep_alive: Some(Duration::from_secs(keep_alive)).filter(|_| keep_alive > 0),
                ..Options::default()
            },
            nagle: nagle == 1,
        })
    }
}
