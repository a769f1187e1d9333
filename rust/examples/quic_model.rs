//! A plain model of a `SendRanges` that has room for all ranges, and every list of five calls on both: they reply the
//! same. This needs no prover, which has shown the same of every list.
use net_base::finite::SendRanges;
use net_base::storage::Run;
use std::ops::Range;
use State::{Acknowledged, InFlight, Lost, Unsent};

/// How many bytes were written.
const COUNT: usize = 4;

#[derive(Clone, Copy, PartialEq)]
enum State {
    Unsent,
    InFlight,
    Lost,
    Acknowledged,
}

/// The state of each position.
struct Model([State; COUNT]);

impl Model {
    /// Returns what to send: the first positions that are lost, or else unsent, as many as have room.
    fn next(&self, size: usize) -> Option<Range<usize>> {
        let start = self.0.iter().position(|state| matches!(state, Lost | Unsent))?;
        let count = self.0[start..].iter().take_while(|state| **state == self.0[start]).count();
        Some(start..start + count.min(size))
    }

    fn mark(&mut self, range: Range<usize>) {
        self.0[range].fill(InFlight);
    }

    /// Returns how many positions weren't acknowledged before.
    fn acknowledge(&mut self, range: Range<usize>) -> usize {
        let known = self.0[range.clone()].iter().filter(|state| **state == Acknowledged).count();
        self.0[range.clone()].fill(Acknowledged);
        range.len() - known
    }

    fn lose(&mut self, range: Range<usize>) {
        self.0[range]
            .iter_mut()
            .filter(|state| **state == InFlight)
            .for_each(|state| *state = Lost);
    }
}

#[derive(Clone, Debug)]
enum Call {
    /// Marks what `next` returns for so many bytes.
    Send(usize),
    Acknowledge(Range<usize>),
    Lose(Range<usize>),
}

/// Makes the calls on both.
fn compare(list: [&Call; 5]) {
    let (mut model, runs) = (Model([Unsent; COUNT]), [Run::EMPTY; COUNT]);
    let (mut acked, mut sent) = (runs, runs); // room for all ranges
    let mut sending = SendRanges::new(&mut acked, &mut sent);
    assert_eq!(sending.write(COUNT as u64), COUNT as u64);
    for call in list {
        let is_sent = |end| end as u64 <= sending.numbers().sent;
        match call.clone() {
            Call::Send(size) => {
                let next = model.next(size);
                let range = next.clone().map(|it| it.start as u64..it.end as u64);
                assert_eq!(sending.next(u64::MAX, size), range, "{list:?}");
                let is_marked = range.is_some_and(|range| sending.mark(range));
                assert_eq!(is_marked, next.is_some(), "{list:?}");
                next.into_iter().for_each(|range| model.mark(range));
            }
            Call::Acknowledge(range) => {
                let new = is_sent(range.end).then(|| model.acknowledge(range.clone()) as u64);
                let reply = sending.acknowledge(range.start as u64..range.end as u64);
                assert_eq!(reply.ok().map(|reply| reply.new), new, "{list:?}");
            }
            Call::Lose(range) => {
                let is_lost = is_sent(range.end);
                assert_eq!(sending.lose(range.start as u64..range.end as u64), is_lost, "{list:?}");
                is_lost.then(|| model.lose(range));
            }
        }
        let in_flight = model.0.iter().filter(|state| **state == InFlight).count();
        assert_eq!(sending.in_flight(), in_flight as u64, "{list:?}");
    }
}

fn main() {
    let ranges = (0..COUNT).flat_map(|start| (start + 1..=COUNT).map(move |end| start..end));
    let calls = [Call::Send(1), Call::Send(3)].into_iter();
    let calls = calls.chain(ranges.clone().map(Call::Acknowledge)).chain(ranges.map(Call::Lose));
    let calls = calls.collect::<Vec<_>>();
    let count = calls.len().pow(5);
    for list in 0..count {
        compare([0, 1, 2, 3, 4].map(|at| &calls[list / calls.len().pow(at) % calls.len()]));
    }
    println!("{count} lists of five calls: each reply as the model's");
}
