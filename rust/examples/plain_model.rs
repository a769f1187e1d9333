//! A plain model of a `Receiver`, and every list of five calls on both: they reply the same. This needs no prover, which
//! has shown the same of every list. The repository's docs/PROVED.md quotes the model.
use net_base::receiver::Receiver;
use std::collections::BTreeMap;

const CAPACITY: u64 = 6;
/// How many ranges may wait.
const N: usize = 1;

#[derive(Default)]
struct Model {
    /// Each position that a segment kept, with the byte of the last one that did.
    kept: BTreeMap<u64, u8>,
    read: u64,
}

impl Model {
    /// The first position that no segment kept.
    fn missing(&self) -> u64 {
        (0..).find(|position| !self.kept.contains_key(position)).expect("few are kept")
    }

    /// The ranges that wait.
    fn waiting(&self) -> Vec<(u64, u64)> {
        let mut ranges: Vec<(u64, u64)> = vec![];
        for &position in self.kept.range(self.missing()..).map(|it| it.0) {
            match ranges.last_mut() {
                Some(range) if range.1 == position => range.1 += 1,
                _ => ranges.push((position, position + 1)),
            }
        }
        ranges
    }

    /// Returns how many bytes of a segment are kept, or `None` if it is refused.
    fn keep(&mut self, position: u64, data: &[u8]) -> Option<usize> {
        let (missing, before) = (self.missing(), self.kept.clone());
        let window = missing..self.read + CAPACITY;
        let bytes = (position..).zip(data.iter().copied()).filter(|(at, _)| window.contains(at));
        let bytes = bytes.collect::<BTreeMap<_, _>>();
        self.kept.extend(&bytes);
        if !bytes.is_empty() && !bytes.contains_key(&missing) && self.waiting().len() > N {
            self.kept = before; // nothing changes
            return None;
        }
        Some(bytes.len())
    }

    fn read(&mut self, count: u64) -> Vec<u8> {
        let unread = self.read..self.missing().min(self.read + count);
        self.read = unread.end;
        unread.map(|position| self.kept[&position]).collect()
    }
}

/// A segment's position and length, or how many bytes to read.
#[derive(Clone, Copy, Debug)]
enum Call {
    Keep(u64, usize),
    Read(usize),
}

/// Makes the calls on both, and returns how many segments were refused.
fn compare(list: &[Call]) -> usize {
    let (mut model, mut storage, mut refused) = (Model::default(), [0; CAPACITY as usize], 0);
    let mut receiver = Receiver::<N>::new(&mut storage[..]);
    for (number, &call) in list.iter().enumerate() {
        match call {
            Call::Keep(position, len) => {
                // No two bytes are equal.
                let data = [16 * number as u8 + 1, 16 * number as u8 + 2];
                let kept = receiver.keep(position, &data[..len]).ok().map(|reply| reply.kept);
                refused += usize::from(kept.is_none());
                assert_eq!(kept, model.keep(position, &data[..len]), "{list:?}");
            }
            Call::Read(count) => {
                let mut into = [0; CAPACITY as usize];
                let len = receiver.read(&mut into[..count]);
                assert_eq!(into[..len], model.read(count as u64), "{list:?}");
            }
        }
        assert_eq!(receiver.next(), model.missing(), "{list:?}");
        assert!(receiver.held().eq(model.waiting()), "{list:?}");
    }
    refused
}

fn main() {
    let segments =
        (0..=CAPACITY).flat_map(|position| [Call::Keep(position, 1), Call::Keep(position, 2)]);
    let calls = segments.chain([Call::Read(1), Call::Read(4)]).collect::<Vec<_>>();
    let (count, mut refused) = (calls.len().pow(5), 0);
    for list in 0..count {
        let call = |at| calls[list / calls.len().pow(at) % calls.len()];
        refused += compare(&[0, 1, 2, 3, 4].map(call));
    }
    println!("{count} lists of five calls: {refused} segments refused, each reply as the model's");
}
