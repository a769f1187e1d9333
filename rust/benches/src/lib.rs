//! What programs write over std's collections in place of an assembler and a receiver.
use std::collections::BTreeMap;

/// Ranges that have arrived, by their start: neighbours and overlaps are joined.
#[derive(Default)]
pub struct Ranges(BTreeMap<usize, usize>);

impl Ranges {
    pub fn add(&mut self, offset: usize, size: usize) {
        let (mut start, mut end) = (offset, offset + size);
        while let Some((from, to)) = self.0.range(..=end).next_back().map(|(a, b)| (*a, *b)) {
            if to < start {
                break;
            }
            (start, end) = (start.min(from), end.max(to));
            self.0.remove(&from);
        }
        self.0.insert(start, end);
    }

    /// Takes the range at 0 off, and counts the others from its end.
    pub fn remove_front(&mut self) -> usize {
        let Some(length) = self.0.remove(&0) else { return 0 };
        let rest = std::mem::take(&mut self.0);
        self.0.extend(rest.into_iter().map(|(start, end)| (start - length, end - length)));
        length
    }
}

/// A stream out of segments, each in a box of its own until it is next.
#[derive(Default)]
pub struct Boxes {
    held: BTreeMap<u64, Box<[u8]>>,
    next: u64,
}

impl Boxes {
    pub fn keep(&mut self, pos: u64, bytes: &[u8]) {
        if pos + bytes.len() as u64 > self.next {
            self.held.insert(pos, bytes.into());
        }
    }

    /// Copies the next segments to `into`, as many as fit whole, and returns how many bytes.
    pub fn read(&mut self, into: &mut [u8]) -> usize {
        let mut count = 0;
        while let Some(first) = self.held.first_entry() {
            if *first.key() > self.next {
                break;
            }
            let new = &first.get()[(self.next - first.key()) as usize..];
            let Some(place) = into.get_mut(count..count + new.len()) else { break };
            place.copy_from_slice(new);
            (count, self.next) = (count + new.len(), self.next + new.len() as u64);
            first.remove();
        }
        count
    }
}
