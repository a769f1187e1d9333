//! What is drawn.
use std::fmt::Arguments;

/// A generator of draws, xorshift64*, and the calls so far where they are wanted.
pub struct Draw {
    state: u64,
    pub calls: Option<Vec<String>>,
}

impl Draw {
    pub fn of(seed: u64) -> Self {
        let mut draw = Draw { state: seed ^ 0x9e37_79b9_7f4a_7c15, calls: None };
        (0..9).for_each(|_| _ = draw.any());
        draw
    }

    pub fn any(&mut self) -> u64 {
        self.state ^= self.state << 13;
        self.state ^= self.state >> 7;
        self.state ^= self.state << 17;
        self.state.wrapping_mul(0x2545_f491_4f6c_dd1d)
    }

    pub fn below(&mut self, limit: u64) -> u64 {
        ((u128::from(self.any()) * u128::from(limit)) >> 64) as u64
    }

    /// True once in so many draws.
    pub fn once_in(&mut self, draws: u64) -> bool {
        self.below(draws) == 0
    }

    pub fn of_these<T: Copy>(&mut self, these: &[T]) -> T {
        these[self.below(these.len() as u64) as usize]
    }

    /// A size about `most`: often none, one, all, and one more; now and then the greatest.
    pub fn size(&mut self, most: usize) -> usize {
        match self.below(12) {
            0 => 0,
            1 => 1,
            2 => most,
            3 => most.saturating_add(1),
            4 => self.of_these(&[usize::MAX, usize::MAX - 1, usize::MAX / 2 + 1, most]),
            _ => self.below((most as u64).saturating_add(1)) as usize,
        }
    }

    /// Storages to move to, one after another from the last one on: most are larger than one of `capacity` bytes.
    pub fn larger(&mut self, capacity: usize) -> Vec<Vec<u8>> {
        [4, 3, 1, 0, 2, 1]
            .map(|count| vec![9; capacity * count / 2 + self.below(3) as usize])
            .into()
    }

    /// A size that bytes can have: about `most`, and at most three more.
    pub fn length(&mut self, most: usize) -> usize {
        self.size(most).min(most + 3)
    }

    /// A position from 9 below to `above` above another one, where there are such; now and then one that 32 bits don't
    /// tell from it.
    pub fn near(&mut self, pos: u64, above: u64) -> u64 {
        let near = pos.saturating_sub(9).saturating_add(self.below(above + 10));
        let word = self.of_these(&[1u64 << 32, 1 << 33, 1 << 48, 1 << 63]);
        match self.below(16) {
            0 => self.number(),
            1 => pos,
            2 => pos.saturating_add(above),
            3 => near.checked_sub(word).or(near.checked_add(word)).unwrap_or(near),
            _ => near,
        }
    }

    /// Any number: often one of a few bits, or about 2^31, 2^32, 2^63 or 2^64.
    pub fn number(&mut self) -> u64 {
        let edge = self.of_these(&[0u64, 1 << 31, 1 << 32, 1 << 63, 0]);
        match self.below(4) {
            0 => self.any(),
            1 => self.any() >> self.below(64),
            2 => edge.wrapping_add(self.below(4)),
            _ => edge.wrapping_sub(self.below(4)),
        }
    }

    /// Where a stream begins: there are numbers after it.
    pub fn first(&mut self) -> u64 {
        self.of_these(&[
            0,
            0,
            1,
            1 << 32,
            (1 << 32) - 20,
            (1 << 63) - 20,
            u64::MAX - 1,
            u64::MAX - 30,
        ])
    }

    pub fn bytes(&mut self, count: usize) -> Vec<u8> {
        (0..count).map(|_| self.any() as u8).collect()
    }

    /// Notes the call that is made next.
    pub fn call(&mut self, call: Arguments) {
        if let Some(calls) = &mut self.calls {
            calls.push(call.to_string());
        }
    }
}
