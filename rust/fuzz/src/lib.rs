//! What the targets share: numbers out of a fuzzer's bytes.

/// The entry that libFuzzer calls, around a function that takes the bytes.
#[macro_export]
macro_rules! fuzz {
    ($target:path) => {
        #[unsafe(no_mangle)]
        extern "C" fn LLVMFuzzerTestOneInput(data: *const u8, size: usize) -> i32 {
            // Unwinding ends at this border: a panic aborts, and the fuzzer keeps the input.
            let data =
                if size == 0 { &[] } else { unsafe { std::slice::from_raw_parts(data, size) } };
            $target($crate::Draw(data));
            0
        }
    };
}

/// The bytes that are left of an input.
pub struct Draw<'a>(pub &'a [u8]);

impl Draw<'_> {
    pub fn is_empty(&self) -> bool {
        self.0.is_empty()
    }

    pub fn byte(&mut self) -> u8 {
        let (first, rest) = self.0.split_first().unwrap_or((&0, &[]));
        self.0 = rest;
        *first
    }

    pub fn below(&mut self, limit: u8) -> usize {
        (self.byte() % limit).into()
    }

    /// A number near `base`, or near the greatest one, or any.
    pub fn near(&mut self, base: u64) -> u64 {
        match self.below(8) {
            0 => u64::MAX - u64::from(self.byte()),
            1 => u64::from_le_bytes([0; 8].map(|_: u8| self.byte())),
            _ => base.wrapping_add(self.byte() as i8 as u64),
        }
    }

    /// Bytes of a segment: at most 31.
    pub fn bytes(&mut self) -> Vec<u8> {
        (0..self.below(32)).map(|_| self.byte()).collect()
    }
}

/// The byte of a stream at a position.
pub fn byte_at(position: u64) -> u8 {
    (position ^ (position >> 8)) as u8
}
