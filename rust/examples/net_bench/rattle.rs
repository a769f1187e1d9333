//! By hand: what the erased program calls and Rust hasn't so. Lists and texts whose memory may be refused, and of other
//! crates the few functions that it calls.

/// What each erased file imports.
pub mod prelude {
    pub use super::{String, Vec};
}

/// A request for memory was refused.
#[derive(Debug)]
pub struct AllocError;

/// Where memory is asked for, which may be refused.
pub trait Allocator {
    fn request(&self) -> Result<(), AllocError>;
}

/// Rust's memory, which refuses only where there is none.
#[derive(Clone, Copy)]
pub struct Global;

impl Allocator for Global {
    fn request(&self) -> Result<(), AllocError> {
        Ok(())
    }
}

/// Rust's `Vec`, but that memory may be refused.
pub struct Vec<T, A = Global> {
    items: std::vec::Vec<T>,
    memory: A,
}

impl<T, A: Allocator> Vec<T, A> {
    pub fn new(memory: A) -> Self {
        Vec { items: std::vec::Vec::new(), memory }
    }

    pub fn with_capacity(memory: A, count: usize) -> Result<Self, AllocError> {
        let mut list = Vec::new(memory);
        list.reserve(count)?;
        Ok(list)
    }

    pub fn reserve(&mut self, more: usize) -> Result<(), AllocError> {
        if self.items.capacity() - self.items.len() >= more {
            return Ok(());
        }
        self.memory.request()?;
        self.items.try_reserve(more).map_err(|_| AllocError)
    }

    pub fn extend(&mut self, items: impl IntoIterator<Item = T>) -> Result<(), AllocError> {
        for item in items {
            self.reserve(1)?;
            self.items.push(item);
        }
        Ok(())
    }

    pub fn clear(&mut self) {
        self.items.clear();
    }

    pub fn as_mut_slice(&mut self) -> &mut [T] {
        &mut self.items
    }
}

impl<T: Copy, A: Allocator> Vec<T, A> {
    pub fn extend_from_slice(&mut self, items: &[T]) -> Result<(), AllocError> {
        self.reserve(items.len())?;
        self.items.extend_from_slice(items);
        Ok(())
    }

    pub fn filled(memory: A, item: T, count: usize) -> Result<Self, AllocError> {
        let mut list = Vec::with_capacity(memory, count)?;
        list.items.resize(count, item);
        Ok(list)
    }
}

impl<T, A> std::ops::Deref for Vec<T, A> {
    type Target = [T];

    fn deref(&self) -> &[T] {
        &self.items
    }
}

impl<T, A> std::ops::DerefMut for Vec<T, A> {
    fn deref_mut(&mut self) -> &mut [T] {
        &mut self.items
    }
}

/// Rattle's `vec![in memory; item; count]`, in the modules that are declared after this one.
macro_rules! vec {
    (in $memory:expr; $item:expr; $count:expr) => {
        crate::rattle::Vec::filled($memory, $item, $count)
    };
}

/// Rust's `String`, but that memory may be refused.
pub struct String<A = Global>(Vec<u8, A>);

impl<A: Allocator> String<A> {
    pub fn new(memory: A) -> Self {
        String(Vec::new(memory))
    }

    pub fn push_str(&mut self, text: &str) -> Result<(), AllocError> {
        self.0.extend_from_slice(text.as_bytes())
    }

    pub fn clear(&mut self) {
        self.0.clear();
    }

    pub fn as_bytes(&self) -> &[u8] {
        &self.0
    }

    /// What `write!` calls. All that is written here can be, but for its memory.
    pub fn write_fmt(&mut self, text: std::fmt::Arguments) -> Result<(), AllocError> {
        std::fmt::Write::write_fmt(self, text).map_err(|_| AllocError)
    }
}

impl<A: Allocator> std::fmt::Write for String<A> {
    fn write_str(&mut self, text: &str) -> std::fmt::Result {
        self.push_str(text).map_err(|_| std::fmt::Error)
    }
}

impl<A> std::fmt::Display for String<A> {
    fn fmt(&self, f: &mut std::fmt::Formatter) -> std::fmt::Result {
        f.write_str(std::str::from_utf8(&self.0).map_err(|_| std::fmt::Error)?)
    }
}

/// The text of an error, of which Rattle derives `Display`.
macro_rules! error_text {
    ($error:ident, $($value:pat => $text:literal $(($field:ident))?),*) => {
        impl std::fmt::Display for $error {
            fn fmt(&self, f: &mut std::fmt::Formatter) -> std::fmt::Result {
                match self { $($value => write!(f, $text $(, $field)?)),* }
            }
        }
    };
}

pub(crate) use error_text;

/// Rattle's `std`.
pub mod std {
    pub use ::std::*;

    pub mod alloc {
        pub use crate::rattle::{AllocError, Allocator, Global};
    }
}

pub mod net_ring {
    pub use net_base::{managed::ManagedSlice, storage::RingBuffer};
}

pub mod net_assembler {
    pub use net_base::storage::{Assembler, TooManyHolesError};
}

pub mod net_receiver {
    pub use crate::schedule::*;
    pub use net_base::receiver::{self, Kept, Receiver};
    pub use receiver as kept;
}

pub mod memchr {
    use std::io::BufRead;

    /// Returns where the byte is first: by std's search, which nothing else of std gives away.
    pub fn memchr(byte: u8, bytes: &[u8]) -> Option<usize> {
        let mut rest = bytes;
        let last = rest.skip_until(byte).ok()?.checked_sub(1)?;
        (bytes[last] == byte).then_some(last)
    }
}

pub mod hex {
    use super::{AllocError, Allocator, String, Vec};

    /// The text isn't two hexadecimal digits for each byte.
    pub struct FromHexError;

    fn digit(value: u8) -> u8 {
        value + if value < 10 { b'0' } else { b'a' - 10 }
    }

    fn value(digit: u8) -> Result<u8, FromHexError> {
        char::from(digit).to_digit(16).map(|value| value as u8).ok_or(FromHexError)
    }

    pub fn encode<A: Allocator>(memory: A, bytes: &[u8]) -> Result<String<A>, AllocError> {
        let mut text = Vec::filled(memory, 0, 2 * bytes.len())?;
        let _ = encode_to_slice(bytes, &mut text);
        Ok(String(text))
    }

    pub fn encode_to_slice(bytes: &[u8], text: &mut [u8]) -> Result<(), FromHexError> {
        if text.len() != 2 * bytes.len() {
            return Err(FromHexError);
        }
        for (byte, pair) in bytes.iter().zip(text.chunks_exact_mut(2)) {
            pair[0] = digit(byte >> 4);
            pair[1] = digit(byte & 15);
        }
        Ok(())
    }

    pub fn decode_to_slice(text: &[u8], bytes: &mut [u8]) -> Result<(), FromHexError> {
        if text.len() != 2 * bytes.len() {
            return Err(FromHexError);
        }
        for (byte, pair) in bytes.iter_mut().zip(text.chunks_exact(2)) {
            *byte = 16 * value(pair[0])? + value(pair[1])?;
        }
        Ok(())
    }
}

pub mod arrayvec {
    /// A text of at most `N` bytes, without a heap.
    pub struct ArrayString<const N: usize> {
        bytes: [u8; N],
        length: usize,
    }

    impl<const N: usize> ArrayString<N> {
        pub fn new() -> Self {
            ArrayString { bytes: [0; N], length: 0 }
        }

        pub fn as_bytes(&self) -> &[u8] {
            &self.bytes[..self.length]
        }
    }

    impl<const N: usize> std::fmt::Write for ArrayString<N> {
        fn write_str(&mut self, text: &str) -> std::fmt::Result {
            let room = self.bytes.get_mut(self.length..self.length + text.len());
            room.ok_or(std::fmt::Error)?.copy_from_slice(text.as_bytes());
            self.length += text.len();
            Ok(())
        }
    }
}
