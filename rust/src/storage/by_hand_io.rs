//! By hand: rings, receivers and senders as std's readers and writers.
//!
//! To std `Ok(0)` of a reader is the end, and of a writer that nothing will be taken any more. Where nothing is there
//! yet, or no room is left for now, a call here is therefore refused as [`WouldBlock`](ErrorKind::WouldBlock).
use std::io::{BufRead, Error, ErrorKind, Read, Result, Write};

use super::{RingOver, Storage};
use crate::finite::{FiniteReceiverOver, FiniteSenderOver};
use crate::receiver::ReceiverOver;

/// How many bytes a call moved, unless it moved none though it was asked to, and may move some later.
fn moved(count: usize, asked: usize, is_for_now: bool) -> Result<usize> {
    if count == 0 && asked != 0 && is_for_now {
        return Err(Error::from(ErrorKind::WouldBlock));
    }
    Ok(count)
}

/// The bytes that a call lends, unless there are none, and some may come later.
fn lent(bytes: &[u8], is_for_now: bool) -> Result<&[u8]> {
    moved(bytes.len(), 1, is_for_now).map(|_count| bytes)
}

/// Reads what is queued. An empty ring returns the error [`ErrorKind::WouldBlock`], since more may be enqueued. So
/// `read_to_end` appends all that is queued, and then returns that error.
///
/// ```
/// use net_base::storage::RingOver;
/// use std::io::{ErrorKind, Read, Write};
///
/// let mut ring = RingOver::over([0; 4]);
/// assert_eq!(ring.write(b"abcde").expect("there is room"), 4);
/// let mut into = [0; 8];
/// assert_eq!((ring.read(&mut into).expect("bytes are queued"), &into[..4]), (4, &b"abcd"[..]));
/// assert_eq!(ring.read(&mut into).unwrap_err().kind(), ErrorKind::WouldBlock);
/// ```
impl<S: Storage<u8>> Read for RingOver<u8, S> {
    fn read(&mut self, into: &mut [u8]) -> Result<usize> {
        moved(self.dequeue_slice(into), into.len(), true)
    }
}

/// Lends the first contiguous part of the queue. An empty ring returns the error [`ErrorKind::WouldBlock`].
///
/// ```
/// use net_base::storage::RingOver;
/// use std::io::BufRead;
///
/// let mut ring = RingOver::over([0; 16]);
/// assert_eq!(ring.enqueue_slice(b"one\ntwo"), 7);
/// let mut line = String::new();
/// assert_eq!(ring.read_line(&mut line).expect("a whole line"), 4);
/// assert_eq!((line.as_str(), ring.fill_buf().expect("the rest")), ("one\n", &b"two"[..]));
/// ```
impl<S: Storage<u8>> BufRead for RingOver<u8, S> {
    fn fill_buf(&mut self) -> Result<&[u8]> {
        lent(self.get_allocated(0, usize::MAX), true)
    }

    /// # Panics
    ///
    /// Panics if fewer than `count` bytes are queued.
    fn consume(&mut self, count: usize) {
        self.dequeue_allocated(count);
    }
}

/// Reads what is queued. If nothing is, it returns the error [`ErrorKind::WouldBlock`], since this stream doesn't
/// end. For one that does, use a [`FiniteReceiver`](crate::finite::FiniteReceiver).
///
/// ```
/// use net_base::receiver::Receiver;
/// use std::io::{ErrorKind, Read};
///
/// let mut storage = [0; 16];
/// let mut receiver = Receiver::<4>::new(&mut storage[..]);
/// assert!(receiver.keep(2, b"cd").is_ok());
/// let mut into = [0; 4];
/// assert_eq!(receiver.read_exact(&mut into).unwrap_err().kind(), ErrorKind::WouldBlock);
/// assert!(receiver.keep(0, b"ab").is_ok());
/// receiver.read_exact(&mut into).expect("four bytes are queued");
/// assert_eq!(&into, b"abcd");
/// ```
impl<S: Storage<u8>, const N: usize> Read for ReceiverOver<S, N> {
    fn read(&mut self, into: &mut [u8]) -> Result<usize> {
        moved(ReceiverOver::read(self, into), into.len(), true)
    }
}

/// Lends the first contiguous part of the queue. If nothing is queued, it returns the error
/// [`ErrorKind::WouldBlock`].
impl<S: Storage<u8>, const N: usize> BufRead for ReceiverOver<S, N> {
    fn fill_buf(&mut self) -> Result<&[u8]> {
        lent(self.peek(0, usize::MAX), true)
    }

    /// # Panics
    ///
    /// Panics if fewer than `count` bytes are queued.
    fn consume(&mut self, count: usize) {
        self.remove(count);
    }
}

/// Reads what is queued. If nothing is, it returns `Ok(0)` at the stream's end, as
/// [`has_read_all`](FiniteReceiverOver::has_read_all) tests, and otherwise the error [`ErrorKind::WouldBlock`].
///
/// ```
/// use net_base::finite::FiniteReceiver;
/// use std::io::{ErrorKind, Read};
///
/// let mut storage = [0u8; 32];
/// let mut receiver = FiniteReceiver::<4>::new_at(&mut storage[..], 0);
/// assert!(receiver.keep(0, b"sum=10", false).is_ok());
/// let mut text = String::new();
/// let refused = receiver.read_to_string(&mut text).unwrap_err();
/// assert_eq!((refused.kind(), text.as_str()), (ErrorKind::WouldBlock, "sum=10"));
/// assert!(receiver.keep(6, b"00", true).is_ok());
/// assert_eq!((receiver.read_to_string(&mut text).unwrap(), text.as_str()), (2, "sum=1000"));
/// ```
impl<S: Storage<u8>, const N: usize> Read for FiniteReceiverOver<S, N> {
    fn read(&mut self, into: &mut [u8]) -> Result<usize> {
        let count = FiniteReceiverOver::read(self, into);
        moved(count, into.len(), !self.has_read_all())
    }
}

/// Lends the first contiguous part of the queue. If nothing is queued, it returns an empty slice at the stream's end,
/// and otherwise the error [`ErrorKind::WouldBlock`].
impl<S: Storage<u8>, const N: usize> BufRead for FiniteReceiverOver<S, N> {
    fn fill_buf(&mut self) -> Result<&[u8]> {
        lent(self.receiver().peek(0, usize::MAX), !self.has_read_all())
    }

    /// # Panics
    ///
    /// Panics if fewer than `count` bytes are queued.
    fn consume(&mut self, count: usize) {
        self.remove(count);
    }
}

/// Enqueues as many bytes as there is room for. A full ring returns the error [`ErrorKind::WouldBlock`], and one
/// without storage `Ok(0)`, since it never has room.
///
/// ```
/// use net_base::storage::RingOver;
/// use std::io::{ErrorKind, Write};
///
/// let mut ring = RingOver::over([0; 4]);
/// assert_eq!(ring.write(b"abcde").expect("there is room"), 4);
/// assert_eq!(ring.write(b"e").unwrap_err().kind(), ErrorKind::WouldBlock);
/// assert_eq!(RingOver::over([0; 0]).write(b"a").expect("no room ever"), 0);
/// ```
impl<S: Storage<u8>> Write for RingOver<u8, S> {
    fn write(&mut self, bytes: &[u8]) -> Result<usize> {
        moved(self.enqueue_slice(bytes), bytes.len(), self.capacity() != 0)
    }

    fn flush(&mut self) -> Result<()> {
        Ok(())
    }
}

/// Takes as many bytes as there is room for. A closed sender returns the error [`ErrorKind::BrokenPipe`], and a full
/// one [`ErrorKind::WouldBlock`]. One that will never have room, without storage or a position left, returns `Ok(0)`.
/// `flush` doesn't wait for acknowledgements.
///
/// ```
/// use net_base::finite::FiniteSender;
/// use std::io::{ErrorKind, Write};
///
/// let mut storage = [0; 16];
/// let mut sender = FiniteSender::new_at(&mut storage[..], 0);
/// write!(sender, "GET {}", 7).expect("there is room");
/// sender.close();
/// assert_eq!(sender.send_at(0, 9).bytes, b"GET 7");
/// assert_eq!(Write::write(&mut sender, b"more").unwrap_err().kind(), ErrorKind::BrokenPipe);
/// ```
impl<S: Storage<u8>> Write for FiniteSenderOver<S> {
    fn write(&mut self, bytes: &[u8]) -> Result<usize> {
        if self.is_closed() && !bytes.is_empty() {
            return Err(Error::from(ErrorKind::BrokenPipe));
        }
        let is_full = !self.is_empty() && self.len() == self.capacity();
        moved(FiniteSenderOver::write(self, bytes), bytes.len(), is_full)
    }

    fn flush(&mut self) -> Result<()> {
        Ok(())
    }
}
