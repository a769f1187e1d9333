//! An interrupt wakes the task that waits for bytes, without a lock around the ring.
//!
//! Firmware has an `AtomicWaker` in the place of the mutex, as the crate `embassy-sync` has it, and its executor in the
//! place of `block_on`.
use std::future::poll_fn;
use std::pin::pin;
use std::sync::{Arc, Mutex};
use std::task::{Context, Poll, Wake, Waker};
use std::thread;

use net_base::storage::{SplitReader, SplitRing, SplitWriter};

static WAKER: Mutex<Option<Waker>> = Mutex::new(None);

/// What the interrupt of a UART does. Returns whether there was room for the byte: otherwise it is lost.
fn on_byte(writer: &mut SplitWriter<'_, 64>, byte: u8) -> bool {
    let is_kept = writer.write(&[byte]) == 1;
    if let Some(waker) = WAKER.lock().expect("no panic").take() {
        waker.wake();
    }
    is_kept
}

/// Waits until there are bytes, and returns how many it has read.
async fn read(reader: &mut SplitReader<'_, 64>, into: &mut [u8]) -> usize {
    poll_fn(|context| {
        // The waker comes first: a byte that arrives after the look at the ring wakes the task.
        *WAKER.lock().expect("no panic") = Some(context.waker().clone());
        match reader.read(into) {
            0 => Poll::Pending,
            count => Poll::Ready(count),
        }
    })
    .await
}

struct Unparks(thread::Thread);

impl Wake for Unparks {
    fn wake(self: Arc<Self>) {
        self.0.unpark();
    }
}

/// A small executor.
fn block_on<T>(future: impl Future<Output = T>) -> T {
    let (waker, mut future) = (Arc::new(Unparks(thread::current())).into(), pin!(future));
    loop {
        if let Poll::Ready(value) = future.as_mut().poll(&mut Context::from_waker(&waker)) {
            return value;
        }
        thread::park();
    }
}

fn main() {
    let mut ring = SplitRing::<64>::new();
    let (mut writer, mut reader) = ring.split(); // one end for each side: a second writer doesn't compile
    let (mut text, mut into) = (Vec::new(), [0; 16]);
    thread::scope(|threads| {
        threads.spawn(move || assert!(b"ping".iter().all(|&byte| on_byte(&mut writer, byte))));
        block_on(async {
            while text.len() < 4 {
                let count = read(&mut reader, &mut into).await;
                text.extend(&into[..count]);
            }
        });
    });
    println!("received {:?}", String::from_utf8_lossy(&text));
}
