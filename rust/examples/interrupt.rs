//! A ring in a `static`, which an interrupt fills and a main loop empties: here a thread is the interrupt.
//!
//! The two take turns: whoever has the lock has the whole ring. (A firmware has `critical_section::Mutex<RefCell<..>>`
//! here.) A ring of which one side writes while the other reads, without a lock, is the example `split_ring`.
use std::sync::Mutex;
use std::thread;

use net_base::storage::RingOver;

static RING: Mutex<RingOver<u8, [u8; 64]>> = Mutex::new(RingOver::over([0; 64]));

/// Enqueues bytes that arrived, as many as there is room for, and returns how many.
fn interrupt(bytes: &[u8]) -> usize {
    RING.lock().expect("no turn panics").enqueue_slice(bytes)
}

/// Dequeues bytes, and returns how many.
fn take(into: &mut [u8]) -> usize {
    RING.lock().expect("no turn panics").dequeue_slice(into)
}

fn main() {
    const COUNT: usize = 100_000;
    let interrupts = thread::spawn(|| {
        let bytes: Vec<u8> = (0..COUNT).map(|i| i as u8).collect();
        let mut sent = 0;
        while sent < COUNT {
            match interrupt(&bytes[sent..COUNT.min(sent + 48)]) {
                0 => thread::yield_now(),
                count => sent += count,
            }
        }
    });
    let (mut into, mut received) = ([0; 40], 0);
    while received < COUNT {
        let count = take(&mut into);
        for byte in &into[..count] {
            assert_eq!(*byte, received as u8);
            received += 1;
        }
        if count == 0 {
            thread::yield_now();
        }
    }
    interrupts.join().expect("the thread ends");
    println!("{received} bytes, in order");
}
