//! A ring in a `static`, which one thread fills and another empties, without a lock and without `unsafe`. An interrupt and
//! a program on one processor take it in the same way.
use std::thread;

use net_base::storage::SplitRing;

static RING: SplitRing<1000> = SplitRing::new();

fn byte_at(position: usize) -> u8 {
    (position * 7 + position / 256) as u8
}

fn main() {
    let total =
        std::env::args().nth(1).map_or(1_000_000, |word| word.parse().expect("a count of bytes"));
    let writer = thread::spawn(move || {
        let mut sent = 0;
        while sent < total {
            let burst: Vec<u8> = (sent..total.min(sent + 1 + sent % 97)).map(byte_at).collect();
            match RING.write(&burst) {
                0 => thread::yield_now(),
                count => sent += count,
            }
        }
    });
    let (mut into, mut received) = ([0; 64], 0);
    while received < total {
        let count = RING.read(&mut into);
        for byte in &into[..count] {
            assert_eq!(*byte, byte_at(received));
            received += 1;
        }
        if count == 0 {
            thread::yield_now();
        }
    }
    writer.join().expect("the thread ends");
    println!("{received} bytes, in order");
}
