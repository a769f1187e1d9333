//! A ring, an assembler and a packet queue without std: `python3 compare/sizes.py` builds it over this crate and over
//! smoltcp.
#![no_std]
#![no_main]

use core::hint::black_box;

use smoltcp::storage::{Assembler, PacketBuffer, PacketMetadata, RingBuffer};

#[panic_handler]
fn panic(_: &core::panic::PanicInfo) -> ! {
    loop {}
}

/// Bytes that arrive out of order go through a ring, and packets through a queue.
fn run(data: &[u8]) -> usize {
    let (mut storage, mut bytes) = ([0; 64], [0; 64]);
    let mut slots = [PacketMetadata::EMPTY; 4];
    let mut ring = RingBuffer::new(&mut storage[..]);
    let mut queue = PacketBuffer::new(&mut slots[..], &mut bytes[..]);
    let mut assembler = Assembler::new();
    let mut sum = 0;
    for (round, part) in data.chunks(9).enumerate() {
        let offset = black_box(round % 3);
        let count = ring.write_unallocated(offset, part);
        if let Ok(front) = assembler.add_then_remove_front(offset, count) {
            ring.enqueue_unallocated(front);
        }
        let mut into = [0; 9];
        sum += ring.dequeue_slice(&mut into);
        if let Ok(packet) = queue.enqueue(part.len(), round) {
            packet.copy_from_slice(part);
        }
        if let Ok((header, packet)) = queue.dequeue() {
            sum += header + packet.len();
        }
    }
    sum
}

#[unsafe(no_mangle)]
pub extern "C" fn _start() -> ! {
    black_box(run(black_box(&[7; 99])));
    loop {}
}
