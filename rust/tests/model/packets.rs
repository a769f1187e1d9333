//! A packet queue is its packets, each with the gap before it, and a ring of bytes. A packet lies in one piece: where
//! it doesn't fit up to the storage's end, the rest there is its gap, which has a slot.
use crate::draw::Draw;
use net_base::storage::{Empty, Full, PacketBuffer, PacketMetadata, PacketsOver, Storage};
use std::collections::VecDeque;

struct Packet {
    header: u32,
    gap: usize,
    size: usize,
}

struct Model {
    slots: usize,
    bytes: Vec<u8>,
    read: usize,
    packets: VecDeque<Packet>,
}

impl Model {
    fn used(&self) -> usize {
        self.packets.iter().map(|it| it.gap + it.size).sum()
    }

    fn slots_used(&self) -> usize {
        self.packets.iter().map(|it| 1 + usize::from(it.gap > 0)).sum()
    }

    /// The gap before a packet, and where the packet lies, if it has room.
    fn place(&mut self, size: usize) -> Option<(usize, usize)> {
        let (all, used) = (self.bytes.len(), self.used());
        self.read = if used == 0 { 0 } else { self.read };
        let end = self.read + used;
        // What is free is up to the storage's end and from its beginning on, or between.
        let (here, there) = if end < all { (all - end, self.read) } else { (all - used, 0) };
        let (gap, at) = if size <= here { (0, end % all.max(1)) } else { (here, 0) };
        let slots = self.slots_used() + 1 + usize::from(gap > 0);
        (slots <= self.slots && (size <= here || size <= there)).then_some((gap, at))
    }

    /// Drops the gap before the first packet, and returns where that lies.
    fn skip(&mut self) -> Result<usize, Empty> {
        let packet = self.packets.front_mut().ok_or(Empty)?;
        self.read = (self.read + std::mem::take(&mut packet.gap)) % self.bytes.len().max(1);
        Ok(self.read)
    }

    fn take(&mut self) -> Packet {
        let packet = self.packets.pop_front().expect("a packet");
        self.read = (self.read + packet.size) % self.bytes.len().max(1);
        packet
    }
}

/// What was lent, which is written over.
fn swap(lent: &mut [u8], bytes: &[u8]) -> Vec<u8> {
    let old = lent.to_vec();
    lent.copy_from_slice(&bytes[..old.len()]);
    old
}

pub fn play(draw: &mut Draw) {
    let (slots, capacity) = (draw.of_these(&[0, 1, 2, 4, 6]), draw.of_these(&[0, 1, 4, 8, 16]));
    let mut bytes = draw.bytes(capacity);
    let mut lent: Vec<PacketMetadata<u32>> = vec![PacketMetadata::EMPTY; slots];
    let model = Model { slots, bytes: bytes.clone(), read: 0, packets: VecDeque::new() };
    draw.call(format_args!("{slots} slots over {bytes:?}"));
    match draw.below(2) {
        #[cfg(feature = "alloc")]
        0 => play_over(draw, PacketsOver::over(lent, bytes), model),
        _ => play_over(draw, PacketBuffer::new(&mut lent[..], &mut bytes[..]), model),
    }
}

fn play_over<M: Storage<PacketMetadata<u32>>, B: Storage<u8>>(
    draw: &mut Draw,
    mut queue: PacketsOver<u32, M, B>,
    mut model: Model,
) {
    for step in 0..50 {
        let capacity = model.bytes.len();
        let (size, kept, taken) = (draw.size(capacity), draw.size(capacity), draw.below(2) == 0);
        let (bytes, kind, header) = (draw.bytes(capacity + 3), draw.below(9), step);
        draw.call(format_args!("{kind}: {size} {kept} {taken} {bytes:?}"));
        match kind {
            0..=2 => {
                let data = &bytes[..draw.length(capacity)];
                let size = if kind == 1 { data.len() } else { size };
                let place = model.place(size);
                let given = match kind {
                    0 => queue.enqueue(size, header).map(|lent| (size, swap(lent, &bytes))),
                    1 => queue.push_slice(header, data).map(|()| (size, vec![])),
                    _ => {
                        let (mut old, kept) = (vec![], kept.min(size));
                        let f = |lent: &mut [u8]| {
                            old = swap(lent, &bytes);
                            kept
                        };
                        queue.enqueue_with_infallible(size, header, f).map(|kept| (kept, old))
                    }
                };
                let Some((gap, at)) = place else {
                    assert_eq!(given, Err(Full));
                    continue;
                };
                let old = swap(&mut model.bytes[at..at + size], &bytes);
                let kept = if kind == 2 { kept.min(size) } else { size };
                assert_eq!(given, Ok((kept, if kind == 1 { vec![] } else { old })));
                model.packets.push_back(Packet { header, gap, size: kept });
            }
            3 => {
                let at = model.skip();
                let wanted = at.map(|at| {
                    let first = &model.packets[0];
                    (&first.header, &model.bytes[at..at + first.size])
                });
                assert_eq!(queue.peek(), wanted);
            }
            4 | 5 => {
                let wanted = model.skip().map(|at| {
                    let packet = model.take();
                    (packet.header, swap(&mut model.bytes[at..at + packet.size], &bytes))
                });
                assert_eq!(
                    queue.dequeue().map(|(header, lent)| (header, swap(lent, &bytes))),
                    wanted
                );
            }
            6 => {
                let given = queue.dequeue_with(|header, lent| {
                    let old = (*header, swap(lent, &bytes));
                    *header += 1000;
                    if taken {
                        Ok(old)
                    } else {
                        Err(old)
                    }
                });
                let wanted = model.skip().map(|at| {
                    let (header, size) = (model.packets[0].header, model.packets[0].size);
                    model.packets[0].header += 1000;
                    let old = (header, swap(&mut model.bytes[at..at + size], &bytes));
                    if taken {
                        Ok(old)
                    } else {
                        Err(old)
                    }
                });
                if taken && wanted.is_ok() {
                    model.take();
                }
                assert_eq!(given, wanted);
            }
            7 => {
                let mut into = bytes[..kept.min(bytes.len())].to_vec();
                let mut wanted = into.clone();
                let given = queue.pop_slice(&mut into);
                let popped = model.skip().map(|at| {
                    let packet = model.take();
                    let count = packet.size.min(wanted.len());
                    wanted[..count].copy_from_slice(&model.bytes[at..at + count]);
                    (packet.header, count)
                });
                assert_eq!((given, into), (popped, wanted));
            }
            _ if draw.once_in(4) => {
                queue.reset();
                model.packets.clear();
                model.read = 0;
            }
            _ => {}
        }
        assert_eq!(
            (queue.slots_used(), queue.payload_bytes_count()),
            (model.slots_used(), model.used())
        );
        assert_eq!(
            (queue.len(), queue.is_empty()),
            (model.packets.len(), model.packets.is_empty())
        );
        assert_eq!(queue.is_full(), model.slots_used() == model.slots);
        assert_eq!((queue.packet_capacity(), queue.payload_capacity()), (model.slots, capacity));
    }
}
