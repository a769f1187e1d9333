//! Each public call that requires something panics where that isn't so, with its message, and at the caller's line.
//! `python3 tools/guards.py --rows` looks that each guard has a row here, or in net-tcp's tests.
#![cfg(feature = "alloc")]
mod support;

use net_base::finite::{
    FiniteReceiverOver, FiniteSenderOver, SendBufferOver, SendRangesOver, StreamRangesOver,
    StreamReceiverOver,
};
use net_base::phy::{DeviceCapabilities, Medium};
use net_base::receiver::ReceiverOver;
use net_base::storage::{Assembler, PacketBuffer, PacketMetadata, RingOver, Run, SplitCounts};
use net_base::time::{Duration, Instant};
use support::panics;

const COUNTS: &str = "the counts are not those of such a ring";
const END: &str = "no number is left for an end";
const PRODUCT: &str = "attempt to multiply with overflow";
const SHORT: &str = "a smaller storage";

fn capabilities(medium: Medium, frame: usize) -> DeviceCapabilities {
    let mut made = DeviceCapabilities::default();
    made.medium = medium;
    made.max_transmission_unit = frame;
    made
}

#[test]
fn each_call_that_requires_something() {
    storage();
    receivers_and_senders();
    capabilities_and_time();
}

fn storage() {
    let counts = SplitCounts { written: 9, taken: 9 };
    let (mut bytes, mut slots) = ([0u8; 4], [PacketMetadata::EMPTY; 2]);
    let mut queue = PacketBuffer::new(&mut slots[..], &mut bytes[..]);
    let mut ring = RingOver::over([0u8; 4]);
    let mut assembler = Assembler::<4>::new();
    let words = "the range's end is above `usize::MAX`";
    panics("RingOver::enqueue_unallocated", "no room for so many elements", || {
        ring.enqueue_unallocated(5)
    });
    panics("RingOver::dequeue_allocated", "fewer elements are queued", || {
        ring.dequeue_allocated(1)
    });
    panics("RingOver::enqueue_many_with", "more elements than were lent", || {
        ring.enqueue_many_with(|it| (it.len() + 1, ()))
    });
    panics("RingOver::dequeue_many_with", "more elements than were lent", || {
        ring.dequeue_many_with(|it| (it.len() + 1, ()))
    });
    panics("RingOver::grow", SHORT, || {
        RingOver::over(&mut [0u8; 4][..]).grow(&mut [0; 3][..]).len()
    });
    panics("SplitCounts::free", COUNTS, || counts.free(4, 1));
    panics("SplitCounts::queued", COUNTS, || counts.queued(4, 1));
    panics("SplitCounts::write", COUNTS, || counts.write(&mut [0; 4], &[1]));
    panics("SplitCounts::read", COUNTS, || counts.read(&[0; 4], &mut [1]));
    panics("Assembler::add", words, || assembler.add(usize::MAX, 1));
    panics("Assembler::add_then_remove_front", words, || {
        assembler.add_then_remove_front(usize::MAX, 1)
    });
    panics("PacketsOver::enqueue_with_infallible", "more bytes than were lent", || {
        queue.enqueue_with_infallible(2, 'd', |_| 3)
    });
}

fn receivers_and_senders() {
    let mut finite = FiniteReceiverOver::<_, 2>::over_at([0; 4], 0);
    let mut sender = FiniteSenderOver::over_at([0; 4], 0);
    let mut receiver = ReceiverOver::<_, 2>::over_at([0; 4], 0);
    let mut buffer = SendBufferOver::over_at([0; 4], [Run::EMPTY; 2], [Run::EMPTY; 2], 0);
    let mut sent = SendRangesOver::over_at([Run::EMPTY; 2], [Run::EMPTY; 2], 0);
    let mut ranges = StreamRangesOver::over_at([Run::EMPTY; 2], 0, 4);
    let mut stream = StreamReceiverOver::over_at([0; 4], [Run::EMPTY; 2], 0);
    let (lent, queued) = ("more bytes than were lent", "more bytes than are queued");
    panics("FiniteReceiverOver::over_at", END, || {
        FiniteReceiverOver::<_, 2>::over_at([0; 4], u64::MAX)
    });
    panics("FiniteReceiverOver::reset_at", END, || finite.reset_at(u64::MAX));
    panics("FiniteReceiverOver::remove", queued, || finite.remove(1));
    panics("FiniteReceiverOver::read_with", lent, || finite.read_with(|it| (it.len() + 1, ())));
    panics("FiniteSenderOver::over_at", END, || FiniteSenderOver::over_at([0; 4], u64::MAX));
    panics("FiniteSenderOver::reset_at", END, || sender.reset_at(u64::MAX));
    panics("ReceiverOver::segment", "the segment's end is above `u64::MAX`", || {
        receiver.segment(u64::MAX, b"a")
    });
    panics("ReceiverOver::remove", queued, || receiver.remove(1));
    panics("ReceiverOver::read_with", lent, || receiver.read_with(|it| (it.len() + 1, ())));
    panics("SendBufferOver::over_at", END, || {
        SendBufferOver::over_at([0; 4], [Run::EMPTY; 2], [Run::EMPTY; 2], u64::MAX)
    });
    panics("SendBufferOver::reset_at", END, || buffer.reset_at(u64::MAX));
    panics("StreamReceiverOver::over_at", END, || {
        StreamReceiverOver::over_at([0; 4], [Run::EMPTY; 2], u64::MAX)
    });
    panics("StreamReceiverOver::reset_at", END, || stream.reset_at(u64::MAX));
    panics("StreamReceiverOver::remove", queued, || stream.remove(1));
    let (old, new) = (|| vec![0u8; 4], || vec![0u8; 3]);
    panics("FiniteReceiverOver::grow", SHORT, || {
        FiniteReceiverOver::<_, 2>::over(old()).grow(new())
    });
    panics("FiniteSenderOver::grow", SHORT, || FiniteSenderOver::over(old()).grow(new()));
    panics("ReceiverOver::grow", SHORT, || ReceiverOver::<_, 2>::over(old()).grow(new()));
    panics("SendBufferOver::grow", SHORT, || {
        SendBufferOver::over_at(old(), vec![], vec![], 0).grow(new())
    });
    panics("StreamReceiverOver::grow", SHORT, || {
        StreamReceiverOver::over_at(old(), vec![], 0).grow(new())
    });
    panics("SendBufferOver::grow_runs", "fewer runs", || {
        SendBufferOver::over_at(old(), vec![Run::EMPTY], vec![Run::EMPTY], 0)
            .grow_runs(vec![], vec![])
    });
    panics("SendRangesOver::over_at", END, || {
        SendRangesOver::over_at([Run::EMPTY; 2], [Run::EMPTY; 2], u64::MAX)
    });
    panics("SendRangesOver::reset_at", END, || sent.reset_at(u64::MAX));
    panics("SendRangesOver::grow_runs", "fewer runs", || {
        SendRangesOver::over_at(vec![Run::EMPTY], vec![Run::EMPTY], 0).grow_runs(vec![], vec![])
    });
    panics("StreamRangesOver::over_at", END, || {
        StreamRangesOver::over_at([Run::EMPTY; 2], u64::MAX, 4)
    });
    panics("StreamRangesOver::reset_at", END, || ranges.reset_at(u64::MAX));
    panics("StreamRangesOver::grow", "a smaller capacity", || ranges.grow(3));
    panics("StreamRangesOver::read", queued, || ranges.read(1));
    panics("StreamRangesOver::grow_runs", "fewer runs", || {
        StreamRangesOver::over_at(vec![Run::EMPTY], 0, 4).grow_runs(vec![])
    });
    panics("StreamReceiverOver::grow_runs", "fewer runs", || {
        StreamReceiverOver::over_at(old(), vec![Run::EMPTY], 0).grow_runs(vec![])
    });
}

fn capabilities_and_time() {
    let micros = Duration::from_micros;
    let (mut longest, mut four) = (Duration::MAX, micros(4));
    let (sum, short) = ("attempt to add with overflow", "overflow when subtracting durations");
    let (by_zero, less) = ("attempt to divide by zero", "attempt to subtract with overflow");
    let (left, right) =
        ("attempt to shift left with overflow", "attempt to shift right with overflow");
    let frame = |size| capabilities(Medium::Ethernet, size);
    panics("DeviceCapabilities::ip_mtu", less, || frame(13).ip_mtu());
    panics("DeviceCapabilities::max_ipv4_fragment_size", less, || {
        frame(33).max_ipv4_fragment_size(20)
    });
    panics("Duration::from_millis", PRODUCT, || Duration::from_millis(18_446_744_073_709_552));
    panics("Duration::from_secs", PRODUCT, || Duration::from_secs(18_446_744_073_710));
    panics("Duration::add", sum, || Duration::MAX + micros(1));
    panics("Duration::add_assign", sum, || longest += micros(1));
    panics("Duration::sub", short, || micros(4) - micros(5));
    panics("Duration::sub_assign", short, || four -= micros(5));
    panics("Duration::mul", PRODUCT, || Duration::MAX * 2);
    panics("Duration::mul_assign", PRODUCT, || longest *= 2);
    panics("Duration::div", by_zero, || micros(1) / 0);
    panics("Duration::div_assign", by_zero, || four /= 0);
    panics("Duration::shl", left, || micros(1) << 64);
    panics("Duration::shl_assign", left, || four <<= 64);
    panics("Duration::shr", right, || micros(1) >> 64);
    panics("Duration::shr_assign", right, || four >>= 64);
    panics("Instant::from_millis_const", PRODUCT, || {
        Instant::from_millis_const(9_223_372_036_854_776)
    });
    panics("Instant::from_secs_const", PRODUCT, || Instant::from_secs_const(9_223_372_036_855));
}
