//! The exports with C's convention. Written by tools/ffi.py.
use crate::{new_mut, slice, slice_mut, value, value_mut, Passed};
use proved::exports::*;
use proved::exports::answer_limit::*;
use proved::exports::finite_receiver::*;
use proved::exports::fragments::*;
use proved::exports::heads::finite_receiver::*;
use proved::exports::heads::fragments::*;
use proved::exports::heads::packets::*;
use proved::exports::heads::parts_sum::*;
use proved::exports::heads::ring::*;
use proved::exports::packets::*;
use proved::exports::receiver::*;
use proved::exports::receiving_end::*;
use proved::exports::refusals::*;
use proved::exports::retransmission::*;
use proved::exports::sending_end::*;
use proved::exports::sequence_number::*;

raw! {
    FragmentsHead { present: [usize; 2], has_total: [u8; 1], total: usize, expires_at: u64 }
    PartsSum { sum: u16, odd: [u8; 1] }
    ReceiverHead { first: [u64; 2], place: [usize; 4] }
    FiniteReceiverHead { receiver: ReceiverHead, after_end: u64 }
    ReceivingHead { advertised: [u64; 8], segment_size: u16, scale: [u8; 2], has_duplicate: [u8; 1] }
    ReceivingEnd { receiver: FiniteReceiverHead, runs: [usize; 32], head: ReceivingHead }
    Segment { seq: [u64; 2], syn: [u8; 3] }
    SenderHead { first_unacknowledged: u64, place: [usize; 2] }
    FiniteSenderHead { sender: SenderHead, closed: [u64; 3] }
    ScoreboardHead { base: u64, reported: [usize; 2] }
    LossRecovery { until: [u64; 13], duplicates: usize, has_probe: [u8; 3] }
    BufferHead { scoreboard: ScoreboardHead, recovery: LossRecovery }
    RetransmissionTimer { srtt_8: [u64; 11], has_estimate: [u8; 6] }
    SendingHead { buffer: BufferHead, timer: RetransmissionTimer, peer_window: [u64; 5], segment_size: usize, no_delay:
        [u8; 4] }
    SendingEnd { sender: FiniteSenderHead, runs: [usize; 32], head: SendingHead, first_timeout: [u64; 5] }
}
passed! { FragmentsHead: has_total }
passed! { PartsSum: odd }
passed! { ReceivingEnd: head.has_duplicate }
passed! { Segment: syn }
passed! { SendingEnd: head.buffer.recovery.has_probe, head.timer.has_estimate, head.no_delay }
passed! { Acknowledgement, Announcement, AnswerLimit, FiniteReceiverHead, KeptCounts, PacketsHead, RingHead,
        TimeoutBounds, i64, u16, u64, usize }

export! { "net_base_8_ring_init" = net_base_ring_init, (ring: new &mut RingHead); }
export! { "net_base_8_ring_unallocated" = net_base_ring_unallocated, (ring: &RingHead, capacity: usize, offset: usize,
    size: usize) -> Span, else refused_span(); }
export! { "net_base_8_ring_allocated" = net_base_ring_allocated, (ring: &RingHead, capacity: usize, offset: usize, size:
    usize) -> Span, else refused_span(); }
export! { "net_base_8_ring_enqueue" = net_base_ring_enqueue, (ring: &mut RingHead, capacity: usize, count: usize) ->
    bool, else false; }
export! { "net_base_8_ring_dequeue" = net_base_ring_dequeue, (ring: &mut RingHead, capacity: usize, count: usize) ->
    bool, else false; }
export! { "net_base_8_ring_enqueue_slice" = net_base_ring_enqueue_slice, (ring: &mut RingHead, storage: &mut [u8], data:
    &[u8]) -> usize, else no_number(); }
export! { "net_base_8_ring_dequeue_slice" = net_base_ring_dequeue_slice, (ring: &mut RingHead, storage: &[u8], into:
    &mut [u8]) -> usize, else no_number(); }
export! { "net_base_8_packets_init" = net_base_packets_init, (packets: new &mut PacketsHead); }
export! { "net_base_8_packets_shorten_last" = net_base_packets_shorten_last, (packets: &mut PacketsHead, slots: &mut
    [PacketSlot], capacity: usize, count: usize) -> bool, else false; }
export! { "net_base_8_packets_enqueue" = net_base_packets_enqueue, (packets: &mut PacketsHead, slots: &mut [PacketSlot],
    capacity: usize, size: usize) -> PacketPlace, else refused_packet_place(); }
export! { "net_base_8_packets_dequeue" = net_base_packets_dequeue, (packets: &mut PacketsHead, slots: &[PacketSlot],
    capacity: usize) -> FirstPacket, else refused_first_packet(); }
export! { "net_base_8_packets_peek" = net_base_packets_peek, (packets: &PacketsHead, slots: &[PacketSlot], capacity:
    usize) -> FirstPacket, else refused_first_packet(); }
export! { "net_base_8_fragments_init" = net_base_fragments_init, (fragments: new &mut FragmentsHead, expires_at: i64); }
export! { "net_base_8_fragments_is_sound" = net_base_fragments_is_sound, (fragments: &FragmentsHead, capacity: usize,
    runs: &[Run]) -> bool, else false; }
export! { "net_base_8_fragments_set_total_size" = net_base_fragments_set_total_size, (fragments: &mut FragmentsHead,
    capacity: usize, runs: &[Run], size: usize) -> SizeStatus, else NET_BASE_REFUSED, sound
    net_base_fragments_is_sound(fragments, capacity, runs); }
export! { "net_base_8_fragments_add" = net_base_fragments_add, (fragments: &mut FragmentsHead, storage: &mut [u8], runs:
    &mut [Run], offset: usize, data: &[u8]) -> FragmentStatus, else NET_BASE_REFUSED, sound
    net_base_fragments_is_sound(fragments, storage.len(), runs); }
export! { "net_base_8_fragments_differs" = net_base_fragments_differs, (fragments: &FragmentsHead, storage: &[u8], runs:
    &[Run], offset: usize, data: &[u8]) -> bool, else true, sound net_base_fragments_is_sound(fragments, storage.len(),
    runs); }
export! { "net_base_8_fragments_complete" = net_base_fragments_complete, (fragments: &FragmentsHead, capacity: usize,
    runs: &[Run], size: &mut usize) -> bool, else false, sound net_base_fragments_is_sound(fragments, capacity, runs); }
export! { "net_base_8_parts_sum_init" = net_base_parts_sum_init, (sum: new &mut PartsSum); }
export! { "net_base_8_parts_sum_add" = net_base_parts_sum_add, (sum: &mut PartsSum, part: &[u8]); }
export! { "net_base_8_parts_sum_checksum" = net_base_parts_sum_checksum, (sum: &PartsSum) -> u16, else 0; }
export! { "net_base_8_finite_receiver_init" = net_base_finite_receiver_init, (receiver: new &mut FiniteReceiverHead,
    first: u64) -> bool, else false; }
export! { "net_base_8_finite_receiver_is_sound" = net_base_finite_receiver_is_sound, (receiver: &FiniteReceiverHead,
    capacity: usize, runs: &[Run]) -> bool, else false; }
export! { "net_base_8_finite_receiver_can_end" = net_base_finite_receiver_can_end, (receiver: &FiniteReceiverHead, runs:
    &[Run], position: u64) -> bool, else false; }
export! { "net_base_8_finite_receiver_acknowledged" = net_base_finite_receiver_acknowledged, (receiver:
    &FiniteReceiverHead, number: &mut u64) -> bool, else false; }
export! { "net_base_8_finite_receiver_has_read_all" = net_base_finite_receiver_has_read_all, (receiver:
    &FiniteReceiverHead) -> bool, else false; }
export! { "net_base_8_finite_receiver_read" = net_base_finite_receiver_read, (receiver: &mut FiniteReceiverHead,
    storage: &[u8], into: &mut [u8]) -> usize, else no_number(); }
export! { "net_base_8_finite_receiver_remove" = net_base_finite_receiver_remove, (receiver: &mut FiniteReceiverHead,
    capacity: usize, count: usize) -> bool, else false; }
export! { "net_base_8_finite_receiver_segment" = net_base_finite_receiver_segment, (receiver: &mut FiniteReceiverHead,
    storage: &mut [u8], runs: &mut [Run], position: u64, bytes: &[u8], is_last: bool, counts: &mut KeptCounts) ->
    SegmentStatus, else NET_BASE_REFUSED, sound net_base_finite_receiver_is_sound(receiver, storage.len(), runs); }
export! { "net_base_8_finite_receiver_window_end" = net_base_finite_receiver_window_end, (receiver: &FiniteReceiverHead,
    capacity: usize, end: &mut u64) -> bool, else false; }
export! { "net_base_8_receiving_end_init" = net_base_receiving_end_init, (end: new &mut ReceivingEnd, first: u64,
    segment_size: u16) -> bool, else false; }
export! { "net_base_8_receiving_end_is_sound" = net_base_receiving_end_is_sound, (end: &ReceivingEnd, capacity: usize)
    -> bool, else false; }
export! { "net_base_8_receiving_end_open" = net_base_receiving_end_open, (end: &mut ReceivingEnd, capacity: usize,
    first: u64, scale: u8, window: &mut u16) -> bool, else false; }
export! { "net_base_8_receiving_end_classify" = net_base_receiving_end_classify, (end: &ReceivingEnd, capacity: usize,
    segment: &Segment) -> ArrivalStatus, else NET_BASE_REFUSED; }
export! { "net_base_8_receiving_end_arrived" = net_base_receiving_end_arrived, (end: &mut ReceivingEnd, storage: &mut
    [u8], position: u64, bytes: &[u8], is_last: bool, counts: &mut KeptCounts) -> SegmentStatus, else NET_BASE_REFUSED,
    sound net_base_receiving_end_is_sound(end, storage.len()); }
export! { "net_base_8_receiving_end_answer" = net_base_receiving_end_answer, (end: &mut ReceivingEnd); }
export! { "net_base_8_receiving_end_is_due" = net_base_receiving_end_is_due, (end: &ReceivingEnd) -> bool, else false; }
export! { "net_base_8_receiving_end_is_wanted" = net_base_receiving_end_is_wanted, (end: &ReceivingEnd, capacity: usize)
    -> bool, else false, sound net_base_receiving_end_is_sound(end, capacity); }
export! { "net_base_8_receiving_end_announce" = net_base_receiving_end_announce, (end: &mut ReceivingEnd, capacity:
    usize, next: &mut u64, window: &mut u16) -> bool, else false, sound net_base_receiving_end_is_sound(end, capacity);
    }
export! { "net_base_8_receiving_end_acknowledgement" = net_base_receiving_end_acknowledgement, (end: &mut ReceivingEnd,
    capacity: usize, acknowledgement: &mut Acknowledgement) -> bool, else false, sound
    net_base_receiving_end_is_sound(end, capacity); }
export! { "net_base_8_receiving_end_read" = net_base_receiving_end_read, (end: &mut ReceivingEnd, storage: &[u8], into:
    &mut [u8]) -> usize, else no_number(); }
export! { "net_base_8_sending_end_init" = net_base_sending_end_init, (end: new &mut SendingEnd, first: u64,
    first_timeout: u64, bounds: &TimeoutBounds) -> bool, else false; }
export! { "net_base_8_sending_end_is_sound" = net_base_sending_end_is_sound, (end: &SendingEnd, capacity: usize) ->
    bool, else false; }
export! { "net_base_8_sending_end_open" = net_base_sending_end_open, (end: &mut SendingEnd, capacity: usize,
    announcement: &Announcement, segment_size: usize, reports: bool, now: i64) -> bool, else false; }
export! { "net_base_8_sending_end_is_opening_due" = net_base_sending_end_is_opening_due, (end: &mut SendingEnd,
    capacity: usize, now: i64) -> bool, else false; }
export! { "net_base_8_sending_end_set_nagle_enabled" = net_base_sending_end_set_nagle_enabled, (end: &mut SendingEnd,
    enabled: bool); }
export! { "net_base_8_sending_end_write" = net_base_sending_end_write, (end: &mut SendingEnd, storage: &mut [u8], bytes:
    &[u8]) -> usize, else no_number(); }
export! { "net_base_8_sending_end_close" = net_base_sending_end_close, (end: &mut SendingEnd); }
export! { "net_base_8_sending_end_acknowledged" = net_base_sending_end_acknowledged, (end: &mut SendingEnd, capacity:
    usize, announcement: &Announcement, blocks: &[HeldRun], is_empty: bool, now: i64) -> TakenAcknowledgement, else
    refused_taken_acknowledgement(); }
export! { "net_base_8_sending_end_expired" = net_base_sending_end_expired, (end: &mut SendingEnd, capacity: usize, now:
    i64) -> EndedTimer, else refused_ended_timer(); }
export! { "net_base_8_sending_end_take_back" = net_base_sending_end_take_back, (end: &mut SendingEnd, capacity: usize)
    -> bool, else false; }
export! { "net_base_8_sending_end_next_segment" = net_base_sending_end_next_segment, (end: &mut SendingEnd, capacity:
    usize, congestion_window: u64, now: i64) -> OutgoingSegment, else refused_outgoing_segment(); }
export! { "net_base_8_sending_end_bytes" = net_base_sending_end_bytes, (end: &SendingEnd, capacity: usize, position:
    u64, limit: u64) -> SegmentParts, else refused_segment_parts(); }
export! { "net_base_8_sending_end_is_done" = net_base_sending_end_is_done, (end: &SendingEnd) -> bool, else false; }
export! { "net_base_8_sending_end_expires_at" = net_base_sending_end_expires_at, (end: &SendingEnd, moment: &mut i64) ->
    bool, else false; }
export! { "net_base_8_sending_end_empty_segment_position" = net_base_sending_end_empty_segment_position, (end:
    &SendingEnd) -> u64, else u64::MAX; }
export! { "net_base_8_sending_end_is_recovering" = net_base_sending_end_is_recovering, (end: &SendingEnd) -> bool, else
    false; }
export! { "net_base_8_answer_limit_init" = net_base_answer_limit_init, (limit: new &mut AnswerLimit); }
export! { "net_base_8_answer_limit_allows" = net_base_answer_limit_allows, (limit: &mut AnswerLimit, segment: &Segment,
    now: i64) -> bool, else false; }
export! { "net_base_8_sequence_number_position" = net_base_sequence_number_position, (number: u32, initial: u32, next:
    u64, position: &mut u64) -> bool, else false; }
