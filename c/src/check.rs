//! Tests of the duties of `net_base.h`, with the feature `check`: a duty that is found broken is told to
//! `net_base_broken`, which the program defines. Not tested are that memory is as long as is said, duties 3 and 4, and a
//! length that differs but leaves head and runs sound.
use core::any::Any;
use core::ffi::c_char;
use proved::exports::refusals::{no_number, NET_BASE_REFUSED};
use proved::exports::sending_end::{
    EndedTimer, OutgoingSegment, SegmentParts, TakenAcknowledgement,
};
use proved::exports::{FirstPacket, PacketPlace, Span};

unsafe extern "C" {
    /// What the program does about a broken duty, of which the number, the function and the argument are passed: it
    /// doesn't return. With number 0 the call is refused, for the argument if that is null: then it may.
    fn net_base_broken(duty: u32, name: *const c_char, argument: *const c_char);
}

/// A pointer that is passed: its name with a zero after it, its address, whether that is aligned, how many values it is of, how many bytes
/// each has, and whether they may be written.
type Pointer = (&'static str, usize, bool, usize, usize, bool);

fn broken(duty: u32, name: &'static str, argument: &'static str) {
    // SAFETY: both are texts, which end.
    unsafe { net_base_broken(duty, name.as_ptr().cast(), argument.as_ptr().cast()) };
    if duty != 0 {
        panic!();
    }
}

/// Tests duties 1 and 2.
pub(crate) fn pointers(name: &'static str, all: &[Pointer]) {
    for (at, &(argument, address, is_aligned, count, size, is_written)) in all.iter().enumerate() {
        let bytes = count.saturating_mul(size);
        if count > 0 && !is_aligned || bytes > isize::MAX as usize {
            broken(1, name, argument);
        }
        for &(other, other_address, _, other_count, other_size, other_is_written) in &all[..at] {
            let other_bytes = other_count.saturating_mul(other_size);
            let is_apart = address.checked_sub(other_address).map_or_else(
                || other_address - address >= bytes,
                |distance| distance >= other_bytes,
            );
            let is_none = bytes == 0 || other_bytes == 0 || address == 0 || other_address == 0;
            if (is_written || other_is_written) && !is_none && !is_apart {
                broken(2, name, other);
            }
        }
    }
}

/// Tests duties 5, 6 and 7, which the call says whether it keeps.
pub(crate) fn sound(name: &'static str, is_sound: bool) {
    if !is_sound {
        broken(7, name, "\0");
    }
}

/// Tells of a call that is refused for an argument, which is null.
pub(crate) fn refused(name: &'static str, argument: &'static str) {
    broken(0, name, argument);
}

/// Tells of a result by which a call says that it was refused: a status, or the greatest number in place of a count, an
/// index or a position. `false` may be an answer too.
pub(crate) fn answer(name: &'static str, result: &dyn Any) {
    let number = (result.downcast_ref::<usize>().copied())
        .or_else(|| Some(result.downcast_ref::<Span>()?.from))
        .or_else(|| Some(result.downcast_ref::<PacketPlace>()?.gap))
        .or_else(|| Some(result.downcast_ref::<FirstPacket>()?.gap))
        .or_else(|| Some(result.downcast_ref::<SegmentParts>()?.from));
    let position = result.downcast_ref::<u64>().copied();
    let status = (result.downcast_ref::<u32>().copied())
        .or_else(|| Some(result.downcast_ref::<TakenAcknowledgement>()?.status))
        .or_else(|| Some(result.downcast_ref::<EndedTimer>()?.status))
        .or_else(|| Some(result.downcast_ref::<OutgoingSegment>()?.status));
    if status == Some(NET_BASE_REFUSED) || number == Some(no_number()) || position == Some(u64::MAX)
    {
        broken(0, name, "\0");
    }
}
