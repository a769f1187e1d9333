//! The library for C: the exports of `net_base.h`, over the proved text.
//!
//! All `unsafe` of net-base is here and in what `tools/ffi.py` writes: what C passes becomes references and slices.
#![no_std]
#![allow(
    clippy::too_many_arguments,
    clippy::let_and_return,
    clippy::let_unit_value
)]

use core::panic::PanicInfo;
use core::slice::{from_raw_parts, from_raw_parts_mut};

#[cfg(feature = "check")]
mod check;

/// Defines an export: `NAME = FUNCTION(PARAMETERS) -> RESULT, else REFUSED;`, with C's convention. A reference becomes a
/// pointer, a slice a pointer and a length. If one of them is null, but for a slice of length 0, the call returns
/// REFUSED; otherwise what FUNCTION returns. After `sound` is what must hold of a call that keeps duties 5, 6 and 7, and
/// is tested by the feature `check`, as duties 1 and 2 are. It also tells of calls that are refused.
macro_rules! export {
    ($link:literal = $call:path, ($($given:tt)*) $(-> $result:ty)? $(, else $refused:expr)? $(, sound $sound:expr)?;) => {
        export! { @ $link, $call, [$($given)*,] [] [] [] [$(-> $result)?] ($($refused)?) [$($sound)?] }
    };
    (@ $link:literal, $call:path, [$it:ident: &mut [$of:ty], $($more:tt)*] [$($c:tt)*] [$($get:tt)*] [$($pass:tt)*] $($rest:tt)*) => {
        export! { @ $link, $call, [$($more)*] [$($c)* $it: *mut $of, length: usize,]
            [$($get)* ($it = slice_mut($it, length), $it, length, size_of::<$of>(), true)] [$($pass)* $it,] $($rest)* }
    };
    (@ $link:literal, $call:path, [$it:ident: &[$of:ty], $($more:tt)*] [$($c:tt)*] [$($get:tt)*] [$($pass:tt)*] $($rest:tt)*) => {
        export! { @ $link, $call, [$($more)*] [$($c)* $it: *const $of, length: usize,]
            [$($get)* ($it = slice($it, length), $it, length, size_of::<$of>(), false)] [$($pass)* $it,] $($rest)* }
    };
    (@ $link:literal, $call:path, [$it:ident: new &mut $of:ty, $($more:tt)*] [$($c:tt)*] [$($get:tt)*] [$($pass:tt)*] $($rest:tt)*) => {
        export! { @ $link, $call, [$($more)*] [$($c)* $it: *mut $of,]
            [$($get)* ($it = new_mut($it), $it, 1, size_of::<$of>(), true)] [$($pass)* $it,] $($rest)* }
    };
    (@ $link:literal, $call:path, [$it:ident: &mut $of:ty, $($more:tt)*] [$($c:tt)*] [$($get:tt)*] [$($pass:tt)*] $($rest:tt)*) => {
        export! { @ $link, $call, [$($more)*] [$($c)* $it: *mut $of,]
            [$($get)* ($it = value_mut($it), $it, 1, size_of::<$of>(), true)] [$($pass)* $it,] $($rest)* }
    };
    (@ $link:literal, $call:path, [$it:ident: &$of:ty, $($more:tt)*] [$($c:tt)*] [$($get:tt)*] [$($pass:tt)*] $($rest:tt)*) => {
        export! { @ $link, $call, [$($more)*] [$($c)* $it: *const $of,]
            [$($get)* ($it = value($it), $it, 1, size_of::<$of>(), false)] [$($pass)* $it,] $($rest)* }
    };
    (@ $link:literal, $call:path, [$it:ident: $of:ty, $($more:tt)*] [$($c:tt)*] [$($get:tt)*] [$($pass:tt)*] $($rest:tt)*) => {
        export! { @ $link, $call, [$($more)*] [$($c)* $it: $of,] [$($get)*] [$($pass)* $it,] $($rest)* }
    };
    (@ $link:literal, $call:path, [$(,)?] [$($c:tt)*] [$(($it:ident = $got:expr, $at:ident, $count:expr, $size:expr, $is_mut:literal))*]
        [$($pass:tt)*] [$($result:tt)*] $refused:tt [$($sound:expr)?]) => {
        const _: () = {
            #[unsafe(export_name = $link)]
            unsafe extern "C" fn export($($c)*) $($result)* {
                #[cfg(feature = "check")]
                crate::check::pointers(concat!($link, "\0"),
                    &[$((concat!(stringify!($it), "\0"), $at.addr(), $at.is_aligned(), $count, $size, $is_mut)),*]);
                let result = 'done: {
                    // SAFETY: the caller's duty.
                    $(let Some($it) = (unsafe { $got }) else {
                        #[cfg(feature = "check")]
                        crate::check::refused(concat!($link, "\0"), concat!(stringify!($it), "\0"));
                        break 'done $refused
                    };)*
                    $(#[cfg(feature = "check")]
                    crate::check::sound(concat!($link, "\0"), $sound);)?
                    let result = $call($($pass)*);
                    #[cfg(feature = "check")]
                    crate::check::answer(concat!($link, "\0"), &result);
                    result
                };
                result
            }
        };
    };
}

/// Declares structs with the layout of those that C passes, whose fields are private in Rust: with numbers beside each other
/// as an array, and with bytes in place of flags. C's memory is one of these.
macro_rules! raw {
    ($($name:ident { $($field:ident: $of:ty),* })*) => {
        #[allow(dead_code)]
        mod raw {
            $(#[repr(C)]
            pub struct $name { $(pub $field: $of),* })*
        }
    };
}

/// Says of types that C passes a pointer to that they have no flags; or, after a type's name, where these are in the
/// struct of that name in `raw`.
macro_rules! passed {
    ($($of:ident),*) => { $(impl Passed for $of {})* };
    ($of:ident: $($($at:ident).+),+) => {
        const _: () = assert!(size_of::<raw::$of>() == size_of::<$of>());
        impl Passed for $of {
            unsafe fn flags(it: *const Self) -> u32 {
                let it = it.cast::<raw::$of>();
                // SAFETY: the caller's duty.
                unsafe { 0 $(| crate::joined(&raw const (*it).$($at).+))+ }
            }
            unsafe fn mask(it: *mut Self) {
                let it = it.cast::<raw::$of>();
                // SAFETY: the caller's duty.
                unsafe { $(crate::mask(&raw mut (*it).$($at).+);)+ }
            }
        }
    };
}

#[rustfmt::skip]
mod shim;

/// The slice that C passes as a pointer and a length: an empty one if the length is 0, whatever the pointer is;
/// otherwise none if the pointer is null.
///
/// # Safety
///
/// The duties of `net_base.h` on memory.
#[inline(always)]
unsafe fn slice<'a, T>(pointer: *const T, length: usize) -> Option<&'a [T]> {
    if length == 0 {
        return Some(&[]);
    }
    // SAFETY: the caller's duty, if it isn't null.
    (!pointer.is_null()).then(|| unsafe { from_raw_parts(pointer, length) })
}

/// The same of a slice that is written.
///
/// # Safety
///
/// The duties of `net_base.h` on memory.
#[inline(always)]
unsafe fn slice_mut<'a, T>(pointer: *mut T, length: usize) -> Option<&'a mut [T]> {
    if length == 0 {
        return Some(&mut []);
    }
    // SAFETY: the caller's duty, if it isn't null.
    (!pointer.is_null()).then(|| unsafe { from_raw_parts_mut(pointer, length) })
}

/// A type that C passes a pointer to.
trait Passed {
    /// Its flags, one or more in each byte that isn't 0: they are 0 or 1 if no other bit is set.
    ///
    /// # Safety
    ///
    /// The duties of `net_base.h` on memory.
    #[inline(always)]
    unsafe fn flags(_: *const Self) -> u32 {
        0
    }

    /// Makes each of its flags 0 or 1, and leaves those that are.
    ///
    /// # Safety
    ///
    /// The duties of `net_base.h` on memory.
    #[inline(always)]
    unsafe fn mask(_: *mut Self) {}
}

/// So many flags, joined in the bytes of one word.
///
/// # Safety
///
/// The duties of `net_base.h` on memory.
#[inline(always)]
unsafe fn joined<const N: usize>(flags: *const [u8; N]) -> u32 {
    const { assert!(matches!(N, 1..=4 | 6)) };
    let at = flags.cast::<u8>();
    // SAFETY: the caller's duty.
    let one = |k| u32::from(unsafe { at.add(k).read() });
    let two = |k| u32::from(unsafe { at.add(k).cast::<u16>().read_unaligned() });
    let four = || unsafe { at.cast::<u32>().read_unaligned() };
    match N {
        1 => one(0),
        2 => two(0),
        3 => two(0) | one(2),
        4 => four(),
        _ => four() | two(4),
    }
}

/// Makes each of so many flags 0 or 1.
///
/// # Safety
///
/// The duties of `net_base.h` on memory.
#[inline(always)]
unsafe fn mask<const N: usize>(flags: *mut [u8; N]) {
    // SAFETY: the caller's duty.
    unsafe { (*flags).iter_mut().for_each(|it| *it &= 1) };
}

/// The value that C passes a pointer to: none if that is null, or if a flag of it is neither 0 nor 1, so that no `bool`
/// is invalid whatever the memory holds.
///
/// # Safety
///
/// The duties of `net_base.h` on memory.
#[inline(always)]
unsafe fn value<'a, T: Passed>(pointer: *const T) -> Option<&'a T> {
    // SAFETY: the caller's duty, if it isn't null.
    (!pointer.is_null() && unsafe { T::flags(pointer) } & !0x0101_0101 == 0)
        .then(|| unsafe { &*pointer })
}

/// The same of one that is written.
///
/// # Safety
///
/// The duties of `net_base.h` on memory.
#[inline(always)]
unsafe fn value_mut<'a, T: Passed>(pointer: *mut T) -> Option<&'a mut T> {
    // SAFETY: the caller's duty, if it isn't null.
    (!pointer.is_null() && unsafe { T::flags(pointer) } & !0x0101_0101 == 0)
        .then(|| unsafe { &mut *pointer })
}

/// The same of one that is made: its memory may have held anything.
///
/// # Safety
///
/// The duties of `net_base.h` on memory.
#[inline(always)]
unsafe fn new_mut<'a, T: Passed>(pointer: *mut T) -> Option<&'a mut T> {
    if pointer.is_null() {
        return None;
    }
    // SAFETY: the caller's duty.
    unsafe {
        T::mask(pointer);
        Some(&mut *pointer)
    }
}

// Rust's core library comes compiled for panics that unwind, and names this where it is linked without an optimization
// of all, or by Debian's compiler-builtins for ARMv7. Here none unwinds.
#[cfg(all(
    any(target_os = "linux", target_os = "none"),
    any(
        target_arch = "x86",
        target_arch = "x86_64",
        target_arch = "arm",
        target_arch = "aarch64"
    ),
))]
core::arch::global_asm!(
    ".weak rust_eh_personality",
    ".hidden rust_eh_personality",
    "rust_eh_personality:"
);

/// Ends the program by an instruction that no processor executes: what the proofs exclude, unless a duty is broken.
#[panic_handler]
#[allow(unreachable_code, unused_unsafe)]
fn trap(_: &PanicInfo) -> ! {
    // SAFETY: it touches no memory, and doesn't return.
    unsafe {
        #[cfg(any(target_arch = "x86", target_arch = "x86_64"))]
        core::arch::asm!("ud2", options(noreturn, nomem, nostack));
        #[cfg(any(target_arch = "arm", target_arch = "aarch64"))]
        core::arch::asm!("udf #0", options(noreturn, nomem, nostack));
        #[cfg(any(target_arch = "riscv32", target_arch = "riscv64"))]
        core::arch::asm!("unimp", options(noreturn, nomem, nostack));
    }
    loop {}
}
