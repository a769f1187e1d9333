//! As much of the crate `defmt` as these modules name. What is written is text.
pub use defmt_macros::Format;
use std::cell::RefCell;
use std::fmt::{Arguments, Write};

#[derive(Clone, Copy)]
pub struct Formatter<'a>(pub &'a RefCell<String>);

pub trait Format {
    fn format(&self, fmt: Formatter);
}

impl Format for u8 {
    fn format(&self, fmt: Formatter) {
        keep(fmt, format_args!("{self}"));
    }
}

pub fn keep(fmt: Formatter, text: Arguments) {
    fmt.0.borrow_mut().write_fmt(text).expect("a string takes each text");
}

#[macro_export]
macro_rules! write {
    ($fmt:expr, $($text:tt)*) => { $crate::keep($fmt, ::core::format_args!($($text)*)) }
}
