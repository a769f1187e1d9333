//! As much of the crate `managed` 0.8 as rings and packet queues ask for, from memory.
#![no_std]
#[cfg(feature = "alloc")]
extern crate alloc;
use core::ops::{Deref, DerefMut};

#[derive(Debug)]
pub enum ManagedSlice<'a, T> {
    Borrowed(&'a mut [T]),
    #[cfg(feature = "alloc")]
    Owned(alloc::vec::Vec<T>),
}

impl<'a, T> From<&'a mut [T]> for ManagedSlice<'a, T> {
    fn from(value: &'a mut [T]) -> Self {
        ManagedSlice::Borrowed(value)
    }
}

#[cfg(feature = "alloc")]
impl<T: 'static> From<alloc::vec::Vec<T>> for ManagedSlice<'static, T> {
    fn from(value: alloc::vec::Vec<T>) -> Self {
        ManagedSlice::Owned(value)
    }
}

impl<T> Deref for ManagedSlice<'_, T> {
    type Target = [T];

    fn deref(&self) -> &[T] {
        match self {
            ManagedSlice::Borrowed(elements) => elements,
            #[cfg(feature = "alloc")]
            ManagedSlice::Owned(elements) => elements,
        }
    }
}

impl<T> DerefMut for ManagedSlice<'_, T> {
    fn deref_mut(&mut self) -> &mut [T] {
        match self {
            ManagedSlice::Borrowed(elements) => elements,
            #[cfg(feature = "alloc")]
            ManagedSlice::Owned(elements) => elements,
        }
    }
}
