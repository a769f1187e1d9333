//! The generator of pseudo-random words, whose rules are proved.
#![allow(unused)]

pub(crate) use crate::proved::rand::Rand;
