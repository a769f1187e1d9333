//! What errors print.
use std::{error::Error, format, string::ToString};

use crate::finite::{FiniteError, NotSent};
use crate::scoreboard::ReportError;
use crate::storage::fragment_table::AcceptError;
use crate::storage::{Empty, FragmentError, Full, TooManyHolesError};

/// Each error, with its two texts; options of a text change nothing, and none has a source. A variant without a row
/// doesn't compile.
macro_rules! errors {
    ($($type:ident { $($variant:ident: $text:literal),* })*) => {
        #[test]
        fn errors() {
            fn all(error: impl Error, text: &str, name: &str) {
                assert_eq!(format!("{error:?}"), name, "what {name} is to print by Debug");
                assert_eq!(error.to_string(), text, "what {name} is to print by Display");
                assert_eq!(format!("{error:>99}|{error:.2}"), format!("{text}|{text}"), "{name}, with options");
                assert!(error.source().is_none());
            }
            all(Full, "buffer full", "Full");
            all(Empty, "buffer empty", "Empty");
            all(TooManyHolesError, "too many holes", "TooManyHolesError");
            all(NotSent, "the range ends above what was sent: pass a range that was marked", "NotSent");
            $(for (error, text) in [$(($type::$variant, $text)),*] {
                all(error, text, match error { $($type::$variant => stringify!($variant)),* });
            })*
        }
    };
}

errors! {
    FragmentError {
        TooLong: "the fragment ends past the buffer: drop it",
        TooManyHoles: "too many holes: drop the fragment",
        OtherSize: "the fragment contradicts the packet's size: drop it"
    }
    AcceptError {
        NoBytes: "the fragment has no bytes: drop it",
        NoSlot: "the table has no slots: make it with at least one",
        OtherBytes: "the fragment contradicts bytes that have arrived: drop it",
        TooLong: "the fragment ends past the buffer: drop it",
        TooManyHoles: "too many holes: drop the fragment",
        OtherSize: "the fragment contradicts the packet's size: drop it"
    }
    FiniteError {
        TooManyHoles: "too many holes: the segment must be sent again",
        OtherEnd: "the end contradicts what has arrived: drop the segment, or in QUIC close the connection"
    }
    ReportError {
        NoBlock: "the block isn't of what was sent: ignore it",
        TooManyHoles: "too many holes: ignore the block"
    }
}
