//! The Internet checksum of IP, ICMP, UDP and TCP (RFC 1071), and its update (RFC 1624).
//!
//! [`PartsSum`] sums a message in parts, such as a pseudo-header, a header and data. (smoltcp has this elsewhere.)
//!
//! ```
//! use net_base::checksum::{checksum, is_valid, updated_checksum, PartsSum};
//!
//! // A header of IPv4 whose field, at offset 10, is zero: the checksum is put there.
//! let mut header = [0x45, 0, 0, 0x73, 0, 0, 0x40, 0, 0x40, 0x11, 0, 0, 192, 168, 0, 1, 192, 168, 0, 199];
//! let sum = checksum(&header);
//! header[10..12].copy_from_slice(&sum.to_be_bytes());
//! assert_eq!((sum, is_valid(&header)), (0xb861, true));
//! // A router takes 1 from the time to live, the high byte of the word at offset 8.
//! header[8] -= 1;
//! header[10..12].copy_from_slice(&updated_checksum(sum, 0x4011, 0x3f11).to_be_bytes());
//! assert!(is_valid(&header));
//! // A datagram of UDP, after its pseudo-header; its sum is 0, which UDP sends as 65535.
//! let pseudo = PartsSum::new().with(&[10, 0, 0, 1, 10, 0, 0, 2]).with_word(17).with_word(10);
//! let mut udp = [0x13, 0x88, 0x13, 0x89, 0, 10, 0, 0, 0, 0];
//! let text = pseudo.with(&udp).checksum().to_be_bytes();
//! udp[8..].copy_from_slice(&text);
//! assert_eq!(pseudo.with(&udp).checksum(), 0);
//! udp[6..8].copy_from_slice(&0xffff_u16.to_be_bytes());
//! assert!(pseudo.with(&udp).is_valid());
//! ```
mod internet_sum;

pub use internet_sum::{checksum, is_valid, updated_checksum, PartsSum};

/// The sum of no bytes.
impl Default for PartsSum {
    fn default() -> Self {
        PartsSum::new()
    }
}
