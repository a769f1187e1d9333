//! The formulas of RFC 1071 and 1624, in numbers without a bound.
use crate::draw::Draw;
use net_base::checksum::{checksum, is_valid, updated_checksum, PartsSum};

/// RFC 1071: the complement of the sum of all words of 16 bits, in which a carry is added again.
fn sum(bytes: &[u8]) -> u16 {
    let words =
        bytes.chunks(2).map(|it| u64::from(it[0]) << 8 | u64::from(*it.get(1).unwrap_or(&0)));
    !folded(words.sum())
}

fn folded(mut sum: u64) -> u16 {
    while sum > 0xffff {
        sum = (sum & 0xffff) + (sum >> 16);
    }
    sum as u16
}

pub fn play(draw: &mut Draw) {
    let count = draw.of_these(&[0, 1, 2, 31, 32, 33, 64, 65, 400, 1460]);
    let mut bytes = draw.bytes(count);
    if draw.once_in(4) {
        bytes.fill(0xff);
    }
    draw.call(format_args!("{bytes:?}"));
    assert_eq!(checksum(&bytes), sum(&bytes));
    let cuts = [(); 3].map(|()| draw.below(count as u64 + 1) as usize);
    let (one, other) = (cuts[0].min(cuts[1]), cuts[0].max(cuts[1]));
    let mut parts = PartsSum::new();
    parts.add(&bytes[..one]);
    let parts = parts.with(&bytes[one..other]).with(&bytes[other..]);
    assert_eq!(parts.checksum(), sum(&bytes));
    // A packet of whole words that has its sum, and then another word.
    let words = [&bytes[..count & !1], &sum(&bytes[..count & !1]).to_be_bytes()].concat();
    assert!(is_valid(&words));
    let at = draw.below(words.len() as u64 / 2) as usize * 2;
    let [old, new] = [u16::from_be_bytes([words[at], words[at + 1]]), draw.number() as u16];
    let sum = draw.number() as u16;
    let updated = !folded(u64::from(!sum) + u64::from(!old) + u64::from(new));
    assert_eq!(updated_checksum(sum, old, new), updated, "{sum} {old} {new}");
    let mut changed = words.clone();
    changed[at..at + 2].copy_from_slice(&new.to_be_bytes());
    assert_eq!(
        is_valid(&changed),
        folded(changed.chunks(2).map(|it| u64::from(it[0]) << 8 | u64::from(it[1])).sum())
            == 0xffff
    );
}
