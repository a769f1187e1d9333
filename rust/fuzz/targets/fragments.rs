//! Fragments of any offset, size and order to a buffer of 32 bytes and two runs, beside a list of bytes.
#![no_main]
use net_base::storage::{FragmentBuffer, FragmentError};
use net_base::time::Instant;
use net_base_fuzz::{fuzz, Draw};

fn count_runs(bytes: &[Option<u8>]) -> usize {
    (0..bytes.len()).filter(|i| bytes[*i].is_some() && (*i == 0 || bytes[i - 1].is_none())).count()
}

fn play(mut draw: Draw) {
    let mut buffer = FragmentBuffer::<2>::new(vec![0; 32], Instant::ZERO);
    let (mut known, mut total) = ([None; 32], None::<usize>);
    while !draw.is_empty() {
        let (offset, bytes) = (draw.near(16) as usize, draw.bytes());
        let is_last = draw.below(4) == 0;
        let last_known = known.iter().rposition(Option::is_some).map_or(0, |at| at + 1);
        let end = offset.checked_add(bytes.len()).filter(|end| *end <= 32);
        let said = buffer.add_fragment(offset, &bytes, is_last);
        let Some(end) = end else {
            assert_eq!(said, Err(FragmentError::TooLong));
            continue;
        };
        let ends_wrong = total.is_some_and(|it| end > it || (is_last && end != it))
            || (is_last && end < last_known);
        if ends_wrong {
            assert_eq!(said, Err(FragmentError::OtherSize));
            continue;
        }
        let mut after = known;
        for (place, byte) in after[offset..].iter_mut().zip(&bytes) {
            *place = Some(*byte);
        }
        if count_runs(&after) > 2 {
            assert_eq!(said, Err(FragmentError::TooManyHoles));
            continue;
        }
        assert_eq!(said, Ok(()));
        (known, total) = (after, if is_last { Some(end) } else { total });
        assert_eq!(buffer.total_size(), total);
        let whole: Option<Vec<u8>> = total.and_then(|it| known[..it].iter().copied().collect());
        assert_eq!(buffer.assemble(), whole.as_deref());
    }
}

fuzz!(play);
