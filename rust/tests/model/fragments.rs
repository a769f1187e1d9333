//! A buffer of fragments is a map of positions to bytes, and the packet's size, once it is known.
use crate::draw::Draw;
use net_base::storage::{FragmentBuffer, FragmentError, FragmentsOver, Storage};
use net_base::time::Instant;
use std::collections::BTreeMap;

struct Model {
    capacity: usize,
    came: BTreeMap<usize, u8>,
    total: Option<usize>,
    expires_at: i64,
}

impl Model {
    fn runs(&self) -> usize {
        self.came.keys().filter(|&&pos| pos == 0 || !self.came.contains_key(&(pos - 1))).count()
    }

    fn add<const N: usize>(
        &mut self,
        offset: usize,
        data: &[u8],
        is_last: bool,
    ) -> Result<(), FragmentError> {
        let end = offset.checked_add(data.len()).filter(|&end| end <= self.capacity);
        let end = end.ok_or(FragmentError::TooLong)?;
        let total = self.total;
        if is_last {
            self.set_total(end)?;
        }
        if self.total.is_some_and(|total| end > total) {
            return Err(FragmentError::OtherSize);
        }
        let old = self.came.clone();
        self.came.extend((offset..end).zip(data.iter().copied()));
        if self.runs() > N {
            (self.came, self.total) = (old, total);
            return Err(FragmentError::TooManyHoles);
        }
        Ok(())
    }

    fn set_total(&mut self, size: usize) -> Result<(), FragmentError> {
        if size > self.capacity {
            return Err(FragmentError::TooLong);
        }
        if self.total.unwrap_or(size) != size || self.came.keys().any(|&pos| pos >= size) {
            return Err(FragmentError::OtherSize);
        }
        self.total = Some(size);
        Ok(())
    }

    fn get(&self, offset: usize, len: usize) -> Option<Vec<u8>> {
        let end = offset.checked_add(len).filter(|&end| end <= self.capacity)?;
        (offset..end).map(|pos| self.came.get(&pos).copied()).collect()
    }
}

pub fn play(draw: &mut Draw) {
    let capacity = draw.of_these(&[0, 1, 8, 24]);
    let (mut bytes, until) = (draw.bytes(capacity), draw.number() as i64);
    let now = Instant::from_micros(until);
    let model = Model { capacity, came: BTreeMap::new(), total: None, expires_at: until };
    draw.call(format_args!("{capacity} bytes, up to {until}"));
    match draw.below(3) {
        0 => play_over::<_, 1>(draw, FragmentBuffer::new(&mut bytes[..], now), model),
        #[cfg(feature = "alloc")]
        1 => play_over::<_, 2>(draw, FragmentsOver::over(bytes, now), model),
        _ => play_over::<_, 4>(draw, FragmentBuffer::new(&mut bytes[..], now), model),
    }
}

fn play_over<B: Storage<u8>, const N: usize>(
    draw: &mut Draw,
    mut it: FragmentsOver<B, N>,
    mut model: Model,
) {
    for _ in 0..30 {
        let (capacity, is_last) = (model.capacity, draw.once_in(5));
        let (offset, kind) = (draw.size(capacity), draw.below(8));
        let len = draw.length(capacity).min(draw.below(9) as usize);
        // Bytes that agree with those that came, as often as not.
        let mut data = draw.bytes(len);
        if draw.below(2) == 0 {
            for (i, byte) in data.iter_mut().enumerate() {
                *byte = offset
                    .checked_add(i)
                    .and_then(|pos| model.came.get(&pos).copied())
                    .unwrap_or(*byte);
            }
        }
        let clashes = data.iter().enumerate().any(|(i, byte)| {
            offset
                .checked_add(i)
                .and_then(|pos| model.came.get(&pos))
                .is_some_and(|came| came != byte)
        });
        draw.call(format_args!("{kind}: {offset} {data:?} {is_last}"));
        assert_eq!(it.differs(offset, &data), clashes);
        match kind {
            0 | 1 => assert_eq!(it.add(offset, &data), model.add::<N>(offset, &data, false)),
            2..=4 => assert_eq!(
                it.add_fragment(offset, &data, is_last),
                model.add::<N>(offset, &data, is_last)
            ),
            5 if draw.once_in(2) => assert_eq!(it.set_total_size(offset), model.set_total(offset)),
            6 if draw.once_in(5) => {
                let until = draw.number() as i64;
                let mut fresh =
                    Model { capacity, came: BTreeMap::new(), total: None, expires_at: until };
                let wanted = fresh.add::<N>(offset, &data, is_last);
                assert_eq!(
                    it.reset_with(offset, &data, is_last, Instant::from_micros(until)),
                    wanted
                );
                model = if wanted.is_ok() { fresh } else { model };
            }
            7 if draw.once_in(5) => {
                model = Model {
                    capacity,
                    came: BTreeMap::new(),
                    total: None,
                    expires_at: draw.number() as i64,
                };
                it.reset(Instant::from_micros(model.expires_at));
            }
            _ => {}
        }
        assert_eq!((it.capacity(), it.is_empty()), (capacity, model.came.is_empty()));
        assert_eq!(
            (it.total_size(), it.expires_at().total_micros()),
            (model.total, model.expires_at)
        );
        let whole = model.total.and_then(|size| model.get(0, size));
        assert_eq!(it.assemble().map(<[u8]>::to_vec), whole);
        let (from, len) = (draw.size(capacity), draw.size(capacity));
        assert_eq!(it.get(from, len).map(<[u8]>::to_vec), model.get(from, len));
        let has = model.came.keys().any(|&pos| pos >= from && pos - from < len);
        assert_eq!(it.overlaps(from, len), has, "{from} {len}");
        let now = model.expires_at.saturating_add(draw.below(3) as i64 - 1);
        assert_eq!(it.is_expired(Instant::from_micros(now)), now > model.expires_at);
    }
    assert_eq!(it.into_storage().count(), model.capacity);
}
