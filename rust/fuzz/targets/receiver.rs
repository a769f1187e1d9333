//! Segments and reads of a receiver of 16 bytes and two runs, beside a map of positions; and of a stream that ends.
#![no_main]
use std::collections::BTreeMap;

use net_base::finite::FiniteReceiver;
use net_base::receiver::Receiver;
use net_base_fuzz::{fuzz, Draw};

/// How many runs of neighbours the positions are from `next` on.
fn count_runs(held: &BTreeMap<u64, u8>, next: u64) -> usize {
    held.range(next..).filter(|(at, _)| **at == next || !held.contains_key(&(*at - 1))).count()
}

fn play(mut draw: Draw) {
    let first = draw.near(0).min(u64::MAX - 1);
    let (mut read, mut next, mut held) = (first, first, BTreeMap::new());
    let mut receiver = Receiver::<2>::new_at(vec![0; 16], first);
    let mut finite = FiniteReceiver::<2>::new_at(vec![0; 16], first);
    while !draw.is_empty() {
        if draw.below(4) == 0 {
            let mut into = vec![0; draw.below(20)];
            let _count = finite.read(&mut into);
            let count = receiver.read(&mut into);
            assert_eq!(count as u64, (next - read).min(into.len() as u64));
            assert!(into[..count].iter().zip(read..).all(|(byte, at)| held[&at] == *byte));
            read += count as u64;
        } else {
            let (pos, bytes, is_last) = (draw.near(next), draw.bytes(), draw.below(2) == 1);
            let known = (finite.acknowledged(), finite.end());
            let kept = finite.keep(pos, &bytes, is_last);
            assert!(
                known.0 <= finite.acknowledged() && known.1.is_some() <= finite.end().is_some()
            );
            assert!(kept.is_ok() || known == (finite.acknowledged(), finite.end()));
            // The part in the free window, written over what was held, and refused if it makes a third run.
            let mut after = held.clone();
            let places = bytes.iter().enumerate().map(|(i, it)| (pos.checked_add(i as u64), *it));
            let is_free = |at: &u64| next <= *at && *at - read < 16 && *at < u64::MAX;
            after.extend(places.filter_map(|(at, it)| Some((at.filter(is_free)?, it))));
            let is_refused = after != held && pos > next && count_runs(&after, next) > 2;
            let kept = receiver.keep(pos, &bytes);
            assert_eq!(kept.is_err(), is_refused);
            if let Ok(it) = kept {
                (held, next) = (after, next + it.queued as u64);
                assert!((read..next).all(|at| held.contains_key(&at)) && !held.contains_key(&next));
            }
        }
        assert_eq!((receiver.next(), receiver.queued() as u64), (next, next - read));
        let runs = receiver.held().map(|(start, end)| (end - start) as usize);
        assert_eq!(runs.sum::<usize>(), held.range(next..).count());
    }
}

fuzz!(play);
