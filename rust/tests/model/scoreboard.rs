//! A scoreboard is the first position that wasn't reported, and the runs beyond that were.
use crate::assembler::{with, Runs};
use crate::draw::Draw;
use net_base::scoreboard::{ReportError, Scoreboard};

pub fn play(draw: &mut Draw) {
    match draw.below(3) {
        0 => play_with::<1>(draw),
        1 => play_with::<4>(draw),
        _ => play_with::<32>(draw),
    }
}

/// RFC 6675, section 4: from there on as many runs were reported, or more bytes than one segment fewer has.
fn lost_below(runs: &Runs, duplicates: usize, size: usize) -> u64 {
    let above = |at: usize| runs[at..].iter().map(|it| u128::from(it.1 - it.0)).sum::<u128>();
    let most = duplicates.saturating_sub(1) as u128 * size as u128;
    let is_lost = |&at: &usize| runs.len() - at >= duplicates.max(1) || above(at) > most;
    (0..runs.len()).rev().find(is_lost).map_or(0, |at| runs[at].0)
}

fn play_with<const N: usize>(draw: &mut Draw) {
    let mut base = draw.first();
    let (mut it, mut runs) = (Scoreboard::<N>::empty_at(base), Runs::new());
    draw.call(format_args!("from {base}"));
    for _ in 0..40 {
        let (start, sent) = (draw.near(base, 60), draw.near(base, 90));
        let end = draw.near(start, 9);
        let kind = draw.below(8);
        draw.call(format_args!("{kind}: {start}..{end} of {sent}"));
        match kind {
            0..=4 => {
                let is_far = start > base && end.saturating_sub(base) >= 1 << 32;
                let wanted = with(&runs, start, end);
                let wanted = if start >= end || end > sent || is_far {
                    Err(ReportError::NoBlock)
                } else if start > base && wanted.len() > N {
                    Err(ReportError::TooManyHoles)
                } else {
                    runs = wanted;
                    Ok(())
                };
                assert_eq!(it.report(start..end, sent), wanted);
            }
            5 => {
                it.acknowledge(start);
                runs = with(&runs, base.min(start), start);
            }
            6 if draw.once_in(9) => {
                it.reset_at(start);
                (base, runs) = (start, Runs::new());
            }
            _ => {
                let (duplicates, size) = (draw.size(4), draw.size(20));
                assert_eq!(it.lost_below(duplicates, size), lost_below(&runs, duplicates, size));
            }
        }
        // What touches the first position belongs to what is below.
        while runs.first().is_some_and(|it| it.0 <= base) {
            base = base.max(runs.remove(0).1);
        }
        let has = |pos: u64| pos < base || runs.iter().any(|it| it.0 <= pos && pos < it.1);
        assert_eq!(it.reported().take(99).collect::<Runs>(), runs);
        assert_eq!(
            (it.first_unreported(), it.highest_reported()),
            (base, runs.last().map_or(base, |it| it.1))
        );
        let near = draw.near(base, 60);
        for pos in [start, end, near, near.saturating_sub(1)] {
            assert_eq!(it.contains(pos), has(pos), "{pos}");
        }
        let limit = near.saturating_add(draw.below(30));
        let covered =
            runs.iter().map(|it| it.1.min(limit).saturating_sub(it.0.max(near))).sum::<u64>();
        assert_eq!(it.missing_between(near..limit), limit.saturating_sub(near.max(base)) - covered);
        let hole = (near..limit).find(|&pos| !has(pos));
        let hole = hole.map(|start| start..(start..limit).find(|&pos| has(pos)).unwrap_or(limit));
        assert_eq!(it.next_hole(near, limit), hole, "{near}..{limit}");
    }
}
