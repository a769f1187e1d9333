//! An assembler is the runs of a set of positions.
use crate::draw::Draw;
use crate::support::message;
use net_base::storage::{Assembler, TooManyHolesError};

/// Runs in rising order, the ends not included, of which no two touch.
pub type Runs = Vec<(u64, u64)>;

/// The runs with one more range.
pub fn with(runs: &Runs, start: u64, end: u64) -> Runs {
    let (mut all, mut joined) = (runs.clone(), Runs::new());
    all.extend((start < end).then_some((start, end)));
    all.sort();
    for (start, end) in all {
        match joined.last_mut() {
            Some(last) if start <= last.1 => last.1 = last.1.max(end),
            _ => joined.push((start, end)),
        }
    }
    joined
}

/// The runs counted from another position, without those below.
pub fn from(runs: &Runs, pos: u64) -> Runs {
    let above = runs.iter().filter(|it| it.1 > pos);
    above.map(|it| (it.0.saturating_sub(pos), it.1 - pos)).collect()
}

pub fn front(runs: &Runs) -> u64 {
    runs.first().map_or(0, |it| if it.0 == 0 { it.1 } else { 0 })
}

/// The positions below the last run that are in none.
pub fn holes(runs: &Runs) -> Runs {
    let begins = [0].into_iter().chain(runs.iter().map(|it| it.1));
    begins.zip(runs.iter().map(|it| it.0)).filter(|it| it.0 < it.1).collect()
}

fn text(runs: &Runs) -> String {
    let mut text = String::from("[ ");
    let mut at = 0;
    for &(start, end) in runs {
        text += &if start > at {
            format!("({}) {} ", start - at, end - start)
        } else {
            format!("{} ", end)
        };
        at = end;
    }
    text + "]"
}

pub fn play(draw: &mut Draw) {
    match draw.below(4) {
        0 => play_with::<1>(draw),
        1 => play_with::<2>(draw),
        2 => play_with::<4>(draw),
        _ => play_with::<32>(draw),
    }
}

fn play_with<const N: usize>(draw: &mut Draw) {
    let (mut it, mut runs) = (Assembler::<N>::empty(), Runs::new());
    let (mut old, mut old_runs) = (Assembler::<N>::empty(), Runs::new());
    let span = draw.of_these(&[12, 40, 300]);
    let base = draw.of_these(&[0, 0, 0, u64::MAX >> 1, u64::MAX - 60]) as usize;
    for _ in 0..40 {
        let pos = draw.of_these(&[0, 0, 0, 1]) * base + draw.size(span).min(usize::MAX - base);
        let size = if draw.once_in(12) { draw.size(span) } else { draw.below(9) as usize };
        let (offset, end, kind) = (pos as u64, pos.checked_add(size), draw.below(10));
        draw.call(format_args!("{kind}: {pos} {size}"));
        assert_eq!(Assembler::<N>::fits(pos, size), end.is_some());
        match (kind, end) {
            (0..=3, None) => drop(message(|| it.add(pos, size))),
            (4 | 5, None) => drop(message(|| it.add_then_remove_front(pos, size))),
            (0..=3, Some(end)) => {
                let wanted = with(&runs, offset, end as u64);
                let fits = wanted.len() <= N;
                assert_eq!(it.add(pos, size), if fits { Ok(()) } else { Err(TooManyHolesError) });
                runs = if fits { wanted } else { runs };
            }
            (4 | 5, Some(end)) => {
                let wanted = with(&runs, offset, end as u64);
                let shift = front(&wanted);
                let wanted = from(&wanted, shift);
                // A range at 0 is never refused.
                let fits = wanted.len() + usize::from(shift > 0) <= N || pos == 0;
                let given = it.add_then_remove_front(pos, size);
                assert_eq!(given, if fits { Ok(shift as usize) } else { Err(TooManyHolesError) });
                runs = if fits { wanted } else { runs };
            }
            (6, _) => {
                let shift = front(&runs);
                assert_eq!(it.remove_front() as u64, shift);
                runs = from(&runs, shift);
            }
            (7, _) if draw.once_in(3) => {
                it.shift(pos);
                runs = from(&runs, offset);
            }
            (8, _) if draw.once_in(4) => {
                it.clear();
                runs.clear();
            }
            _ => (old, old_runs) = (it.clone(), runs.clone()),
        }
        let numbers = |it: (usize, usize)| (it.0 as u64, it.1 as u64);
        assert_eq!(it.iter_data().map(numbers).take(99).collect::<Runs>(), runs);
        assert_eq!(it.holes().map(numbers).take(99).collect::<Runs>(), holes(&runs));
        for k in [0, 1, runs.len().saturating_sub(1), runs.len(), size] {
            assert_eq!(it.run_at(k).map(numbers), runs.get(k).copied());
            assert_eq!(it.hole_at(k).map(numbers), holes(&runs).get(k).copied());
        }
        assert_eq!((it.run_count(), it.is_empty()), (runs.len(), runs.is_empty()));
        assert_eq!((it.peek_front() as u64, it.to_string()), (front(&runs), text(&runs)));
        for at in [pos, pos.saturating_sub(1), end.unwrap_or(7)] {
            assert_eq!(
                it.contains(at),
                runs.iter().any(|run| run.0 <= at as u64 && (at as u64) < run.1)
            );
        }
        assert_eq!(it == old, runs == old_runs);
    }
}
