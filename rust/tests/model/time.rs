//! Moments and lengths are counts of microseconds, here without a bound.
use crate::draw::Draw;
use net_base::sequence_number::{Numbering, SequenceNumber};
use net_base::time::{Duration, Instant};
use std::panic::{catch_unwind, UnwindSafe};

/// A length, or `None` if the call panics.
fn length(f: impl FnOnce() -> Duration + UnwindSafe) -> Option<u128> {
    catch_unwind(f).ok().map(|it| it.total_micros().into())
}

fn moment(f: impl FnOnce() -> Instant + UnwindSafe) -> Option<i128> {
    catch_unwind(f).ok().map(|it| it.total_micros().into())
}

fn if_length(micros: u128) -> Option<u128> {
    u64::try_from(micros).ok().map(u128::from)
}

fn if_moment(micros: i128) -> Option<i128> {
    i64::try_from(micros).ok().map(i128::from)
}

/// Whether a value has its plain text under a width, a precision and each other option.
fn keeps_text(value: &dyn std::fmt::Display, width: usize) -> bool {
    let plain = format!("{value}");
    let texts = [
        format!("{value:width$}"),
        format!("{value:>+width$}"),
        format!("{value:*^#width$}"),
        format!("{value:<0width$}"),
        format!("{value:.width$}"),
        format!("{value:*>+#0width$.width$}"),
    ];
    texts.iter().all(|text| *text == plain)
}

pub fn play(draw: &mut Draw) {
    // Now and then one about the most milliseconds or seconds that a length or a moment has.
    let limits = [i128::from(u64::MAX), i64::MAX.into(), i64::MIN.into()];
    let edge = (draw.of_these(&limits) / draw.of_these(&[1000, 1_000_000])) as u64;
    let edge = edge.wrapping_add(draw.below(3)).wrapping_sub(1);
    let (a, b) = (if draw.once_in(3) { edge } else { draw.number() }, draw.number());
    let (factor, shift) = (draw.number() as u32, draw.below(70) as u32);
    draw.call(format_args!("{a} {b} {factor} {shift}"));
    let (it, by) = (Duration::from_micros(a), Duration::from_micros(b));
    let [wide_a, wide_b] = [a, b].map(u128::from);
    let changed = |mut it: Duration, f: fn(&mut Duration, Duration)| {
        f(&mut it, by);
        it
    };
    let scaled = |mut it: Duration, by: u32, f: fn(&mut Duration, u32)| {
        f(&mut it, by);
        it
    };
    assert_eq!([it.total_micros(), it.total_millis()], [a, a / 1000]);
    assert_eq!(
        [it.secs(), it.millis(), it.micros()],
        [a / 1_000_000, a / 1000 % 1000, a % 1_000_000]
    );
    assert_eq!(it.to_string(), format!("{}.{:03}s", a / 1_000_000, a / 1000 % 1000));
    let sum = if_length(wide_a + wide_b);
    assert_eq!(
        (it.can_add(by), it.checked_add(by).map(|it| it.total_micros().into())),
        (sum.is_some(), sum)
    );
    assert_eq!((length(|| it + by), length(|| changed(it, |it, by| *it += by))), (sum, sum));
    assert_eq!(it.saturating_add(by).total_micros(), a.saturating_add(b));
    let rest = wide_a.checked_sub(wide_b);
    assert_eq!(
        (it.can_sub(by), it.checked_sub(by).map(|it| it.total_micros().into())),
        (rest.is_some(), rest)
    );
    assert_eq!((length(|| it - by), length(|| changed(it, |it, by| *it -= by))), (rest, rest));
    assert_eq!(it.saturating_sub(by).total_micros(), a.saturating_sub(b));
    let product = if_length(wide_a * u128::from(factor));
    let checked = it.checked_mul(factor).map(|it| it.total_micros().into());
    assert_eq!((it.can_mul(factor), checked), (product.is_some(), product));
    assert_eq!(
        (length(|| it * factor), length(|| scaled(it, factor, |it, by| *it *= by))),
        (product, product)
    );
    assert_eq!(
        u128::from(it.saturating_mul(factor).total_micros()),
        product.unwrap_or(u64::MAX.into())
    );
    let part = wide_a.checked_div(factor.into());
    assert_eq!(it.checked_div(factor).map(|it| it.total_micros().into()), part);
    assert_eq!(
        (length(|| it / factor), length(|| scaled(it, factor, |it, by| *it /= by))),
        (part, part)
    );
    let up = a.checked_shl(shift).map(u128::from);
    assert_eq!(
        (length(|| it << shift), length(|| scaled(it, shift, |it, by| *it <<= by))),
        (up, up)
    );
    let down = a.checked_shr(shift).map(u128::from);
    assert_eq!(
        (length(|| it >> shift), length(|| scaled(it, shift, |it, by| *it >>= by))),
        (down, down)
    );
    for (unit, fits, of) in [
        (1000, Duration::fits_millis(a), length(|| Duration::from_millis(a))),
        (1_000_000, Duration::fits_secs(a), length(|| Duration::from_secs(a))),
    ] {
        assert_eq!((fits, of), (if_length(wide_a * unit).is_some(), if_length(wide_a * unit)));
    }
    let core = core::time::Duration::from(it);
    assert_eq!(core, core::time::Duration::from_micros(a));
    let core = core::time::Duration::new(a >> 20, factor % 1_000_000_000);
    let micros = if_length(core.as_micros());
    assert_eq!((Duration::fits_core(core), length(|| core.into())), (micros.is_some(), micros));
    assert_eq!((it.cmp(&by), it == by, it.partial_cmp(&by)), (a.cmp(&b), a == b, Some(a.cmp(&b))));
    assert!(
        keeps_text(&it, shift as usize)
            && keeps_text(&Instant::from_micros(a as i64), shift as usize)
    );
    play_moments(a as i64, b as i64, by);
}

fn play_moments(a: i64, b: i64, by: Duration) {
    let (it, other) = (Instant::from_micros(a), Instant::from_micros(b));
    let (wide, length) = (i128::from(a), i128::from(by.total_micros()));
    assert_eq!([it.total_micros(), it.total_millis()], [a, a / 1000]);
    assert_eq!(
        [it.secs(), it.millis(), it.micros()],
        [a / 1_000_000, a / 1000 % 1000, a % 1_000_000]
    );
    assert_eq!(it.to_string(), format!("{}.{:0>3}s", a / 1_000_000, a / 1000 % 1000));
    for (exact, can, checked, given, saturating, assigned) in [
        (wide + length, it.can_add(by), it.checked_add(by), it + by, it.saturating_add(by), {
            let mut it = it;
            it += by;
            it
        }),
        (wide - length, it.can_sub(by), it.checked_sub(by), it - by, it.saturating_sub(by), {
            let mut it = it;
            it -= by;
            it
        }),
    ] {
        let nearest = exact.clamp(i64::MIN.into(), i64::MAX.into());
        assert_eq!(
            (can, checked.map(|it| it.total_micros().into())),
            (exact == nearest, if_moment(exact))
        );
        assert_eq!(
            [given, saturating, assigned].map(|it| i128::from(it.total_micros())),
            [nearest; 3]
        );
    }
    let since = i128::from(a) - i128::from(b);
    assert_eq!(i128::from(it.saturating_duration_since(other).total_micros()), since.max(0));
    if since >= 0 {
        assert_eq!(i128::from((it - other).total_micros()), since);
    }
    for (unit, fits, of) in [
        (1000, Instant::fits_millis(a), moment(|| Instant::from_millis(a))),
        (1000, Instant::fits_millis(a), moment(|| Instant::from_millis_const(a))),
        (1_000_000, Instant::fits_secs(a), moment(|| Instant::from_secs(a))),
        (1_000_000, Instant::fits_secs(a), moment(|| Instant::from_secs_const(a))),
    ] {
        assert_eq!((fits, of), (if_moment(wide * unit).is_some(), if_moment(wide * unit)));
    }
    assert_eq!(
        (it.cmp(&other), it == other, it.partial_cmp(&other)),
        (a.cmp(&b), a == b, Some(a.cmp(&b)))
    );
}

/// A number is a position modulo 2^32; of those that have it the nearest is meant.
pub fn play_numbers(draw: &mut Draw) {
    let ([initial, number, by], near) = ([(); 3].map(|()| draw.number() as u32), draw.number());
    // As often as not about 2^31 from the number of the position.
    let half = initial.wrapping_add(near as u32).wrapping_add(1 << 31);
    let half = half.wrapping_sub(1).wrapping_add(draw.below(3) as u32);
    let number = if draw.once_in(2) { half } else { number };
    draw.call(format_args!("{initial} {number} near {near}"));
    let (first, it) = (SequenceNumber::new(initial), SequenceNumber::new(number));
    let number_of = |pos: i128| (i128::from(initial) + pos).rem_euclid(1 << 32) as u32;
    assert_eq!(SequenceNumber::at(first, near).get(), number_of(near.into()));
    let ahead = i128::from(number.wrapping_sub(number_of(near.into())));
    let nearest = i128::from(near) + if ahead < 1 << 31 { ahead } else { ahead - (1 << 32) };
    assert_eq!(it.position(first, near), u64::try_from(nearest).ok());
    let numbering = Numbering { first };
    assert_eq!(
        (numbering.number(near), numbering.position(it, near)),
        (SequenceNumber::at(first, near), nearest as u64)
    );
    assert_eq!(
        (it.ahead_of(first), (first + by).get()),
        (number.wrapping_sub(initial), initial.wrapping_add(by))
    );
    assert_eq!((it == first, it != first), (number == initial, number != initial));
}
