//! What plays a model's seeds.
use crate::draw::Draw;
use std::cell::Cell;
use std::panic::{catch_unwind, set_hook, take_hook, AssertUnwindSafe};
use std::sync::Once;

thread_local! {
    /// Whether panics say nothing here.
    static IS_QUIET: Cell<bool> = const { Cell::new(false) };
}

/// Plays each seed. Of those that fail it shows the one with the fewest calls.
pub fn beside(play: fn(&mut Draw)) {
    static HOOK: Once = Once::new();
    HOOK.call_once(|| {
        let usual = take_hook();
        set_hook(Box::new(move |panic| {
            if !IS_QUIET.get() {
                usual(panic);
            }
        }));
    });
    IS_QUIET.set(true);
    let seeds = std::env::var("MODEL_SEEDS").ok().and_then(|it| it.parse().ok()).unwrap_or(300);
    let fails = |draw: &mut Draw| catch_unwind(AssertUnwindSafe(|| play(draw))).is_err();
    let failing = (0..seeds).filter(|&seed| fails(&mut Draw::of(seed))).take(50).map(|seed| {
        let mut again = Draw::of(seed);
        again.calls = Some(vec![]);
        fails(&mut again);
        (again.calls.expect("the calls"), seed)
    });
    if let Some((calls, seed)) = failing.min_by_key(|(calls, _)| calls.len()) {
        IS_QUIET.set(false);
        eprintln!("seed {seed}:\n    {}", calls.join("\n    "));
        play(&mut Draw::of(seed));
    }
}

macro_rules! beside_models {
    ($($name:ident: $play:path,)*) => {$(
        #[test]
        fn $name() {
            crate::beside::beside($play);
        }
    )*};
}

pub(crate) use beside_models;
