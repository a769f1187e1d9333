//! Timestamps (RFC 7323), if both SYNs have them: what a segment says of the clocks, what is too old to be taken, and
//! whether what was sent again was lost at all.
use net_base::time::{Duration, Instant};

use crate::wire::{Segment, RST};

/// The bytes of a segment that the option takes from its text.
pub const LEN: u16 = 12;
/// After so long a silence the peer's clock may have gone half round (RFC 7323, 5.5).
const OUTDATED: Duration = Duration::from_secs(24 * 86_400);

pub struct Timestamps {
    /// The own clock, in milliseconds, from `first` on.
    clock: u32,
    first: u32,
    now: Instant,
    /// What is echoed, and when it came (TS.Recent): `None` if the SYNs don't agree.
    recent: Option<(u32, Instant)>,
    /// What was acknowledged last (Last.ACK.sent).
    acknowledged: u64,
    /// In which GiB of the stream that was, and what was echoed at the end of the one before it, and of the one before
    /// that.
    part: u64,
    ends: [Option<u32>; 2],
    copy: Copied,
}

/// The first segment that was sent again since the congestion window was halved.
enum Copied {
    /// It was answered, or nothing was halved.
    No,
    NotYet,
    At(u32),
}

impl Timestamps {
    pub fn new(first: u32) -> Timestamps {
        let now = Instant::ZERO;
        let (recent, ends, copy) = (None, [None; 2], Copied::No);
        Timestamps { clock: first, first, now, recent, acknowledged: 0, part: 0, ends, copy }
    }

    /// Sets the clock.
    pub fn tick(&mut self, now: Instant) {
        self.now = now;
        self.clock = self.first.wrapping_add(now.total_millis() as u32);
    }

    /// Returns what the SYN says, which offers them.
    pub fn offer(&self) -> Option<(u32, u32)> {
        Some((self.clock, 0))
    }

    /// Takes the peer's SYN, before the position `first`.
    pub fn open(&mut self, syn: &Segment, first: u64) {
        self.recent = syn.timestamps.map(|it| (it.0, self.now));
        (self.acknowledged, self.part) = (first, first >> 30);
        (self.ends, self.copy) = ([None; 2], Copied::No);
    }

    pub fn are_agreed(&self) -> bool {
        self.recent.is_some()
    }

    /// Returns what a segment says that acknowledges all below `next`.
    pub fn tell(&mut self, next: u64) -> Option<(u32, u32)> {
        self.acknowledged = next;
        self.recent.map(|it| (self.clock, it.0))
    }

    /// Whether a segment lacks them: then it is dropped (RFC 7323, 3.2).
    pub fn are_missing(&self, segment: &Segment) -> bool {
        self.are_agreed() && segment.timestamps.is_none() && segment.flags & RST == 0
    }

    /// Whether text is so old that its number may be that of another byte, 4 GiB before (PAWS, RFC 7323, 5.3): if it was
    /// sent more than a whole GiB before. The RFC drops all that is older than what is echoed. But text that a copy of a
    /// lost segment has overtaken is older, too.
    pub fn is_old(&self, segment: &Segment) -> bool {
        let Some(((value, _), (_, at))) = segment.timestamps.zip(self.recent) else { return false };
        let is_older = self.ends[1].is_some_and(|end| end.wrapping_sub(value) as i32 > 0);
        is_older && self.now - at <= OUTDATED
    }

    /// Takes notice of a segment at `pos` that is taken: once it has passed the test of the window, since one that comes
    /// again is newer than what it has overtaken, and that of what it acknowledges, since a forged one may be newer than
    /// all that follow.
    pub fn take(&mut self, segment: &Segment, pos: u64) {
        let Some(((value, _), (recent, at))) = segment.timestamps.zip(self.recent) else { return };
        let is_outdated = self.now - at > OUTDATED;
        let is_newer = value.wrapping_sub(recent) as i32 >= 0 || is_outdated;
        if is_newer && pos <= self.acknowledged {
            if is_outdated {
                self.ends = [None; 2];
            } else if self.part != pos >> 30 {
                self.ends = [Some(recent), self.ends[0]];
            }
            (self.part, self.recent) = (pos >> 30, Some((value, self.now)));
        }
    }

    /// Takes notice that the congestion window was halved.
    pub fn halved(&mut self) {
        self.copy = Copied::NotYet;
    }

    /// Takes notice that a timeout has lost all: with the window of before, all of it would be sent again at once. RFC 4015
    /// goes on with what is new, which the sending end doesn't do.
    pub fn expired(&mut self) {
        self.copy = Copied::No;
    }

    /// Takes notice that something is sent again.
    pub fn sent_again(&mut self) {
        if matches!(self.copy, Copied::NotYet) {
            self.copy = Copied::At(self.clock);
        }
    }

    /// Whether a segment, the first that acknowledges more since then, echoes what was sent before the copy: then that
    /// was for nothing (Eifel, RFC 3522).
    pub fn is_for_nothing(&mut self, segment: &Segment) -> bool {
        let Copied::At(at) = self.copy else { return false };
        self.copy = Copied::No;
        let echoed = segment.timestamps.filter(|_| self.are_agreed()).map(|it| it.1);
        echoed.is_some_and(|echoed| at.wrapping_sub(echoed) as i32 > 0)
    }
}
