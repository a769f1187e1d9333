// Written by tools/erase.py from crates/net_tcp/src/loss_recovery.rt: a change here would be lost.
//! What a sender sends next where segments are lost.
//!
//! Of a recovery, with the numbers' names in RFC 6675 and RFC 8985:
//!
//! ```text
//!   acknowledged | sent again in | to be sent | sent again, left  | to be sent | in flight | never sent
//!                | this pass     | again      | out of this pass  | again      |           |
//!              first           again        turn                resume        lost        sent
//! ```
//!
//! Each of these may be at or above the next one, where that part has no number. `first` is SND.UNA, `sent` HighData +
//! 1, and `again` HighRxt + 1. The recovery lasts while `first` is below `until`, the RecoveryPoint. `duplicates` is
//! DupThresh, and `round` RACK.dsack_round, up to which it stays. `probe.first` is a tail loss probe's first number,
//! and `probe.asked` TLP.end_seq. Only what isn't reported is sent again: the parts above are of the numbers that the
//! scoreboard lacks.

// Why: A range can't be lost while one before it isn't. Whether a probe repaired a loss itself (RFC 8985, section
// 7.4) isn't decided: peers that report no copies answer alike where it did and where it didn't.

use crate::tcp::reported::Reported;
use crate::tcp::sack::Sack;
use core::ops::Range;
use net_base::finite::SentNumbers;

/// How many segments above a position tell that it is lost, as long as nothing came twice (RFC 6675's DupThresh).
const DUPLICATES: usize = 3;

/// The most that `duplicated` makes of it.
const MOST_DUPLICATES: usize = 1024;

/// What was so before an acknowledgement, as `LossRecovery::before` returns it.
#[derive(Copy, Clone, Debug, PartialEq, Eq)]
pub struct Before {
    /// The first number that wasn't acknowledged.
    pub first: u64,
    /// How many positions were lost and weren't sent again.
    pub unsent: u64,
}

/// What an acknowledgement answers, for `LossRecovery::acknowledged`.
#[derive(Copy, Clone, Debug, PartialEq, Eq)]
pub struct Answer {
    /// What was so before it.
    pub before: Before,
    /// Whether a block of it reports what wasn't known.
    pub reports: bool,
    /// Whether it is an equal one, as `is_equal_acknowledgement` says: something has arrived, it doesn't say where.
    /// That counts only of a peer that reports nothing.
    pub is_equal: bool,
}

/// What is sent again in a pass, which begins at the lowest position that is lost.
#[repr(C)]
#[derive(Copy, Clone, Debug, PartialEq, Eq, Hash)]
pub struct RecoveryPass {
    /// What is lost below this position was sent again in this pass.
    again: u64,
    /// What is lost from this position on and below the mark was sent again before this pass, which leaves it out.
    turn: u64,
}

/// A moment of a recovery: what is sent after it tells that what was sent before it is lost.
#[repr(C)]
#[derive(Copy, Clone, Debug, PartialEq, Eq, Hash)]
pub struct RecoveryMark {
    /// All that was sent again below this position was sent before it.
    resume: u64,
    /// The number after the last one that was sent before it.
    sent: u64,
    /// How many positions were sent again from `resume` on after it.
    later: u64,
}

/// A probe for an answer.
#[repr(C)]
#[derive(Copy, Clone, Debug, PartialEq, Eq, Hash)]
pub struct RecoveryProbe {
    /// Its first position.
    first: u64,
    /// All that is below this position was sent before it.
    asked: u64,
}

/// What was sent again in a recovery, which may have been for nothing.
#[repr(C)]
#[derive(Copy, Clone, Debug, PartialEq, Eq, Hash)]
pub struct RecoveryCopies {
    /// The first position that wasn't acknowledged when it began.
    since: u64,
    /// How many positions were sent again since then, less those that came twice.
    count: u64,
}

/// What a sender of TCP sends next where segments are lost: first what is lost, then what was never sent.
///
/// It knows no bytes and no time: it reads the sender's numbers, the scoreboard, and a limit, which the peer's window
/// sets. A recovery begins when a loss is found or when the timer has expired, and lasts until all is
/// acknowledged that was sent by then. How large the congestion window is, and when it is halved, is the
/// caller's choice. smoltcp has no such type: its TCP socket sends again from the first unacknowledged
/// position on.
///
/// What was sent for the first time is lost by RFC 6675's rule, whose threshold rises where reordering made a sender
/// send for nothing. What was sent again is lost by the order of sending, as RFC 8985 has it, without a time for each
/// segment: it is sent again in passes, each from the lowest position on, and if enough of what was sent after a pass
/// has been reported, all is lost that was sent before and is missing. Where no answer comes, a probe asks for one; an
/// answer to it tells the same. Where what was lost arrives without having been sent again, finding it lost was wrong:
/// what wasn't sent again isn't lost then, and the threshold rises (after a timeout that is RFC 5682's F-RTO).
///
/// Of a peer that reports nothing, the third equal acknowledgement loses the first segment, and in a recovery each one
/// of something new the next (RFC 5681, RFC 6582). An equal one tells that a segment has arrived, so one less is in
/// flight. Of a peer that reports, an equal one tells nothing: the path may have doubled it (RFC 6675, section 2). If
/// it never reports, probes and the timeout repair what is lost.
///
/// ```
/// use net_base::scoreboard::Scoreboard;
/// use net_tcp::{Answer, LossRecovery, SentNumbers};
///
/// // Of 800 bytes in segments of 100, all sent, those from 100 to 399 are reported.
/// let numbers = SentNumbers { first_unacknowledged: 0, sent: 800 };
/// let (mut recovery, mut scoreboard) = (LossRecovery::new(), Scoreboard::<4>::empty());
/// let before = recovery.before(numbers, &scoreboard);
/// assert_eq!(scoreboard.report(100..400, 800), Ok(()));
/// let answer = Answer { before, reports: true, is_equal: false };
/// assert!(recovery.acknowledged(numbers, &scoreboard, 100, answer));
/// // The first segment is lost. The peer's window ends at 1000, and 500 bytes may be in flight.
/// let next = recovery.next_segment(numbers, &scoreboard, 1000, 500, 100);
/// assert_eq!(next, Some(0..100));
/// recovery.sent(numbers, 0..100);
/// // 400 bytes are neither reported nor lost, and 100 that are lost were sent again.
/// assert_eq!(recovery.in_flight(numbers, &scoreboard), 500);
/// assert_eq!(recovery.next_segment(numbers, &scoreboard, 1000, 500, 100), None);
/// assert_eq!(recovery.next_segment(numbers, &scoreboard, 1000, 600, 100), Some(800..900));
/// // No answer comes: a probe asks for one, and when it is answered, the first segment is lost again.
/// assert!(!recovery.fell_silent(numbers, &scoreboard));
/// assert_eq!(recovery.next_probe(numbers, &scoreboard, 800, 100), Some(0..100));
/// ```
///
/// Each of its calls is named by what happened or by what it returns. These are in an order: `before`, then the
/// scoreboard takes the acknowledgement, then `acknowledged`.
///
/// It is numbers and flags alone, so that C has it as it is: what there may be has a flag that says so. One of zeros is
/// new.
#[repr(C)]
#[derive(Copy, Clone, Debug, PartialEq, Eq, Hash)]
pub struct LossRecovery {
    /// The recovery lasts until all positions below this one are acknowledged.
    until: u64,
    /// What is below this position and isn't reported is lost.
    lost: u64,
    /// What was sent again.
    pass: RecoveryPass,
    /// When it was.
    mark: RecoveryMark,
    /// The probe that wasn't answered, if there is one.
    probe: RecoveryProbe,
    /// How many positions have arrived that the peer doesn't report.
    unknown: u64,
    /// Until all positions below this one are acknowledged, `duplicates` stays.
    round: u64,
    /// What may have been sent again for nothing.
    copies: RecoveryCopies,
    /// How many segments above a position tell that it is lost. Fewer than 3 count as 3.
    duplicates: usize,
    /// Whether a probe wasn't answered.
    has_probe: bool,
    /// Whether the peer doesn't report what has arrived, as the SYNs say.
    is_blind: bool,
    /// Whether the last recovery was a sign of congestion, and wasn't taken back.
    is_congestion: bool,
}

impl LossRecovery {
    /// Returns that no recovery is active, and nothing came twice.
    ///
    /// ```
    /// use net_tcp::{LossRecovery, SentNumbers};
    ///
    /// let recovery = LossRecovery::new();
    /// assert!(!recovery.is_active(SentNumbers { first_unacknowledged: 0, sent: 800 }));
    /// assert_eq!((recovery.duplicates(), recovery.is_blind()), (3, false));
    /// ```
    #[must_use]
    pub const fn new() -> Self {
        LossRecovery {
            until: 0,
            lost: 0,
            pass: RecoveryPass { again: 0, turn: 0 },
            mark: RecoveryMark { resume: 0, sent: 0, later: 0 },
            probe: RecoveryProbe { first: 0, asked: 0 },
            unknown: 0,
            round: 0,
            copies: RecoveryCopies { since: 0, count: 0 },
            duplicates: DUPLICATES,
            has_probe: false,
            is_blind: false,
            is_congestion: false,
        }
    }

    /// Returns whether a recovery lasts: not all is acknowledged that was sent when it began.
    #[must_use]
    pub fn is_active(&self, numbers: SentNumbers) -> bool {
        numbers.first_unacknowledged < self.until
    }

    /// Returns how many segments above a position tell that it is lost: 3 at first. `Scoreboard::lost_below` takes it.
    #[must_use]
    pub fn duplicates(&self) -> usize {
        self.duplicates.max(DUPLICATES)
    }

    /// Takes notice that something was sent again for nothing, as the timestamps of TCP may tell (RFC 3522). Where the
    /// peer says what, `came_twice` does so. From now on four times as many segments above a position tell that it is
    /// lost, up to 1024. Once that has happened, nothing changes until all is acknowledged that was sent by then: a
    /// round trip makes it four times as many once.
    ///
    /// ```
    /// # use net_tcp::{LossRecovery, SentNumbers};
    /// # let numbers = SentNumbers { first_unacknowledged: 0, sent: 800 };
    /// # let mut recovery = LossRecovery::new();
    /// recovery.duplicated(numbers);
    /// recovery.duplicated(numbers); // within the same round trip
    /// assert_eq!(recovery.duplicates(), 12);
    /// ```
    pub fn duplicated(&mut self, numbers: SentNumbers) {
        if numbers.first_unacknowledged < self.round {
            return;
        }
        self.duplicates = self.duplicates().saturating_mul(4).min(MOST_DUPLICATES);
        self.round = numbers.sent;
    }

    /// Takes notice that the peer reports that these positions came twice, as the first block of an acknowledgement
    /// may, an old one too (RFC 2883). If they are at or above the first position that wasn't acknowledged when the
    /// last recovery began, and not above what was sent again in it, so many of its copies were for nothing, and it is
    /// as if `duplicated` was called. Else nothing changes: the path has doubled them, or a probe has.
    ///
    /// ```
    /// # use net_tcp::{LossRecovery, SentNumbers};
    /// # let numbers = SentNumbers { first_unacknowledged: 0, sent: 800 };
    /// # let mut recovery = LossRecovery::new();
    /// recovery.timed_out(numbers);
    /// recovery.sent(numbers, 0..100);
    /// recovery.came_twice(numbers, 0..100); // the copy was for nothing
    /// assert_eq!(recovery.duplicates(), 12);
    /// ```
    pub fn came_twice(&mut self, numbers: SentNumbers, positions: Range<u64>) {
        if self.copies.since <= positions.start
            && positions.end <= self.pass.again.max(self.mark.resume)
        {
            let count = positions.end.saturating_sub(positions.start);
            self.copies.count = self.copies.count.saturating_sub(count);
            self.duplicated(numbers);
        }
    }

    /// Counts what is sent again.
    fn copy(&mut self, numbers: SentNumbers, positions: Range<u64>) {
        let count = positions.end.min(numbers.sent).saturating_sub(positions.start);
        self.copies.count = self.copies.count.saturating_add(count);
    }

    /// Returns whether the last recovery was for nothing, and ends it then: nothing that it found lost is missing but
    /// what was sent again, and all that was sent again came twice (RFC 3708). Then the congestion window may be what
    /// it was when the recovery began. Ask it after each acknowledgement, an old one too, once `acknowledged` has it.
    /// It is true at most once after each call that told of congestion: `acknowledged`, `fell_silent` or
    /// `reports_dropped` that returned true, or `timed_out`.
    ///
    /// ```
    /// # use net_base::scoreboard::Scoreboard;
    /// # use net_tcp::{LossRecovery, SentNumbers};
    /// # let numbers = SentNumbers { first_unacknowledged: 0, sent: 800 };
    /// # let mut scoreboard = Scoreboard::<4>::empty();
    /// # let mut recovery = LossRecovery::new();
    /// recovery.timed_out(numbers);
    /// recovery.sent(numbers, 0..100);
    /// assert!(!recovery.take_back(numbers, &scoreboard));
    /// // All has arrived, and the copy came twice.
    /// assert_eq!(scoreboard.report(100..800, 800), Ok(()));
    /// recovery.came_twice(numbers, 0..100);
    /// assert!(recovery.take_back(numbers, &scoreboard));
    /// ```
    #[must_use]
    pub fn take_back<B: Reported>(&mut self, numbers: SentNumbers, scoreboard: &B) -> bool {
        let is_wrong =
            self.is_congestion && self.copies.count == 0 && self.unsent(numbers, scoreboard) == 0;
        if is_wrong {
            self.until = 0;
            self.is_congestion = false;
        }
        is_wrong
    }

    /// Takes notice whether the peer reports what arrives, as the SYNs say. A new recovery expects that it does.
    /// Nothing else changes it: what a peer reports without that is taken, too.
    ///
    /// ```
    /// # use net_base::scoreboard::Scoreboard;
    /// # use net_tcp::{Answer, LossRecovery, Sack, SentNumbers};
    /// # let numbers = SentNumbers { first_unacknowledged: 0, sent: 800 };
    /// # let scoreboard = Scoreboard::<4>::empty();
    /// # let mut recovery = LossRecovery::new();
    /// recovery.opened(Sack::Absent);
    /// let before = recovery.before(numbers, &scoreboard);
    /// let answer = Answer { before, reports: false, is_equal: true };
    /// // The third equal acknowledgement tells of a loss.
    /// let begins = [(); 3].map(|()| recovery.acknowledged(numbers, &scoreboard, 100, answer));
    /// assert_eq!(begins, [false, false, true]);
    /// ```
    pub fn opened(&mut self, sack: Sack) {
        self.is_blind = !sack.is_permitted();
        self.unknown = 0;
    }

    /// Returns whether the peer reports nothing: then no probe is answered, and none is to be sent.
    #[must_use]
    pub fn is_blind(&self) -> bool {
        self.is_blind
    }

    /// Returns what `acknowledged` wants to know of the moment before an acknowledgement. Call it before the scoreboard
    /// has that.
    ///
    /// ```
    /// # use net_base::scoreboard::Scoreboard;
    /// # use net_tcp::{LossRecovery, SentNumbers};
    /// # let numbers = SentNumbers { first_unacknowledged: 0, sent: 800 };
    /// # let scoreboard = Scoreboard::<4>::empty();
    /// # let mut recovery = LossRecovery::new();
    /// recovery.timed_out(numbers);
    /// recovery.sent(numbers, 0..100);
    /// let before = recovery.before(numbers, &scoreboard);
    /// assert_eq!((before.first, before.unsent), (0, 700));
    /// ```
    #[must_use]
    pub fn before<B: Reported>(&self, numbers: SentNumbers, scoreboard: &B) -> Before {
        Before { first: numbers.first_unacknowledged, unsent: self.unsent(numbers, scoreboard) }
    }

    /// Returns how many positions are lost and weren't sent again, in a recovery that lasts.
    fn unsent<B: Reported>(&self, numbers: SentNumbers, scoreboard: &B) -> u64 {
        if self.is_active(numbers) {
            self.unsent_lost(numbers, scoreboard)
        } else {
            0
        }
    }

    /// Returns how many positions are lost and weren't sent again, of this pass and above the mark.
    fn unsent_lost<B: Reported>(&self, numbers: SentNumbers, scoreboard: &B) -> u64 {
        let from = self.pass.again.max(numbers.first_unacknowledged);
        let of_pass = scoreboard.missing_between(from, self.pass.turn.min(self.lost));
        let others = scoreboard.missing_between(from.max(self.mark.resume), self.lost);
        of_pass.saturating_add(others)
    }

    /// Takes an acknowledgement, once the scoreboard has it: finds what is lost. `numbers` are the sender's after it,
    /// and `answer` is what it answers.
    ///
    /// | This is lost | as soon as |
    /// |---|---|
    /// | what was sent once | `duplicates` segments above it are reported: `Scoreboard::lost_below` |
    /// | what was sent, once or again, before a mark | more than `duplicates - 1` segments sent after it are reported |
    /// | all that was sent before a probe | the probe is answered, if it doesn't repeat what was sent again |
    /// | what was sent once before the mark | a probe that repeats this is answered, maybe its earlier copy |
    /// | the first segment, outside of a recovery | the peer reports nothing, but acknowledges the same `duplicates` times |
    /// | the first segment, in a recovery | such a peer acknowledges something new |
    ///
    /// Two of these, of segments that are numbered:
    ///
    /// ```text
    ///   sent once     0 1 2 3 4 5 6 7               1, 2 and 3 are reported: 0 is lost, and 4 to 7 are in flight
    ///                 x # # # . . . .
    ///   sent again    0               8 9 10 11     8, 9 and 10 are reported, which were sent after the copy of 0:
    ///                 x # # # x x x x # # #  .      that is lost, and 4 to 7, which were sent before it
    /// ```
    ///
    /// If more than one position has arrived that was lost and wasn't sent again, finding it lost was wrong: nothing
    /// that wasn't sent again is lost then, and it is as if something came twice, as `duplicated` says. One position
    /// may be the byte that asks for a window. Of a peer that reports nothing, an equal acknowledgement of all that a
    /// recovery lasted for answers a copy: it counts as a report of what came twice.
    ///
    /// Returns whether this call begins a recovery: then halve the congestion window, until `take_back` says that this
    /// was wrong.
    ///
    /// ```
    /// # use net_base::scoreboard::Scoreboard;
    /// # use net_tcp::{Answer, LossRecovery, SentNumbers};
    /// # let mut numbers = SentNumbers { first_unacknowledged: 0, sent: 800 };
    /// # let (mut recovery, mut scoreboard) = (LossRecovery::new(), Scoreboard::<4>::empty());
    /// let before = recovery.before(numbers, &scoreboard);
    /// // All below 100 is acknowledged, and three segments above the next one are reported: that is lost.
    /// numbers.first_unacknowledged = 100;
    /// scoreboard.acknowledge(100);
    /// assert_eq!(scoreboard.report(200..500, 800), Ok(()));
    /// let answer = Answer { before, reports: true, is_equal: false };
    /// assert!(recovery.acknowledged(numbers, &scoreboard, 100, answer));
    /// assert!(recovery.is_active(numbers));
    /// ```
    pub fn acknowledged<B: Reported>(
        &mut self,
        numbers: SentNumbers,
        scoreboard: &B,
        segment_size: usize,
        answer: Answer,
    ) -> bool {
        self.note_answer(numbers, scoreboard, segment_size, answer);
        self.find(numbers, scoreboard, segment_size, answer.before.first)
    }

    /// Takes notice of what an acknowledgement answers.
    fn note_answer<B: Reported>(
        &mut self,
        numbers: SentNumbers,
        scoreboard: &B,
        segment_size: usize,
        answer: Answer,
    ) {
        let is_equal = self.counts_equal(answer);
        if is_equal && !answer.reports && self.answers_copy(numbers.first_unacknowledged) {
            self.duplicated(numbers);
        }
        self.count_unreported(numbers, segment_size, Answer { is_equal, ..answer });
        self.withdraw(numbers, scoreboard, answer.before.unsent);
    }

    /// Finds that nothing is lost which wasn't sent again, if such a thing has arrived: more than the byte of a
    /// window's probe. There were `before` of these.
    fn withdraw<B: Reported>(&mut self, numbers: SentNumbers, scoreboard: &B, before: u64) {
        if before > 1 && !self.is_blind() && self.unsent_lost(numbers, scoreboard) < before - 1 {
            self.pass.turn = self.pass.again;
            self.lost = self.lost.min(self.pass.again.max(self.mark.resume));
            self.duplicated(numbers);
        }
    }

    /// Returns whether an acknowledgement counts as an equal one: only that of a peer that reports nothing does.
    fn counts_equal(&self, answer: Answer) -> bool {
        self.is_blind() && answer.is_equal
    }

    /// Returns whether an equal acknowledgement of this number answers a copy: it is of all that was sent before a
    /// recovery, if there was one.
    fn answers_copy(&self, first: u64) -> bool {
        self.until > 0 && first == self.until
    }

    /// Takes notice of what has arrived that the peer doesn't report.
    fn count_unreported(&mut self, numbers: SentNumbers, segment_size: usize, answer: Answer) {
        let size = segment_size as u64;
        let first = numbers.first_unacknowledged;
        let end = if self.is_active(numbers) { self.until } else { numbers.sent };
        let known = first.saturating_sub(answer.before.first).saturating_sub(size);
        let most = end.saturating_sub(first).saturating_sub(size);
        let unknown = self.unreported_after(
            size,
            answer.reports,
            answer.is_equal && !self.answers_copy(first),
        );
        self.unknown = unknown.saturating_sub(known).min(most);
    }

    /// Returns how many positions have arrived that the peer doesn't report, after an acknowledgement that answers
    /// them.
    fn unreported_after(&self, size: u64, reports: bool, is_equal: bool) -> u64 {
        if reports {
            0
        } else if is_equal {
            self.unknown.saturating_add(size)
        } else {
            self.unknown
        }
    }

    /// Finds what is lost by what was reported, or has arrived unreported.
    fn find<B: Reported>(
        &mut self,
        numbers: SentNumbers,
        scoreboard: &B,
        segment_size: usize,
        before: u64,
    ) -> bool {
        let highest = scoreboard.highest_reported();
        let lost = scoreboard.lost_below(self.duplicates(), segment_size);
        let blind = self.blind_lost(numbers, segment_size, before);
        self.lose_found(numbers, scoreboard, segment_size, lost.max(blind), highest)
    }

    /// Returns below which position all is lost, if the peer reports nothing.
    fn blind_lost(&self, numbers: SentNumbers, segment_size: usize, before: u64) -> u64 {
        let first = numbers.first_unacknowledged;
        let is_lost = if self.is_active(numbers) {
            before < first
        } else {
            self.most_later(segment_size) < self.unknown
        };
        if self.is_blind() && is_lost {
            numbers.sent.min(first.saturating_add(segment_size as u64))
        } else {
            0
        }
    }

    /// Returns how much of what was sent later may have arrived before something is lost.
    fn most_later(&self, segment_size: usize) -> u64 {
        (self.duplicates().saturating_sub(1) as u64).saturating_mul(segment_size as u64)
    }

    /// Loses what is found lost, by the scoreboard's two limits.
    fn lose_found<B: Reported>(
        &mut self,
        numbers: SentNumbers,
        scoreboard: &B,
        segment_size: usize,
        lost: u64,
        highest: u64,
    ) -> bool {
        if self.has_probe && scoreboard.contains(self.probe.first) {
            self.probe.first = 0;
            self.has_probe = false;
            let asked = if self.is_blind() { 0 } else { self.probe.asked };
            return self.lose(
                numbers,
                scoreboard,
                segment_size,
                lost.max(highest).max(asked),
                true,
            );
        }
        self.lose(numbers, scoreboard, segment_size, lost, false)
    }

    /// Loses what is below a position, and what was overtaken.
    fn lose<B: Reported>(
        &mut self,
        numbers: SentNumbers,
        scoreboard: &B,
        segment_size: usize,
        lost: u64,
        is_answered: bool,
    ) -> bool {
        if self.is_active(numbers) {
            self.lost = self.lost.max(lost);
            self.end_pass(numbers, scoreboard, segment_size, is_answered);
            return false;
        }
        let begins = numbers.first_unacknowledged < lost;
        if begins {
            self.begin(numbers, lost);
        }
        begins
    }

    /// Begins a pass, if what was sent again is lost again.
    fn end_pass<B: Reported>(
        &mut self,
        numbers: SentNumbers,
        scoreboard: &B,
        segment_size: usize,
        is_answered: bool,
    ) {
        if is_answered {
            self.pass(numbers, self.pass.again.max(self.mark.resume));
        } else if scoreboard.missing_between(numbers.first_unacknowledged, self.mark.resume) == 0 {
            self.mark(numbers);
        } else if self.most_later(segment_size) < self.reported_later(numbers, scoreboard) {
            // What was sent before the pass is lost, if the peer would have reported it.
            if !self.is_blind() {
                self.lost = self.lost.max(self.mark.sent);
            }
            self.pass(numbers, self.mark.resume);
        }
    }

    /// Returns how many positions are reported of what was sent after a pass.
    fn reported_later<B: Reported>(&self, numbers: SentNumbers, scoreboard: &B) -> u64 {
        let again = scoreboard.missing_between(self.mark.resume, self.pass.again);
        let first = scoreboard.missing_between(self.mark.sent, numbers.sent);
        let all = self.mark.later.saturating_add(numbers.sent.saturating_sub(self.mark.sent));
        all.saturating_sub(again).saturating_sub(first)
    }

    /// Begins a pass up to a position: what was sent again from there on stays sent again.
    fn pass(&mut self, numbers: SentNumbers, turn: u64) {
        self.pass.turn = turn;
        self.mark(numbers);
        self.pass.again = numbers.first_unacknowledged;
    }

    /// Counts what is sent from now on as sent later than all that was sent again.
    fn mark(&mut self, numbers: SentNumbers) {
        self.mark = RecoveryMark {
            resume: self.pass.again.max(self.mark.resume),
            sent: numbers.sent,
            later: 0,
        };
    }

    /// Finds what is lost where the timer's probe is due: all below the highest position that was reported, since
    /// nothing was for two round trips. Then send as `next_segment` says; if that sends nothing, `next_probe`.
    ///
    /// Returns whether this call begins a recovery: then halve the congestion window.
    ///
    /// ```
    /// # use net_base::scoreboard::Scoreboard;
    /// # use net_tcp::{LossRecovery, SentNumbers};
    /// # let numbers = SentNumbers { first_unacknowledged: 0, sent: 800 };
    /// # let mut scoreboard = Scoreboard::<4>::empty();
    /// # let mut recovery = LossRecovery::new();
    /// assert_eq!(scoreboard.report(100..200, 800), Ok(()));
    /// assert!(recovery.fell_silent(numbers, &scoreboard));
    /// assert_eq!(recovery.next_segment(numbers, &scoreboard, 800, 800, 100), Some(0..100));
    /// ```
    pub fn fell_silent<B: Reported>(&mut self, numbers: SentNumbers, scoreboard: &B) -> bool {
        let lost = scoreboard.highest_reported();
        if self.is_active(numbers) {
            self.lost = self.lost.max(lost);
            return false;
        }
        let begins = numbers.first_unacknowledged < lost;
        if begins {
            self.begin(numbers, lost);
        }
        begins
    }

    /// Returns what a probe sends below `limit`, whatever is in flight. Outside of a recovery that is a new segment,
    /// or, if the limit allows none, the last one that was sent above all that was reported. If there is neither, in a
    /// recovery, or if the last position that was sent is reported, it is the first segment that isn't reported. A
    /// `segment_size` of 0 counts as 1. Call `probe_sent` once it is sent.
    ///
    /// ```
    /// # use net_base::scoreboard::Scoreboard;
    /// # use net_tcp::{LossRecovery, SentNumbers};
    /// # let numbers = SentNumbers { first_unacknowledged: 0, sent: 800 };
    /// # let scoreboard = Scoreboard::<4>::empty();
    /// # let recovery = LossRecovery::new();
    /// assert_eq!(recovery.next_probe(numbers, &scoreboard, 1_000, 100), Some(800..900)); // a new segment
    /// assert_eq!(recovery.next_probe(numbers, &scoreboard, 800, 100), Some(700..800)); // the last one
    /// ```
    #[must_use]
    pub fn next_probe<B: Reported>(
        &self,
        numbers: SentNumbers,
        scoreboard: &B,
        limit: u64,
        segment_size: usize,
    ) -> Option<Range<u64>> {
        let size = segment_size.max(1) as u64;
        let (first, sent) = (numbers.first_unacknowledged, numbers.sent);
        let highest = scoreboard.highest_reported();
        let end = sent.min(limit);
        if !self.is_active(numbers) && highest < sent {
            if sent < limit {
                return Some(sent..limit.min(sent.saturating_add(size)));
            }
            let start = first.max(highest).max(end.saturating_sub(size));
            if start < end {
                return Some(start..end);
            }
        }
        let (start, end) = scoreboard.next_hole(first, end)?;
        Some(start..end.min(start.saturating_add(size)))
    }

    /// Takes notice that a probe of these positions is sent. `numbers` are the sender's before that.
    ///
    /// ```
    /// # use net_base::scoreboard::Scoreboard;
    /// # use net_tcp::{Answer, LossRecovery, SentNumbers};
    /// # let numbers = SentNumbers { first_unacknowledged: 0, sent: 800 };
    /// # let mut scoreboard = Scoreboard::<4>::empty();
    /// # let mut recovery = LossRecovery::new();
    /// recovery.probe_sent(numbers, 700..800);
    /// let before = recovery.before(numbers, &scoreboard);
    /// // Its answer tells that all before is lost.
    /// assert_eq!(scoreboard.report(700..800, 800), Ok(()));
    /// let answer = Answer { before, reports: true, is_equal: false };
    /// assert!(recovery.acknowledged(numbers, &scoreboard, 100, answer));
    /// assert_eq!(recovery.in_flight(numbers, &scoreboard), 0);
    /// ```
    pub fn probe_sent(&mut self, numbers: SentNumbers, positions: Range<u64>) {
        let is_again =
            self.is_active(numbers) && positions.start < self.pass.again.max(self.mark.resume);
        self.probe = RecoveryProbe {
            first: positions.start,
            asked: if is_again { self.mark.sent } else { numbers.sent },
        };
        self.has_probe = true;
        self.copy(numbers, positions);
    }

    /// Begins a recovery where the peer has dropped what it had reported: it acknowledges up to a number that was
    /// reported (RFC 2018, section 8). All below the highest position that was reported is lost. Call it before the
    /// scoreboard begins again.
    ///
    /// Returns whether none lasted: then halve the congestion window.
    ///
    /// ```
    /// # use net_base::scoreboard::Scoreboard;
    /// # use net_tcp::{LossRecovery, SentNumbers};
    /// # let mut numbers = SentNumbers { first_unacknowledged: 0, sent: 800 };
    /// # let mut scoreboard = Scoreboard::<4>::empty();
    /// # let mut recovery = LossRecovery::new();
    /// assert_eq!(scoreboard.report(100..400, 800), Ok(()));
    /// // The peer acknowledges up to 100, which it had reported.
    /// numbers.first_unacknowledged = 100;
    /// assert!(recovery.reports_dropped(numbers, &scoreboard));
    /// scoreboard.reset_at(100);
    /// ```
    pub fn reports_dropped<B: Reported>(&mut self, numbers: SentNumbers, scoreboard: &B) -> bool {
        let begins = !self.is_active(numbers);
        let lost = self.lost.max(scoreboard.highest_reported());
        self.begin(numbers, lost);
        begins
    }

    /// Begins a recovery in which all that was sent and isn't reported is lost, since the timer has expired. Three
    /// segments above a position tell again that it is lost. Let one segment be in flight, until `take_back` says that
    /// this was wrong.
    ///
    /// ```
    /// # use net_base::scoreboard::Scoreboard;
    /// # use net_tcp::{LossRecovery, SentNumbers};
    /// # let numbers = SentNumbers { first_unacknowledged: 0, sent: 800 };
    /// # let scoreboard = Scoreboard::<4>::empty();
    /// # let mut recovery = LossRecovery::new();
    /// recovery.timed_out(numbers);
    /// assert_eq!(recovery.in_flight(numbers, &scoreboard), 0);
    /// assert_eq!(recovery.next_segment(numbers, &scoreboard, 800, 100, 100), Some(0..100));
    /// ```
    pub fn timed_out(&mut self, numbers: SentNumbers) {
        self.lose_all(numbers);
        self.is_congestion = true;
    }

    /// Begins a recovery as `timed_out` does, but one that is no sign of congestion: the peer's window is shut, so it
    /// drops what is sent, or nothing is in flight. `take_back` isn't true of it. If a recovery is active, it goes on,
    /// and may be taken back as before.
    ///
    /// ```
    /// # use net_base::scoreboard::Scoreboard;
    /// # use net_tcp::{LossRecovery, SentNumbers};
    /// # let numbers = SentNumbers { first_unacknowledged: 0, sent: 1 };
    /// # let scoreboard = Scoreboard::<4>::empty();
    /// # let mut recovery = LossRecovery::new();
    /// // The first byte asks for a window, and is acknowledged when that opens.
    /// recovery.stalled(numbers);
    /// assert!(!recovery.take_back(SentNumbers { first_unacknowledged: 1, sent: 1 }, &scoreboard));
    /// ```
    pub fn stalled(&mut self, numbers: SentNumbers) {
        let is_congestion = self.is_active(numbers) && self.is_congestion;
        self.lose_all(numbers);
        self.is_congestion = is_congestion;
    }

    fn lose_all(&mut self, numbers: SentNumbers) {
        self.duplicates = DUPLICATES;
        self.unknown = 0;
        self.begin(numbers, numbers.sent);
    }

    fn begin(&mut self, numbers: SentNumbers, lost: u64) {
        let first = numbers.first_unacknowledged;
        if !self.is_active(numbers) {
            self.copies = RecoveryCopies { since: first, count: 0 };
            self.is_congestion = true;
        }
        self.until = numbers.sent;
        self.lost = lost;
        self.pass = RecoveryPass { again: first, turn: first };
        self.mark = RecoveryMark { resume: first, sent: numbers.sent, later: 0 };
        self.probe = RecoveryProbe { first: 0, asked: 0 };
        self.has_probe = false;
    }

    /// Returns how many positions may be in flight: of those which were sent and aren't reported, the ones that
    /// aren't lost or were sent again, less those that have arrived and the peer doesn't report. Half of it is the new
    /// congestion window where a recovery begins (RFC 5681's FlightSize).
    ///
    /// ```
    /// # use net_base::scoreboard::Scoreboard;
    /// # use net_tcp::{LossRecovery, SentNumbers};
    /// # let numbers = SentNumbers { first_unacknowledged: 0, sent: 800 };
    /// # let mut scoreboard = Scoreboard::<4>::empty();
    /// # let recovery = LossRecovery::new();
    /// assert_eq!(scoreboard.report(100..400, 800), Ok(()));
    /// assert_eq!(recovery.in_flight(numbers, &scoreboard), 500);
    /// ```
    #[must_use]
    pub fn in_flight<B: Reported>(&self, numbers: SentNumbers, scoreboard: &B) -> u64 {
        let first = numbers.first_unacknowledged;
        if !self.is_active(numbers) {
            let all = scoreboard.missing_between(first, numbers.sent);
            return all.saturating_sub(self.unknown);
        }
        let from = self.pass.again.max(first);
        let turn = self.pass.turn.min(self.lost).max(from);
        let resume = self.mark.resume.max(from);
        let lost = self.lost.max(resume);
        // Lost and not sent again is what is missing from `from` to `turn`, and from `resume` to `lost`.
        if turn <= resume && lost <= numbers.sent {
            let again = scoreboard.missing_between(first, from);
            let before = scoreboard.missing_between(turn, resume);
            let after = scoreboard.missing_between(lost, numbers.sent);
            return (again + before + after).saturating_sub(self.unknown);
        }
        let all = scoreboard.missing_between(first, numbers.sent);
        let of_pass = scoreboard.missing_between(from, turn);
        let others = scoreboard.missing_between(resume, lost);
        all.saturating_sub(self.unknown).saturating_sub(of_pass).saturating_sub(others)
    }

    /// Returns which range to send next, at most a segment. In a recovery that is what is lost and wasn't sent again;
    /// else what was never sent. Outside of one it is what was never sent. It is below `limit`, as
    /// `PeerWindow::send_limit` returns it. A `segment_size` of 0 counts as 1.
    ///
    /// `None` if there is nothing to send, or if with a whole segment more than `window` positions, the
    /// congestion window, would be in flight. The first unacknowledged number is sent whatever is in flight.
    ///
    /// ```
    /// # use net_base::scoreboard::Scoreboard;
    /// # use net_tcp::{LossRecovery, SentNumbers};
    /// # let numbers = SentNumbers { first_unacknowledged: 0, sent: 800 };
    /// # let scoreboard = Scoreboard::<4>::empty();
    /// # let recovery = LossRecovery::new();
    /// // 800 positions are in flight.
    /// assert_eq!(recovery.next_segment(numbers, &scoreboard, 1_000, 900, 100), Some(800..900));
    /// assert_eq!(recovery.next_segment(numbers, &scoreboard, 1_000, 899, 100), None);
    /// ```
    ///
    /// # [Guarantees](crate#guarantees)
    ///
    /// - on `Some(segment)`: `segment.start < segment.end` and `segment.end <= limit` and `segment.end <= segment.start + max(1, segment_size)`
    #[must_use]
    pub fn next_segment<B: Reported>(
        &self,
        numbers: SentNumbers,
        scoreboard: &B,
        limit: u64,
        window: u64,
        segment_size: usize,
    ) -> Option<Range<u64>> {
        let (start, end) = self.next_range(numbers, scoreboard, limit)?;
        let size = segment_size.max(1) as u64;
        if start > numbers.first_unacknowledged {
            let in_flight = self.in_flight(numbers, scoreboard);
            if window < in_flight || window - in_flight < size {
                return None;
            }
        }
        Some(start..end.min(start.saturating_add(size)))
    }

    /// Returns the range of which the next segment is a part.
    fn next_range<B: Reported>(
        &self,
        numbers: SentNumbers,
        scoreboard: &B,
        limit: u64,
    ) -> Option<(u64, u64)> {
        if !self.is_active(numbers) {
            return unsent(numbers.sent, limit);
        }
        let from = self.pass.again.max(numbers.first_unacknowledged);
        if let Some(hole) = scoreboard.next_hole(from, self.pass.turn.min(self.lost).min(limit)) {
            return Some(hole);
        }
        if let Some(hole) = scoreboard.next_hole(from.max(self.mark.resume), self.lost.min(limit)) {
            return Some(hole);
        }
        unsent(numbers.sent, limit)
    }

    /// Takes notice that these positions are sent now: those of `next_segment`, or fewer from its start on. All
    /// that is lost below their end then counts as sent again. `numbers` are the sender's before that. Nothing
    /// changes outside of a recovery, or if none of them was sent before.
    ///
    /// ```
    /// # use net_base::scoreboard::Scoreboard;
    /// # use net_tcp::{LossRecovery, SentNumbers};
    /// # let numbers = SentNumbers { first_unacknowledged: 0, sent: 800 };
    /// # let scoreboard = Scoreboard::<4>::empty();
    /// # let mut recovery = LossRecovery::new();
    /// recovery.timed_out(numbers);
    /// recovery.sent(numbers, 0..100);
    /// assert_eq!(recovery.next_segment(numbers, &scoreboard, 800, 200, 100), Some(100..200));
    /// ```
    pub fn sent(&mut self, numbers: SentNumbers, positions: Range<u64>) {
        if self.is_active(numbers) && positions.start < positions.end.min(numbers.sent) {
            let Range { start, end } = positions;
            self.copy(numbers, start..end);
            self.pass.again = self.pass.again.max(end);
            if self.mark.resume <= numbers.first_unacknowledged {
                self.mark(numbers);
            } else if self.mark.resume <= start {
                self.mark.later = self.mark.later.saturating_add(end - start);
            }
        }
    }
}

/// Returns what was never sent, up to a limit.
fn unsent(sent: u64, limit: u64) -> Option<(u64, u64)> {
    (sent < limit).then_some((sent, limit))
}
