//! A stream in rings that grow, for a column of their own: each byte is copied in.

use std::ops::Range;

use bytes::Bytes;
use net_base::{
    finite::{SendBufferOver, StreamReceiverOver},
    storage::Run,
};

use super::{Receive, Send};

/// The least capacity, and the least number of ranges.
const LEAST: usize = 4096;
const FIRST_RUNS: usize = 8;
const MOST_RUNS: usize = 1024;

pub struct Receiver(StreamReceiverOver<Vec<u8>, Vec<Run>>);

impl Default for Receiver {
    fn default() -> Self {
        Receiver(StreamReceiverOver::over_at(vec![], vec![], 0))
    }
}

impl Receive for Receiver {
    fn insert(&mut self, offset: u64, bytes: Bytes, _datagram: usize) {
        let first = self.0.next() - self.0.queued() as u64;
        let need = (offset + bytes.len() as u64).saturating_sub(first) as usize;
        if self.0.capacity() < need {
            self.0.grow(vec![0; need.next_power_of_two().max(LEAST)]);
        }
        while self.0.keep(offset, &bytes, false).is_err() && self.0.most_runs() < MOST_RUNS {
            let more = (2 * self.0.most_runs()).clamp(FIRST_RUNS, MOST_RUNS);
            self.0.grow_runs(vec![Run::EMPTY; more]);
        }
    }

    fn read(&mut self, mut see: impl FnMut(&[u8])) {
        let (front, back) = self.0.as_slices();
        [front, back].into_iter().filter(|part| !part.is_empty()).for_each(&mut see);
        self.0.remove(self.0.queued());
    }
}

/// As many ranges as wait at once here.
fn runs() -> Vec<Run> {
    vec![Run::EMPTY; MOST_RUNS]
}

pub struct Sender(SendBufferOver<Vec<u8>, Vec<Run>>);

impl Default for Sender {
    fn default() -> Self {
        Sender(SendBufferOver::over_at(vec![], runs(), runs(), 0))
    }
}

impl Send for Sender {
    fn write(&mut self, data: Bytes) {
        if self.0.window() < data.len() {
            let need = self.0.capacity() - self.0.window() + data.len();
            self.0.grow(vec![0; need.next_power_of_two().max(LEAST)]);
        }
        assert_eq!(self.0.write(&data), data.len());
    }

    fn ack(&mut self, range: Range<u64>) {
        let said = self.0.acknowledge(range).expect("it was sent");
        assert!(!said.sent_again);
    }

    fn retransmit(&mut self, range: Range<u64>) {
        assert!(self.0.lose(range));
    }

    fn poll_transmit(&mut self, size: usize) -> Range<u64> {
        let range = self.0.next(u64::MAX, size).expect("something to send");
        assert!(self.0.mark(range.clone()));
        range
    }

    fn get(&self, range: Range<u64>) -> &[u8] {
        self.0.bytes(range).front
    }

    fn has_unsent_data(&self) -> bool {
        self.0.next(u64::MAX, 1).is_some()
    }

    fn is_fully_acked(&self) -> bool {
        self.0.numbers().first_unacknowledged == self.0.numbers_end()
    }
}
