//! What a packet of a direction is, judged between the ends.
use net_base::time::{Duration, Instant};

const FIN: u8 = 1;
const SYN: u8 = 2;
pub const RST: u8 = 4;
const ACK: u8 = 16;

/// The first byte of the segment in a packet of IPv4, after a header without options.
const TCP: usize = 20;
/// A segment that is sent again after so long a silence is so by a timeout.
const SILENCE: Duration = Duration::from_millis(180);

pub fn u32_at(packet: &[u8], at: usize) -> u32 {
    u32::from_be_bytes(packet[at..at + 4].try_into().expect("four bytes"))
}

/// Flags, number, and where the payload begins.
pub struct Head {
    pub flags: u8,
    pub number: u32,
    pub payload: usize,
}

pub fn head(packet: &[u8]) -> Option<Head> {
    let is_tcp = packet.len() >= TCP + 20 && packet[0] == 0x45 && packet[9] == 6;
    is_tcp.then(|| Head {
        flags: packet[TCP + 13],
        number: u32_at(packet, TCP + 4),
        payload: TCP + usize::from(packet[TCP + 12] >> 4) * 4,
    })
}

/// Counts of one direction.
#[derive(Default, Clone)]
pub struct Watch {
    /// The number of the first byte.
    first: Option<u32>,
    /// Of each number whether it was sent, and whether it went on and wasn't lost.
    sent: Vec<(bool, bool)>,
    latest: Option<Instant>,
    pub begun: Option<Instant>,
    pub segments: u64,
    pub again: u64,
    /// Those sent again of which all had gone on before.
    pub needless: u64,
    pub timeouts: u64,
}

impl Watch {
    /// Where the text and the end of a packet are, as places of `sent`.
    fn range(&self, packet: &[u8], head: &Head) -> Option<std::ops::Range<usize>> {
        let at = head.number.wrapping_sub(self.first?) as usize;
        let len = packet.len().saturating_sub(head.payload) + usize::from(head.flags & FIN);
        (head.flags & (SYN | RST) == 0 && len > 0 && at < 1 << 30).then(|| at..at + len)
    }

    /// Takes a packet that an end has sent.
    pub fn sent(&mut self, packet: &[u8], now: Instant) {
        let Some(head) = head(packet) else { return };
        if head.flags & SYN != 0 {
            self.first = Some(head.number.wrapping_add(1));
        }
        let Some(range) = self.range(packet, &head) else { return };
        if self.sent.len() < range.end {
            self.sent.resize(range.end, (false, false));
        }
        let places = &mut self.sent[range];
        self.segments += 1;
        if places.iter().any(|it| it.0) {
            self.again += 1;
            self.needless += u64::from(places.iter().all(|it| it.1));
            self.timeouts += u64::from(self.latest.is_some_and(|it| now - it >= SILENCE));
        }
        places.iter_mut().for_each(|it| it.0 = true);
        self.begun = self.begun.or(Some(now));
        self.latest = Some(now);
    }

    /// The number after all that were sent.
    pub fn end(&self) -> u32 {
        self.first.unwrap_or(0).wrapping_add(self.sent.len() as u32)
    }

    /// Takes notice that it wasn't lost.
    pub fn went_on(&mut self, packet: &[u8]) {
        if let Some(range) = head(packet).and_then(|head| self.range(packet, &head)) {
            self.sent[range].iter_mut().for_each(|it| it.1 = true);
        }
    }
}

/// Whether a packet has the flag ACK, and no other that takes a number or ends the connection.
pub fn is_plain(packet: &[u8]) -> bool {
    head(packet).is_some_and(|head| head.flags & (SYN | FIN | RST | ACK) == ACK)
}
