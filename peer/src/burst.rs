//! A burst: up to 32 packets in one call. The book takes it as single receives.

use crate::book::{refusal, Book, Judged, Receive, Refusal};

pub const PACKETS_MOST: usize = 32;

/// The arguments of a burst, the table aside.
#[derive(Clone, Debug, PartialEq)]
pub struct Burst {
    pub time: u64,
    pub output: u64,
    /// How many answer rows are lent.
    pub rows: u64,
    pub octets: Vec<u8>,
    pub lengths: Vec<u64>,
    pub senders: Vec<u32>,
    pub interfaces: Vec<u64>,
}

/// What refusal 14 can be given for.
#[derive(Clone, Copy, Debug, Default, PartialEq)]
pub struct Faults {
    /// The lists are of unequal length.
    pub lists: bool,
    /// The count is above 32.
    pub count: bool,
    /// Fewer answer rows than packets.
    pub rows: bool,
    /// The lengths do not add up to the buffer.
    pub sum: bool,
}

impl Burst {
    /// Unequal lists have no one count: the longest is taken, and 14 is given anyway.
    pub fn faults(&self) -> Faults {
        let counts = [
            self.lengths.len(),
            self.senders.len(),
            self.interfaces.len(),
        ];
        let longest = counts.into_iter().max().unwrap_or(0);
        // 128 bits hold the sum of any 64-bit lengths.
        let sum: u128 = self.lengths.iter().map(|length| u128::from(*length)).sum();
        Faults {
            lists: counts.iter().any(|count| *count != longest),
            count: longest > PACKETS_MOST,
            rows: self.rows < longest as u64,
            sum: sum != self.octets.len() as u128,
        }
    }

    /// Whether the lengths add up to the buffer in 64 bits alone.
    pub fn sum_wraps(&self) -> bool {
        let add = |sum: u64, length: &u64| sum.wrapping_add(*length);
        self.faults().sum && self.lengths.iter().fold(0, add) == self.octets.len() as u64
    }

    /// The packets of a burst without a fault, in order.
    pub fn packets(&self) -> Vec<&[u8]> {
        let mut left = self.octets.as_slice();
        let mut packets = Vec::new();
        for length in &self.lengths {
            let (packet, behind) = left.split_at(*length as usize);
            left = behind;
            packets.push(packet);
        }
        packets
    }

    /// The same as single receives, each with no output yet.
    fn arrivals(&self) -> Vec<Receive> {
        let links = self.senders.iter().zip(&self.interfaces);
        let packets = self.packets().into_iter();
        packets
            .zip(links)
            .map(|(packet, (sender, interface))| Receive {
                interface: *interface,
                sender: *sender,
                time: self.time,
                output: 0,
                packet: packet.to_vec(),
            })
            .collect()
    }
}

impl Book {
    /// A burst, refusal 1 aside: what each packet is answered, or refusal 14.
    pub fn burst(&mut self, burst: &Burst) -> Result<Vec<Judged>, Refusal> {
        if burst.faults() != Faults::default() {
            return Err(refusal(14));
        }
        let mut rest = burst.output;
        let mut answers = Vec::new();
        for mut arrival in burst.arrivals() {
            arrival.output = rest;
            let judged = self.receive(&arrival);
            // The wrong copy "burst" gives each packet the whole output.
            if !cfg!(wrong = "burst") {
                rest -= written(&judged);
            }
            answers.push(judged);
        }
        Ok(answers)
    }
}

/// How many octets a packet's copy took.
pub fn written(judged: &Judged) -> u64 {
    judged
        .as_ref()
        .map_or(0, |answer| answer.octets.len() as u64)
}
