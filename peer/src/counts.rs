//! How often a play met what it does not print, so that a comparison can say what its scripts
//! reached.

use crate::book::{Judged, ReceiveAnswer, Refusal, Settings, NEWEST_WINS};
use crate::burst::{written, Burst, Faults};
use crate::lookup::{located, Covering};
use crate::packet::{self, Entry};
use crate::stale::Stale;
use crate::words::{Link, NEW_MOST};
use std::collections::BTreeMap;

/// A counted message left its link tied with the highest other one, by the tie setting.
pub const NEWEST: &str = "newest";
pub const STAYS: &str = "stays";
/// A burst was refused for this reason and no other.
pub const LISTS: &str = "burst-lists";
pub const COUNT: &str = "burst-count";
pub const ROWS: &str = "burst-rows";
pub const SUM: &str = "burst-sum";
/// Among these, the lengths add up to the buffer in 64 bits alone.
pub const WRAP: &str = "burst-wrap";
/// The rest of the output was too short for a packet, and a later copy was written.
pub const SHORT: &str = "burst-short";
/// A burst of no packets was taken at another time than the table's.
pub const EMPTY: &str = "burst-empty";
/// An echo made a row, and a message by it was counted in the same burst.
pub const ECHO: &str = "burst-echo";
/// A lookup found an entry, or none.
pub const FOUND: &str = "lookup-found";
pub const NONE: &str = "lookup-none";
/// Another originator's entry has an equal mask and covers the address, too.
pub const ORIGINATOR: &str = "lookup-originator";
/// A counted message with more entries than a record keeps left the list as it was.
pub const LEFT: &str = "entries-left";
/// Refusal 8 was given where an earlier entry has host bits.
pub const BITS_EARLIER: &str = "bits-earlier";
/// Refusal 16 was given for an entry whose only host bit is the highest one, or of mask 0.
pub const BITS_HIGHEST: &str = "bits-highest";
pub const BITS_MASK_0: &str = "bits-mask-0";
/// A packet was not refused that has an entry whose lowest network bit is set, or of mask 0.
pub const CLEAN_LOWEST: &str = "clean-lowest";
pub const CLEAN_MASK_0: &str = "clean-mask-0";
/// A message was counted whose number is the farthest new one.
pub const NEW_FARTHEST: &str = "new-farthest";
/// Verdict 27 was given for the first number below the window, for one as far below the current
/// number as the farthest new one is above it, or for the one half way, a step farther.
pub const STALE_FIRST: &str = "stale-first";
pub const STALE_OPPOSITE: &str = "stale-opposite";
pub const STALE_HALF: &str = "stale-half";
/// Verdict 27 was given where the sender is the originator, or where the link has no row.
pub const STALE_DIRECT: &str = "stale-direct";
pub const STALE_NO_ROW: &str = "stale-no-row";
/// Verdict 27 was given to a message by a link with a row that would be the ninth, or with more
/// entries than a record keeps.
pub const STALE_NINTH: &str = "stale-ninth";
pub const STALE_MANY: &str = "stale-many";
/// Verdict 24 was given where the number is stale, too.
pub const STALE_24: &str = "stale-24";
/// A record was made by a number that was stale to the one that a sweep removed.
pub const TAKEN_UP: &str = "taken-up";

/// Refusals that hide a later one, and the word for each two.
const HIDING: [(u64, u64, &str); 7] = [
    (10, 15, "10-15"),
    (11, 15, "11-15"),
    (16, 9, "16-9"),
    (16, 10, "16-10"),
    (16, 11, "16-11"),
    (16, 13, "16-13"),
    (16, 15, "16-15"),
];

/// Every other word that is counted.
const WORDS: [&str; 29] = [
    NEWEST,
    STAYS,
    LISTS,
    COUNT,
    ROWS,
    SUM,
    WRAP,
    SHORT,
    EMPTY,
    ECHO,
    FOUND,
    NONE,
    ORIGINATOR,
    LEFT,
    BITS_EARLIER,
    BITS_HIGHEST,
    BITS_MASK_0,
    CLEAN_LOWEST,
    CLEAN_MASK_0,
    NEW_FARTHEST,
    STALE_FIRST,
    STALE_OPPOSITE,
    STALE_HALF,
    STALE_DIRECT,
    STALE_NO_ROW,
    STALE_NINTH,
    STALE_MANY,
    STALE_24,
    TAKEN_UP,
];

pub fn every_word() -> impl Iterator<Item = &'static str> {
    let hiding = HIDING.into_iter().map(|(_, _, word)| word);
    WORDS.into_iter().chain(hiding)
}

#[derive(Default)]
pub struct Counts {
    met: BTreeMap<&'static str, u64>,
}

impl Counts {
    pub fn of(&self, word: &str) -> u64 {
        self.met.get(word).copied().unwrap_or(0)
    }

    /// A line for each word: the word and its number.
    pub fn lines(&self) -> String {
        every_word()
            .map(|word| format!("{word} {}\n", self.of(word)))
            .collect()
    }

    fn add(&mut self, word: &'static str, met: bool) {
        if met {
            *self.met.entry(word).or_default() += 1;
        }
    }

    /// The HNA octets of a packet that came, was sent or checked, and what it was refused by.
    pub fn packet(&mut self, hna: &[u8], refusal: Option<&Refusal>) {
        match refusal {
            None => self.packet_clean(&packet::entries(hna)),
            Some(refusal) => self.packet_refused(hna, refusal),
        }
    }

    /// The entries of one that was not refused.
    fn packet_clean(&mut self, entries: &[Entry]) {
        let lowest = |entry: &Entry| entry.network & packet::lowest_network_bit(entry.mask) != 0;
        self.add(CLEAN_LOWEST, entries.iter().any(lowest));
        self.add(CLEAN_MASK_0, entries.iter().any(|entry| entry.mask == 0));
    }

    fn packet_refused(&mut self, hna: &[u8], refusal: &Refusal) {
        for (number, later, word) in HIDING {
            self.add(word, (refusal.number, refusal.hides) == (number, later));
        }
        let place = refusal.place as usize;
        match refusal.number {
            8 => self.bits_before(&packet::entries(hna)[..place]),
            16 => self.bits_of(packet::entries(hna)[place]),
            _ => {}
        }
    }

    /// The entries before a mask above 32.
    fn bits_before(&mut self, entries: &[Entry]) {
        let bits = |entry: &Entry| entry.host_bits() != 0;
        self.add(BITS_EARLIER, entries.iter().any(bits));
    }

    /// The entry that refusal 16 names.
    fn bits_of(&mut self, entry: Entry) {
        let highest = packet::highest_host_bit(entry.mask);
        self.add(BITS_HIGHEST, entry.host_bits() == highest);
        self.add(BITS_MASK_0, entry.mask == 0);
    }

    /// A received packet that was not refused, under these settings.
    pub fn answered(&mut self, answer: &ReceiveAnswer, settings: &Settings) {
        let word = match settings.tie {
            NEWEST_WINS => NEWEST,
            _ => STAYS,
        };
        self.add(word, answer.tied);
        self.add(LEFT, answer.left);
        self.add(NEW_FARTHEST, answer.above == Some(NEW_MOST));
        self.add(TAKEN_UP, answer.taken_up);
        match (answer.verdict, &answer.stale) {
            (24, stale) => self.add(STALE_24, stale.is_some()),
            (_, Some(stale)) => self.stale(stale, settings.window),
            _ => {}
        }
    }

    /// A message with verdict 27.
    fn stale(&mut self, stale: &Stale, window: u64) {
        self.add(STALE_FIRST, u64::from(stale.below) == window);
        self.add(STALE_OPPOSITE, stale.below == NEW_MOST);
        self.add(STALE_HALF, stale.below == NEW_MOST + 1);
        self.add(STALE_DIRECT, stale.direct);
        self.add(STALE_NO_ROW, !stale.row);
        self.add(STALE_NINTH, stale.row && stale.ninth);
        self.add(STALE_MANY, stale.row && stale.many);
    }

    /// A lookup that was not refused, by the entries that cover the address.
    pub fn looked_up(&mut self, covering: &[Covering]) {
        let Some(found) = located(covering) else {
            return self.add(NONE, true);
        };
        self.add(FOUND, true);
        let level = |other: &Covering| {
            other.entry.mask == found.entry.mask && other.originator != found.originator
        };
        self.add(ORIGINATOR, covering.iter().any(level));
    }

    /// A burst that was refused by 14.
    pub fn refused(&mut self, burst: &Burst) {
        let Faults {
            lists,
            count,
            rows,
            sum,
        } = burst.faults();
        let alone = [lists, count, rows, sum].iter().filter(|is| **is).count() == 1;
        self.add(LISTS, alone && lists);
        self.add(COUNT, alone && count);
        self.add(ROWS, alone && rows);
        self.add(SUM, alone && sum);
        self.add(WRAP, alone && burst.sum_wraps());
    }

    /// A burst that was taken by a table of this time.
    pub fn taken(&mut self, burst: &Burst, answers: &[Judged], time: u64) {
        self.add(EMPTY, answers.is_empty() && burst.time != time);
        self.add(SHORT, went_on_when_short(burst, answers));
        self.add(ECHO, counted_by_new_row(burst, answers));
    }
}

/// Whether a packet that the whole output has room for was refused by 4 and a later one written.
fn went_on_when_short(burst: &Burst, answers: &[Judged]) -> bool {
    let short = |(judged, length): (&Judged, &u64)| {
        matches!(judged, Err(refusal) if refusal.number == 4) && *length <= burst.output
    };
    match answers.iter().zip(&burst.lengths).position(short) {
        None => false,
        Some(place) => answers[place..].iter().any(|judged| written(judged) > 0),
    }
}

/// Whether a message was counted by a link that has its row from an earlier echo of the burst.
fn counted_by_new_row(burst: &Burst, answers: &[Judged]) -> bool {
    let mut made: Vec<Link> = Vec::new();
    let links = burst.senders.iter().zip(&burst.interfaces);
    for (judged, (sender, interface)) in answers.iter().zip(links) {
        let Ok(answer) = judged else { continue };
        let link = Link {
            neighbour: *sender,
            interface: *interface as u8,
        };
        if answer.row_made {
            made.push(link);
        }
        if answer.counted && made.contains(&link) {
            return true;
        }
    }
    false
}
