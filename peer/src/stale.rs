//! Stale numbers (verdict 27): which messages have one, and what else held of them, for the counts.

use crate::book::{Book, Receive, ENTRIES_MOST, LINKS_MOST};
use crate::packet::{self, Header};
use crate::words::{self, Age, Link};

/// What held of a message with a stale number.
#[derive(Clone, Copy, Debug, PartialEq)]
pub struct Stale {
    /// How far its number is below the current one.
    pub below: u16,
    /// Its sender is its originator.
    pub direct: bool,
    /// Its link has a neighbour row.
    pub row: bool,
    /// The record has eight links with marks, and its link is none of them.
    pub ninth: bool,
    /// It has more entries than a record keeps.
    pub many: bool,
}

impl Book {
    /// Whether a message's number is stale. An originator without a record has no current number,
    /// so no number is stale to it.
    pub fn is_stale(&self, header: &Header) -> bool {
        self.current_of(header.originator)
            .is_some_and(|current| self.is_stale_to(current, header))
    }

    fn is_stale_to(&self, current: u16, header: &Header) -> bool {
        words::age(current, header.number, self.settings.window) == Age::Stale
    }

    /// What held of a message, where its number is stale.
    pub fn stale(&self, call: &Receive, header: &Header, link: Link) -> Option<Stale> {
        if !self.is_stale(header) {
            return None;
        }
        let held = self.words_of(header.originator)?.held;
        let another = |(other, count): &(Link, u64)| *other != link && *count > 0;
        Some(Stale {
            below: self.above_current(header)?.wrapping_neg(),
            direct: call.sender == header.originator,
            row: self.has_row(link),
            ninth: held.len() == LINKS_MOST && held.iter().all(another),
            many: packet::entries_in(&call.packet) > ENTRIES_MOST,
        })
    }

    /// How far a message's number is above the current one; none where no record is held.
    pub fn above_current(&self, header: &Header) -> Option<u16> {
        let current = self.current_of(header.originator)?;
        Some(header.number.wrapping_sub(current))
    }

    /// Whether a message's number is stale to a record that a sweep removed, and none is held since.
    pub fn stale_to_removed(&self, header: &Header) -> bool {
        let removed = self.removed.get(&header.originator);
        removed.is_some_and(|current| self.is_stale_to(*current, header))
            && !self.lists.contains_key(&header.originator)
    }
}
