//! The lookup: which originator's entry covers an address. The book answers from the entries of
//! its counted messages.

use crate::book::Book;
use crate::packet::Entry;
use std::cmp::Reverse;

/// An entry that covers the address asked for, and where it stands.
#[derive(Clone, Copy, Debug, PartialEq)]
pub struct Covering {
    pub originator: u32,
    /// From 0, in the originator's list.
    pub place: usize,
    pub entry: Entry,
}

impl Book {
    /// Every entry that covers an address.
    pub fn covering(&self, address: u32) -> Vec<Covering> {
        let of = |originator: &u32| self.covering_of(*originator, address);
        self.lists.keys().flat_map(of).collect()
    }

    fn covering_of(&self, originator: u32, address: u32) -> Vec<Covering> {
        self.entries_of(originator)
            .iter()
            .enumerate()
            .filter(|(_, entry)| entry.covers(address))
            .map(|(place, entry)| Covering {
                originator,
                place,
                entry: *entry,
            })
            .collect()
    }
}

/// The lookup's answer: the longest mask, then the smaller originator, then the earlier entry.
pub fn located(covering: &[Covering]) -> Option<Covering> {
    let order = |one: &&Covering| (Reverse(one.entry.mask), one.originator, one.place);
    covering.iter().min_by_key(order).copied()
}
