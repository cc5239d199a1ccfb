//! The book's words for one originator, each computed from its list of counted messages:
//! current, marks, counts, best and held links, and the list of entries, as demand 3 says them.

use crate::book::{ENTRIES_MOST, NEWEST_WINS, PRESENT_STAYS};
use crate::packet::Entry;
use std::cmp::Ordering;

/// A link: rising by neighbour address, then interface.
#[derive(Clone, Copy, Debug, PartialEq, Eq, PartialOrd, Ord)]
pub struct Link {
    pub neighbour: u32,
    pub interface: u8,
}

/// A counted originator message.
#[derive(Clone, Debug, PartialEq)]
pub struct Counted {
    pub number: u16,
    pub link: Link,
    pub time: u64,
    pub ttl: u8,
    pub entries: Vec<Entry>,
}

/// What a held record's list says. `held` rises by link and gives each one's count.
#[derive(Clone, Debug, PartialEq)]
pub struct Words {
    pub best: Link,
    pub held: Vec<(Link, u64)>,
    /// Whether the last message made the record or had a new number.
    pub moved: bool,
}

impl Words {
    /// The count of a held link.
    pub fn count(&self, link: Link) -> u64 {
        count_in(&self.held, link)
    }

    /// The highest count of the links but this one, 0 where there is no other.
    pub fn highest_other(&self, link: Link) -> u64 {
        highest_other_in(&self.held, link)
    }

    /// Whether no other link stands higher than this one, and one stands as high.
    pub fn tied(&self, link: Link) -> bool {
        standing(&self.held, link) == Ordering::Equal
    }
}

fn count_in(counts: &[(Link, u64)], link: Link) -> u64 {
    counts
        .iter()
        .find(|(other, _)| *other == link)
        .map_or(0, |(_, count)| *count)
}

fn highest_other_in(counts: &[(Link, u64)], link: Link) -> u64 {
    counts
        .iter()
        .filter(|(other, _)| *other != link)
        .map(|(_, count)| *count)
        .max()
        .unwrap_or(0)
}

/// How a link's count stands to the highest of the others (RULES 6.5).
fn standing(counts: &[(Link, u64)], link: Link) -> Ordering {
    count_in(counts, link).cmp(&highest_other_in(counts, link))
}

/// How far above the current number the farthest new one is.
pub const NEW_MOST: u16 = 32_767;

/// What a number is beside a current number and its window.
#[derive(Clone, Copy, Debug, PartialEq, Eq)]
pub enum Age {
    New,
    Inside,
    Stale,
}

/// The age of a number. Whether the window moves, what stays marked, duplicates and verdict 27
/// are all read from it, so that they agree.
pub fn age(current: u16, number: u16, window: u64) -> Age {
    // The wrong copy "half" takes the number exactly half way for new.
    let farthest = NEW_MOST + u16::from(cfg!(wrong = "half"));
    let width = window + u64::from(cfg!(wrong = "window"));
    if (1..=farthest).contains(&number.wrapping_sub(current)) {
        Age::New
    } else if u64::from(current.wrapping_sub(number)) < width {
        Age::Inside
    } else {
        Age::Stale
    }
}

/// The places in the list of the numbers that were first or new: each became current.
fn moves(list: &[Counted], window: u64) -> Vec<usize> {
    let mut places: Vec<usize> = Vec::with_capacity(list.len());
    for (place, message) in list.iter().enumerate() {
        let moved = match places.last() {
            None => true,
            Some(last) => age(list[*last].number, message.number, window) == Age::New,
        };
        if moved {
            places.push(place);
        }
    }
    places
}

/// The current number: the list's last that was first or new.
pub fn current(list: &[Counted], window: u64) -> Option<u16> {
    moves(list, window).last().map(|place| list[*place].number)
}

/// The entries: those of the latest message that moved the window or made the record.
pub fn entries(list: &[Counted], window: u64) -> &[Entry] {
    // The wrong copy "entries": those of the latest message that the record has room for.
    if cfg!(wrong = "entries") {
        let fits = |message: &&Counted| message.entries.len() <= ENTRIES_MOST;
        return list
            .iter()
            .rfind(fits)
            .map_or(&[], |message| &message.entries);
    }
    moves(list, window)
        .last()
        .map_or(&[], |place| &list[*place].entries)
}

/// Whether the message at this place still marks its link: its number lay inside after its
/// own count (it does by itself) and after every later one. Only moves can put it outside.
fn survives(list: &[Counted], moves: &[usize], window: u64, place: usize) -> bool {
    moves
        .iter()
        .rev()
        .take_while(|later| **later > place)
        .all(|later| age(list[*later].number, list[place].number, window) == Age::Inside)
}

/// The marks after the whole list: link and number, rising, each once.
pub fn marks(list: &[Counted], window: u64) -> Vec<(Link, u16)> {
    marks_by(list, &moves(list, window), window)
}

fn marks_by(list: &[Counted], moves: &[usize], window: u64) -> Vec<(Link, u16)> {
    let mut marks: Vec<(Link, u16)> = (0..list.len())
        .filter(|place| survives(list, moves, window, *place))
        .map(|place| (list[place].link, list[place].number))
        .collect();
    marks.sort_unstable();
    marks.dedup();
    marks
}

/// The counts of the links that have a mark, rising by link.
fn counts_by(list: &[Counted], moves: &[usize], window: u64) -> Vec<(Link, u64)> {
    let mut counts: Vec<(Link, u64)> = Vec::new();
    for (link, _) in marks_by(list, moves, window) {
        match counts.last_mut() {
            Some((last, count)) if *last == link => *count += 1,
            _ => counts.push((link, 1)),
        }
    }
    counts
}

/// Whether a message is a duplicate: its number is marked on this link.
/// A mark lies inside the window, so the window need not be asked again.
pub fn duplicate(list: &[Counted], window: u64, link: Link, number: u16) -> bool {
    let same = |message: &Counted| message.link == link && message.number == number;
    match list.iter().rposition(same) {
        None => false,
        Some(place) => survives(list, &moves(list, window), window, place),
    }
}

/// The best link: that of the latest message after whose count no other link stood higher,
/// or, where the present link stays, as high.
fn best_by(list: &[Counted], moves: &[usize], window: u64, tie: u64) -> Option<Link> {
    if cfg!(wrong = "best") {
        return highest(&counts_by(list, moves, window));
    }
    if cfg!(wrong = "tie") && tie == PRESENT_STAYS {
        return above_present(list, moves, window);
    }
    let became_best = |place: &usize| {
        let until = moves.partition_point(|moved| moved <= place);
        let counts = counts_by(&list[..=*place], &moves[..until], window);
        match standing(&counts, list[*place].link) {
            Ordering::Greater => true,
            Ordering::Equal => tie == NEWEST_WINS,
            Ordering::Less => false,
        }
    };
    let place = (0..list.len()).rev().find(became_best)?;
    Some(list[place].link)
}

/// The wrong copy "tie": a link that ties with a third one and is above the best one wins.
fn above_present(list: &[Counted], moves: &[usize], window: u64) -> Option<Link> {
    let (last, before) = list.split_last()?;
    let counts = counts_by(list, moves, window);
    let standing = standing(&counts, last.link);
    if standing == Ordering::Greater {
        return Some(last.link);
    }
    let until = moves.partition_point(|moved| *moved < before.len());
    let present = above_present(before, &moves[..until], window)?;
    let wins =
        standing == Ordering::Equal && count_in(&counts, last.link) > count_in(&counts, present);
    Some(if wins { last.link } else { present })
}

/// The wrong copy "best": the link with the highest count, the first of equals.
fn highest(counts: &[(Link, u64)]) -> Option<Link> {
    let top = counts.iter().map(|(_, count)| *count).max()?;
    counts
        .iter()
        .find(|(_, count)| *count == top)
        .map(|(link, _)| *link)
}

/// All words of a list; none where it is empty, since no record is then held.
pub fn words(list: &[Counted], window: u64, tie: u64) -> Option<Words> {
    let moves = moves(list, window);
    let best = best_by(list, &moves, window, tie)?;
    let mut held = counts_by(list, &moves, window);
    if let Err(place) = held.binary_search_by_key(&best, |(link, _)| *link) {
        held.insert(place, (best, 0));
    }
    let moved = moves.last().is_some_and(|place| place + 1 == list.len());
    Some(Words { best, held, moved })
}
