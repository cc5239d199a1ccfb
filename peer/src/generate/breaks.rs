//! Pokes that break one clause of a well-formed table, for the generator. A poke that leaves
//! the table well-formed may be among them; the generator looks and takes it back.

use super::random::Random;
use crate::book::{ENTRIES_MOST, INTERFACES_MOST, LINKS_MOST, NEIGHBOURS_MOST};
use crate::cells::{
    head, interface, interface_at, link, link_at, neighbour, neighbour_at, record, record_at,
    ENTRY_END, NETWORK_UNIT, RECORDS,
};
use crate::script::BUFFER_CELLS;

pub type Pokes = Vec<(usize, u64)>;

const HUGE: [u64; 6] = [1 << 16, 1 << 32, 1 << 34, 1 << 63, u64::MAX, u64::MAX - 3];

/// Pokes for cells that are a well-formed table.
pub fn pokes(cells: &[u64], random: &mut Random) -> Pokes {
    let huge = random.pick(&HUGE);
    match random.below(20) {
        0..3 => settings(cells, random, huge),
        3..7 => interfaces(cells, random, huge),
        7..11 => neighbours(cells, random, huge),
        11..17 => records(cells, random, huge),
        17 => vec![(random.below(cells.len() as u64) as usize, huge)],
        18 => any_near(cells, random),
        _ => beyond(cells, random),
    }
}

/// A cell that is one more or one less than it was.
fn any_near(cells: &[u64], random: &mut Random) -> Pokes {
    let index = random.below(cells.len() as u64) as usize;
    let value = cells[index];
    vec![(
        index,
        random.pick(&[value.wrapping_add(1), value.wrapping_sub(1), 0]),
    )]
}

/// A cell that isn't lent, or one that is written as it is: the table stays what it was.
fn beyond(cells: &[u64], random: &mut Random) -> Pokes {
    let same = random.below(cells.len() as u64) as usize;
    vec![random.pick(&[
        (cells.len(), 1),
        (BUFFER_CELLS - 1, u64::MAX),
        (same, cells[same]),
    ])]
}

fn settings(cells: &[u64], random: &mut Random, huge: u64) -> Pokes {
    use head::{
        CAPACITY, NEIGHBOURS_HELD, ORIGINATORS_HELD, PURGE, TIE, TIME, TIMEOUT, USED, VERSION,
        WINDOW,
    };
    let newest = newest_record(cells);
    let (index, value) = random.pick(&[
        (VERSION, 256),
        (WINDOW, 0),
        (WINDOW, 65),
        (TIMEOUT, 0),
        (TIMEOUT, 1001),
        (TIMEOUT, 1),
        (PURGE, 0),
        (PURGE, 1 << 32),
        (CAPACITY, 0),
        (CAPACITY, 257),
        (CAPACITY, cells[CAPACITY] + 1),
        (CAPACITY, cells[CAPACITY] - 1),
        (TIE, 0),
        (TIE, 1),
        (TIE, 2),
        (TIE, 3),
        (USED, 0),
        (USED, 5),
        (USED, cells[USED] - 1),
        (USED, cells[USED] + 1),
        (TIME, newest.saturating_sub(1)),
        (TIME, 0),
        (NEIGHBOURS_HELD, cells[NEIGHBOURS_HELD] + 1),
        (NEIGHBOURS_HELD, cells[NEIGHBOURS_HELD].saturating_sub(1)),
        (NEIGHBOURS_HELD, NEIGHBOURS_MOST as u64 + 1),
        (ORIGINATORS_HELD, cells[ORIGINATORS_HELD] + 1),
        (ORIGINATORS_HELD, cells[ORIGINATORS_HELD].saturating_sub(1)),
        (ORIGINATORS_HELD, cells[CAPACITY] + 1),
        (VERSION, huge),
        (WINDOW, huge),
        (TIMEOUT, huge),
        (CAPACITY, huge),
        (TIE, huge),
        (USED, huge),
        (NEIGHBOURS_HELD, huge),
        (ORIGINATORS_HELD, huge),
    ]);
    vec![(index, value)]
}

fn newest_record(cells: &[u64]) -> u64 {
    let held = cells[head::ORIGINATORS_HELD] as usize;
    cells[RECORDS..]
        .chunks(record::CELLS)
        .take(held)
        .map(|record| record[record::TIME])
        .max()
        .unwrap_or(0)
}

fn interfaces(cells: &[u64], random: &mut Random, huge: u64) -> Pokes {
    use interface::{BROADCAST, FIRST, LAST, OWN, SENT};
    let used = cells[head::USED] as usize;
    let place = random.below(INTERFACES_MOST as u64) as usize;
    let at = interface_at(place);
    if place >= used {
        // An unused row must be zeros.
        let field = random.below(interface::CELLS as u64) as usize;
        return vec![(at + field, random.pick(&[1, 1, huge]))];
    }
    let other = interface_at(random.below(used as u64) as usize);
    let originator = cells[RECORDS + record::ORIGINATOR];
    let last = cells[at + LAST];
    let (field, value) = random.pick(&[
        (OWN, 1 << 32),
        (OWN, cells[other + OWN]),
        (OWN, originator),
        (BROADCAST, 1 << 32),
        (FIRST, 65_536),
        (SENT, 2),
        (SENT, 1 - cells[at + SENT]),
        (LAST, 65_536),
        (LAST, last.wrapping_sub(1) % 65_536),
        (LAST, (last + cells[head::TIMEOUT]) % 65_536),
        (OWN, huge),
        (BROADCAST, huge),
        (FIRST, huge),
        (SENT, huge),
        (LAST, huge),
    ]);
    vec![(at + field, value)]
}

/// Two rows of this width with their keys in the wrong order, or with the same key.
fn out_of_order(cells: &[u64], random: &mut Random, at: usize, width: usize) -> Pokes {
    let before = at - width;
    match random.below(2) {
        0 => vec![(at, cells[before]), (before, cells[at])],
        _ => vec![(at, cells[before])],
    }
}

fn neighbours(cells: &[u64], random: &mut Random, huge: u64) -> Pokes {
    use neighbour::{KEY, NUMBER};
    let held = cells[head::NEIGHBOURS_HELD];
    let most = NEIGHBOURS_MOST as u64;
    if held < most && random.chance(250) {
        let unused = held + random.below(most - held);
        let at = neighbour_at(unused as usize);
        let field = random.below(neighbour::CELLS as u64) as usize;
        return vec![(at + field, random.pick(&[1, huge]))];
    }
    if held == 0 {
        return vec![(head::NEIGHBOURS_HELD, 1)];
    }
    let place = random.below(held) as usize;
    let at = neighbour_at(place);
    let key = cells[at + KEY];
    let last = cells[interface_at((key % 4) as usize) + interface::LAST];
    if place > 0 && random.chance(250) {
        return out_of_order(cells, random, at + KEY, neighbour::CELLS);
    }
    let (field, value) = random.pick(&[
        (KEY, key / 4 * 4 + 3),
        (KEY, key / 4 * 4 + cells[head::USED]),
        (KEY, key + (1 << 34)),
        (KEY, 1 << 34),
        (NUMBER, 65_536),
        (NUMBER, (last + 65_536 - cells[head::TIMEOUT]) % 65_536),
        (NUMBER, (last + 1) % 65_536),
        (NUMBER, cells[at + NUMBER] + 65_536),
        (KEY, huge),
        (NUMBER, huge),
    ]);
    vec![(at + field, value)]
}

fn records(cells: &[u64], random: &mut Random, huge: u64) -> Pokes {
    use record::{BEST, CURRENT, LINKS_HELD, ORIGINATOR, TIME, TTL};
    let held = cells[head::ORIGINATORS_HELD];
    let capacity = cells[head::CAPACITY];
    if held < capacity && random.chance(200) {
        // An unused record must be zeros.
        let unused = held + random.below(capacity - held);
        let at = record_at(unused as usize);
        let field = random.below(record::CELLS as u64) as usize;
        return vec![(at + field, random.pick(&[1, huge]))];
    }
    if held == 0 {
        return vec![(head::ORIGINATORS_HELD, 1)];
    }
    let place = random.below(held) as usize;
    let at = record_at(place);
    if place > 0 && random.chance(100) {
        return out_of_order(cells, random, at + ORIGINATOR, record::CELLS);
    }
    match random.below(1000) {
        0..350 => return links(cells, random, huge, at),
        350..750 => return entries(cells, random, huge, at),
        _ => {}
    }
    let own = cells[interface_at(random.below(cells[head::USED]) as usize) + interface::OWN];
    let links = cells[at + LINKS_HELD];
    let best = cells[at + BEST];
    let time = cells[head::TIME];
    let (field, value) = random.pick(&[
        (ORIGINATOR, 1 << 32),
        (ORIGINATOR, own),
        (CURRENT, 65_536),
        (TIME, time.wrapping_add(1)),
        (TIME, time.saturating_add(1)),
        (TTL, 256),
        (LINKS_HELD, 0),
        (LINKS_HELD, LINKS_MOST as u64 + 1),
        (LINKS_HELD, links + 1),
        (LINKS_HELD, links - 1),
        (BEST, best ^ 1),
        (BEST, best + 4),
        (BEST, 0),
        (ORIGINATOR, huge),
        (CURRENT, huge),
        (TIME, huge),
        (TTL, huge),
        (LINKS_HELD, huge),
        (BEST, huge),
    ]);
    vec![(at + field, value)]
}

/// One link of the record at this cell.
fn links(cells: &[u64], random: &mut Random, huge: u64, record: usize) -> Pokes {
    let held = cells[record + record::LINKS_HELD] as usize;
    let window = cells[head::WINDOW];
    if held < LINKS_MOST && random.chance(200) {
        let unused = record + link_at(held);
        let fields = (LINKS_MOST - held) * link::CELLS;
        return vec![(
            unused + random.below(fields as u64) as usize,
            random.pick(&[1, huge]),
        )];
    }
    let place = random.below(held as u64) as usize;
    let at = record + link_at(place);
    let (key_at, marks_at, best_at) = (at + link::KEY, at + link::MARKS, record + record::BEST);
    if place > 0 && random.chance(250) {
        return out_of_order(cells, random, key_at, link::CELLS);
    }
    let beyond = if window < 64 { 1 << window } else { 0 };
    let key = cells[key_at];
    let used = cells[head::USED];
    match random.below(9) {
        0 => vec![(marks_at, 0)],
        1 => vec![(marks_at, cells[marks_at] | beyond)],
        2 => vec![(marks_at, beyond)],
        3 => vec![(key_at, key / 4 * 4 + used)],
        4 => vec![(key_at, key / 4 * 4 + 3)],
        5 => vec![(key_at, key + (1 << 34))],
        6 => vec![(key_at, huge)],
        7 => vec![(key_at, key + (1 << 34)), (best_at, key + (1 << 34))],
        _ => {
            // The key and best both on an interface that may not be in use.
            let other = key / 4 * 4 + used % 4;
            vec![(key_at, other), (best_at, other)]
        }
    }
}

/// A record that holds entries.
fn with_entries(cells: &[u64], random: &mut Random) -> Option<usize> {
    let mut records: Vec<usize> = (0..cells[head::ORIGINATORS_HELD] as usize)
        .map(record_at)
        .collect();
    records.retain(|record| cells[record + record::ENTRIES_HELD] > 0);
    random.pick_any(&records)
}

/// The number of entries of a record, or one of its entry cells, in use or not; where none holds
/// entries, of the record at this cell.
fn entries(cells: &[u64], random: &mut Random, huge: u64, record: usize) -> Pokes {
    let record = with_entries(cells, random).unwrap_or(record);
    let most = ENTRIES_MOST as u64;
    let held_at = record + record::ENTRIES_HELD;
    let held = cells[held_at];
    if random.chance(300) {
        let fewer = held.saturating_sub(1);
        return vec![(
            held_at,
            random.pick(&[most + 1, most + 1, held + 1, fewer, huge]),
        )];
    }
    let first = record + record::ENTRIES;
    if held < most && (held == 0 || random.chance(300)) {
        let unused = held + random.below(most - held);
        return vec![(first + unused as usize, random.pick(&[1, 32, 256, huge]))];
    }
    let at = first + random.below(held) as usize;
    let network = cells[at] - cells[at] % NETWORK_UNIT;
    let value = random.pick(&[
        network + 33,
        network + 33,
        network + 255,
        cells[at] + ENTRY_END,
        ENTRY_END,
        u64::MAX,
    ]);
    vec![(at, value)]
}
