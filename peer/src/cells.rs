//! Where a table's words lie in its cells, by docs/LAYOUT.md: every place is named here and
//! nowhere else. The book as cells, and whether cells are a well-formed table (RULES 5.3).

use crate::book::{
    Book, Settings, CAPACITY_MOST, ENTRIES_MOST, INTERFACES_MOST, LINKS_MOST, NEIGHBOURS_MOST,
    TIE_MOST,
};
use crate::packet::{Entry, MASK_MOST};
use crate::words::{self, Counted, Link};

/// The settings and numbers at the start of a table, a cell each.
pub mod head {
    pub const VERSION: usize = 0;
    pub const WINDOW: usize = 1;
    pub const TIMEOUT: usize = 2;
    pub const PURGE: usize = 3;
    pub const CAPACITY: usize = 4;
    pub const TIE: usize = 5;
    pub const USED: usize = 6;
    pub const TIME: usize = 7;
    pub const NEIGHBOURS_HELD: usize = 8;
    pub const ORIGINATORS_HELD: usize = 9;
    pub const CELLS: usize = 10;
}

/// The cells of an interface row.
pub mod interface {
    pub const OWN: usize = 0;
    pub const BROADCAST: usize = 1;
    pub const FIRST: usize = 2;
    pub const SENT: usize = 3;
    pub const LAST: usize = 4;
    pub const CELLS: usize = 5;
}

/// The cells of a neighbour row.
pub mod neighbour {
    pub const KEY: usize = 0;
    pub const NUMBER: usize = 1;
    pub const CELLS: usize = 2;
}

/// The cells of a record.
pub mod record {
    pub const ORIGINATOR: usize = 0;
    pub const CURRENT: usize = 1;
    pub const TIME: usize = 2;
    pub const TTL: usize = 3;
    pub const LINKS_HELD: usize = 4;
    pub const BEST: usize = 5;
    pub const ENTRIES_HELD: usize = 6;
    pub const LINKS: usize = 7;
    pub const ENTRIES: usize = LINKS + crate::book::LINKS_MOST * super::link::CELLS;
    pub const CELLS: usize = ENTRIES + crate::book::ENTRIES_MOST;
}

/// The cells of a link in a record.
pub mod link {
    pub const KEY: usize = 0;
    pub const MARKS: usize = 1;
    pub const CELLS: usize = 2;
}

/// The interface rows, the neighbour rows and the records follow the head in this order.
const INTERFACES: usize = head::CELLS;
const NEIGHBOURS: usize = INTERFACES + INTERFACES_MOST * interface::CELLS;
pub const RECORDS: usize = NEIGHBOURS + NEIGHBOURS_MOST * neighbour::CELLS;

pub fn interface_at(place: usize) -> usize {
    INTERFACES + interface::CELLS * place
}

pub fn neighbour_at(place: usize) -> usize {
    NEIGHBOURS + neighbour::CELLS * place
}

pub fn record_at(place: usize) -> usize {
    RECORDS + record::CELLS * place
}

/// Where a link lies in its record.
pub fn link_at(place: usize) -> usize {
    record::LINKS + link::CELLS * place
}

/// How many cells a capacity needs, 0 where it is not allowed.
pub fn cells_needed(capacity: u64) -> u64 {
    if (1..=CAPACITY_MOST).contains(&capacity) {
        record_at(capacity as usize) as u64
    } else {
        0
    }
}

/// The largest capacity that this many cells, at least the fixed part, have room for.
pub fn capacity_of(cells: u64) -> u64 {
    (cells - RECORDS as u64) / record::CELLS as u64
}

const ADDRESS_END: u64 = 1 << 32;
const NUMBER_END: u64 = 1 << 16;
/// A network's place in an entry's cell, above the octet of the mask.
pub const NETWORK_UNIT: u64 = 1 << 8;
pub const ENTRY_END: u64 = ADDRESS_END * NETWORK_UNIT;

/// A link's or neighbour row's key.
pub fn key(link: Link) -> u64 {
    u64::from(link.neighbour) * 4 + u64::from(link.interface)
}

/// An entry's cell: its five octets read high octet first.
pub fn entry_cell(entry: Entry) -> u64 {
    u64::from(entry.network) * NETWORK_UNIT + u64::from(entry.mask)
}

/// Writes the book over the cells lent, which are as many as its capacity needs.
pub fn encode(book: &Book, cells: &mut [u64]) {
    cells.fill(0);
    let settings = &book.settings;
    cells[head::VERSION] = settings.version;
    cells[head::WINDOW] = settings.window;
    cells[head::TIMEOUT] = settings.timeout;
    cells[head::PURGE] = settings.purge;
    cells[head::CAPACITY] = settings.capacity;
    cells[head::TIE] = settings.tie;
    cells[head::USED] = settings.used;
    cells[head::TIME] = book.time;
    cells[head::NEIGHBOURS_HELD] = book.rows().count() as u64;
    cells[head::ORIGINATORS_HELD] = book.lists.len() as u64;
    for (place, row) in settings.rows_in_use().iter().enumerate() {
        let at = interface_at(place);
        cells[at + interface::OWN] = u64::from(row.own);
        cells[at + interface::BROADCAST] = u64::from(row.broadcast);
        cells[at + interface::FIRST] = u64::from(row.first);
        cells[at + interface::SENT] = u64::from(book.last[place].is_some());
        cells[at + interface::LAST] = u64::from(book.last[place].unwrap_or(0));
    }
    for (place, (link, since)) in book.rows().enumerate() {
        let at = neighbour_at(place);
        cells[at + neighbour::KEY] = key(link);
        cells[at + neighbour::NUMBER] = recorded(book, link, since);
    }
    let records = cells[RECORDS..].chunks_exact_mut(record::CELLS);
    for ((originator, list), record) in book.lists.iter().zip(records) {
        encode_record(*originator, list, settings, record);
    }
}

/// The number of a link's latest echo: as far behind the last sent as own packets followed.
fn recorded(book: &Book, link: Link, since: u64) -> u64 {
    let last = book.last[usize::from(link.interface)].unwrap_or(0);
    u64::from(last.wrapping_sub(since as u16))
}

fn encode_record(originator: u32, list: &[Counted], settings: &Settings, record: &mut [u64]) {
    let window = settings.window;
    let (Some(words), Some(current), Some(last)) = (
        words::words(list, window, settings.tie),
        words::current(list, window),
        list.last(),
    ) else {
        return;
    };
    record[record::ORIGINATOR] = u64::from(originator);
    record[record::CURRENT] = u64::from(current);
    record[record::TIME] = last.time;
    record[record::TTL] = u64::from(last.ttl);
    record[record::LINKS_HELD] = words.held.len() as u64;
    record[record::BEST] = key(words.best);
    let marks = words::marks(list, window);
    for (place, (link, _)) in words.held.iter().enumerate() {
        let at = link_at(place);
        record[at + link::KEY] = key(*link);
        record[at + link::MARKS] = marks
            .iter()
            .filter(|(other, _)| other == link)
            .fold(0, |word, (_, number)| {
                word | 1 << current.wrapping_sub(*number)
            });
    }
    let entries = words::entries(list, window);
    record[record::ENTRIES_HELD] = entries.len() as u64;
    for (place, entry) in entries.iter().enumerate() {
        record[record::ENTRIES + place] = entry_cell(*entry);
    }
}

/// Whether the cells are a well-formed table.
pub fn well_formed(cells: &[u64]) -> bool {
    // Fewer cells than the fixed part are those of no capacity.
    cells.len() >= RECORDS
        && settings_well_formed(cells)
        && interfaces_well_formed(cells)
        && neighbours_well_formed(cells)
        && records_well_formed(cells)
}

fn settings_well_formed(cells: &[u64]) -> bool {
    let needed = cells_needed(cells[head::CAPACITY]);
    needed != 0
        && cells.len() as u64 == needed
        && cells[head::VERSION] <= 255
        && (1..=64).contains(&cells[head::WINDOW])
        && (1..=1000).contains(&cells[head::TIMEOUT])
        && (1..ADDRESS_END).contains(&cells[head::PURGE])
        && cells[head::TIE] <= TIE_MOST
        && (1..=INTERFACES_MOST as u64).contains(&cells[head::USED])
        && cells[head::NEIGHBOURS_HELD] <= NEIGHBOURS_MOST as u64
        && cells[head::ORIGINATORS_HELD] <= cells[head::CAPACITY]
}

/// The cells of an interface row.
fn interface_row(cells: &[u64], place: usize) -> &[u64] {
    &cells[interface_at(place)..interface_at(place + 1)]
}

fn interfaces_well_formed(cells: &[u64]) -> bool {
    let used = cells[head::USED] as usize;
    (0..INTERFACES_MOST).all(|place| {
        let row = interface_row(cells, place);
        if place >= used {
            return zeros(row);
        }
        let own = row[interface::OWN];
        own < ADDRESS_END
            && row[interface::BROADCAST] < ADDRESS_END
            && row[interface::FIRST] < NUMBER_END
            && row[interface::SENT] <= 1
            && row[interface::LAST] < NUMBER_END
            && (row[interface::SENT] == 1 || row[interface::LAST] == 0)
            && (0..place).all(|other| interface_row(cells, other)[interface::OWN] != own)
    })
}

fn zeros(cells: &[u64]) -> bool {
    cells.iter().all(|cell| *cell == 0)
}

/// Whether rows, each with its key in its first cell, rise.
fn rise(rows: &[&[u64]]) -> bool {
    rows.windows(2).all(|pair| pair[0][0] < pair[1][0])
}

/// Whether a key's address is in range and its interface in use.
fn key_well_formed(cells: &[u64], key: u64) -> bool {
    key / 4 < ADDRESS_END && key % 4 < cells[head::USED]
}

fn neighbours_well_formed(cells: &[u64]) -> bool {
    let held = cells[head::NEIGHBOURS_HELD] as usize;
    let (held_cells, unused) = cells[NEIGHBOURS..RECORDS].split_at(held * neighbour::CELLS);
    let rows: Vec<&[u64]> = held_cells.chunks(neighbour::CELLS).collect();
    rise(&rows) && rows.iter().all(|row| neighbour_well_formed(cells, row)) && zeros(unused)
}

fn neighbour_well_formed(cells: &[u64], row: &[u64]) -> bool {
    let (key, number) = (row[neighbour::KEY], row[neighbour::NUMBER]);
    if !key_well_formed(cells, key) || number >= NUMBER_END {
        return false;
    }
    let sender = interface_row(cells, (key % 4) as usize);
    let distance = (sender[interface::LAST] + NUMBER_END - number) % NUMBER_END;
    sender[interface::SENT] == 1 && distance < cells[head::TIMEOUT]
}

fn records_well_formed(cells: &[u64]) -> bool {
    let held = cells[head::ORIGINATORS_HELD] as usize;
    let (held_cells, unused) = cells[RECORDS..].split_at(held * record::CELLS);
    let records: Vec<&[u64]> = held_cells.chunks(record::CELLS).collect();
    rise(&records)
        && records
            .iter()
            .all(|record| record_well_formed(cells, record))
        && zeros(unused)
}

fn record_well_formed(cells: &[u64], record: &[u64]) -> bool {
    let originator = record[record::ORIGINATOR];
    let used = cells[head::USED] as usize;
    originator < ADDRESS_END
        && (0..used).all(|place| interface_row(cells, place)[interface::OWN] != originator)
        && record[record::CURRENT] < NUMBER_END
        && record[record::TIME] <= cells[head::TIME]
        && record[record::TTL] <= 255
        && (1..=LINKS_MOST as u64).contains(&record[record::LINKS_HELD])
        && links_well_formed(cells, record)
        && entries_well_formed(record)
}

fn links_well_formed(cells: &[u64], record: &[u64]) -> bool {
    let window = cells[head::WINDOW];
    let best = record[record::BEST];
    let held = record[record::LINKS_HELD] as usize;
    let all = &record[record::LINKS..record::ENTRIES];
    let (held_cells, unused) = all.split_at(held * link::CELLS);
    let links: Vec<&[u64]> = held_cells.chunks(link::CELLS).collect();
    let fits = |marks: u64| window == 64 || marks >> window == 0;
    let is_best = |link: &&[u64]| link[link::KEY] == best;
    rise(&links)
        && links
            .iter()
            .all(|link| key_well_formed(cells, link[link::KEY]) && fits(link[link::MARKS]))
        && links
            .iter()
            .all(|link| link[link::MARKS] != 0 || is_best(link))
        && links.iter().any(is_best)
        && zeros(unused)
}

fn entries_well_formed(record: &[u64]) -> bool {
    let held = record[record::ENTRIES_HELD];
    if held > ENTRIES_MOST as u64 {
        return false;
    }
    let (entries, unused) = record[record::ENTRIES..].split_at(held as usize);
    let fits = |cell: &u64| *cell < ENTRY_END && cell % NETWORK_UNIT <= u64::from(MASK_MOST);
    entries.iter().all(fits) && zeros(unused)
}
