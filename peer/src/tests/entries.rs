//! The HNA entries that records keep, refusal 15 and the lookup: a test for each sentence.

use super::*;
use crate::book::ENTRIES_MOST;
use crate::counts::{CLEAN_LOWEST, FOUND, LEFT, NONE, ORIGINATOR};
use crate::lookup::located;
use crate::packet::Entry;

mod host_bits;

pub(super) type Announced = (u32, u8);

/// Networks that lie in each other, and an address in all of them.
pub(super) const YARD: Announced = (0x0a00_0000, 8);
pub(super) const HALL: Announced = (0x0a01_0000, 16);
const ROOM: Announced = (0x0a01_0200, 24);
const PRINTER: u32 = 0x0a01_0203;
pub(super) const FARTHER: u32 = 200;
const NOT_FOUND: &str = "lookup 0 0 0 0 0";
const TOO_MANY: &str = "receive 15 0 0 0 0 0 0 -";

fn hna(entries: &[Announced]) -> String {
    let hex = |(network, mask): &Announced| format!("{network:08x}{mask:02x}");
    entries.iter().map(hex).collect()
}

/// A message of an originator by a link, at time 0.
pub(super) fn message(link: Link, originator: u32, number: u16, entries: &[Announced]) -> String {
    arrival(
        link.neighbour,
        0,
        octets(0, 50, number, originator),
        entries,
    )
}

pub(super) fn arrival(sender: u32, time: u64, header: String, entries: &[Announced]) -> String {
    format!("receive 0 {sender} {time} 2000 {header}{}", hna(entries))
}

/// A message of FAR by A.
pub(super) fn by_far(number: u16, entries: &[Announced]) -> String {
    message(A, FAR, number, entries)
}

/// So many networks, none of which covers the printer.
fn networks(many: usize) -> Vec<Announced> {
    let network = |place| (0x0b00_0000 + ((place as u32) << 8), 24);
    (0..many).map(network).collect()
}

pub(super) fn too_many() -> Vec<Announced> {
    networks(ENTRIES_MOST + 1)
}

/// A table with rows for A, B and C after these lines.
pub(super) fn after(lines: &[String]) -> Vec<String> {
    [with_rows(), lines.to_vec()].concat()
}

/// What a lookup answers after these lines.
fn looked_up(lines: &[String], address: u32) -> String {
    let mut lines = after(lines);
    lines.push(format!("lookup {address}"));
    last(&lines)
}

fn found(originator: u32, (network, mask): Announced) -> String {
    format!("lookup 0 1 {originator} {network} {mask}")
}

/// The number that a line's call answers after these lines.
pub(super) fn number_after(lines: &[String], line: String) -> u64 {
    let answer = last(&[after(lines), vec![line]].concat());
    let number = answer.split(' ').nth(1).expect("a number");
    number.parse().expect("a number")
}

/// The cells of the first record's entries after these lines: how many, and each.
fn held_after(lines: &[String]) -> (u64, Vec<u64>) {
    let cells = cells_after(lines);
    let record = &cells[record_at(0)..record_at(1)];
    let held = record[record::ENTRIES_HELD];
    let entries = &record[record::ENTRIES..record::ENTRIES + held as usize];
    (held, entries.to_vec())
}

fn cell((network, mask): Announced) -> u64 {
    u64::from(network) * 256 + u64::from(mask)
}

/// Whether the first record holds exactly these entries after these lines.
pub(super) fn holds(lines: &[String], entries: &[Announced]) -> bool {
    let expected: Vec<u64> = entries.iter().copied().map(cell).collect();
    held_after(&after(lines)) == (entries.len() as u64, expected)
}

/// A book whose record of FAR holds these entries, which no packet need bring.
fn book_holding(entries: &[Announced]) -> Book {
    let mut player = Player::new();
    follow(&mut player, &after(&[by_far(300, &[])]));
    let mut book = player.book.expect("a book");
    let list = book.lists.get_mut(&FAR).expect("a record");
    let entry = |(network, mask): &Announced| Entry {
        network: *network,
        mask: *mask,
    };
    list[0].entries = entries.iter().map(entry).collect();
    book
}

/// The entry that a lookup of this book finds.
fn located_in(book: &Book, address: u32) -> Option<Announced> {
    let found = located(&book.covering(address))?;
    Some((found.entry.network, found.entry.mask))
}

#[test]
fn the_first_counted_message_makes_the_list() {
    let lines = [by_far(300, &[HALL, ROOM])];
    assert!(holds(&lines, &[HALL, ROOM]));
    assert_eq!(looked_up(&lines, PRINTER), found(FAR, ROOM));
}

#[test]
fn a_new_number_replaces_the_list() {
    // By one, by the window, to the farthest one, and over the wrap.
    for (current, number) in [(300, 301), (300, 308), (300, 33067), (65535, 0)] {
        let lines = [by_far(current, &[HALL, ROOM]), by_far(number, &[YARD])];
        assert!(holds(&lines, &[YARD]), "{number}");
        let lines = [by_far(current, &[HALL, ROOM]), by_far(number, &[])];
        assert!(holds(&lines, &[]), "{number}");
        assert_eq!(looked_up(&lines, PRINTER), NOT_FOUND, "{number}");
    }
}

#[test]
fn a_number_inside_leaves_the_list() {
    for (link, number) in [(A, 299), (A, 293), (B, 300), (B, 293)] {
        let inside = message(link, FAR, number, &[YARD]);
        let lines = [by_far(300, &[HALL, ROOM]), inside];
        assert!(holds(&lines, &[HALL, ROOM]), "{number}");
        // It was counted all the same.
        let cells = |lines: &[String]| cells_after(&after(lines));
        assert_ne!(cells(&lines), cells(&lines[..1]), "{number}");
    }
}

#[test]
fn with_a_window_of_one_the_current_number_leaves_the_list() {
    let mut lines = with_rows();
    lines[1] = table(1, 32, 7).remove(1);
    lines.push(by_far(300, &[HALL]));
    for message in [message(B, FAR, 300, &[YARD]), by_far(301, &[ROOM])] {
        lines.push(message);
    }
    assert_eq!(held_after(&lines[..lines.len() - 1]).1, [cell(HALL)]);
    assert_eq!(held_after(&lines).1, [cell(ROOM)]);
}

#[test]
fn a_message_that_is_not_counted_leaves_the_list() {
    let others = [
        // A duplicate, a stale one, one without a neighbour row, and verdicts 20, 21 and 24.
        (by_far(300, &[YARD]), 26),
        (by_far(292, &[YARD]), 27),
        (message(by(13), FAR, 301, &[YARD]), 25),
        (message(by(FAR), FAR, 301, &[YARD]), 26),
        (message(by(1), FAR, 301, &[YARD]), 20),
        (message(by(255), FAR, 301, &[YARD]), 21),
        (arrival(10, 0, octets(128, 50, 301, FAR), &[YARD]), 24),
    ];
    for (line, verdict) in others {
        let lines = [by_far(300, &[HALL, ROOM])];
        assert_eq!(number_after(&lines, line.clone()), verdict, "{line}");
        assert!(holds(
            &[lines.to_vec(), vec![line.clone()]].concat(),
            &[HALL, ROOM]
        ));
    }
}

#[test]
fn sixteen_entries_are_kept_in_packet_order() {
    let entries: Vec<Announced> = networks(ENTRIES_MOST).into_iter().rev().collect();
    let lines = [by_far(300, &entries)];
    assert!(holds(&lines, &entries));
    let last = entries[ENTRIES_MOST - 1];
    assert_eq!(looked_up(&lines, last.0), found(FAR, last));
    // A new number, too.
    let lines = [by_far(300, &[HALL]), by_far(301, &entries)];
    assert!(holds(&lines, &entries));
}

#[test]
fn repeats_are_kept() {
    let entries = [ROOM, HALL, ROOM, ROOM, HALL];
    assert!(holds(&[by_far(300, &entries)], &entries));
    // They count among the sixteen.
    assert!(holds(&[by_far(300, &[ROOM; 16])], &[ROOM; 16]));
    assert_eq!(number_after(&[], by_far(300, &[ROOM; 17])), 15);
}

#[test]
fn the_seventeenth_entry_is_refused_where_it_would_replace_the_list() {
    for many in [17, 18, 292] {
        let entries = networks(many);
        let held = [by_far(300, &[HALL])];
        assert_eq!(last(&after(&[by_far(300, &entries)])), TOO_MANY);
        for number in [301, 308, 33067] {
            assert_eq!(number_after(&held, by_far(number, &entries)), 15, "{many}");
            let by_b = message(B, FAR, number, &entries);
            assert_eq!(number_after(&held, by_b), 15, "{many}");
        }
    }
}

#[test]
fn the_seventeenth_entry_of_a_number_inside_is_no_matter() {
    for many in [17, 292] {
        for (link, number, verdict) in [(A, 299, 26), (A, 293, 26), (B, 300, 25)] {
            let lines = [by_far(300, &[HALL])];
            let inside = message(link, FAR, number, &networks(many));
            assert_eq!(number_after(&lines, inside.clone()), verdict);
            assert!(holds(&[lines[0].clone(), inside], &[HALL]));
        }
    }
}

#[test]
fn the_seventeenth_entry_of_a_message_not_counted_is_no_matter() {
    let entries = too_many();
    let far = |flags, number| octets(flags, 50, number, FAR);
    let cases = [
        // A duplicate with the last TTL, and with another one.
        (arrival(10, 0, far(0, 300), &entries), 26),
        (arrival(10, 0, octets(0, 49, 300, FAR), &entries), 25),
        // No neighbour row: relayed, and from the originator.
        (arrival(13, 0, far(0, 301), &entries), 25),
        (arrival(FAR, 0, far(0, 301), &entries), 26),
        (arrival(FARTHER, 0, octets(0, 50, 1, FARTHER), &entries), 26),
        (arrival(1, 0, far(0, 301), &entries), 20),
        (arrival(255, 0, far(0, 301), &entries), 21),
        (arrival(13, 0, octets(64, 49, 7, 1), &entries), 22),
        (arrival(13, 0, octets(64, 49, 6, 1), &entries), 23),
        (arrival(10, 0, far(128, 301), &entries), 24),
        (arrival(10, 0, far(0, 292), &entries), 27),
    ];
    for (line, verdict) in cases {
        let lines = [by_far(300, &[HALL])];
        assert_eq!(number_after(&lines, line.clone()), verdict, "{line}");
    }
}

#[test]
fn what_has_more_than_sixteen_entries_is_passed_on_whole() {
    let entries = too_many();
    let lines = after(&[by_far(300, &[]), by_far(299, &entries)]);
    let copy = format!("{}{}", octets(0, 49, 299, FAR), hna(&entries));
    assert!(last(&lines).ends_with(&format!(" {copy}")));
}

#[test]
fn refusal_15_changes_nothing() {
    let entries = too_many();
    // Each at a later time: of a new number, and of an originator without a record.
    for originator in [FAR, FARTHER] {
        let line = arrival(10, 9, octets(0, 50, 301, originator), &entries);
        assert_eq!(printed(line.clone()), [TOO_MANY]);
        assert!(changes_nothing(line), "{originator}");
    }
    let line = arrival(10, 9, octets(0, 50, 301, FAR), &networks(ENTRIES_MOST));
    assert!(!changes_nothing(line));
    // The number is still new, and the list is still there.
    let lines = [by_far(300, &[HALL]), by_far(301, &entries)];
    assert_eq!(looked_up(&lines, PRINTER), found(FAR, HALL));
    let lines = [lines.as_slice(), &[by_far(301, &[ROOM])]].concat();
    assert!(holds(&lines, &[ROOM]));
}

/// As many originators as the table has room for.
pub(super) fn originators() -> Vec<String> {
    (0..CAPACITY as u32)
        .map(|place| message(A, FARTHER + place, 300, &[]))
        .collect()
}

#[test]
fn refusal_10_comes_before_15() {
    let mut lines = originators();
    let entries = too_many();
    assert_eq!(number_after(&lines, by_far(300, &entries)), 10);
    let held = message(A, FARTHER, 301, &entries);
    assert_eq!(number_after(&lines, held), 15);
    lines.pop();
    assert_eq!(number_after(&lines, by_far(300, &entries)), 15);
}

/// Number 300 of FAR by eight links, 20 to 27; 28 has a row, too.
pub(super) fn eight_links() -> Vec<String> {
    let echoes = (20..29).map(|sender| echo(sender, 7));
    let messages = (20..28).map(|sender| message(by(sender), FAR, 300, &[HALL]));
    echoes.chain(messages).collect()
}

/// A message of FAR by the ninth link, with more entries than a record keeps.
fn by_ninth(number: u16) -> String {
    message(by(28), FAR, number, &too_many())
}

#[test]
fn refusal_11_comes_before_15() {
    let lines = eight_links();
    // 301 and 307 leave the eight links their marks; 308 leaves none, and 28 becomes best.
    for (number, refusal) in [(300, 11), (301, 11), (307, 11), (308, 15)] {
        assert_eq!(number_after(&lines, by_ninth(number)), refusal, "{number}");
    }
    let by_eighth = message(by(27), FAR, 301, &too_many());
    assert_eq!(number_after(&lines, by_eighth), 15);
}

#[test]
fn refusals_of_the_packet_come_before_15() {
    let entries = too_many();
    let line = by_far(300, &entries);
    let masks = by_far(300, &[entries.as_slice(), &[(0, 33)]].concat());
    assert_eq!(last(&after(&[masks])), "receive 8 17 0 0 0 0 0 -");
    assert_eq!(number_after(&[], line.clone() + "00"), 7);
    assert_eq!(number_after(&[], line.replace(" 04", " 05")), 6);
    assert_eq!(number_after(&[], line.replace(" 2000 ", " 96 ")), 4);
    assert_eq!(number_after(&[], line.replace(" 2000 ", " 97 ")), 15);
}

#[test]
fn a_burst_goes_on_after_15() {
    let (sender, header) = by_a(300);
    let packet = |entries: &[Announced]| (sender, header.clone() + &hna(entries));
    let packets = [packet(&too_many()), packet(&[HALL]), packet(&too_many())];
    let line = burst(0, 1000, &packets);
    assert_eq!(outcome(line.clone()), (17 + 97, vec![15, 26, 26]));
    assert_eq!(looked_up(&[line], PRINTER), found(FAR, HALL));
}

#[test]
fn the_longest_mask_is_found() {
    let lists = [[YARD, HALL, ROOM], [ROOM, YARD, HALL], [HALL, ROOM, YARD]];
    for list in lists {
        let lines = [by_far(300, &list)];
        assert_eq!(looked_up(&lines, PRINTER), found(FAR, ROOM));
        assert_eq!(looked_up(&lines, 0x0a01_0300), found(FAR, HALL));
        assert_eq!(looked_up(&lines, 0x0a02_0000), found(FAR, YARD));
        assert_eq!(looked_up(&lines, 0x0b00_0000), NOT_FOUND);
    }
    // Whichever originator has it.
    for (smaller, greater, originator) in [(HALL, ROOM, FARTHER), (ROOM, HALL, FAR)] {
        let lines = [
            by_far(300, &[smaller]),
            message(A, FARTHER, 300, &[greater]),
        ];
        assert_eq!(looked_up(&lines, PRINTER), found(originator, ROOM));
    }
}

#[test]
fn of_equal_masks_the_smaller_originator_is_found() {
    let far = by_far(300, &[YARD, HALL, ROOM]);
    let farther = message(A, FARTHER, 300, &[ROOM, HALL, YARD]);
    for lines in [[far.clone(), farther.clone()], [farther, far]] {
        for (address, entry) in [(PRINTER, ROOM), (0x0a01_0300, HALL), (0x0a02_0000, YARD)] {
            assert_eq!(looked_up(&lines, address), found(FAR, entry));
        }
    }
}

#[test]
fn then_the_earlier_entry_is_found() {
    // Entries of packets are then equal; held ones may differ in their host bits.
    let ways = [(0x0a01_0207, 24), (0x0a01_0200, 24), (0x0a01_02ff, 24)];
    for first in 0..ways.len() {
        let mut list = ways;
        list.rotate_left(first);
        let book = book_holding(&[&[YARD], list.as_slice()].concat());
        assert_eq!(located_in(&book, PRINTER), Some(ways[first]));
    }
    // A later entry of the smaller originator is before an earlier one of the greater.
    let lines = [
        by_far(300, &[YARD, HALL, ROOM]),
        message(A, FARTHER, 300, &[ROOM]),
    ];
    assert_eq!(looked_up(&lines, PRINTER), found(FAR, ROOM));
}

#[test]
fn mask_0_covers_every_address() {
    let all = by_far(300, &[(0, 0)]);
    for address in [0, 1, PRINTER, 1 << 31, u32::MAX] {
        assert_eq!(looked_up(&[all.clone()], address), found(FAR, (0, 0)));
    }
    // Any other mask is longer.
    let lines = [all, message(A, FARTHER, 300, &[(0, 1)])];
    assert_eq!(looked_up(&lines, 0x7fff_ffff), found(FARTHER, (0, 1)));
    assert_eq!(looked_up(&lines, 1 << 31), found(FAR, (0, 0)));
}

#[test]
fn every_mask_covers_its_leading_bits() {
    for mask in 0..=32 {
        let entry = Entry {
            network: PRINTER,
            mask,
        };
        for bit in 0..32 {
            // The bit that stands this far from the highest one differs.
            let address = PRINTER ^ (1 << 31) >> bit;
            assert_eq!(entry.covers(address), bit >= mask, "mask {mask}, bit {bit}");
        }
        assert!(entry.covers(PRINTER));
    }
}

#[test]
fn address_0_is_an_ordinary_one() {
    let zero = (0, 32);
    let lines = [message(A, 0, 300, &[zero])];
    assert_eq!(looked_up(&lines, 0), "lookup 0 1 0 0 32");
    assert_eq!(looked_up(&lines, 1), NOT_FOUND);
    let lines = [message(A, 0, 300, &[(0, 0)])];
    assert_eq!(looked_up(&lines, 0), "lookup 0 1 0 0 0");
    assert_eq!(looked_up(&[], 0), NOT_FOUND);
    let highest = (u32::MAX, 32);
    let lines = [message(A, u32::MAX, 300, &[highest])];
    assert_eq!(looked_up(&lines, u32::MAX), found(u32::MAX, highest));
    assert_eq!(looked_up(&lines, 0), NOT_FOUND);
}

#[test]
fn none_is_found_in_a_table_without_entries() {
    for lines in [vec![], vec![by_far(300, &[])]] {
        assert_eq!(looked_up(&lines, PRINTER), NOT_FOUND);
    }
}

#[test]
fn a_sweep_removes_entries_with_their_record() {
    let later = |number| arrival(10, 1, octets(0, 50, number, FARTHER), &[HALL]);
    let mut lines = vec![by_far(300, &[ROOM]), later(300)];
    for (time, answer) in [
        (1000, found(FAR, ROOM)),
        (1001, found(FARTHER, HALL)),
        (1002, NOT_FOUND.to_string()),
    ] {
        lines.push(format!("sweep {time}"));
        assert_eq!(looked_up(&lines, PRINTER), answer, "{time}");
    }
    // The record that is made anew has its own list, and no cell keeps an old entry.
    lines.push(arrival(10, 1002, octets(0, 50, 300, FAR), &[]));
    assert!(holds(&lines, &[]));
    assert_eq!(looked_up(&lines, PRINTER), NOT_FOUND);
}

#[test]
fn a_make_removes_all_entries() {
    let lines = [by_far(300, &[ROOM]), table(8, 32, 7).remove(1)];
    assert_eq!(looked_up(&lines, PRINTER), NOT_FOUND);
}

#[test]
fn a_lookup_needs_a_table_and_changes_none() {
    let mut lines = after(&[by_far(300, &[ROOM])]);
    let asked = format!("lookup {PRINTER}");
    lines.extend([format!("poke {} 0", head::WINDOW), asked.clone()]);
    assert_eq!(last(&lines), "lookup 1 0 0 0 0");
    lines.extend([format!("poke {} 8", head::WINDOW), asked.clone()]);
    assert_eq!(last(&lines), found(FAR, ROOM));
    assert_eq!(played(&[asked.clone()]), ["lookup 1 0 0 0 0"]);
    assert!(changes_nothing(asked));
}

#[test]
fn lookup_lines_and_their_limits() {
    for line in ["lookup 0", "lookup 4294967295", "  lookup  007 "] {
        let read = script::read(line.as_bytes());
        assert!(matches!(read, Line::Call(_)), "{line}");
    }
    for line in ["lookup", "lookup x", "lookup 4294967296", "lookup 1 1"] {
        assert_eq!(script::read(line.as_bytes()), Line::Unreadable, "{line}");
    }
}

#[test]
fn the_cells_of_entries() {
    let cells = cells_after(&after(&[by_far(300, &[HALL, (0, 0), ROOM])]));
    let record = &cells[record_at(0)..record_at(1)];
    assert_eq!(record.len(), 39);
    assert_eq!(record[4..=6], [1, 40, 3]);
    assert_eq!(record[7..=10], [40, 1, 0, 0]);
    assert_eq!(record[23..=26], [0x000a_0100_0010, 0, 0x000a_0102_0018, 0]);
    assert!(record[26..].iter().all(|cell| *cell == 0));
}

#[test]
fn one_cell_of_entries_breaks_a_table() {
    let full = networks(ENTRIES_MOST);
    let cells = cells_after(&after(&[by_far(300, &[HALL, ROOM])]));
    let filled = cells_after(&after(&[by_far(300, &full)]));
    let (held, first) = (
        record_at(0) + record::ENTRIES_HELD,
        record_at(0) + record::ENTRIES,
    );
    let last = first + ENTRIES_MOST - 1;
    let breaking = [
        (&cells, held, 0),
        (&cells, held, 1),
        (&cells, held, 17),
        (&cells, held, u64::MAX),
        (&cells, first, cell(HALL) + (1 << 40)),
        (&cells, first, 1 << 40),
        (&cells, first, 33),
        (&cells, first + 1, cell(ROOM) - 24 + 33),
        (&cells, first + 1, 255),
        (&cells, first + 1, u64::MAX),
        (&cells, first + 2, 1),
        (&cells, first + 2, cell(ROOM)),
        (&cells, last, 1),
        (&filled, held, 17),
        (&filled, held, 15),
        (&filled, last, 33),
        (&filled, last, (1 << 40) + 24),
    ];
    for (cells, index, value) in breaking {
        let mut broken = cells.clone();
        broken[index] = value;
        assert!(!cells::well_formed(&broken), "cell {index} set to {value}");
    }
    // The highest entry, one with host bits, a zero one, and one more that is zero are well-formed.
    for (cells, index, value) in [
        (&cells, first, (1 << 40) - 256 + 32),
        (&cells, first, cell((PRINTER, 16))),
        (&cells, first, 0),
        (&cells, held, 3),
        (&cells, held, 16),
        (&filled, last, 0),
    ] {
        let mut other = cells.clone();
        other[index] = value;
        assert!(cells::well_formed(&other), "cell {index} set to {value}");
    }
}

#[test]
fn what_lookups_met_is_counted() {
    let same = by_far(300, &[ROOM, ROOM]);
    let other = message(A, FARTHER, 300, &[ROOM]);
    let shorter = message(A, FARTHER, 300, &[YARD]);
    let cases: [(&[&str], Vec<String>); 4] = [
        (&[NONE], vec![]),
        (&[FOUND], vec![same.clone()]),
        (&[FOUND, ORIGINATOR], vec![same.clone(), other]),
        (&[FOUND], vec![same, shorter]),
    ];
    for (words, mut lines) in cases {
        let mut player = Player::new();
        lines.push(format!("lookup {PRINTER}"));
        follow(&mut player, &after(&lines));
        assert_eq!(met(&player), words, "{lines:?}");
    }
}

#[test]
fn what_too_many_entries_met_is_counted() {
    let ended = |lines: Vec<String>, line: String| [after(&lines), vec![line]].concat();
    let many = by_far(300, &too_many());
    let cases: [(&[&str], Vec<String>); 5] = [
        (&[], ended(vec![], many.clone())),
        (
            &[LEFT, CLEAN_LOWEST],
            ended(vec![by_far(301, &[])], many.clone()),
        ),
        (&["10-15"], ended(originators(), many)),
        (
            &[STAYS, CLEAN_LOWEST, "11-15"],
            ended(eight_links(), by_ninth(301)),
        ),
        // 300 would leave the list.
        (&[STAYS, CLEAN_LOWEST], ended(eight_links(), by_ninth(300))),
    ];
    for (words, lines) in cases {
        let mut player = Player::new();
        follow(&mut player, &lines);
        assert_eq!(met(&player), words, "{lines:?}");
    }
}

/// The entries as each message settles them: replaced where it is first or new.
fn entries_step_by_step(list: &[Counted], window: u64) -> Vec<Entry> {
    let (mut current, mut entries) = (None, Vec::new());
    for message in list {
        let age = current.map(|current| words::age(current, message.number, window));
        if matches!(age, None | Some(Age::New)) {
            current = Some(message.number);
            entries = message.entries.clone();
        }
    }
    entries
}

/// The lookup by asking for each mask in turn, the longest first.
fn lookup_by_masks(book: &Book, address: u32) -> String {
    for mask in (0..=32).rev() {
        for (originator, list) in &book.lists {
            for entry in entries_step_by_step(list, book.settings.window) {
                let leading = |bits: u32| format!("{bits:032b}")[..usize::from(mask)].to_string();
                if entry.mask == mask && leading(entry.network) == leading(address) {
                    return found(*originator, (entry.network, mask));
                }
            }
        }
    }
    NOT_FOUND.to_string()
}

#[test]
fn lookups_of_generated_scripts_are_those_by_masks() {
    let mut script = Vec::new();
    generate(2, 20_000, &mut script).unwrap();
    let mut player = Player::new();
    let mut compared = 0;
    for line in script.split(|octet| *octet == b'\n') {
        let mut out = Vec::new();
        play::play_line(&mut player, 0, line, &mut out).unwrap();
        let Line::Call(script::Call::Lookup { address }) = script::read(line) else {
            continue;
        };
        if player.state() == Lent::Book {
            let book = player.book.as_ref().expect("a book");
            let answer = String::from_utf8(out).expect("plain text");
            assert_eq!(answer.trim_end(), lookup_by_masks(book, address));
            compared += 1;
        }
    }
    assert!(compared > 1000);
}
