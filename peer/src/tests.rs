//! The examples of docs/RULES.md (section 11), its errors that come easily (12), and self-checks of the peer.

use crate::book::{Book, NEWEST_WINS, PRESENT_STAYS, TIE_DEFAULT};
use crate::cells::{
    self, cells_needed, head, interface, interface_at, link, link_at, neighbour, neighbour_at,
    record, record_at,
};
use crate::counts::{every_word, COUNT, ECHO, EMPTY, LISTS, NEWEST, ROWS, SHORT, STAYS, SUM, WRAP};
use crate::generate::generate;
use crate::packet;
use crate::play::{self, Ending, Lent, Player};
use crate::script::{self, Line, BUFFER_CELLS, LINE_MOST};
use crate::words::{self, Age, Counted, Link};
use std::io;

mod entries;
mod stale;

const A: Link = by(10);
const B: Link = by(11);
const C: Link = by(12);
const FAR: u32 = 99;
const CAPACITY: u64 = 8;
const TIES: [u64; 2] = [NEWEST_WINS, PRESENT_STAYS];
/// P7: A is best with 3, 4, 5, C has 9, 10; then 12 by B.
const P7: [(Link, u16); 6] = [(A, 3), (A, 4), (A, 5), (C, 9), (C, 10), (B, 12)];
/// P8: A is best with 9, 10, C has 9; then 10 by C.
const P8: [(Link, u16); 4] = [(C, 9), (A, 9), (A, 10), (C, 10)];

const fn by(neighbour: u32) -> Link {
    Link {
        neighbour,
        interface: 0,
    }
}

/// A list of counted messages, given as links and numbers.
fn list(messages: &[(Link, u16)]) -> Vec<Counted> {
    messages
        .iter()
        .map(|(link, number)| Counted {
            number: *number,
            link: *link,
            time: 0,
            ttl: 50,
            entries: Vec::new(),
        })
        .collect()
}

/// The numbers marked on a link.
fn marked(list: &[Counted], window: u64, link: Link) -> Vec<u16> {
    words::marks(list, window)
        .iter()
        .filter(|(other, _)| *other == link)
        .map(|(_, number)| *number)
        .collect()
}

/// The best link after these messages, with W = 8.
fn best(messages: &[(Link, u16)], tie: u64) -> Link {
    words::words(&list(messages), 8, tie).unwrap().best
}

/// Plays lines as a script: how it ended, and what it printed.
fn play_script(lines: &[String]) -> (Ending, Vec<u8>) {
    let mut output = Vec::new();
    let script = lines.join("\n");
    let mut input = script.as_bytes();
    let ending = play::play(&mut Player::new(), &mut input, &mut output, false);
    (ending.unwrap(), output)
}

/// Plays lines and gives what was printed.
fn played(lines: &[String]) -> Vec<String> {
    let (ending, output) = play_script(lines);
    assert!(matches!(ending, Ending::Whole));
    let text = String::from_utf8(output).expect("plain text");
    text.lines().map(str::to_string).collect()
}

fn last(lines: &[String]) -> String {
    played(lines).pop().expect("a printed line")
}

/// A table with W and B, one interface (own 1, broadcast 255) that sends from `first` on.
fn table(window: u64, timeout: u64, first: u16) -> Vec<String> {
    vec![
        format!("cells {}", cells_needed(CAPACITY)),
        format!("make 4 {window} {timeout} 1000 {CAPACITY} 1 1 255 {first} 0 0 0 0 0 0 0 0 0"),
    ]
}

fn own() -> String {
    "own 0 0 50 0 0 12 -".to_string()
}

fn octets(flags: u8, ttl: u8, number: u16, originator: u32) -> String {
    format!("04{flags:02x}{ttl:02x}00{number:04x}0000{originator:08x}")
}

fn receive(sender: u32, flags: u8, ttl: u8, number: u16, originator: u32) -> String {
    let packet = octets(flags, ttl, number, originator);
    format!("receive 0 {sender} 0 12 {packet}")
}

fn echo(sender: u32, number: u16) -> String {
    receive(sender, 64, 49, number, 1)
}

/// A table with W = 8 and neighbour rows for A, B and C.
fn with_rows() -> Vec<String> {
    let mut lines = table(8, 32, 7);
    lines.push(own());
    lines.extend([A, B, C].iter().map(|link| echo(link.neighbour, 7)));
    lines
}

/// The same, with this behind the make line: a tie, or nothing.
fn with_tie(tie: &str) -> Vec<String> {
    let mut lines = with_rows();
    lines[1] += tie;
    lines
}

fn feed(lines: &mut Vec<String>, messages: &[(Link, u16)]) {
    for (link, number) in messages {
        lines.push(receive(link.neighbour, 0, 50, *number, FAR));
    }
}

/// The ages of numbers beside a current one, with W = 8.
fn ages<const MANY: usize>(current: u16, numbers: [u16; MANY]) -> [Age; MANY] {
    numbers.map(|number| words::age(current, number, 8))
}

#[test]
fn p1_inside_and_outside() {
    assert_eq!(ages(10, [3, 2, 11]), [Age::Inside, Age::Stale, Age::New]);
}

#[test]
fn p2_window_over_the_wrap() {
    assert_eq!(ages(5, [65534, 65533]), [Age::Inside, Age::Stale]);
}

#[test]
fn p3_a_move_forgets() {
    let after = list(&[(A, 10), (A, 7), (A, 3), (A, 12)]);
    assert_eq!(marked(&after, 8, A), [7, 10, 12]);
    assert_eq!(words::words(&after, 8, TIE_DEFAULT).unwrap().count(A), 3);
}

#[test]
fn p4_moves_by_seven_and_eight() {
    assert_eq!(marked(&list(&[(A, 10), (A, 17)]), 8, A), [10, 17]);
    assert_eq!(marked(&list(&[(A, 10), (A, 18)]), 8, A), [18]);
}

#[test]
fn p5_a_late_number_is_stale() {
    let mut lines = with_rows();
    feed(&mut lines, &[(A, 10)]);
    let before = cells_after(&lines);
    feed(&mut lines, &[(A, 2)]);
    assert_eq!(last(&lines), "receive 27 0 0 10 0 1 8 -");
    assert_eq!(cells_after(&lines), before);
}

#[test]
fn p6_window_of_one() {
    assert!(words::duplicate(&list(&[(A, 10)]), 1, A, 10));
    assert!(!words::duplicate(&list(&[(A, 10)]), 1, B, 10));
}

#[test]
fn p7_best_is_not_the_maximum() {
    let after = list(&P7);
    assert_eq!(marked(&after, 8, A), [5]);
    for tie in TIES {
        let words = words::words(&after, 8, tie).unwrap();
        assert_eq!(words.best, A);
        assert_eq!(words.held, [(A, 1), (B, 1), (C, 2)]);
    }
    let mut lines = with_rows();
    feed(&mut lines, &P7);
    lines.push(format!("list {FAR} 3"));
    let printed = played(&lines);
    let rows = [
        "list 0 3",
        "row 10 0 1 8 1",
        "row 11 0 1 8 0",
        "row 12 0 2 8 0",
    ];
    assert_eq!(printed[printed.len() - 4..], rows);
}

#[test]
fn p8_newest_wins() {
    assert_eq!(best(&P8[..3], NEWEST_WINS), A);
    assert_eq!(best(&P8, NEWEST_WINS), C);
}

#[test]
fn p8_present_link_stays() {
    assert_eq!(best(&P8[..3], PRESENT_STAYS), A);
    assert_eq!(best(&P8, PRESENT_STAYS), A);
}

#[test]
fn the_present_link_gives_way_to_one_above_it() {
    let above = [P8.as_slice(), &[(C, 11)]].concat();
    assert_eq!(best(&above, PRESENT_STAYS), C);
}

#[test]
fn the_present_link_stays_below_two_others_that_tie() {
    // B and C have two marks, A, which is best, has one.
    let tied = [P7.as_slice(), &[(B, 11)]].concat();
    assert_eq!(best(&tied, PRESENT_STAYS), A);
    assert_eq!(best(&tied, NEWEST_WINS), B);
}

#[test]
fn make_takes_the_tie_last_and_by_itself_the_present_link_stays() {
    for (tie, best) in [("", A), (" 0", C), (" 1", A)] {
        let mut lines = with_tie(tie);
        feed(&mut lines, &P8);
        lines.push(format!("best {FAR}"));
        let answer = format!("best 0 {} 0 2 8", best.neighbour);
        assert_eq!(last(&lines), answer, "tie{tie}");
    }
}

#[test]
fn an_unknown_tie_is_refused() {
    for tie in [" 2", " 3", " 18446744073709551615"] {
        assert_eq!(last(&with_tie(tie)[..2]), "make 12", "tie{tie}");
    }
}

#[test]
fn a_tie_decides_what_is_passed_on() {
    for (tie, verdict) in [(" 0", "receive 26"), (" 1", "receive 25")] {
        let mut lines = with_tie(tie);
        feed(&mut lines, &P8);
        assert!(last(&lines).starts_with(verdict), "tie{tie}");
    }
}

#[test]
fn ties_are_counted_under_their_setting() {
    let mut player = Player::new();
    // 9 by A and 10 by C tie; 10 by C once more is not counted.
    let mut lines = with_tie(" 0");
    feed(&mut lines, &P8);
    feed(&mut lines, &[(C, 10)]);
    follow(&mut player, &lines);
    assert_eq!((player.counts.of(NEWEST), player.counts.of(STAYS)), (2, 0));
    // 9 by A ties; 10 by B leaves B below the others.
    let mut lines = with_tie(" 1");
    feed(&mut lines, &P8[..3]);
    feed(&mut lines, &[(B, 10)]);
    follow(&mut player, &lines);
    assert_eq!((player.counts.of(NEWEST), player.counts.of(STAYS)), (2, 1));
}

#[test]
fn p9_from_the_originator_without_a_row() {
    let mut lines = table(8, 32, 7);
    lines.push(receive(FAR, 0, 50, 300, FAR));
    assert_eq!(
        last(&lines),
        "receive 26 0 0 0 0 0 0 04c03100012c000000000063"
    );
}

#[test]
fn p10_a_relayed_message_loses_d() {
    let mut lines = with_rows();
    lines.push(receive(10, 69, 50, 300, FAR));
    assert_eq!(
        last(&lines),
        "receive 26 0 5 10 0 1 8 04053100012c000000000063"
    );
}

#[test]
fn p11_distance_over_the_wrap() {
    for (timeout, verdict) in [(4, "receive 25"), (5, "receive 26")] {
        let mut lines = table(8, timeout, 65535);
        lines.extend([own(), echo(10, 65535)]);
        lines.extend((0..4).map(|_| own()));
        lines.push(receive(10, 0, 50, 1, FAR));
        assert!(last(&lines).starts_with(verdict));
    }
}

#[test]
fn p12_the_octets_of_a_header() {
    let octets = script::hex(b"04003200012c00000a010007", 12).unwrap();
    let header = packet::read(&octets);
    assert_eq!((header.version, header.flags, header.ttl), (4, 0, 50));
    assert_eq!((header.number, header.originator), (300, 0x0a01_0007));
    assert_eq!(packet::write(&header, &[]), octets);
}

#[test]
fn lengths_and_masks() {
    let of = |octets: usize| {
        let mut packet = vec![0; octets];
        packet[0] = 4;
        packet
    };
    assert!(packet::fault(4, &of(1472)).is_ok());
    assert_eq!(packet::fault(4, &of(1473)).unwrap_err().number, 5);
    assert_eq!(packet::fault(4, &of(16)).unwrap_err().number, 7);
    assert_eq!(packet::fault(4, &[]).unwrap_err().number, 5);
    let mut masks = of(27);
    masks[16] = 32;
    assert!(packet::fault(4, &masks).is_ok());
    (masks[21], masks[26]) = (33, 255);
    let refusal = packet::fault(4, &masks).unwrap_err();
    assert_eq!((refusal.number, refusal.place), (8, 1));
    assert_eq!(packet::fault(260, &masks).unwrap_err().number, 6);
}

#[test]
fn ttl_two_leaves_as_one_and_less_stays() {
    let mut lines = with_rows();
    lines.push(receive(10, 0, 2, 300, FAR));
    assert!(last(&lines).ends_with(" 04000100012c000000000063"));
    for ttl in [0, 1] {
        let mut lines = with_rows();
        lines.push(receive(10, 0, ttl, 300, FAR));
        // It is counted all the same, and nothing is taken from TTL 0.
        assert_eq!(last(&lines), "receive 25 0 0 10 0 1 8 -");
        lines.push(receive(FAR, 0, ttl, 301, FAR));
        assert_eq!(last(&lines), "receive 25 0 0 10 0 1 8 -");
    }
}

#[test]
fn error_best_as_the_maximum() {
    assert_ne!(best(&P7, NEWEST_WINS), C);
    assert_ne!(best(&P7, PRESENT_STAYS), C);
}

#[test]
fn error_duplicates_judged_after_counting() {
    let mut lines = with_rows();
    feed(&mut lines, &[(A, 300)]);
    lines.push(receive(10, 0, 40, 301, FAR));
    assert!(last(&lines).starts_with("receive 26"));
}

#[test]
fn error_d_kept_from_a_relay() {
    let mut lines = with_rows();
    lines.push(receive(10, 64, 50, 300, FAR));
    assert!(last(&lines).ends_with(" 04003100012c000000000063"));
}

#[test]
fn error_one_subtracted_from_ttl_0() {
    let mut lines = table(8, 32, 7);
    lines.push(receive(FAR, 0, 0, 300, FAR));
    assert_eq!(last(&lines), "receive 25 0 0 0 0 0 0 -");
}

#[test]
fn error_numbers_compared_without_the_wrap() {
    let after = list(&[(A, 65535), (A, 0), (A, 1)]);
    assert_eq!(words::current(&after, 8), Some(1));
    assert_eq!(marked(&after, 8, A), [0, 1, 65535]);
    let mut lines = table(8, 32, 65535);
    lines.extend([own(), own()]);
    assert!(last(&lines).starts_with("own 0 0 12 0 "));
    lines.push(echo(10, 0));
    assert!(last(&lines).starts_with("receive 22"));
}

#[test]
fn duplicates_are_passed_on_by_the_last_ttl() {
    let mut lines = with_rows();
    feed(&mut lines, &[(A, 300), (A, 300)]);
    assert!(last(&lines).starts_with("receive 26"));
    lines.push(receive(10, 0, 49, 300, FAR));
    assert!(last(&lines).starts_with("receive 25"));
}

#[test]
fn a_forgotten_number_counts_again() {
    // Three moves lead all the way round, each to a new number.
    let back = list(&[(A, 10), (A, 20), (A, 32787), (B, 10)]);
    assert_eq!(words::current(&back, 8), Some(10));
    assert!(!words::duplicate(&back, 8, A, 10));
    assert_eq!(marked(&back, 8, A), []);
}

#[test]
fn an_echo_needs_an_interface_that_has_sent() {
    let mut lines = table(8, 32, 1);
    lines.push(echo(10, 0));
    assert!(last(&lines).starts_with("receive 23"));
}

#[test]
fn the_ninth_link_is_refused_unless_one_gives_way() {
    let mut lines = table(8, 32, 7);
    lines.push(own());
    lines.extend((20..29).map(|sender| echo(sender, 7)));
    lines.extend((20..28).map(|sender| receive(sender, 0, 50, 10, FAR)));
    lines.push(receive(28, 0, 50, 10, FAR));
    assert_eq!(last(&lines), "receive 11 0 0 0 0 0 0 -");
    lines.pop();
    lines.push(receive(28, 0, 50, 18, FAR));
    assert!(last(&lines).starts_with("receive 26"));
    lines.push(format!("list {FAR} 1"));
    assert_eq!(last(&lines), "row 28 0 1 8 1");
}

#[test]
fn the_thirty_third_row_is_refused() {
    let mut lines = table(8, 32, 7);
    lines.push(own());
    lines.extend((20..52).map(|sender| echo(sender, 7)));
    assert!(last(&lines).starts_with("receive 22"));
    lines.push(echo(52, 7));
    assert!(last(&lines).starts_with("receive 9 "));
    lines.pop();
    lines.push(echo(51, 7));
    assert!(last(&lines).starts_with("receive 22"));
}

#[test]
fn a_sweep_keeps_what_is_exactly_the_timeout_old() {
    let mut lines = with_rows();
    feed(&mut lines, &[(A, 300)]);
    lines.push("sweep 1000".to_string());
    assert_eq!(last(&lines), "sweep 0 0");
    lines.push("sweep 1001".to_string());
    assert_eq!(last(&lines), "sweep 0 1");
    lines.push("sweep 1000".to_string());
    assert_eq!(last(&lines), "sweep 3 0");
}

#[test]
fn refusals_come_in_their_order() {
    let lines = |line: &str| {
        let mut lines = with_rows();
        lines.push("sweep 5".to_string());
        lines.push(line.to_string());
        last(&lines)
    };
    assert_eq!(lines("own 1 0 0 0 0 0 00"), "own 2 0 0 0 -");
    assert_eq!(lines("own 0 0 0 0 0 0 00"), "own 3 0 0 0 -");
    assert_eq!(lines("own 0 5 0 0 0 12 00"), "own 4 0 0 0 -");
    assert_eq!(lines("own 0 5 0 0 0 13 00"), "own 7 0 0 0 -");
    assert_eq!(lines("own 0 5 0 0 0 17 0000000021"), "own 8 0 0 0 -");
    assert_eq!(lines("own 0 5 0 0 0 17 000000011f"), "own 16 0 0 0 -");
    assert_eq!(lines("own 0 5 1 0 0 17 0000000020"), "own 13 0 0 0 -");
}

#[test]
fn lines_that_cant_be_read() {
    for line in ["best 1 1", "best", "best\t1", "best 1\r", "cells 66561"] {
        assert_eq!(script::read(line.as_bytes()), Line::Unreadable, "{line}");
    }
    for line in ["", "   ", "#", "  # best 1"] {
        assert_eq!(script::read(line.as_bytes()), Line::Nothing, "{line}");
    }
    assert_eq!(LINE_MOST, 65_536);
    assert_eq!(script::read(&[b'#'; LINE_MOST + 1]), Line::Unreadable);
    assert_eq!(script::read(&[b'#'; LINE_MOST]), Line::Nothing);
}

#[test]
fn a_make_line_has_18_numbers_or_a_tie_behind_them() {
    let make = table(8, 32, 7).remove(1);
    for behind in ["", " ", " 0", " 18446744073709551615"] {
        let line = make.clone() + behind;
        let read = script::read(line.as_bytes());
        assert!(matches!(read, Line::Call(_)), "{line}");
    }
    for behind in [" x", " -", " 18446744073709551616", " 1 1", " 1 x"] {
        let line = make.clone() + behind;
        assert_eq!(script::read(line.as_bytes()), Line::Unreadable, "{line}");
    }
    let (shorter, _) = make.rsplit_once(' ').unwrap();
    assert_eq!(script::read(shorter.as_bytes()), Line::Unreadable);
}

#[test]
fn limits_of_output_and_octets() {
    let check = |many: usize| format!("check 4 {}", "00".repeat(many));
    let of = |output: u64| {
        [
            format!("receive 0 1 0 {output} -"),
            format!("own 0 0 50 0 0 {output} -"),
            format!("burst 0 {output} 0 - 0 0 0"),
        ]
    };
    for line in of(16_384).into_iter().chain([check(2000)]) {
        let read = script::read(line.as_bytes());
        assert!(matches!(read, Line::Call(_)), "{line}");
    }
    for line in of(16_385).into_iter().chain([check(2001)]) {
        assert_eq!(script::read(line.as_bytes()), Line::Unreadable, "{line}");
    }
}

/// A list of a burst: its number of members, then the members.
fn members(list: &[u64]) -> String {
    let mut words = vec![list.len().to_string()];
    words.extend(list.iter().map(u64::to_string));
    words.join(" ")
}

/// A burst with these lists, at time 0 with an output of 1,000 octets.
fn burst_of(rows: u64, buffer: &str, lists: [&[u64]; 3]) -> String {
    let lists = lists.map(members).join(" ");
    format!("burst 0 1000 {rows} {buffer} {lists}")
}

/// The same, with lengths that may not fit the buffer, by A on interface 0.
fn burst_of_lengths(buffer: &str, lengths: &[u64]) -> String {
    let senders = vec![u64::from(A.neighbour); lengths.len()];
    let interfaces = vec![0; lengths.len()];
    burst_of(40, buffer, [lengths, &senders, &interfaces])
}

/// A burst of packets, each with its sender, on interface 0, with as many rows.
fn burst(time: u64, output: u64, packets: &[(u32, String)]) -> String {
    let buffer: String = packets.iter().map(|(_, hex)| hex.as_str()).collect();
    let lengths = packets.iter().map(|(_, hex)| hex.len() as u64 / 2);
    let senders = packets.iter().map(|(sender, _)| u64::from(*sender));
    let lists = [lengths.collect(), senders.collect(), vec![0; packets.len()]];
    let lists = lists.map(|list: Vec<u64>| members(&list)).join(" ");
    let rows = packets.len();
    format!("burst {time} {output} {rows} {buffer} {lists}")
}

/// A packet by A with a message of FAR, which is counted and passed on if its number is new.
fn by_a(number: u16) -> (u32, String) {
    (A.neighbour, octets(0, 50, number, FAR))
}

/// The same with an HNA entry, of 17 octets.
fn longer_by_a(number: u16, mask: u8) -> (u32, String) {
    let (sender, header) = by_a(number);
    (sender, format!("{header}0a000000{mask:02x}"))
}

/// What a line prints for a table with rows for A, B and C.
fn printed(line: String) -> Vec<String> {
    let mut lines = with_rows();
    let before = played(&lines).len();
    lines.push(line);
    played(&lines).split_off(before)
}

/// How many octets a burst that was taken wrote, and the numbers of its packets.
fn outcome(line: String) -> (u64, Vec<u64>) {
    let printed = printed(line);
    let word = |line: &String, place| line.split(' ').nth(place).unwrap().parse::<u64>().unwrap();
    let numbers: Vec<u64> = printed[1..].iter().map(|line| word(line, 1)).collect();
    assert!(printed[1..].iter().all(|line| line.starts_with("packet ")));
    assert_eq!(word(&printed[0], 1), 0);
    assert_eq!(word(&printed[0], 2), numbers.len() as u64);
    (word(&printed[0], 3), numbers)
}

fn assert_refused(line: String) {
    assert_eq!(printed(line.clone()), ["burst 14 0 0 -"], "{line}");
}

/// Whether a line leaves every cell of a table as it was.
fn changes_nothing(line: String) -> bool {
    let mut lines = with_rows();
    feed(&mut lines, &[(A, 300)]);
    lines.push("sweep 5".to_string());
    let before = cells_after(&lines);
    lines.push(line);
    cells_after(&lines) == before
}

#[test]
fn a_burst_prints_its_copies_and_a_line_for_each_packet() {
    // The place is counted within its packet.
    let mut masks = longer_by_a(301, 24);
    masks.1 += "0b00000021";
    let packets = [by_a(300), masks, by_a(302)];
    let lines = [
        "burst 0 3 24 04003100012c00000000006304003100012e000000000063",
        "packet 26 0 0 10 0 1 8",
        "packet 8 1 0 0 0 0 0",
        "packet 26 0 0 10 0 2 8",
    ];
    assert_eq!(printed(burst(0, 100, &packets)), lines);
}

#[test]
fn a_burst_is_its_packets_as_single_calls() {
    // 13 has no row before its echo; then a message, twice, others by A, stale ones among them,
    // and 13 once more.
    let packets = [
        (13, octets(0, 50, 299, FAR)),
        (13, octets(64, 49, 7, 1)),
        (13, octets(0, 50, 300, FAR)),
        (13, octets(0, 50, 300, FAR)),
        by_a(300),
        by_a(301),
        by_a(200),
        (13, octets(0, 1, 400, FAR)),
        (FAR, octets(0, 50, 301, FAR)),
        (FAR, octets(0, 50, 401, FAR)),
    ];
    let mut bursts = with_rows();
    bursts.push(burst(5, 1000, &packets));
    let mut singles = with_rows();
    let single = |(sender, hex): &(u32, String)| format!("receive 0 {sender} 5 1000 {hex}");
    singles.extend(packets.iter().map(single));
    let (mut answers, mut written) = (Vec::new(), String::new());
    for line in &played(&singles)[with_rows().len() - 1..] {
        let (fields, octets) = line.rsplit_once(' ').unwrap();
        answers.push(fields.replacen("receive", "packet", 1));
        written += octets.trim_matches('-');
    }
    let printed = played(&bursts);
    assert_eq!(printed[printed.len() - packets.len()..], answers);
    let first = format!("burst 0 {} {} {written}", packets.len(), written.len() / 2);
    assert_eq!(printed[printed.len() - packets.len() - 1], first);
    assert_eq!(cells_after(&bursts), cells_after(&singles));
}

#[test]
fn an_echo_counts_for_the_packets_behind_it() {
    let message = |number| (13, octets(0, 50, number, FAR));
    let echo = (13, octets(64, 49, 7, 1));
    let answers = printed(burst(0, 100, &[message(300), echo, message(300)]));
    assert_eq!(answers[1], "packet 25 0 0 0 0 0 0");
    assert_eq!(answers[2], "packet 22 0 0 0 0 0 0");
    assert_eq!(answers[3], "packet 26 0 0 13 0 1 8");
}

#[test]
fn lists_of_unequal_length_are_refused() {
    // Every three lists of up to 3 members; the lengths fit the buffer.
    for (lengths, senders, interfaces) in (0..64).map(|n| (n / 16, n / 4 % 4, n % 4)) {
        let buffer = match lengths {
            0 => "-".to_string(),
            _ => by_a(300).1.repeat(lengths),
        };
        let lists = [vec![12; lengths], vec![10; senders], vec![0; interfaces]];
        let line = burst_of(40, &buffer, [&lists[0], &lists[1], &lists[2]]);
        if lengths == senders && senders == interfaces {
            assert_eq!(outcome(line).1.len(), lengths);
        } else {
            assert_refused(line);
        }
    }
}

#[test]
fn the_thirty_third_packet_is_refused() {
    let packets: Vec<(u32, String)> = (300..333).map(by_a).collect();
    let (written, numbers) = outcome(burst(0, 1000, &packets[..32]));
    assert_eq!((written, numbers), (32 * 12, vec![26; 32]));
    assert_refused(burst(0, 1000, &packets));
}

#[test]
fn fewer_answer_rows_than_packets_are_refused() {
    let buffer = by_a(300).1.repeat(3);
    let with = |rows| burst_of(rows, &buffer, [&[12; 3], &[10; 3], &[0; 3]]);
    for rows in [0, 2] {
        assert_refused(with(rows));
    }
    for rows in [3, 4, 40] {
        assert_eq!(outcome(with(rows)).1.len(), 3);
    }
}

#[test]
fn lengths_that_miss_the_buffer_are_refused() {
    let buffer = by_a(300).1.repeat(2);
    assert_eq!(outcome(burst_of_lengths(&buffer, &[12, 12])).0, 24);
    assert_eq!(outcome(burst_of_lengths(&buffer, &[24, 0])).1, [7, 5]);
    for lengths in [[12, 11], [12, 13], [11, 12], [13, 12], [0, 0], [24, 24]] {
        assert_refused(burst_of_lengths(&buffer, &lengths));
    }
    assert_refused(burst_of_lengths(&buffer, &[]));
    assert_refused(burst_of_lengths("-", &[1]));
}

#[test]
fn a_sum_beyond_64_bits_does_not_fit() {
    let buffer = by_a(300).1.repeat(2);
    let half = 1 << 63;
    let wrapping: [&[u64]; 6] = [
        &[u64::MAX, 25],
        &[25, u64::MAX],
        &[12, u64::MAX - 11, 24],
        &[half, half + 24],
        &[half, half, 12, 12],
        &[u64::MAX, u64::MAX, 26],
    ];
    for lengths in wrapping {
        let sum = lengths
            .iter()
            .fold(0, |sum: u64, one| sum.wrapping_add(*one));
        assert_eq!(sum, 24);
        assert_refused(burst_of_lengths(&buffer, lengths));
    }
    // A sum of 32 bits would fit here.
    assert_refused(burst_of_lengths(&buffer, &[12 + (1 << 32), 12]));
    assert_refused(burst_of_lengths("-", &[half, half]));
}

#[test]
fn a_refused_burst_changes_nothing() {
    let buffer = by_a(301).1;
    let lines = [
        format!("burst 9 1000 40 {buffer} 1 12 1 10 2 0 0"),
        format!("burst 9 1000 0 {buffer} 1 12 1 10 1 0"),
        format!("burst 9 1000 40 {buffer} 1 11 1 10 1 0"),
        burst(9, 1000, &vec![by_a(301); 33]),
    ];
    for line in lines {
        assert_refused(line.clone());
        assert!(changes_nothing(line.clone()), "{line}");
    }
    assert!(!changes_nothing(burst(9, 1000, &[by_a(301)])));
}

#[test]
fn each_packet_has_the_rest_of_the_output() {
    let packets = [by_a(300), by_a(301), by_a(302)];
    assert_eq!(outcome(burst(0, 36, &packets)), (36, vec![26, 26, 26]));
    assert_eq!(outcome(burst(0, 35, &packets)), (24, vec![26, 26, 4]));
    assert_eq!(outcome(burst(0, 24, &packets)), (24, vec![26, 26, 4]));
    assert_eq!(outcome(burst(0, 12, &packets)), (12, vec![26, 4, 4]));
    assert_eq!(outcome(burst(0, 11, &packets)), (0, vec![4, 4, 4]));
}

#[test]
fn a_packet_that_is_not_passed_on_leaves_the_rest_as_it_was() {
    let kept = (A.neighbour, octets(0, 1, 301, FAR));
    let packets = [by_a(300), kept.clone(), kept, by_a(302)];
    assert_eq!(outcome(burst(0, 24, &packets)), (24, vec![26, 25, 25, 26]));
    // It needs the room all the same.
    assert_eq!(outcome(burst(0, 12, &packets)), (12, vec![26, 4, 4, 4]));
}

#[test]
fn a_shorter_packet_fits_where_a_longer_one_did_not() {
    let packets = [by_a(300), longer_by_a(301, 24), by_a(302), by_a(303)];
    assert_eq!(outcome(burst(0, 53, &packets)), (53, vec![26; 4]));
    assert_eq!(outcome(burst(0, 28, &packets)), (24, vec![26, 4, 26, 4]));
    assert_eq!(outcome(burst(0, 24, &packets)), (24, vec![26, 4, 26, 4]));
    assert_eq!(outcome(burst(0, 29, &packets)), (29, vec![26, 26, 4, 4]));
}

#[test]
fn after_a_refused_packet_the_next_goes_on() {
    let other_version = (A.neighbour, by_a(301).1.replacen("04", "05", 1));
    let ragged = (A.neighbour, by_a(302).1 + "00");
    let short = (A.neighbour, "04".to_string());
    let none = (A.neighbour, String::new());
    let long = (A.neighbour, "04".repeat(1473));
    let (mask, host_bits) = (longer_by_a(303, 33), longer_by_a(304, 4));
    let packets = [
        other_version,
        ragged,
        short,
        none,
        long,
        mask,
        host_bits,
        by_a(305),
    ];
    let numbers = vec![6, 7, 5, 5, 5, 8, 16, 26];
    assert_eq!(outcome(burst(0, 1473, &packets)), (12, numbers));
    // Interface 1 is not in use.
    let lists: [&[u64]; 3] = [&[12, 12], &[10, 10], &[1, 0]];
    let buffer = by_a(300).1.repeat(2);
    assert_eq!(outcome(burst_of(2, &buffer, lists)), (12, vec![2, 26]));
}

#[test]
fn a_burst_before_the_tables_time_has_each_packet_refused() {
    let mut lines = with_rows();
    lines.push("sweep 5".to_string());
    lines.push(burst(4, 100, &[by_a(300), by_a(301)]));
    let row = "packet 3 0 0 0 0 0 0";
    assert_eq!(played(&lines).split_off(6), ["burst 0 2 0 -", row, row]);
}

#[test]
fn a_burst_sets_the_time_if_a_packet_does() {
    let spoilt = (A.neighbour, by_a(300).1.replacen("04", "05", 1));
    for (packets, sweep) in [
        (vec![spoilt.clone()], "sweep 0 0"),
        (vec![spoilt, by_a(300)], "sweep 3 0"),
    ] {
        let mut lines = with_rows();
        lines.push(burst(9, 100, &packets));
        lines.push("sweep 8".to_string());
        assert_eq!(last(&lines), sweep);
    }
}

#[test]
fn a_burst_of_no_packets_is_taken_and_leaves_the_table() {
    for time in [0, 4, 5, 6, u64::MAX] {
        for line in [
            format!("burst {time} 0 0 - 0 0 0"),
            format!("burst {time} 1000 40 - 0 0 0"),
        ] {
            assert_eq!(printed(line.clone()), ["burst 0 0 0 -"], "{line}");
            assert!(changes_nothing(line.clone()), "{line}");
        }
    }
    assert_refused("burst 0 0 0 04 0 0 0".to_string());
}

#[test]
fn a_burst_needs_a_table_before_all_else() {
    let packet = by_a(300).1;
    for line in [
        format!("burst 0 100 1 {packet} 1 12 1 10 1 0"),
        format!("burst 0 100 0 {packet} 1 11 0 2 0 0"),
        "burst 0 0 0 - 0 0 0".to_string(),
    ] {
        let mut lines = with_rows();
        lines.extend([format!("poke {} 0", head::WINDOW), line.clone()]);
        assert_eq!(last(&lines), "burst 1 0 0 -", "{line}");
        assert_eq!(played(&[line.clone()]), ["burst 1 0 0 -"], "{line}");
    }
}

#[test]
fn burst_lines_and_their_limits() {
    let zeros = |many: usize| members(&vec![0; many]);
    let lists = |lengths, senders, interfaces| {
        let lists = [lengths, senders, interfaces].map(zeros).join(" ");
        format!("burst 0 0 40 - {lists}")
    };
    let buffer = |many: usize| format!("burst 0 0 1 {} 1 {many} 1 1 1 0", "00".repeat(many));
    let most = u64::MAX;
    let readable = [
        "burst 0 16384 40 - 0 0 0".to_string(),
        format!("burst {most} 0 0 - 1 {most} 1 4294967295 1 {most}"),
        lists(40, 40, 40),
        lists(0, 40, 3),
        buffer(16_384),
    ];
    for line in readable {
        let read = script::read(line.as_bytes());
        assert!(matches!(read, Line::Call(_)), "{line}");
    }
    let unreadable = [
        "burst 0 16385 40 - 0 0 0".to_string(),
        "burst 0 0 41 - 0 0 0".to_string(),
        lists(41, 40, 40),
        lists(40, 41, 40),
        lists(40, 40, 41),
        buffer(16_385),
        "burst 0 0 0 - 0 0".to_string(),
        "burst 0 0 0 - 0 0 0 0".to_string(),
        "burst 0 0 0 - 0 0 1".to_string(),
        "burst 0 0 0 - 0 1 4294967296 0".to_string(),
        "burst 0 0 0 - 1 18446744073709551616 0 0".to_string(),
        "burst 0 0 0 - 1 x 0 0".to_string(),
        "burst 0 0 0 0 0 0 0".to_string(),
    ];
    for line in unreadable {
        assert_eq!(script::read(line.as_bytes()), Line::Unreadable, "{line}");
    }
}

#[test]
fn what_bursts_met_is_counted() {
    let packet = by_a(300).1;
    let echo = (13, octets(64, 49, 7, 1));
    let message = (13, octets(0, 50, 300, FAR));
    let cases: [(&[&str], String); 11] = [
        (&[LISTS], format!("burst 0 100 1 {packet} 1 12 1 10 0")),
        (&[COUNT], burst(0, 100, &vec![by_a(300); 33])),
        (&[ROWS], format!("burst 0 100 0 {packet} 1 12 1 10 1 0")),
        (&[SUM], format!("burst 0 100 1 {packet} 1 13 1 10 1 0")),
        (&[SUM, WRAP], burst_of_lengths(&packet, &[u64::MAX, 13])),
        (&[], format!("burst 0 100 0 {packet} 1 13 1 10 1 0")),
        (
            &[SHORT],
            burst(0, 24, &[by_a(300), longer_by_a(301, 24), by_a(302)]),
        ),
        (&[], burst(0, 16, &[longer_by_a(301, 24), by_a(302)])),
        (&[EMPTY], "burst 1 0 0 - 0 0 0".to_string()),
        (&[], "burst 0 0 0 - 0 0 0".to_string()),
        (&[ECHO], burst(0, 100, &[echo, message])),
    ];
    for (words, line) in cases {
        let mut player = Player::new();
        follow(&mut player, &with_rows());
        follow(&mut player, &[line.clone()]);
        assert_eq!(met(&player), words, "{line}");
    }
}

/// The words that a player counted.
fn met(player: &Player) -> Vec<&'static str> {
    every_word()
        .filter(|word| player.counts.of(word) > 0)
        .collect()
}

/// Plays lines that print what they may.
fn follow(player: &mut Player, lines: &[String]) {
    for line in lines {
        play::play_line(player, 0, line.as_bytes(), &mut Vec::new()).unwrap();
    }
}

/// The cells after these lines, which make a table.
fn cells_after(lines: &[String]) -> Vec<u64> {
    let mut player = Player::new();
    follow(&mut player, lines);
    assert_eq!(player.state(), Lent::Book);
    player.cells().to_vec()
}

/// A table with two neighbour rows of three and a record with two links.
fn example_cells() -> Vec<u64> {
    let mut lines = with_rows();
    feed(&mut lines, &[(A, 300), (B, 300), (A, 301)]);
    lines.push(receive(11, 0, 50, 300, 200));
    cells_after(&lines)
}

#[test]
fn the_places_of_the_layout() {
    assert_eq!(interface_at(0), 10);
    assert_eq!(neighbour_at(0), 30);
    assert_eq!(record_at(0), 94);
    assert_eq!(link_at(0), 7);
    assert_eq!(record_at(1), 94 + 39);
    assert_eq!(cells_needed(64), 2590);
    assert_eq!(cells_needed(256), 10_078);
}

#[test]
fn the_tie_lies_between_the_capacity_and_the_interfaces_in_use() {
    for (tie, value) in [(" 0", 0), (" 1", 1), ("", 1)] {
        let cells = cells_after(&with_tie(tie));
        assert_eq!(cells[4..=6], [CAPACITY, value, 1], "tie{tie}");
    }
}

#[test]
fn a_table_of_either_tie_is_well_formed() {
    let mut cells = example_cells();
    for tie in TIES {
        cells[head::TIE] = tie;
        assert!(cells::well_formed(&cells));
    }
}

#[test]
fn one_cell_breaks_a_table() {
    let cells = example_cells();
    assert!(cells::well_formed(&cells));
    let (one, other, unused) = (interface_at(0), interface_at(1), neighbour_at(3));
    let row = neighbour_at(0);
    let (record, behind) = (record_at(0), record_at(2));
    let (link, next, third) = (
        record + link_at(0),
        record + link_at(1),
        record + link_at(2),
    );
    let breaking = [
        (head::VERSION, 256),
        (head::WINDOW, 0),
        (head::WINDOW, 65),
        (head::WINDOW, 1),
        (head::TIMEOUT, 0),
        (head::TIMEOUT, 1001),
        (head::PURGE, 0),
        (head::PURGE, 1 << 32),
        (head::CAPACITY, CAPACITY - 1),
        (head::CAPACITY, CAPACITY + 1),
        (head::TIE, 2),
        (head::TIE, u64::MAX),
        (head::USED, 0),
        (head::USED, 2 + 3),
        (head::NEIGHBOURS_HELD, 2),
        (head::NEIGHBOURS_HELD, 4),
        (head::ORIGINATORS_HELD, 1),
        (head::ORIGINATORS_HELD, 3),
        (one + interface::OWN, 1 << 32),
        (one + interface::OWN, 99),
        (one + interface::BROADCAST, 1 << 32),
        (one + interface::FIRST, 65536),
        (one + interface::SENT, 0),
        (one + interface::SENT, 2),
        (one + interface::LAST, 65536),
        (one + interface::LAST, 6),
        (other, 1),
        (row + neighbour::KEY, 1 << 34),
        (row + neighbour::KEY, 41),
        (row + neighbour::KEY, 44),
        (row + neighbour::NUMBER, 6 + 65536),
        (row + neighbour::NUMBER, 8),
        (unused, 1),
        (record + record::ORIGINATOR, 1),
        (record + record::ORIGINATOR, 200),
        (record + record::ORIGINATOR, 1 << 32),
        (record + record::CURRENT, 65536),
        (record + record::TIME, 1),
        (record + record::TTL, 256),
        (record + record::LINKS_HELD, 0),
        (record + record::LINKS_HELD, 1),
        (record + record::LINKS_HELD, 3),
        (record + record::LINKS_HELD, 9),
        (record + record::BEST, 48),
        (link + link::KEY, 44),
        (link + link::KEY, 41),
        (link + link::MARKS, 256),
        (next + link::MARKS, 0),
        (third, 1),
        (behind, 1),
        (cells.len() - 1, 1),
    ];
    for (index, value) in breaking {
        let mut broken = cells.clone();
        broken[index] = value;
        assert!(!cells::well_formed(&broken), "cell {index} set to {value}");
    }
    assert!(!cells::well_formed(&cells[..cells.len() - 1]));
    let longer = [cells.as_slice(), &[0]].concat();
    assert!(!cells::well_formed(&longer));
}

#[test]
fn cells_may_break_and_be_mended() {
    let mut lines = with_rows();
    feed(&mut lines, &[(A, 300)]);
    let asked = format!("best {FAR}");
    let (whole, broken) = ("best 0 10 0 1 8", "best 1 0 0 0 0");
    let needed = cells_needed(CAPACITY);
    let changes = [
        (format!("cells {}", needed - 1), broken),
        (format!("cells {needed}"), whole),
        (format!("poke {} 0", head::WINDOW), broken),
        (format!("cells {BUFFER_CELLS}"), broken),
        (format!("cells {needed}"), broken),
        (format!("poke {} 8", head::WINDOW), whole),
        (format!("poke {needed} 5"), whole),
    ];
    for (change, answer) in changes {
        lines.extend([change.clone(), asked.clone()]);
        assert_eq!(last(&lines), answer, "after {change}");
    }
    let spoilt = format!("poke {} 300", head::VERSION);
    lines.extend([spoilt, table(8, 32, 7)[1].clone()]);
    assert_eq!(last(&lines), "make 0");
    lines.push(asked);
    assert_eq!(last(&lines), "best 0 0 0 0 0");
}

#[test]
fn a_table_without_a_history_ends_the_play() {
    for (index, value) in [(head::TIME, 9), (head::TIE, NEWEST_WINS)] {
        let lines = with_rows();
        for line in ["best 1", "burst 0 0 0 - 0 0 0", "burst 0 0 0 - 1 0 0 0"] {
            let mut lines = lines.clone();
            lines.extend([format!("poke {index} {value}"), line.to_string()]);
            let (ending, _) = play_script(&lines);
            assert!(matches!(ending, Ending::Outside(8)));
        }
    }
}

#[test]
fn fresh_tables_are_well_formed_and_zeros_are_not() {
    let Line::Call(script::Call::Make { settings }) = script::read(table(8, 4, 0)[1].as_bytes())
    else {
        panic!("a make line");
    };
    let needed = cells_needed(CAPACITY);
    let book = Book::make(settings, needed).ok().unwrap();
    let mut fresh = vec![7; needed as usize];
    cells::encode(&book, &mut fresh);
    assert!(cells::well_formed(&fresh));
    assert!(!cells::well_formed(&vec![0; needed as usize]));
    assert!(!cells::well_formed(&[]));
}

#[test]
fn generated_scripts_play_to_their_end() {
    for seed in 1..=8 {
        let mut script = Vec::new();
        generate(seed, 20_000, &mut script).unwrap();
        let mut player = Player::new();
        let mut printed = Vec::new();
        for (place, line) in script.split(|octet| *octet == b'\n').enumerate() {
            printed.clear();
            play::play_line(&mut player, place as u64, line, &mut printed).unwrap();
            // What the book says is always a well-formed table.
            if place % 64 == 0 && player.state() == Lent::Book {
                assert!(cells::well_formed(player.cells()));
            }
        }
    }
}

/// The best link as each message settles it: its own link, or the one before stays.
fn best_step_by_step(list: &[Counted], window: u64, tie: u64) -> Option<Link> {
    let mut best = None;
    for place in 0..list.len() {
        let link = list[place].link;
        let words = words::words(&list[..=place], window, tie).unwrap();
        let own = words.count(link);
        let mut others = words.held.iter().filter(|(other, _)| *other != link);
        let becomes_best = match tie {
            NEWEST_WINS => others.all(|(_, count)| *count <= own),
            _ => others.all(|(_, count)| *count < own),
        };
        if becomes_best {
            best = Some(link);
        }
    }
    best
}

#[test]
fn best_by_the_list_is_best_step_by_step() {
    let mut script = Vec::new();
    generate(1, 20_000, &mut script).unwrap();
    let mut player = Player::new();
    for (place, line) in script.split(|octet| *octet == b'\n').enumerate() {
        play::play_line(&mut player, 0, line, &mut Vec::new()).unwrap();
        let Some(book) = player.book.as_ref().filter(|_| place % 64 == 0) else {
            continue;
        };
        let (window, tie) = (book.settings.window, book.settings.tie);
        for list in book.lists.values() {
            let best = words::words(list, window, tie).map(|words| words.best);
            assert_eq!(best, best_step_by_step(list, window, tie));
        }
    }
}

#[test]
fn generated_scripts_meet_what_is_counted() {
    let mut script = Vec::new();
    // As often as `tools/compare player` asks of five times the calls.
    generate(1, 60_000, &mut script).unwrap();
    let mut player = Player::new();
    let ending = play::play(&mut player, &mut script.as_slice(), &mut io::sink(), false);
    assert!(matches!(ending, Ok(Ending::Whole)));
    for word in every_word() {
        assert!(player.counts.of(word) >= 20, "{word}");
    }
}

#[test]
fn a_seed_gives_one_script() {
    let script = |seed| {
        let mut script = Vec::new();
        generate(seed, 2_000, &mut script).unwrap();
        script
    };
    assert_eq!(script(3), script(3));
    assert_ne!(script(3), script(4));
}
