//! Refusal 16: an entry with host bits, the address bits below its mask.

use super::*;
use crate::counts::{BITS_EARLIER, BITS_HIGHEST, BITS_MASK_0, CLEAN_MASK_0};

/// 10.1.0.7 with mask 16.
const BITS: Announced = (0x0a01_0007, 16);
const WRONG_MASK: Announced = (0, 33);

/// The lines by which entries come, alone and in a burst, are sent and are checked.
fn lines_with(entries: &[Announced]) -> [String; 4] {
    let packet = octets(0, 50, 301, FAR) + &hna(entries);
    [
        format!("receive 0 {} 9 2000 {packet}", A.neighbour),
        burst(9, 2000, &[(A.neighbour, packet.clone())]),
        format!("own 0 9 50 0 0 2000 {}", hna(entries)),
        format!("check 4 {packet}"),
    ]
}

/// The last line that each of these prints.
fn answers(entries: &[Announced]) -> [String; 4] {
    lines_with(entries).map(|line| last(&after(&[line])))
}

fn assert_refused_by(number: u64, place: u64, entries: &[Announced]) {
    let refused = [
        format!("receive {number} {place} 0 0 0 0 0 -"),
        format!("packet {number} {place} 0 0 0 0 0"),
        format!("own {number} {place} 0 0 -"),
        format!("check {}", number + 256 * place),
    ];
    assert_eq!(answers(entries), refused, "{entries:?}");
}

fn assert_accepted(entries: &[Announced]) {
    let accepted = ["receive 26 ", "packet 26 ", "own 0 ", "check 0"];
    for (answer, start) in answers(entries).iter().zip(accepted) {
        assert!(answer.starts_with(start), "{entries:?}: {answer}");
    }
}

#[test]
fn the_lowest_and_the_highest_host_bit_of_every_mask_are_refused() {
    for mask in 0..32 {
        for bits in [1, 1 << (31 - mask), u32::MAX >> mask, u32::MAX] {
            assert_refused_by(16, 0, &[(bits, mask)]);
        }
    }
}

#[test]
fn the_lowest_network_bit_of_every_mask_is_accepted() {
    for mask in 1..=32 {
        for network in [0, 1 << (32 - mask), u32::MAX << (32 - mask)] {
            assert_accepted(&[(network, mask)]);
        }
    }
}

#[test]
fn each_bit_of_an_address_is_a_host_bit_below_the_mask_alone() {
    for mask in 0..=32 {
        for bit in 0..32 {
            let network = 1 << bit;
            let fault = packet::hna_fault(&Entry { network, mask }.octets());
            let number = fault.map_or_else(|refusal| refusal.number, |()| 0);
            let expected = if bit + mask < 32 { 16 } else { 0 };
            assert_eq!(number, expected, "mask {mask}, bit {bit}");
        }
    }
}

#[test]
fn mask_0_is_clean_with_address_0_alone() {
    assert_accepted(&[(0, 0)]);
    for address in [1, 1 << 31, PRINTER, u32::MAX] {
        assert_refused_by(16, 0, &[(address, 0)]);
    }
}

#[test]
fn mask_32_is_always_clean() {
    for address in [0, 1, PRINTER, u32::MAX] {
        assert_accepted(&[(address, 32)]);
    }
}

#[test]
fn the_first_entry_with_host_bits_is_named() {
    assert_refused_by(16, 0, &[BITS, ROOM]);
    assert_refused_by(16, 1, &[ROOM, BITS, BITS]);
    assert_refused_by(16, 2, &[ROOM, HALL, BITS]);
    for many in [16, 17, 291] {
        let entries = [networks(many), vec![BITS]].concat();
        assert_refused_by(16, many as u64, &entries);
    }
}

#[test]
fn a_mask_above_32_comes_first_wherever_it_stands() {
    assert_refused_by(8, 1, &[BITS, WRONG_MASK]);
    assert_refused_by(8, 0, &[WRONG_MASK, BITS]);
    assert_refused_by(8, 2, &[BITS, BITS, (u32::MAX, 255), WRONG_MASK]);
    assert_refused_by(8, 0, &[(u32::MAX, 33)]);
}

#[test]
fn refusals_2_to_7_come_before_16() {
    let [receive, _, own, check] = lines_with(&[BITS]);
    let number = |line: String| number_after(&[], line);
    for line in [&receive, &own, &check] {
        assert_eq!(number(line.clone()) % 256, 16);
        assert_eq!(number(line.clone() + "00"), 7);
    }
    for line in [&receive, &check] {
        assert_eq!(number(line.replace(" 04", " 05")), 6);
    }
    for line in [&receive, &own] {
        assert_eq!(number(line.replace(" 2000 ", " 17 ")), 16);
        assert_eq!(number(line.replace(" 2000 ", " 16 ")), 4);
        assert_eq!(number_after(&["sweep 10".to_string()], line.clone()), 3);
        assert_eq!(number(line.replacen(" 0 ", " 1 ", 1)), 2);
    }
}

#[test]
fn whatever_else_a_packet_gets_host_bits_are_16() {
    // With A, B and C these are 32 rows.
    let rows: Vec<String> = (20..49).map(|sender| echo(sender, 7)).collect();
    let far = || octets(0, 50, 301, FAR);
    let none = || Vec::new();
    let cases = [
        (rows, 60, octets(64, 49, 7, 1), none(), 9),
        (originators(), 10, far(), none(), 10),
        (originators(), 10, far(), too_many(), 10),
        (eight_links(), 28, far(), none(), 11),
        (eight_links(), 28, far(), too_many(), 11),
        (vec![], 10, far(), too_many(), 15),
        (vec![], 1, far(), none(), 20),
        (vec![], 255, far(), none(), 21),
        (vec![], 13, octets(64, 49, 7, 1), none(), 22),
        (vec![], 13, octets(64, 49, 6, 1), none(), 23),
        (vec![], 10, octets(128, 50, 301, FAR), none(), 24),
        (vec![], 13, far(), none(), 25),
        (vec![], 10, far(), none(), 26),
        (eight_links(), 28, octets(0, 50, 292, FAR), too_many(), 27),
    ];
    for (lines, sender, header, mut entries, number) in cases {
        let clean = arrival(sender, 0, header.clone(), &entries);
        assert_eq!(number_after(&lines, clean), number);
        entries.push(BITS);
        let refused = arrival(sender, 0, header, &entries);
        assert_eq!(number_after(&lines, refused.clone()), 16, "{number}");
        // Of what it hides, refusals alone are counted.
        let mut player = Player::new();
        follow(&mut player, &[after(&lines), vec![refused]].concat());
        let mut words = met(&player);
        words.retain(|word| word.starts_with("16-"));
        let hidden: Vec<String> = (number < 20)
            .then(|| format!("16-{number}"))
            .into_iter()
            .collect();
        assert_eq!(words, hidden);
    }
}

#[test]
fn host_bits_of_an_own_packet_come_before_its_ttl() {
    let own = |ttl: u8, entry: Announced| format!("own 0 0 {ttl} 0 0 17 {}", hna(&[entry]));
    for ttl in [0, 1] {
        assert_eq!(number_after(&[], own(ttl, ROOM)), 13);
        assert_eq!(number_after(&[], own(ttl, BITS)), 16);
        assert_eq!(number_after(&[], own(ttl, WRONG_MASK)), 8);
    }
    for (ttl, words) in [(1, vec!["16-13"]), (2, vec![])] {
        let mut player = Player::new();
        follow(&mut player, &after(&[own(ttl, BITS)]));
        assert_eq!(met(&player), words);
    }
}

#[test]
fn refusal_16_changes_nothing() {
    for line in lines_with(&[ROOM, BITS]) {
        assert!(changes_nothing(line.clone()), "{line}");
    }
    // Without host bits all but the check change the table.
    for line in &lines_with(&[ROOM, HALL])[..3] {
        assert!(!changes_nothing(line.clone()), "{line}");
    }
    // The number is still new, and the list is still there.
    let lines = [by_far(300, &[HALL]), by_far(301, &[ROOM, BITS])];
    assert_eq!(looked_up(&lines, PRINTER), found(FAR, HALL));
    let lines = [lines.as_slice(), &[by_far(301, &[ROOM])]].concat();
    assert!(holds(&lines, &[ROOM]));
}

#[test]
fn held_entries_may_have_host_bits() {
    let book = book_holding(&[BITS]);
    let mut cells = vec![0; cells_needed(CAPACITY) as usize];
    cells::encode(&book, &mut cells);
    assert!(cells::well_formed(&cells));
    for address in [0x0a01_0000, PRINTER, 0x0a01_ffff] {
        assert_eq!(located_in(&book, address), Some(BITS));
    }
    for address in [0x0a00_ffff, 0x0a02_0000, 0x8a01_0007] {
        assert_eq!(located_in(&book, address), None);
    }
}

#[test]
fn what_entries_met_is_counted() {
    let cases: [(&[&str], &[Announced]); 10] = [
        (&[], &[YARD, ROOM]),
        (&[CLEAN_LOWEST], &[ROOM, HALL]),
        (&[CLEAN_MASK_0], &[(0, 0)]),
        (&[], &[HALL, (0, 0), BITS]),
        (&[BITS_HIGHEST], &[(0x0a01_8000, 16)]),
        (&[], &[(0x0a01_8001, 16)]),
        (&[BITS_MASK_0], &[(1, 0)]),
        (&[BITS_HIGHEST, BITS_MASK_0], &[(1 << 31, 0)]),
        (&[BITS_EARLIER], &[BITS, WRONG_MASK]),
        (&[], &[WRONG_MASK, BITS]),
    ];
    for (words, entries) in cases {
        for line in lines_with(entries) {
            let mut player = Player::new();
            follow(&mut player, &after(&[line.clone()]));
            assert_eq!(met(&player), words, "{line}");
        }
    }
}

#[test]
fn generated_packets_play_at_the_edge_of_every_mask() {
    let mut script = Vec::new();
    generate(3, 20_000, &mut script).unwrap();
    let (mut refused, mut lowest) = ([0; 33], [0; 33]);
    for line in script.split(|octet| *octet == b'\n') {
        let Line::Call(script::Call::Receive(arrival)) = script::read(line) else {
            continue;
        };
        let hna = packet::hna(&arrival.packet);
        match packet::hna_fault(hna) {
            Ok(()) => {
                for entry in packet::entries(hna) {
                    let bit = packet::lowest_network_bit(entry.mask);
                    lowest[usize::from(entry.mask)] += u32::from(entry.network & bit != 0);
                }
            }
            Err(refusal) if refusal.number == 16 => {
                let entry = packet::entries(hna)[refusal.place as usize];
                refused[usize::from(entry.mask)] += 1;
            }
            Err(_) => {}
        }
    }
    assert!(refused[..32].iter().all(|times| *times > 0), "{refused:?}");
    assert!(lowest[1..].iter().all(|times| *times > 0), "{lowest:?}");
}
