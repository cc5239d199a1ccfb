//! New numbers and stale ones, and verdict 27: a test for each sentence.

use super::entries::{
    after, arrival, by_far, eight_links, holds, message, number_after, originators, too_many,
    Announced, FARTHER, HALL, YARD,
};
use super::*;
use crate::counts::{
    NEW_FARTHEST, STALE_24, STALE_DIRECT, STALE_FIRST, STALE_HALF, STALE_MANY, STALE_NINTH,
    STALE_NO_ROW, STALE_OPPOSITE, TAKEN_UP,
};
use crate::words::age;

const WINDOWS: [u64; 5] = [1, 2, 8, 63, 64];
const CURRENTS: [u16; 6] = [0, 1, 10, 32767, 32768, 65535];

/// With current number 300 and W = 8: the farthest new number, half way, as far below as the
/// farthest new one is above, and the first below the window.
const FARTHEST: u16 = 33067;
const HALF: u16 = 33068;
const OPPOSITE: u16 = 33069;
const FIRST: u16 = 292;
const STALE: [u16; 5] = [HALF, OPPOSITE, 65535, 0, FIRST];

/// What a stale message of FAR is answered while A is best with one mark.
const ANSWER: &str = "receive 27 0 0 10 0 1 8 -";

/// A table on which FAR has the current number 300, by A.
fn with_300() -> Vec<String> {
    vec![by_far(300, &[HALL])]
}

/// A message of FAR that comes from this sender.
fn from(sender: u32, number: u16, entries: &[Announced]) -> String {
    message(by(sender), FAR, number, entries)
}

/// The last line that these print, after rows for A, B and C.
fn answer(lines: &[String], line: String) -> String {
    last(&[after(lines), vec![line]].concat())
}

#[test]
fn one_to_32767_above_is_new_and_half_way_is_stale() {
    for (window, current) in pairs() {
        let above = |distance| age(current, current.wrapping_add(distance), window);
        assert_eq!([1, 2, 64, 32766, 32767].map(above), [Age::New; 5]);
        assert_eq!([32768, 32769].map(above), [Age::Stale; 2]);
    }
}

#[test]
fn the_window_ends_w_below_the_current_number() {
    for (window, current) in pairs() {
        let below = |distance| age(current, current.wrapping_sub(distance), window);
        let width = window as u16;
        assert_eq!([0, width - 1].map(below), [Age::Inside; 2]);
        assert_eq!([width, width + 1, 32767, 32768].map(below), [Age::Stale; 4]);
    }
}

fn pairs() -> impl Iterator<Item = (u64, u16)> {
    WINDOWS
        .into_iter()
        .flat_map(|window| CURRENTS.map(|current| (window, current)))
}

#[test]
fn each_number_has_one_age() {
    for (window, current) in pairs() {
        let mut many = [0; 3];
        for number in 0..=u16::MAX {
            many[age(current, number, window) as usize] += 1;
        }
        assert_eq!(many, [32767, window, 65536 - 32767 - window]);
    }
}

#[test]
fn ages_over_the_wrap() {
    assert_eq!(ages(65535, [0, 32766]), [Age::New; 2]);
    assert_eq!(ages(65535, [32767, 32768]), [Age::Stale; 2]);
    assert_eq!(ages(0, [65535, 65529]), [Age::Inside; 2]);
    assert_eq!(ages(0, [65528, 32768]), [Age::Stale; 2]);
    let lines = [by_far(65535, &[])];
    assert!(answer(&lines, by_far(0, &[])).starts_with("receive 26 0 0 10 0 2 "));
    let lines = [by_far(0, &[])];
    assert!(answer(&lines, by_far(65529, &[])).starts_with("receive 26 0 0 10 0 2 "));
    assert_eq!(answer(&lines, by_far(65528, &[])), ANSWER);
}

#[test]
fn only_a_new_number_moves_the_window() {
    let cases = [
        (301, "receive 26 0 0 10 0 2 8 "),
        (308, "receive 26 0 0 10 0 1 8 "),
        (FARTHEST, "receive 26 0 0 10 0 1 8 "),
        (293, "receive 26 0 0 10 0 2 8 "),
    ];
    for (number, start) in cases {
        let answer = answer(&with_300(), by_far(number, &[]));
        assert!(answer.starts_with(start), "{number}: {answer}");
    }
    for number in STALE {
        assert_eq!(answer(&with_300(), by_far(number, &[])), ANSWER, "{number}");
    }
}

#[test]
fn with_a_window_of_one_the_number_before_is_stale() {
    let mut lines = with_rows();
    lines[1] = table(1, 32, 7).remove(1);
    lines.extend([by_far(300, &[]), by_far(299, &[])]);
    assert_eq!(last(&lines), "receive 27 0 0 10 0 1 1 -");
}

/// Messages with stale numbers and much else that may not matter: by the best link and another
/// one with a row, without a row, and from the originator itself, without a row and with one.
fn stale_messages(time: u64) -> Vec<Vec<String>> {
    let mut all = Vec::new();
    for number in STALE {
        for sender in [A.neighbour, B.neighbour, 13, FAR] {
            for ttl in [0, 1, 40, 50] {
                let line = arrival(sender, time, octets(0, ttl, number, FAR), &[YARD]);
                all.push(vec![line.clone()]);
                all.push(vec![echo(sender, 7), line]);
            }
        }
    }
    all
}

#[test]
fn a_stale_message_is_27_by_whatever_link_and_is_not_passed_on() {
    for lines in stale_messages(0) {
        let answer = last(&after(&[with_300(), lines.clone()].concat()));
        assert_eq!(answer, ANSWER, "{lines:?}");
    }
}

#[test]
fn a_stale_message_sets_the_time_and_changes_nothing_else() {
    for mut lines in stale_messages(5) {
        let stale = lines.pop().expect("a message");
        let before = after(&[with_300(), lines].concat());
        let ended = |line: &str| cells_after(&[before.as_slice(), &[line.to_string()]].concat());
        // A sweep that removes nothing sets the time, too.
        assert_eq!(ended(&stale), ended("sweep 5"), "{stale}");
        assert_ne!(ended(&stale), cells_after(&before), "{stale}");
    }
}

#[test]
fn time_goes_on_from_a_stale_message() {
    let lines = [with_300(), vec![at(9, FIRST)]].concat();
    assert_eq!(answer(&lines, "sweep 8".to_string()), "sweep 3 0");
    assert_eq!(answer(&lines, "sweep 9".to_string()), "sweep 0 0");
}

/// A message of FAR by A at this time.
fn at(time: u64, number: u16) -> String {
    arrival(A.neighbour, time, octets(0, 50, number, FAR), &[])
}

#[test]
fn the_last_ttl_stays() {
    let stale = arrival(A.neighbour, 0, octets(0, 40, FIRST, FAR), &[]);
    let lines = [with_300(), vec![stale]].concat();
    for (ttl, verdict) in [(50, 26), (40, 25)] {
        let again = arrival(A.neighbour, 0, octets(0, ttl, 300, FAR), &[]);
        assert_eq!(number_after(&lines, again), verdict, "{ttl}");
    }
}

#[test]
fn the_records_time_stays() {
    let lines = [with_300(), vec![at(500, FIRST)]].concat();
    assert_eq!(answer(&lines, "sweep 1000".to_string()), "sweep 0 0");
    assert_eq!(answer(&lines, "sweep 1001".to_string()), "sweep 0 1");
    // Not so where it is counted.
    let lines = [with_300(), vec![at(500, 293)]].concat();
    assert_eq!(answer(&lines, "sweep 1001".to_string()), "sweep 0 0");
}

#[test]
fn the_entries_stay() {
    for number in STALE {
        let lines = [with_300(), vec![by_far(number, &[YARD])]].concat();
        assert!(holds(&lines, &[HALL]), "{number}");
    }
}

#[test]
fn verdicts_20_to_24_come_before_27() {
    let far = |flags| octets(flags, 50, FIRST, FAR);
    let cases = [
        (arrival(1, 0, far(0), &[]), 20),
        (arrival(255, 0, far(0), &[]), 21),
        (echo(A.neighbour, 7), 22),
        (echo(A.neighbour, 6), 23),
        (arrival(A.neighbour, 0, far(128), &[]), 24),
        (arrival(FAR, 0, far(192), &[]), 24),
        (arrival(A.neighbour, 0, far(64), &[]), 27),
    ];
    for (line, verdict) in cases {
        assert_eq!(number_after(&with_300(), line.clone()), verdict, "{line}");
    }
}

#[test]
fn without_a_record_no_number_is_stale() {
    for number in STALE {
        for (sender, verdict) in [(A.neighbour, 26), (13, 25), (FAR, 26)] {
            // Another originator's record doesn't matter.
            for before in [vec![], vec![message(A, FARTHER, 300, &[])]] {
                let line = from(sender, number, &[]);
                assert_eq!(number_after(&before, line.clone()), verdict, "{line}");
            }
        }
    }
}

#[test]
fn a_restarted_node_is_taken_up_again_after_a_sweep() {
    let lines = [with_300(), vec!["sweep 1000".to_string()]].concat();
    assert_eq!(answer(&lines, at(1000, 5)), ANSWER);
    let swept = [lines, vec!["sweep 1001".to_string()]].concat();
    let taken = answer(&swept, at(1001, 5));
    assert!(taken.starts_with("receive 26 0 0 10 0 1 8 "), "{taken}");
    // From there its numbers go on.
    let lines = [swept, vec![at(1001, 5)]].concat();
    assert_eq!(number_after(&lines, at(1001, 6)), 26);
    assert_eq!(number_after(&lines, at(1001, 65533)), 27);
}

#[test]
fn a_stale_message_never_meets_10_11_or_15() {
    let many = too_many();
    // FARTHER is held where the capacity is reached.
    let held = |number| message(A, FARTHER, number, &many);
    let ninth = |number, entries: &[Announced]| from(28, number, entries);
    let cases = [
        (originators(), held(301), held(FIRST), 15),
        (with_300(), by_far(301, &many), by_far(FIRST, &many), 15),
        (eight_links(), ninth(301, &[]), ninth(FIRST, &[]), 11),
        (eight_links(), ninth(301, &many), ninth(HALF, &many), 11),
    ];
    for (lines, new, stale, refusal) in cases {
        assert_eq!(number_after(&lines, new), refusal);
        assert_eq!(number_after(&lines, stale), 27);
    }
}

#[test]
fn refusals_of_the_call_and_of_the_packet_come_before_27() {
    let line = by_far(FIRST, &[HALL]);
    let number = |line: String| number_after(&with_300(), line);
    assert_eq!(number(line.clone()), 27);
    assert_eq!(number(line.replacen(" 0 ", " 1 ", 1)), 2);
    // An output as long as the packet is asked for although nothing is written.
    assert_eq!(number(line.replace(" 2000 ", " 17 ")), 27);
    assert_eq!(number(line.replace(" 2000 ", " 16 ")), 4);
    assert_eq!(number(line.replace(" 04", " 05")), 6);
    assert_eq!(number(line.clone() + "00"), 7);
    assert_eq!(number(line.clone() + "0000000021"), 8);
    let later = [with_300(), vec!["sweep 1".to_string()]].concat();
    assert_eq!(number_after(&later, line), 3);
}

#[test]
fn a_stale_packet_of_a_burst_leaves_the_rest_of_the_output() {
    let direct = (FAR, octets(0, 50, FIRST, FAR));
    let line = burst(0, 24, &[by_a(300), by_a(FIRST), direct, by_a(301)]);
    let lines = [
        "burst 0 4 24 04003100012c00000000006304003100012d000000000063",
        "packet 26 0 0 10 0 1 8",
        "packet 27 0 0 10 0 1 8",
        "packet 27 0 0 10 0 1 8",
        "packet 26 0 0 10 0 2 8",
    ];
    assert_eq!(printed(line), lines);
}

/// The words that a message meets after these lines and that they alone do not.
fn words_met(lines: &[String], line: &str) -> Vec<&'static str> {
    let mut player = Player::new();
    follow(&mut player, &after(lines));
    let before = met(&player);
    follow(&mut player, &[line.to_string()]);
    let mut words = met(&player);
    words.retain(|word| !before.contains(word));
    words
}

#[test]
fn what_ages_met_is_counted() {
    let u_set = |number| arrival(A.neighbour, 0, octets(128, 50, number, FAR), &[]);
    let cases: [(&[&str], String); 13] = [
        (&[], by_far(301, &[])),
        (&[NEW_FARTHEST], by_far(FARTHEST, &[])),
        // It is new, and not counted.
        (&[], from(13, FARTHEST, &[])),
        (&[STALE_FIRST], by_far(FIRST, &[])),
        (&[STALE_OPPOSITE], by_far(OPPOSITE, &[])),
        (&[STALE_HALF], by_far(HALF, &[])),
        (&[], by_far(0, &[])),
        (&[STALE_NO_ROW], from(13, 0, &[])),
        (&[STALE_DIRECT, STALE_NO_ROW], from(FAR, 0, &[])),
        (&[STALE_MANY], by_far(0, &too_many())),
        (&[STALE_NO_ROW], from(13, 0, &too_many())),
        (&[STALE_24], u_set(FIRST)),
        (&[], u_set(301)),
    ];
    for (words, line) in cases {
        // With HALL, the lowest bit of a network is met before.
        assert_eq!(words_met(&with_300(), &line), words, "{line}");
    }
    let links: [(&[&str], u32); 3] = [
        (&[STALE_NINTH], 28),
        (&[], 27),
        // It has no row, so it would not be counted.
        (&[STALE_NO_ROW], 29),
    ];
    for (words, sender) in links {
        let line = from(sender, 0, &[]);
        assert_eq!(words_met(&eight_links(), &line), words, "{line}");
    }
}

#[test]
fn what_is_taken_up_again_is_counted() {
    let swept = [with_300(), vec!["sweep 1001".to_string()]].concat();
    for (number, words) in [(5, vec![TAKEN_UP]), (300, vec![]), (301, vec![])] {
        assert_eq!(words_met(&swept, &at(1001, number)), words, "{number}");
    }
    // Where no record was removed, or the message is not counted, none is taken up.
    let other = message(A, FARTHER, 300, &[HALL]);
    assert_eq!(words_met(&[other], &at(1001, 5)), [] as [&str; 0]);
    let by_13 = arrival(13, 1001, octets(0, 50, 5, FAR), &[]);
    assert_eq!(words_met(&swept, &by_13), [] as [&str; 0]);
    // A make begins anew.
    let made = [swept, vec![table(8, 32, 7).remove(1), own(), echo(10, 7)]].concat();
    assert_eq!(words_met(&made, &at(1001, 5)), [] as [&str; 0]);
}
