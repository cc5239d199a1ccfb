//! Lines for the generator that can't be read, and some that look odd and can.

use super::random::Random;
use crate::play;
use crate::script::{BURST_MEMBERS_MOST, BURST_OCTETS_MOST, LINE_MOST, OCTETS_MOST};

const LINES: [&str; 98] = [
    "receive",
    "receive 0 1 2 12",
    "receive 0 1 2 12 040032000001000000000009 0",
    "receive 0 1 2 12 04003200000100000000000",
    "receive 0 1 2 12 04003200000100000000000A",
    "receive 0 1 2 12 0x0032000001000000000009",
    "receive 0 1 2 16385 040032000001000000000009",
    "receive 0 4294967296 2 12 040032000001000000000009",
    "receive 0 1 18446744073709551616 12 040032000001000000000009",
    "receive 18446744073709551616 1 2 12 040032000001000000000009",
    "receive 0 -1 2 12 040032000001000000000009",
    "receive 0 1 2 12 --",
    "burst",
    "burst 0 12 1",
    "burst 0 12 1 -",
    "burst 0 12 1 - 0",
    "burst 0 12 1 - 0 0",
    "burst 0 12 1 - 0 0 0 0",
    "burst 0 12 1 - 0 0 0 # no comment",
    "burst 0 12 1 040032000001000000000009",
    "burst 0 12 1 040032000001000000000009 1",
    "burst 0 12 1 040032000001000000000009 1 12",
    "burst 0 12 1 040032000001000000000009 1 12 1 1 1",
    "burst 0 12 1 040032000001000000000009 1 12 1 1 1 0 0",
    "burst 0 12 1 040032000001000000000009 1 12 1 1 1 0",
    "burst 0 12 1 04003200000100000000000 1 12 1 1 1 0",
    "burst 0 12 1 04003200000100000000000A 1 12 1 1 1 0",
    "burst 0 12 1 040032000001000000000009 1 x 1 1 1 0",
    "burst 0 12 1 040032000001000000000009 1 -12 1 1 1 0",
    "burst 0 12 1 040032000001000000000009 1 12 1 4294967296 1 0",
    "burst 0 12 1 040032000001000000000009 1 12 1 1 1 18446744073709551616",
    "burst 0 12 1 040032000001000000000009 1 18446744073709551616 1 1 1 0",
    "burst 0 12 1 040032000001000000000009 1 18446744073709551615 1 1 1 0",
    "burst 18446744073709551616 12 1 - 0 0 0",
    "burst 0 16384 40 - 0 0 0",
    "burst 0 16385 40 - 0 0 0",
    "burst 0 12 41 - 0 0 0",
    "burst 0 12 40 - 41 0 0",
    "burst 0 12 40 - 0 41 0",
    "burst 0 12 40 - 0 0 41",
    "burst 0 12 40 - 0 0 18446744073709551616",
    "burst 0 12 40 - 0 x 0",
    "  burst 0  0 0  - 00  000 0 ",
    "own 0 1 256 0 0 12 -",
    "own 0 1 50 256 0 12 -",
    "own 0 1 50 0 65536 12 -",
    "own 0 1 50 0 0 16385 -",
    "own 0 1 50 0 0 12",
    "own 0 1 50 0 0 12 - -",
    "sweep",
    "sweep x",
    "sweep +1",
    "sweep 0 0",
    "sweep 99999999999999999999",
    "sweep 18446744073709551616",
    "best",
    "best 4294967296",
    "best 10.1.0.7",
    "best 1 # no comment",
    "list 1",
    "list 1 17",
    "list 1 8 8",
    "lookup",
    "lookup -",
    "lookup x",
    "lookup 1 1",
    "lookup 4294967295",
    "lookup 4294967296",
    "lookup 1 # no comment",
    "  lookup  000 ",
    "check 4",
    "check 4 0",
    "check -1 00",
    "check 18446744073709551616 00",
    "check 4 - ",
    "  check   4   -",
    "size",
    "size 1 1",
    "size 0000000000000000000000000000064",
    " size 007 ",
    "cells 66561",
    "cells",
    "cells -",
    "poke 66560 1",
    "poke 0",
    "poke 0 18446744073709551616",
    "dump 1",
    "Best 1",
    "swep 1",
    "make 4 64 32 640000 64 1 1 2 3",
    "make 4 64 32 640000 64 1 1 2 65536 0 0 0 0 0 0 0 0 0",
    "make 4 64 32 640000 64 1 1 2 3 0 0 0 0 0 0 0 0",
    "make 4 64 32 640000 64 1 1 2 3 0 0 0 0 0 0 0 0 0 0 0",
    "make 4 64 32 640000 64 1 1 2 3 0 0 0 0 0 0 0 0 0 1 x",
    "make 4 64 32 640000 64 1 1 2 3 0 0 0 0 0 0 0 0 0 x",
    "make 4 64 32 640000 64 1 1 2 3 0 0 0 0 0 0 0 0 0 -",
    "make 4 64 32 640000 64 1 1 2 3 0 0 0 0 0 0 0 0 0 -1",
    "make 4 64 32 640000 64 1 1 2 3 0 0 0 0 0 0 0 0 0 18446744073709551616",
];

/// One such line, without its newline.
pub fn line(random: &mut Random) -> Vec<u8> {
    match random.below(90) {
        0 => Vec::new(),
        1 => b"   ".to_vec(),
        2 => b"# best 1".to_vec(),
        3 => b"   # indented".to_vec(),
        4 => b"\tbest 1".to_vec(),
        5 => b"best\t1".to_vec(),
        6 => b"best 1\r".to_vec(),
        7 => b"best \xff".to_vec(),
        8..10 => long_line(random),
        10..12 => long_packet(random),
        12..14 => long_buffer(random),
        14..16 => long_lists(random),
        _ => random.pick(&LINES).as_bytes().to_vec(),
    }
}

/// A line just within and just beyond what may be given.
fn long_line(random: &mut Random) -> Vec<u8> {
    let mut line = random
        .pick(&["# ", "best 1", "best", "check 4 -"])
        .as_bytes()
        .to_vec();
    let last = random.pick(b" 1");
    let length = random.pick(&[LINE_MOST, LINE_MOST + 1]);
    line.resize(length - 1, b' ');
    line.push(last);
    line
}

/// A packet to check, likewise.
fn long_packet(random: &mut Random) -> Vec<u8> {
    octets("check 4", random.pick(&[OCTETS_MOST, OCTETS_MOST + 1]))
}

/// The buffer of a burst, likewise.
fn long_buffer(random: &mut Random) -> Vec<u8> {
    let many = random.pick(&[BURST_OCTETS_MOST, BURST_OCTETS_MOST + 1]);
    let mut line = octets("burst 0 16384 40", many);
    line.extend_from_slice(format!(" 1 {many} 1 1 1 0").as_bytes());
    line
}

/// A call and so many octets, each 0.
fn octets(call: &str, many: usize) -> Vec<u8> {
    format!("{call} {}", "00".repeat(many)).into_bytes()
}

/// The lists of a burst, likewise: those of packets without octets.
fn long_lists(random: &mut Random) -> Vec<u8> {
    let most = BURST_MEMBERS_MOST as usize;
    let mut line = b"burst 0 0 40 -".to_vec();
    for _ in 0..3 {
        let many = random.pick(&[most, most, most + 1]);
        play::say_list(&mut line, &vec![0; many]);
    }
    line
}
