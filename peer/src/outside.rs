//! Turns captured packets (lines `sender hex`) into a script.

use crate::cells::cells_needed;
use crate::packet::{entries, fault, hna};
use crate::script::{self, OCTETS_MOST};
use std::io::{self, Write};

const CAPACITY: u64 = 64;

/// Writes a script that gives each packet to a table of the packets' version and to one of
/// version 4, after an echo by each sender so that messages can be counted, and looks up the
/// networks that it announces.
pub fn outside(text: &str, output: &mut dyn Write) -> io::Result<()> {
    let packets: Vec<(u32, &str)> = text.lines().filter_map(packet).collect();
    let Some(version) = packets.first().and_then(|(_, hex)| version(hex)) else {
        return Ok(());
    };
    let mut senders: Vec<u32> = packets.iter().map(|(sender, _)| *sender).collect();
    senders.sort_unstable();
    senders.dedup();
    for version in [version, 4] {
        writeln!(output, "cells {}", cells_needed(CAPACITY))?;
        let rows = "167837696 167903231 7 0 0 0 0 0 0 0 0 0";
        writeln!(output, "make {version} 64 32 640000 {CAPACITY} 1 {rows}")?;
        writeln!(output, "own 0 1 50 0 0 12 -")?;
        for sender in &senders {
            let echo = format!("{version:02x}40310000070000{:08x}", 167_837_696);
            writeln!(output, "receive 0 {sender} 1 12 {echo}")?;
        }
        for (place, (sender, hex)) in packets.iter().enumerate() {
            writeln!(output, "check {version} {hex}")?;
            writeln!(output, "receive 0 {sender} {} 2000 {hex}", place + 2)?;
            for network in networks(version, hex) {
                writeln!(output, "lookup {network}")?;
            }
        }
        writeln!(output, "sweep {}", packets.len() + 2)?;
        writeln!(output, "dump")?;
    }
    Ok(())
}

fn packet(line: &str) -> Option<(u32, &str)> {
    let (sender, hex) = line.split_once(' ')?;
    let address: std::net::Ipv4Addr = sender.parse().ok()?;
    Some((u32::from(address), hex.trim()))
}

fn version(hex: &str) -> Option<u8> {
    u8::from_str_radix(hex.get(..2)?, 16).ok()
}

/// The networks that a packet announces; none where it has a fault.
fn networks(version: u8, hex: &str) -> Vec<u32> {
    let octets = script::hex(hex.as_bytes(), OCTETS_MOST).unwrap_or_default();
    if fault(u64::from(version), &octets).is_err() {
        return Vec::new();
    }
    let announced = entries(hna(&octets));
    announced.iter().map(|entry| entry.network).collect()
}
