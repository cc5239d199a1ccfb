//! The octets on the air: reading, writing and checking a packet, by the layout of RULES 3.

use crate::book::{refusal, Refusal};

pub const HEADER_OCTETS: usize = 12;
pub const PACKET_MOST: usize = 1472;
pub const HNA_OCTETS: usize = 5;
pub const MASK_MOST: u8 = 32;
pub const UNIDIRECTIONAL: u8 = 128;
pub const DIRECT: u8 = 64;

/// The 12 octets of an originator message.
#[derive(Clone, Copy, Debug, PartialEq)]
pub struct Header {
    pub version: u8,
    pub flags: u8,
    pub ttl: u8,
    pub gateway_flags: u8,
    pub number: u16,
    pub gateway_port: u16,
    pub originator: u32,
}

/// An HNA entry: a network as it was announced.
#[derive(Clone, Copy, Debug, PartialEq)]
pub struct Entry {
    pub network: u32,
    pub mask: u8,
}

impl Entry {
    /// Whether the network and an address agree in as many leading bits as the mask says.
    pub fn covers(&self, address: u32) -> bool {
        (self.network ^ address) & !host_bits(self.mask) == 0
    }

    /// The host bits that are set.
    pub fn host_bits(&self) -> u32 {
        self.network & host_bits(self.mask)
    }

    /// The five octets on the air.
    pub fn octets(&self) -> [u8; HNA_OCTETS] {
        let [a, b, c, d] = self.network.to_be_bytes();
        [a, b, c, d, self.mask]
    }
}

/// The host bits of a mask: all address bits below it, none where it is 32 or more.
pub fn host_bits(mask: u8) -> u32 {
    // In 64 bits there is one above all 32, which mask 0 needs.
    ((1_u64 << MASK_MOST.saturating_sub(mask)) - 1) as u32
}

/// The highest of them, 0 where there are none.
pub fn highest_host_bit(mask: u8) -> u32 {
    host_bits(mask) ^ host_bits(mask) >> 1
}

/// The bit above them, 0 where mask 0 leaves none.
pub fn lowest_network_bit(mask: u8) -> u32 {
    host_bits(mask).wrapping_add(1)
}

/// The HNA octets of a packet; none where it is shorter than a header.
pub fn hna(packet: &[u8]) -> &[u8] {
    packet.get(HEADER_OCTETS..).unwrap_or_default()
}

/// Reads HNA octets that are a multiple of 5: each entry, in packet order.
pub fn entries(hna: &[u8]) -> Vec<Entry> {
    hna.chunks(HNA_OCTETS)
        .map(|octets| Entry {
            network: u32::from_be_bytes([octets[0], octets[1], octets[2], octets[3]]),
            mask: octets[4],
        })
        .collect()
}

/// How many HNA entries a packet without a fault has.
pub fn entries_in(packet: &[u8]) -> usize {
    (packet.len() - HEADER_OCTETS) / HNA_OCTETS
}

/// Reads the header of a packet that has at least 12 octets.
pub fn read(packet: &[u8]) -> Header {
    Header {
        version: packet[0],
        flags: packet[1],
        ttl: packet[2],
        gateway_flags: packet[3],
        number: u16::from_be_bytes([packet[4], packet[5]]),
        gateway_port: u16::from_be_bytes([packet[6], packet[7]]),
        originator: u32::from_be_bytes([packet[8], packet[9], packet[10], packet[11]]),
    }
}

/// Writes a header and HNA octets, the high octet of each number first.
pub fn write(header: &Header, hna: &[u8]) -> Vec<u8> {
    let mut octets = Vec::with_capacity(HEADER_OCTETS + hna.len());
    octets.extend_from_slice(&[
        header.version,
        header.flags,
        header.ttl,
        header.gateway_flags,
    ]);
    octets.extend_from_slice(&header.number.to_be_bytes());
    octets.extend_from_slice(&header.gateway_port.to_be_bytes());
    octets.extend_from_slice(&header.originator.to_be_bytes());
    octets.extend_from_slice(hna);
    octets
}

/// Refusals 5 to 8 and 16 of a packet. A version above 255 equals that of no packet.
pub fn fault(version: u64, packet: &[u8]) -> Result<(), Refusal> {
    length_fault(packet.len())?;
    if u64::from(packet[0]) != version {
        return Err(refusal(6));
    }
    hna_fault(hna(packet))
}

/// Refusal 5, by the packet's length.
pub fn length_fault(length: usize) -> Result<(), Refusal> {
    if !(HEADER_OCTETS..=PACKET_MOST).contains(&length) {
        return Err(refusal(5));
    }
    Ok(())
}

/// Refusals 7, 8 and 16, of the HNA octets.
pub fn hna_fault(hna: &[u8]) -> Result<(), Refusal> {
    if hna.len() % HNA_OCTETS != 0 {
        return Err(refusal(7));
    }
    let entries = entries(hna);
    // The wrong copy "hostbits" asks entry by entry: host bits hide a mask above 32 behind them.
    if cfg!(wrong = "hostbits") {
        (1..=entries.len()).try_for_each(|end| entries_fault(&entries[..end]))?;
    }
    entries_fault(&entries)
}

/// Refusals 8 and 16: whatever the places, 16 is asked only where all masks are allowed.
fn entries_fault(entries: &[Entry]) -> Result<(), Refusal> {
    refuse_first(8, entries, |entry| entry.mask > MASK_MOST)?;
    refuse_first(16, entries, |entry| entry.host_bits() != 0)
}

/// A refusal that carries the place of the first entry that breaks a rule.
fn refuse_first(number: u64, entries: &[Entry], breaks: fn(&Entry) -> bool) -> Result<(), Refusal> {
    match entries.iter().position(breaks) {
        Some(place) => Err(Refusal {
            place: place as u64,
            ..refusal(number)
        }),
        None => Ok(()),
    }
}
