//! HNA entries of few networks that lie in each other, faults among them, and lookups at the
//! networks' edges.

use super::stage::Kind;
use super::Generator;
use crate::book::ENTRIES_MOST;
use crate::packet::{
    highest_host_bit, host_bits, lowest_network_bit, Entry, HEADER_OCTETS, HNA_OCTETS, MASK_MOST,
};

/// Addresses whose networks are announced, by masks of several lengths.
const POINTS: [u32; 8] = [
    0x0a01_0203,
    0x0a01_0202,
    0x0a01_02fe,
    0x0a01_ff00,
    0x0aff_0000,
    0xc0a8_0901,
    0,
    u32::MAX,
];

/// The most entries that a packet has room for.
const PACKET_ENTRIES: u64 = 292;

impl Generator<'_> {
    /// HNA octets without a fault in them.
    pub(super) fn hna(&mut self) -> Vec<u8> {
        let many = self.entries_wanted();
        self.hna_of(many)
    }

    /// The same, of so many entries.
    pub(super) fn hna_of(&mut self, many: u64) -> Vec<u8> {
        let mut entries: Vec<Entry> = Vec::new();
        for _ in 0..many {
            let before = self.random.pick_any(&entries);
            entries.push(self.entry(before));
        }
        entries.iter().flat_map(Entry::octets).collect()
    }

    /// How many entries a packet has: often about as many as a record keeps.
    fn entries_wanted(&mut self) -> u64 {
        let most = ENTRIES_MOST as u64;
        let none = match self.stage.kind {
            Kind::Entries => 150,
            // In a burst more lengths differ: where one copy has no room, a later one may.
            _ if self.gathering.is_some() => 450,
            _ => 550,
        };
        match self.random.below(1000) {
            roll if roll < none => 0,
            ..840 => self.random.pick(&[1, 1, 2, 2, 3]),
            840..880 => 4 + self.random.below(12),
            880..930 => self.random.pick(&[most - 1, most, most]),
            930..994 => self.random.pick(&[most + 1, most + 1, most + 2, most + 4]),
            994..997 => PACKET_ENTRIES,
            _ => PACKET_ENTRIES - self.random.below(7),
        }
    }

    /// An entry; at times an earlier one of its packet again.
    fn entry(&mut self, before: Option<Entry>) -> Entry {
        match before {
            Some(entry) if self.random.chance(120) => entry,
            _ => {
                let mask = self.mask();
                self.announced(mask)
            }
        }
    }

    /// Mask 0 is rare: where it is held, an entry covers every address.
    fn mask(&mut self) -> u8 {
        match self.random.below(100) {
            0..2 => 0,
            2..8 => self.random.below(33) as u8,
            8..16 => 8,
            16..32 => 16,
            32..60 => 24,
            60..78 => 31,
            _ => 32,
        }
    }

    /// A network with this mask, at times with its lowest bit set.
    fn announced(&mut self, mask: u8) -> Entry {
        let point = self.random.pick(&POINTS);
        let mut network = point & !host_bits(mask);
        if self.random.chance(120) {
            network |= lowest_network_bit(mask);
        }
        Entry { network, mask }
    }

    /// At times breaks HNA octets: one or two entries with host bits, one or two masks above 32,
    /// or ragged.
    pub(super) fn spoil_hna(&mut self, hna: &mut Vec<u8>) {
        let masks = self.random.chance(14);
        let bits = self.random.chance(if masks { 500 } else { 25 });
        if masks && bits {
            // Room for both, so that either may stand first.
            hna.extend(self.hna_of(2));
        }
        if bits {
            self.set_host_bits(hna);
        }
        if masks {
            for _ in 0..1 + self.random.below(2) {
                let mask = self.random.pick(&[33, 33, 64, 128, 255]);
                self.some_entry(hna)[HNA_OCTETS - 1] = mask;
            }
        }
        if self.random.chance(14) {
            let more = 1 + self.random.below(4);
            hna.extend((0..more).map(|_| 255));
        }
    }

    /// Gives host bits to one entry of HNA octets or to two.
    pub(super) fn set_host_bits(&mut self, hna: &mut Vec<u8>) {
        for _ in 0..self.random.pick(&[1, 1, 2]) {
            let octets = self.with_host_bits().octets();
            self.some_entry(hna).copy_from_slice(&octets);
        }
    }

    /// The same in a packet.
    pub(super) fn set_host_bits_in(&mut self, packet: &mut Vec<u8>) {
        let mut hna = packet.split_off(HEADER_OCTETS);
        self.set_host_bits(&mut hna);
        packet.extend(hna);
    }

    /// The octets of the first entry, the last or any; where there is none, one is made.
    fn some_entry<'a>(&mut self, hna: &'a mut Vec<u8>) -> &'a mut [u8] {
        if hna.len() < HNA_OCTETS {
            hna.extend(self.hna_of(1));
        }
        let last = (hna.len() / HNA_OCTETS) as u64 - 1;
        let any = self.random.below(last + 1);
        let place = self.random.pick(&[0, any, last]) as usize;
        &mut hna[place * HNA_OCTETS..][..HNA_OCTETS]
    }

    /// An entry with the lowest host bit, the highest, any or all, of any mask that has some.
    fn with_host_bits(&mut self) -> Entry {
        let any_mask = self.random.below(u64::from(MASK_MOST)) as u8;
        let mask = self
            .random
            .pick(&[0, any_mask, any_mask, any_mask, any_mask]);
        let mut entry = self.announced(mask);
        let any = self.random.next() as u32;
        let bits = self
            .random
            .pick(&[1, highest_host_bit(mask), any, u32::MAX]);
        entry.network |= bits & host_bits(mask);
        entry
    }

    pub(super) fn lookup(&mut self) {
        let address = self.address_looked_up();
        self.say(format!("lookup {address}"));
    }

    fn address_looked_up(&mut self) -> u32 {
        let held = self.held_entries();
        match (self.random.below(20), self.random.pick_any(&held)) {
            (0..13, Some(entry)) => self.edge(entry),
            (13..15, _) => self.random.pick(&[0, 1, 0x7fff_ffff, 1 << 31, u32::MAX]),
            (15..17, _) => self.random.next() as u32,
            _ => {
                let point = self.random.pick(&POINTS);
                point.wrapping_add(self.random.pick(&[0, 0, 1, u32::MAX]))
            }
        }
    }

    fn held_entries(&self) -> Vec<Entry> {
        let book = self.book();
        let of = |originator: &u32| book.entries_of(*originator).to_vec();
        book.lists.keys().flat_map(of).collect()
    }

    /// An address at an edge of an entry's network, inside or one beyond.
    fn edge(&mut self, entry: Entry) -> u32 {
        let below = host_bits(entry.mask);
        let (first, last) = (entry.network, entry.network | below);
        let inside = first | self.random.next() as u32 & below;
        self.random.pick(&[
            first,
            last,
            inside,
            inside,
            first.wrapping_sub(1),
            last.wrapping_add(1),
        ])
    }
}
