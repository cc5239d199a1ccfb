//! Bursts: packets made as those of single calls, outputs that end among their copies, and
//! each way to be refused.

use super::Generator;
use crate::book::Receive;
use crate::burst::{written, Burst};
use crate::play;
use crate::script::{BURST_MEMBERS_MOST, BURST_OCTETS_MOST, BURST_ROWS_MOST, OUTPUT_MOST};
use crate::words::Link;

/// The packets made so far for a burst at one time.
pub struct Gathering {
    time: u64,
    packets: Vec<Gathered>,
}

/// A packet of a burst, and how many octets are written for it where there is room.
struct Gathered {
    arrival: Receive,
    written: u64,
}

impl Gathered {
    fn length(&self) -> u64 {
        self.arrival.packet.len() as u64
    }
}

/// What the packets of a burst are mainly about.
#[derive(Clone, Copy)]
enum Theme {
    /// Any packets.
    Mixed,
    /// Echoes, each with messages by its link behind it.
    Echoes,
    /// The same numbers by several links.
    Links,
}

impl Generator<'_> {
    /// A burst: of packets or of none, at times refused.
    pub(super) fn burst(&mut self) {
        let mut burst = match self.random.below(16) {
            0 => self.empty_burst(),
            _ => self.burst_of_packets(),
        };
        if self.random.chance(200) {
            self.refuse_burst(&mut burst);
        }
        self.write_burst(&burst);
        if self.random.chance(60) {
            self.dump();
        }
    }

    /// A burst of packets that is taken, but for more than 32 of them and odd lengths.
    fn burst_of_packets(&mut self) -> Burst {
        let now = self.now();
        let time = self.spoil_time(now);
        let many = self.packets_wanted();
        let packets = self.gathered(time, many);
        let mut burst = self.burst_of(time, &packets);
        if self.random.chance(10) {
            self.shift_lengths(&mut burst);
        }
        if self.random.chance(3) {
            fill_buffer(&mut burst);
        }
        burst
    }

    fn packets_wanted(&mut self) -> usize {
        let many = match self.random.below(1000) {
            0..120 => 1,
            120..520 => 2 + self.random.below(3),
            520..900 => 4 + self.random.below(5),
            900..930 => 9 + self.random.below(22),
            930..950 => 31,
            950..970 => 32,
            _ => 33 + self.random.below(8),
        };
        many as usize
    }

    /// A burst of no packets, mostly at another time than the table's.
    fn empty_burst(&mut self) -> Burst {
        let table = self.book().time;
        let later = table.saturating_add(1 + self.random.below(1000));
        let earlier = table.saturating_sub(1);
        let times = [table, earlier, earlier, 0, later, later, u64::MAX];
        Burst {
            time: self.random.pick(&times),
            output: self.random.pick(&[0, 12, OUTPUT_MOST]),
            rows: self.random.pick(&[0, 0, 1, BURST_ROWS_MOST]),
            octets: Vec::new(),
            lengths: Vec::new(),
            senders: Vec::new(),
            interfaces: Vec::new(),
        }
    }

    /// So many packets, each made on the book that those before it leave.
    fn gathered(&mut self, time: u64, many: usize) -> Vec<Gathered> {
        let book = self.player.book.clone();
        self.gathering = Some(Gathering {
            time,
            packets: Vec::new(),
        });
        let theme = self
            .random
            .pick(&[Theme::Mixed, Theme::Mixed, Theme::Echoes, Theme::Links]);
        for turn in 0..3 * many {
            if self.packets_gathered() >= many {
                break;
            }
            // A theme may add no packet; a message by any link always is one.
            if turn < 2 * many {
                self.packets_of(theme);
            } else {
                self.message_by_any();
            }
        }
        // The burst's line, once written, is what changes the book.
        self.player.book = book;
        let mut packets = self
            .gathering
            .take()
            .map_or_else(Vec::new, |all| all.packets);
        packets.truncate(many);
        packets
    }

    fn packets_gathered(&self) -> usize {
        self.gathering.as_ref().map_or(0, |all| all.packets.len())
    }

    /// Adds a packet to the burst and plays it, so that the next one finds what it leaves.
    pub(super) fn gather(&mut self, mut arrival: Receive) {
        let (Some(gathering), Some(book)) = (&mut self.gathering, &mut self.player.book) else {
            return;
        };
        let before: u64 = gathering.packets.iter().map(Gathered::length).sum();
        let length = arrival.packet.len() as u64;
        if before + length > BURST_OCTETS_MOST as u64 {
            return;
        }
        arrival.time = gathering.time;
        arrival.output = length;
        let written = written(&book.receive(&arrival));
        gathering.packets.push(Gathered { arrival, written });
    }

    fn packets_of(&mut self, theme: Theme) {
        match theme {
            Theme::Mixed => self.any_packet(),
            Theme::Echoes => self.echo_and_messages(),
            Theme::Links => self.message_by_all(),
        }
    }

    fn any_packet(&mut self) {
        match self.random.below(10) {
            0..3 => self.message_by_row(),
            3 => self.draw_level(),
            4..6 => self.any_echo(),
            6 => self.message_by_any(),
            7..9 => self.repeat(),
            _ => self.wild_receive(),
        }
    }

    /// An echo, then messages of one originator by its link, some of them twice or by another.
    fn echo_and_messages(&mut self) {
        let Some(link) = self.link_to_echo() else {
            return self.message_by_any();
        };
        self.echo(link.neighbour, u64::from(link.interface));
        let originator = self.originator();
        for _ in 0..1 + self.random.below(3) {
            self.message(link, originator);
            match (self.random.below(6), self.row()) {
                (0, Some(other)) => self.message(other, originator),
                (1, _) => self.repeat(),
                _ => {}
            }
        }
    }

    /// A link on an interface that has sent, mostly one without a row.
    fn link_to_echo(&mut self) -> Option<Link> {
        let book = self.book();
        let used = book.settings.used as usize;
        let mut links: Vec<Link> = Vec::new();
        for interface in (0..used).filter(|place| book.last[*place].is_some()) {
            links.extend(self.stage.neighbours.iter().map(|neighbour| Link {
                neighbour: *neighbour,
                interface: interface as u8,
            }));
        }
        let mut without = links.clone();
        without.retain(|link| !book.has_row(*link));
        let any = self.random.pick_any(&links);
        if self.random.chance(100) {
            return any;
        }
        self.random.pick_any(&without).or(any)
    }

    /// A burst of these packets, with rows for all.
    fn burst_of(&mut self, time: u64, packets: &[Gathered]) -> Burst {
        let many = packets.len() as u64;
        let arrivals = || packets.iter().map(|packet| &packet.arrival);
        Burst {
            time,
            output: self.burst_output(packets),
            rows: self
                .random
                .pick(&[many, many, many, many + 1, 32, 33, 40])
                .clamp(many, BURST_ROWS_MOST),
            octets: arrivals()
                .flat_map(|arrival| arrival.packet.clone())
                .collect(),
            lengths: packets.iter().map(Gathered::length).collect(),
            senders: arrivals().map(|arrival| arrival.sender).collect(),
            interfaces: arrivals().map(|arrival| arrival.interface).collect(),
        }
    }

    /// Mostly room for all; otherwise the output ends at or within some copy.
    fn burst_output(&mut self, packets: &[Gathered]) -> u64 {
        let enough = needed(packets).into_iter().max().unwrap_or(0);
        let more = enough + self.random.below(40);
        let output = match self.random.below(100) {
            0..40 => enough,
            40..65 => self.random.pick(&[enough + 1, more, OUTPUT_MOST]),
            65..92 => self.short_output(packets),
            92..95 => self.random.below(enough + 1),
            95 => 0,
            _ => enough.saturating_sub(1),
        };
        output.min(OUTPUT_MOST)
    }

    /// An output whose rest is too short for some packet, and has room for a later copy.
    fn short_output(&mut self, packets: &[Gathered]) -> u64 {
        let needed = needed(packets);
        let mut outputs = Vec::new();
        for (place, packet) in packets.iter().enumerate() {
            let length = packet.length();
            let before = needed[place] - length;
            for later in &packets[place + 1..] {
                if (1..length).contains(&later.written) {
                    let ends = [before + later.written, needed[place] - 1];
                    // The whole output is not too short for the packet.
                    outputs.extend(ends.into_iter().filter(|end| *end >= length));
                }
            }
        }
        match self.random.pick_any(&outputs) {
            Some(output) => output,
            None => self.random.pick_any(&needed).unwrap_or(0),
        }
    }

    /// Gives a burst one fault or two.
    fn refuse_burst(&mut self, burst: &mut Burst) {
        let faults = self.random.pick(&[1, 1, 1, 1, 1, 1, 2]);
        for _ in 0..faults {
            match self.random.below(4) {
                0 => self.unequal_lists(burst),
                1 => self.few_rows(burst),
                2 => self.wrong_sum(burst),
                _ => self.wrapping_sum(burst),
            }
        }
    }

    /// One list or two get another number of members; the lengths still add up.
    fn unequal_lists(&mut self, burst: &mut Burst) {
        let many = burst.lengths.len();
        let most = BURST_MEMBERS_MOST as usize;
        let (less, more) = (many.saturating_sub(1), (many + 1) % (most + 1));
        let mut counts = [many; 3];
        for _ in 0..self.random.pick(&[1, 1, 2]) {
            let any = self.random.below(BURST_MEMBERS_MOST + 1) as usize;
            let list = self.random.below(3) as usize;
            counts[list] = self.random.pick(&[less, less, more, more, 0, any]);
        }
        if counts == [many; 3] {
            counts[self.random.below(3) as usize] = more;
        }
        set_lengths(burst, counts[0]);
        let sender = self.random.pick(&self.stage.neighbours);
        burst.senders.resize(counts[1], sender);
        burst.interfaces.resize(counts[2], 0);
        let longest = counts.into_iter().max().unwrap_or(0) as u64;
        burst.rows = burst.rows.max(longest);
    }

    fn few_rows(&mut self, burst: &mut Burst) {
        let many = burst.lengths.len() as u64;
        let any = self.random.below(many.max(1));
        let less = many.saturating_sub(1);
        burst.rows = self.random.pick(&[less, less, any, 0]);
    }

    /// Lengths and buffer that do not fit each other.
    fn wrong_sum(&mut self, burst: &mut Burst) {
        let shorter = self.random.below(burst.octets.len() as u64 + 1) as usize;
        let length = match burst.lengths.len() as u64 {
            0 => return burst.octets.push(4),
            many => &mut burst.lengths[self.random.below(many) as usize],
        };
        match self.random.below(9) {
            0 => drop(burst.octets.pop()),
            1 if burst.octets.len() < BURST_OCTETS_MOST => burst.octets.push(4),
            2 | 3 => *length = length.wrapping_add(1),
            4 | 5 => *length = length.wrapping_sub(1),
            // A sum of 32 bits would fit.
            6 => *length = length.wrapping_add(1 << 32),
            7 => *length = self.random.pick(&[0, 1 << 32, 1 << 63, u64::MAX]),
            _ => burst.octets.truncate(shorter),
        }
    }

    /// Lengths that add up to the buffer in 64 bits and to more in truth.
    fn wrapping_sum(&mut self, burst: &mut Burst) {
        // One length alone cannot wrap.
        while burst.lengths.len() < 2 {
            burst.lengths.push(0);
            burst.senders.push(1);
            burst.interfaces.push(0);
            burst.rows = burst.rows.max(burst.lengths.len() as u64);
        }
        let many = burst.lengths.len() as u64;
        let last = self.random.below(many) as usize;
        let huge = (last + 1 + self.random.below(many - 1) as usize) % many as usize;
        let all = self.random.chance(300);
        for place in 0..burst.lengths.len() {
            if place == huge || all {
                burst.lengths[place] = self.huge_length();
            }
        }
        burst.lengths[last] = 0;
        let add = |sum: u64, length: &u64| sum.wrapping_add(*length);
        let others = burst.lengths.iter().fold(0, add);
        burst.lengths[last] = (burst.octets.len() as u64).wrapping_sub(others);
    }

    /// A length above that of any buffer.
    fn huge_length(&mut self) -> u64 {
        let any = (1 << 20) + self.random.next() / 2;
        let near = u64::MAX - self.random.below(2000);
        self.random
            .pick(&[1 << 63, u64::MAX, u64::MAX - 11, near, near, any])
    }

    /// One packet ends some octets earlier or later, and the next one begins there.
    fn shift_lengths(&mut self, burst: &mut Burst) {
        let many = burst.lengths.len() as u64;
        if many < 2 {
            return;
        }
        let place = self.random.below(many - 1) as usize;
        let shift = self.random.pick(&[1, u64::MAX, 12, 5]);
        burst.lengths[place] = burst.lengths[place].wrapping_add(shift);
        burst.lengths[place + 1] = burst.lengths[place + 1].wrapping_sub(shift);
    }

    fn write_burst(&mut self, burst: &Burst) {
        let mut line =
            format!("burst {} {} {} ", burst.time, burst.output, burst.rows).into_bytes();
        play::say_hex(&mut line, &burst.octets);
        play::say_list(&mut line, &burst.lengths);
        let senders: Vec<u64> = burst.senders.iter().copied().map(u64::from).collect();
        play::say_list(&mut line, &senders);
        play::say_list(&mut line, &burst.interfaces);
        self.emit(&line);
    }
}

/// The output that each packet needs where each before it is written that can be.
fn needed(packets: &[Gathered]) -> Vec<u64> {
    let mut before = 0;
    let mut needed = Vec::new();
    for packet in packets {
        needed.push(before + packet.length());
        before += packet.written;
    }
    needed
}

/// So many lengths with the same sum: the last one takes up those that go.
fn set_lengths(burst: &mut Burst, many: usize) {
    let gone: u64 = burst
        .lengths
        .iter()
        .skip(many)
        .fold(0, |sum, length| sum.wrapping_add(*length));
    burst.lengths.resize(many, 0);
    match burst.lengths.last_mut() {
        Some(last) => *last = last.wrapping_add(gone),
        None => burst.octets.clear(),
    }
}

/// Lengthens the last packet until the buffer is as long as it may be.
fn fill_buffer(burst: &mut Burst) {
    let more = BURST_OCTETS_MOST - burst.octets.len();
    burst.octets.resize(BURST_OCTETS_MOST, 0);
    if let Some(last) = burst.lengths.last_mut() {
        *last = last.wrapping_add(more as u64);
    }
}
