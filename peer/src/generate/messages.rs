//! Own packets, echoes of them and messages of other nodes, at the edges of the rules.

use super::stage::Kind;
use super::Generator;
use crate::book::{Receive, ENTRIES_MOST, INTERFACES_MOST, LINKS_MOST};
use crate::packet::{self, Header, DIRECT, HEADER_OCTETS, PACKET_MOST, UNIDIRECTIONAL};
use crate::play;
use crate::script::OUTPUT_MOST;
use crate::words::{self, Link, NEW_MOST};

impl Generator<'_> {
    /// A time that is not before the table's, mostly close.
    pub(super) fn now(&mut self) -> u64 {
        let time = match &self.player.book {
            Some(book) if book.time != 0 => book.time,
            _ => self.stage.start,
        };
        let step = match self.random.below(20) {
            0..12 => 0,
            12..18 => self.random.below(4),
            18 => self.random.below(60),
            _ => self.random.below(self.settings().purge / 8 + 2),
        };
        time.saturating_add(step)
    }

    /// The links with a row.
    fn rows(&self) -> Vec<Link> {
        self.book().rows().map(|(link, _)| link).collect()
    }

    pub(super) fn row(&mut self) -> Option<Link> {
        let rows = self.rows();
        self.random.pick_any(&rows)
    }

    /// A link with a row; in a stretch of runs mostly the one before.
    fn row_of_run(&mut self) -> Option<Link> {
        if self.stage.kind == Kind::Runs && self.random.chance(self.stage.stay) {
            if let Some(link) = self.stage.run.filter(|link| self.book().has_row(*link)) {
                return Some(link);
            }
        }
        self.stage.run = self.row();
        self.stage.run
    }

    fn neighbour(&mut self) -> u32 {
        self.random.pick(&self.stage.neighbours)
    }

    pub(super) fn originator(&mut self) -> u32 {
        let held: Vec<u32> = self.book().lists.keys().copied().collect();
        let known = match self.stage.kind {
            Kind::Full => 200,
            Kind::Links => 850,
            Kind::Runs | Kind::Ties => 970,
            _ => 600,
        };
        if !held.is_empty() && self.random.chance(known) {
            return self.random.pick(&held);
        }
        self.random.pick(&self.stage.originators)
    }

    /// A sequence number at an edge of the originator's window.
    fn number(&mut self, originator: u32) -> u16 {
        let Some(current) = self.book().current_of(originator) else {
            return self.first_number(originator);
        };
        let window = self.settings().window;
        let width = window as u16;
        let within = self.random.below(window) as u16;
        if self.stage.kind == Kind::Links && self.random.chance(400) {
            // Many links are marked only where the window stays.
            return current.wrapping_sub(self.random.pick(&[0, 0, within]));
        }
        if self.stage.kind == Kind::Ties && self.random.chance(900) {
            return current.wrapping_add(1);
        }
        if self.stage.kind == Kind::Runs && self.random.chance(950) {
            return match self.random.below(200) {
                0..130 => current.wrapping_add(1),
                130..185 => current.wrapping_sub(within),
                _ if width > 8 && self.random.chance(900) => current,
                _ => current.wrapping_add(width - width / 4),
            };
        }
        match self.random.below(100) {
            0..30 => current.wrapping_add(1),
            30..44 => current,
            44..65 => current.wrapping_sub(within),
            65..70 => current.wrapping_add(2),
            70..76 => current.wrapping_sub(width - 1),
            76..84 => self.stale_number(current),
            84..88 => current.wrapping_add(width - 1),
            88..91 => current.wrapping_add(width),
            91..93 => current.wrapping_add(width + 1),
            93..95 => current.wrapping_add(NEW_MOST),
            95 => self.random.next() as u16,
            96 => self.random.pick(&[0, u16::MAX]),
            _ => current.wrapping_sub(1),
        }
    }

    /// A number that is stale, mostly at one end of those that are.
    fn stale_number(&mut self, current: u16) -> u16 {
        let first = self.settings().window as u16;
        let half = NEW_MOST + 1;
        let any = first + self.random.below(u64::from(half - first) + 1) as u16;
        let below = self
            .random
            .pick(&[first, first, first + 1, any, NEW_MOST, half, half]);
        current.wrapping_sub(below)
    }

    /// A number for an originator without a record: often one that is stale to the record that it
    /// had before, as those of a restarted node are.
    fn first_number(&mut self, originator: u32) -> u16 {
        let removed = self.book().removed.get(&originator).copied();
        let any = self.random.next() as u16;
        match removed.filter(|_| self.random.chance(500)) {
            Some(current) => self.stale_number(current),
            None => self.random.pick(&[0, 1, 65_535, 65_534, any]),
        }
    }

    fn ttl(&mut self, originator: u32) -> u8 {
        let last = self
            .book()
            .list_of(originator)
            .last()
            .map_or(50, |message| message.ttl);
        let near = last.wrapping_add(1);
        self.random
            .pick(&[0, 1, 2, 3, 50, 50, 255, last, last, last, near])
    }

    fn flags(&mut self) -> u8 {
        let unnamed = self.random.next() as u8 & !(UNIDIRECTIONAL | DIRECT);
        match self.random.below(20) {
            0..9 => 0,
            9..12 => unnamed,
            12..15 => DIRECT,
            15..18 => DIRECT | unnamed,
            18 => UNIDIRECTIONAL | self.random.pick(&[0, DIRECT, unnamed]),
            _ => self.random.next() as u8 & !UNIDIRECTIONAL,
        }
    }

    pub(super) fn packet(&mut self, flags: u8, ttl: u8, number: u16, originator: u32) -> Vec<u8> {
        let mut hna = self.hna();
        self.spoil_hna(&mut hna);
        self.packet_with(&hna, flags, ttl, number, originator)
    }

    fn packet_with(
        &mut self,
        hna: &[u8],
        flags: u8,
        ttl: u8,
        number: u16,
        originator: u32,
    ) -> Vec<u8> {
        let header = Header {
            version: self.settings().version as u8,
            flags,
            ttl,
            gateway_flags: self.random.next() as u8,
            number,
            gateway_port: self.random.next() as u16,
            originator,
        };
        packet::write(&header, hna)
    }

    fn output(&mut self, length: usize) -> u64 {
        let length = length as u64;
        match self.random.below(200) {
            0..120 => length,
            120..197 => {
                let more = length + self.random.below(4);
                self.random
                    .pick(&[length + 1, 1472.max(length), OUTPUT_MOST, more])
            }
            197 => 0,
            _ => length.saturating_sub(1),
        }
    }

    /// An interface number that is mostly left as it is.
    fn spoil_interface(&mut self, interface: u64) -> u64 {
        if !self.random.chance(14) {
            return interface;
        }
        let used = self.settings().used;
        self.random.pick(&[
            used,
            used,
            used + 1,
            4,
            5,
            256 + interface,
            (1 << 32) + interface,
            u64::MAX,
        ])
    }

    pub(super) fn spoil_time(&mut self, time: u64) -> u64 {
        let table = self.player.book.as_ref().map_or(0, |book| book.time);
        if table == 0 || !self.random.chance(14) {
            return time;
        }
        self.random.pick(&[table - 1, table - 1, table / 2, 0])
    }

    pub(super) fn spoil_packet(&mut self, packet: &mut Vec<u8>) {
        if self.random.chance(14) {
            packet[0] = packet[0].wrapping_add(self.random.pick(&[1, 255, 128]));
        }
        if self.random.chance(12) {
            let short = self.random.below(HEADER_OCTETS as u64) as usize;
            let any = self.random.below(2001) as usize;
            let length = match self.random.below(100) {
                0..80 => self.random.pick(&[0, 1, 11, short]),
                _ => self
                    .random
                    .pick(&[PACKET_MOST + 1, PACKET_MOST + 5, 2000, any]),
            };
            let filler = self.random.next() as u8;
            packet.resize(length, filler);
        }
    }

    /// Writes a receive line, or gathers the packet where a burst is being made; each fault
    /// comes in at times, so that two meet now and then.
    fn receive(&mut self, mut arrival: Receive) {
        self.spoil_packet(&mut arrival.packet);
        arrival.interface = self.spoil_interface(arrival.interface);
        if self.gathering.is_some() {
            return self.gather(arrival);
        }
        arrival.time = self.spoil_time(arrival.time);
        let mut line = format!(
            "receive {} {} {} {} ",
            arrival.interface, arrival.sender, arrival.time, arrival.output
        )
        .into_bytes();
        play::say_hex(&mut line, &arrival.packet);
        self.emit(&line);
    }

    fn receive_packet(&mut self, link: Link, packet: Vec<u8>) {
        let mut arrival = Receive {
            interface: u64::from(link.interface),
            sender: link.neighbour,
            time: self.now(),
            output: packet.len() as u64,
            packet,
        };
        if self.random.chance(200) && self.lacks_room(&arrival) {
            self.set_host_bits_in(&mut arrival.packet);
        }
        arrival.output = self.output(arrival.packet.len());
        self.receive(arrival);
    }

    /// Whether a packet has no fault and is refused for lack of room, which 16 comes before.
    fn lacks_room(&self, arrival: &Receive) -> bool {
        let judged = self.book().clone().receive(arrival);
        judged.is_err_and(|refusal| [9, 10, 11, 15].contains(&refusal.number))
    }

    pub(super) fn own_on(&mut self, interface: u64) {
        // A burst has received packets alone.
        if self.gathering.is_some() {
            return;
        }
        let mut hna = self.hna();
        self.spoil_hna(&mut hna);
        let ttl = match self.random.below(40) {
            0 => 0,
            1..3 => 1,
            3..9 => 2,
            9..13 => 255,
            _ => 50,
        };
        // 16 comes before 13.
        if ttl < 2 && self.random.chance(350) {
            self.set_host_bits(&mut hna);
        }
        if self.random.chance(5) {
            let length = self.random.pick(&[1461, 1465, 1466, 2000]);
            hna.resize(length, 0);
        }
        let output = self.output(HEADER_OCTETS + hna.len());
        let interface = self.spoil_interface(interface);
        let now = self.now();
        let time = self.spoil_time(now);
        let (flags, port) = (self.random.next() as u8, self.random.next() as u16);
        let mut line =
            format!("own {interface} {time} {ttl} {flags} {port} {output} ").into_bytes();
        play::say_hex(&mut line, &hna);
        self.emit(&line);
    }

    /// An own message that comes back as it should.
    pub(super) fn echo(&mut self, neighbour: u32, interface: u64) {
        if self.player.book.is_none() {
            return;
        }
        let Some(number) = self.book().last[interface as usize] else {
            return self.own_on(interface);
        };
        let own = self.settings().rows[interface as usize].own;
        let flags = DIRECT | self.random.pick(&[0, 0, UNIDIRECTIONAL, 5]);
        let ttl = self.random.pick(&[0, 1, 49, 49]);
        let packet = self.packet(flags, ttl, number, own);
        let link = Link {
            neighbour,
            interface: interface as u8,
        };
        self.receive_packet(link, packet);
    }

    /// An echo, at times with one thing wrong.
    pub(super) fn any_echo(&mut self) {
        let neighbour = self.neighbour();
        let used = self.settings().used;
        let interface = self.random.below(used);
        if self.random.chance(800) {
            return self.echo(neighbour, interface);
        }
        let book = self.book();
        let first = book.settings.rows[interface as usize].first;
        let last = book.last[interface as usize].unwrap_or(first.wrapping_sub(1));
        let other = self.random.below(used) as usize;
        let own = self.settings().rows[other].own;
        let number = self.random.pick(&[
            last,
            last,
            last.wrapping_add(1),
            last.wrapping_sub(1),
            0,
            first,
        ]);
        let flags = self.random.pick(&[DIRECT, DIRECT, 0, UNIDIRECTIONAL, 63]);
        let packet = self.packet(flags, 49, number, own);
        let link = Link {
            neighbour,
            interface: interface as u8,
        };
        self.receive_packet(link, packet);
    }

    pub(super) fn message(&mut self, link: Link, originator: u32) {
        let number = self.number(originator);
        self.numbered_message(link, originator, number);
    }

    fn numbered_message(&mut self, link: Link, originator: u32, number: u16) {
        let ttl = self.ttl(originator);
        let flags = self.flags();
        let packet = self.packet(flags, ttl, number, originator);
        self.receive_packet(link, packet);
    }

    /// A message of another node through a link that has a neighbour row.
    pub(super) fn message_by_row(&mut self) {
        let Some(link) = self.row_of_run() else {
            return self.any_echo();
        };
        let direct = self.stage.kind != Kind::Runs && self.random.chance(120);
        let originator = if direct {
            link.neighbour
        } else {
            self.originator()
        };
        self.message(link, originator);
    }

    /// A number that moves the window just past the best link's marks, by another link, so
    /// that best may stay with count 0.
    pub(super) fn leave_best_behind(&mut self) {
        let originator = self.originator();
        let window = self.settings().window;
        let best = self.book().words_of(originator).map(|words| words.best);
        let Some((best, current)) = best.zip(self.book().current_of(originator)) else {
            return self.message_by_row();
        };
        let marks = words::marks(self.book().list_of(originator), window);
        let behind = marks
            .iter()
            .filter(|(link, _)| *link == best)
            .map(|(_, number)| current.wrapping_sub(*number))
            .min()
            .unwrap_or(0);
        let mut others = self.rows();
        others.retain(|link| *link != best);
        let Some(link) = self.random.pick_any(&others) else {
            return self.message_by_row();
        };
        let number = current.wrapping_sub(behind).wrapping_add(window as u16);
        let ttl = self.ttl(originator);
        let packet = self.packet(0, ttl, number, originator);
        self.receive_packet(link, packet);
    }

    /// A number by a ninth link, with more entries than a record keeps: where it is new and the
    /// eight links keep a mark, both are too many; where it is stale, neither matters.
    pub(super) fn one_link_more(&mut self) {
        let held: Vec<u32> = self.book().lists.keys().copied().collect();
        let ninths: Vec<(u32, Link)> = held
            .into_iter()
            .flat_map(|originator| self.ninth_links(originator))
            .collect();
        let Some((originator, link)) = self.random.pick_any(&ninths) else {
            return self.message_by_row();
        };
        let current = self.book().current_of(originator).unwrap_or(0);
        let number = match self.random.below(4) {
            0 => self.stale_number(current),
            _ => current.wrapping_add(1),
        };
        let hna = self.hna_of(ENTRIES_MOST as u64 + 1);
        let packet = self.packet_with(&hna, 0, 50, number, originator);
        self.receive_packet(link, packet);
    }

    /// The links with a row that an originator's record, which has eight, does not hold.
    fn ninth_links(&self, originator: u32) -> Vec<(u32, Link)> {
        let held = match self.book().words_of(originator) {
            Some(words) if words.held.len() == LINKS_MOST => words.held,
            _ => return Vec::new(),
        };
        let is_held = |link: &Link| held.iter().any(|(other, _)| other == link);
        let mut others = self.rows();
        others.retain(|link| !is_held(link));
        others.into_iter().map(|link| (originator, link)).collect()
    }

    /// A message by every link with a row, in no order; here and there one misses it.
    pub(super) fn message_by_all(&mut self) {
        let originator = self.originator();
        let number = self.number(originator);
        let mut left = self.rows();
        while !left.is_empty() {
            let link = self.random.take(&mut left);
            if self.random.chance(800) {
                self.numbered_message(link, originator, number);
            }
        }
    }

    /// A number inside the window by a link that it lifts to the highest other link's count,
    /// or to one above it.
    pub(super) fn draw_level(&mut self) {
        let originator = self.originator();
        match self.near_level(originator) {
            Some((link, number)) => self.numbered_message(link, originator, number),
            None => self.message_by_row(),
        }
    }

    /// A link with a row that is level with the highest other link or one below, and a number
    /// inside the window that is not marked on it.
    fn near_level(&mut self, originator: u32) -> Option<(Link, u16)> {
        let words = self.book().words_of(originator)?;
        let mut near = self.rows();
        near.retain(|link| {
            let (count, other) = (words.count(*link), words.highest_other(*link));
            count == other || count + 1 == other
        });
        let link = self.random.pick_any(&near)?;
        let number = self.unmarked(originator, link)?;
        Some((link, number))
    }

    /// A number inside the originator's window that is not marked on a link.
    fn unmarked(&mut self, originator: u32, link: Link) -> Option<u16> {
        let window = self.settings().window;
        let current = self.book().current_of(originator)?;
        let marks = words::marks(self.book().list_of(originator), window);
        let numbers: Vec<u16> = (0..window as u16)
            .map(|below| current.wrapping_sub(below))
            .filter(|number| !marks.contains(&(link, *number)))
            .collect();
        self.random.pick_any(&numbers)
    }

    /// A message through any link, direct or not.
    pub(super) fn message_by_any(&mut self) {
        let originator = self.originator();
        let direct = self.random.chance(400);
        let link = Link {
            neighbour: if direct { originator } else { self.neighbour() },
            interface: self.random.below(self.settings().used) as u8,
        };
        self.message(link, originator);
    }

    /// A counted message once more, with the same TTL or another, mostly by the same link.
    pub(super) fn repeat(&mut self) {
        let held: Vec<u32> = self.book().lists.keys().copied().collect();
        if held.is_empty() {
            return self.message_by_row();
        }
        let originator = self.random.pick(&held);
        let back = self.random.below(6) as usize;
        let list = self.book().list_of(originator);
        let message = list[list.len() - 1 - back.min(list.len() - 1)].clone();
        let ttl = if self.random.chance(400) {
            self.ttl(originator)
        } else {
            self.last_ttl(originator)
        };
        let link = match (self.random.chance(300), self.row()) {
            (true, Some(other)) => other,
            _ => message.link,
        };
        let flags = self.flags();
        let packet = self.packet(flags, ttl, message.number, originator);
        self.receive_packet(link, packet);
    }

    fn last_ttl(&self, originator: u32) -> u8 {
        self.book()
            .list_of(originator)
            .last()
            .map_or(2, |message| message.ttl)
    }

    /// Senders and originators that are own or broadcast addresses, or any.
    pub(super) fn wild_receive(&mut self) {
        let settings = self.settings();
        let place = self.random.below(INTERFACES_MOST as u64) as usize;
        let row = settings.rows[place];
        let any = self.address();
        let neighbour = self.neighbour();
        let sender = self.random.pick(&[
            row.own,
            row.own,
            row.broadcast,
            row.broadcast,
            any,
            neighbour,
        ]);
        let held = self.originator();
        let originator = self
            .random
            .pick(&[row.own, row.broadcast, any, held, sender]);
        let link = Link {
            neighbour: sender,
            interface: self.random.below(settings.used) as u8,
        };
        self.message(link, originator);
    }
}
