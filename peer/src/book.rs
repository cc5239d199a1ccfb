//! The plain book: what RULES 9, "The book", keeps and how it answers.
//! No marks are kept anywhere: every word (current, duplicate, count, best, held links) is
//! computed from the lists of counted originator messages by `words.rs`.

use crate::cells::cells_needed;
use crate::packet::{self, Entry, Header, DIRECT, HEADER_OCTETS, UNIDIRECTIONAL};
use crate::stale::Stale;
use crate::words::{self, Counted, Link, Words};
use std::collections::BTreeMap;

pub const INTERFACES_MOST: usize = 4;
pub const NEIGHBOURS_MOST: usize = 32;
pub const LINKS_MOST: usize = 8;
pub const ENTRIES_MOST: usize = 16;
pub const CAPACITY_MOST: u64 = 256;

/// The tie setting: where the receiving link's count equals the highest other one (RULES 6.5),
/// the receiving link becomes best.
pub const NEWEST_WINS: u64 = 0;
/// The best link stays.
pub const PRESENT_STAYS: u64 = 1;
pub const TIE_MOST: u64 = PRESENT_STAYS;
pub const TIE_DEFAULT: u64 = PRESENT_STAYS;

/// One of the four interface rows given to make.
#[derive(Clone, Copy, Debug, Default, PartialEq)]
pub struct InterfaceRow {
    pub own: u32,
    pub broadcast: u32,
    pub first: u16,
}

/// What make is given.
#[derive(Clone, Copy, Debug, Default, PartialEq)]
pub struct Settings {
    pub version: u64,
    pub window: u64,
    pub timeout: u64,
    pub purge: u64,
    pub capacity: u64,
    pub tie: u64,
    pub used: u64,
    pub rows: [InterfaceRow; INTERFACES_MOST],
}

impl Settings {
    /// Whether every setting and interface row is allowed.
    pub fn allowed(&self) -> bool {
        self.version <= 255
            && (1..=64).contains(&self.window)
            && (1..=1000).contains(&self.timeout)
            && (1..=u64::from(u32::MAX)).contains(&self.purge)
            && (1..=CAPACITY_MOST).contains(&self.capacity)
            && self.tie <= TIE_MOST
            && (1..=INTERFACES_MOST as u64).contains(&self.used)
            && own_addresses_differ(self.rows_in_use())
    }

    /// The interface rows in use; those beyond are ignored.
    pub fn rows_in_use(&self) -> &[InterfaceRow] {
        &self.rows[..self.used as usize]
    }

    fn is_own(&self, address: u32) -> bool {
        self.rows_in_use().iter().any(|row| row.own == address)
    }

    fn is_broadcast(&self, address: u32) -> bool {
        self.rows_in_use()
            .iter()
            .any(|row| row.broadcast == address)
    }
}

fn own_addresses_differ(rows: &[InterfaceRow]) -> bool {
    (0..rows.len()).all(|i| (0..i).all(|j| rows[i].own != rows[j].own))
}

/// A call turned away: its number, and the place where the number is 8 or 16.
#[derive(Clone, Copy, Debug, PartialEq)]
pub struct Refusal {
    pub number: u64,
    pub place: u64,
    /// The number of a later refusal whose fact holds too, 0 where none is noted; not printed.
    pub hides: u64,
}

impl Refusal {
    /// The same, noting a later one, if there is one.
    fn before(self, later: Option<Refusal>) -> Refusal {
        let hides = later.map_or(0, |later| later.number);
        Refusal { hides, ..self }
    }
}

/// A refusal without a place.
pub fn refusal(number: u64) -> Refusal {
    Refusal {
        number,
        place: 0,
        hides: 0,
    }
}

/// What the best question answers; all 0 where no record is held.
#[derive(Clone, Copy, Debug, Default, PartialEq)]
pub struct BestAnswer {
    pub neighbour: u32,
    pub interface: u64,
    pub count: u64,
    pub window: u64,
}

/// What receive answers where it is not refused.
#[derive(Clone, Debug, Default, PartialEq)]
pub struct ReceiveAnswer {
    pub verdict: u64,
    pub other_flags: u8,
    pub best: BestAnswer,
    pub octets: Vec<u8>,
    /// Whether the message was counted; this and what follows is not printed.
    pub counted: bool,
    /// Whether its link then tied with the highest other one.
    pub tied: bool,
    /// Whether it was counted with more entries than a record keeps, and left the list.
    pub left: bool,
    /// Whether it was an echo that made its neighbour row.
    pub row_made: bool,
    /// How far its number was above the current one, where it was counted for a held record.
    pub above: Option<u16>,
    /// Whether it made a record by a number that was stale to the one that a sweep removed.
    pub taken_up: bool,
    /// What else held of a message with a stale number, which has verdict 24 or 27.
    pub stale: Option<Stale>,
}

pub type Judged = Result<ReceiveAnswer, Refusal>;

/// What an own packet answers where it is not refused.
#[derive(Clone, Debug, PartialEq)]
pub struct OwnAnswer {
    pub sequence: u16,
    pub octets: Vec<u8>,
}

/// One row of the list call.
#[derive(Clone, Copy, Debug, PartialEq)]
pub struct ListRow {
    pub neighbour: u32,
    pub interface: u64,
    pub count: u64,
    pub window: u64,
    pub best: bool,
}

/// The arguments of receive, the table aside.
#[derive(Clone, Debug, PartialEq)]
pub struct Receive {
    pub interface: u64,
    pub sender: u32,
    pub time: u64,
    pub output: u64,
    pub packet: Vec<u8>,
}

/// The arguments of an own packet, the table aside.
#[derive(Clone, Debug, PartialEq)]
pub struct Own {
    pub interface: u64,
    pub time: u64,
    pub ttl: u8,
    pub gateway_flags: u8,
    pub gateway_port: u16,
    pub output: u64,
    pub hna: Vec<u8>,
}

#[derive(Clone)]
pub struct Book {
    pub settings: Settings,
    pub time: u64,
    /// The last sent number of each interface, none before the first.
    pub last: [Option<u16>; INTERFACES_MOST],
    /// For each link with an echo, the own packets on its interface since the latest one.
    pub echoes: BTreeMap<Link, u64>,
    /// For each originator, the counted messages; a list is never left empty here.
    pub lists: BTreeMap<u32, Vec<Counted>>,
    /// For each originator whose record a sweep removed, the current number that it then had.
    /// No answer depends on it: it is there for the counts and for the generator.
    pub removed: BTreeMap<u32, u16>,
}

impl Book {
    /// Make: a book anew, or refusal 12.
    pub fn make(settings: Settings, lent: u64) -> Result<Book, Refusal> {
        if !settings.allowed() || lent != cells_needed(settings.capacity) {
            return Err(refusal(12));
        }
        Ok(Book {
            settings,
            time: 0,
            last: [None; INTERFACES_MOST],
            echoes: BTreeMap::new(),
            lists: BTreeMap::new(),
            removed: BTreeMap::new(),
        })
    }

    /// A link with an echo has a neighbour row while fewer than B own packets followed it.
    pub fn has_row(&self, link: Link) -> bool {
        self.echoes
            .get(&link)
            .is_some_and(|since| *since < self.settings.timeout)
    }

    /// The links with a neighbour row, rising by pair, each with the own packets since.
    pub fn rows(&self) -> impl Iterator<Item = (Link, u64)> + '_ {
        let timeout = self.settings.timeout;
        self.echoes
            .iter()
            .filter(move |(_, since)| **since < timeout)
            .map(|(link, since)| (*link, *since))
    }

    /// The counted messages of an originator; none where no record is held.
    pub fn list_of(&self, originator: u32) -> &[Counted] {
        self.lists.get(&originator).map_or(&[], |list| list)
    }

    /// The current number of an originator; none where no record is held.
    pub fn current_of(&self, originator: u32) -> Option<u16> {
        words::current(self.list_of(originator), self.settings.window)
    }

    /// The HNA entries that an originator's record keeps; none where no record is held.
    pub fn entries_of(&self, originator: u32) -> &[Entry] {
        words::entries(self.list_of(originator), self.settings.window)
    }

    /// The words of a held record.
    pub fn words_of(&self, originator: u32) -> Option<Words> {
        let Settings { window, tie, .. } = self.settings;
        words::words(self.list_of(originator), window, tie)
    }

    /// The best question, refusal 1 aside.
    pub fn best(&self, originator: u32) -> BestAnswer {
        self.best_by(self.words_of(originator).as_ref())
    }

    /// The same, by the words of the originator's record.
    fn best_by(&self, words: Option<&Words>) -> BestAnswer {
        words.map_or_else(BestAnswer::default, |words| BestAnswer {
            neighbour: words.best.neighbour,
            interface: u64::from(words.best.interface),
            count: words.count(words.best),
            window: self.settings.window,
        })
    }

    /// The list call with this many rows lent, refusal 1 aside.
    pub fn list(&self, originator: u32, rows: u64) -> Result<Vec<ListRow>, Refusal> {
        let filled = self
            .words_of(originator)
            .map_or_else(Vec::new, |words| self.list_rows(&words));
        if rows < filled.len() as u64 {
            return Err(refusal(4));
        }
        Ok(filled)
    }

    fn list_rows(&self, words: &Words) -> Vec<ListRow> {
        let row = |(link, count): &(Link, u64)| ListRow {
            neighbour: link.neighbour,
            interface: u64::from(link.interface),
            count: *count,
            window: self.settings.window,
            best: *link == words.best,
        };
        words.held.iter().map(row).collect()
    }

    /// Refusals 2 and 3, which receive and own packet share.
    fn refuse_interface_or_time(&self, interface: u64, time: u64) -> Result<(), Refusal> {
        if interface >= self.settings.used {
            return Err(refusal(2));
        }
        self.refuse_time(time)
    }

    fn refuse_time(&self, time: u64) -> Result<(), Refusal> {
        if time < self.time {
            return Err(refusal(3));
        }
        Ok(())
    }

    /// An own packet, refusal 1 aside.
    pub fn own(&mut self, call: &Own) -> Result<OwnAnswer, Refusal> {
        self.refuse_own(call)?;
        self.time = call.time;
        let sequence = self.next_number(call.interface as usize);
        self.last[call.interface as usize] = Some(sequence);
        for (link, since) in self.echoes.iter_mut() {
            if u64::from(link.interface) == call.interface {
                *since += 1;
            }
        }
        let header = Header {
            version: self.settings.version as u8,
            flags: 0,
            ttl: call.ttl,
            gateway_flags: call.gateway_flags,
            number: sequence,
            gateway_port: call.gateway_port,
            originator: self.settings.rows[call.interface as usize].own,
        };
        let octets = packet::write(&header, &call.hna);
        Ok(OwnAnswer { sequence, octets })
    }

    /// The number the next own packet of an interface takes.
    pub fn next_number(&self, interface: usize) -> u16 {
        match self.last[interface] {
            None => self.settings.rows[interface].first,
            Some(last) => last.wrapping_add(1),
        }
    }

    fn refuse_own(&self, call: &Own) -> Result<(), Refusal> {
        self.refuse_interface_or_time(call.interface, call.time)?;
        let length = HEADER_OCTETS + call.hna.len();
        if call.output < length as u64 {
            return Err(refusal(4));
        }
        packet::length_fault(length)?;
        let low_ttl = (call.ttl < 2).then(|| refusal(13));
        packet::hna_fault(&call.hna).map_err(|fault| fault.before(low_ttl))?;
        low_ttl.map_or(Ok(()), Err)
    }

    /// A sweep, refusal 1 aside: how many records it removed.
    pub fn sweep(&mut self, time: u64) -> Result<u64, Refusal> {
        self.refuse_time(time)?;
        self.time = time;
        let Settings { purge, window, .. } = self.settings;
        let expired = |list: &[Counted]| time - list[list.len() - 1].time > purge;
        for (originator, list) in self.lists.iter().filter(|(_, list)| expired(list)) {
            if let Some(current) = words::current(list, window) {
                self.removed.insert(*originator, current);
            }
        }
        let before = self.lists.len();
        self.lists.retain(|_, list| !expired(list));
        Ok((before - self.lists.len()) as u64)
    }

    /// Receive, refusal 1 aside.
    pub fn receive(&mut self, call: &Receive) -> Judged {
        self.refuse_interface_or_time(call.interface, call.time)?;
        if call.output < call.packet.len() as u64 {
            return Err(refusal(4));
        }
        packet::fault(self.settings.version, &call.packet)
            .map_err(|fault| self.before_verdict(fault, call))?;
        let answer = self.judge(call)?;
        self.time = call.time;
        Ok(answer)
    }

    /// A packet's fault; 16 notes what the packet is refused by if its host bits are passed over.
    fn before_verdict(&self, fault: Refusal, call: &Receive) -> Refusal {
        match fault.number {
            16 => fault.before(self.clone().judge(call).err()),
            _ => fault,
        }
    }

    /// The steps of receiving: the verdict with what is passed on, or refusal 9, 10, 11 or 15.
    fn judge(&mut self, call: &Receive) -> Judged {
        let header = packet::read(&call.packet);
        let link = Link {
            neighbour: call.sender,
            interface: call.interface as u8,
        };
        if self.settings.is_own(call.sender) {
            return self.ended(20, &header);
        }
        if self.settings.is_broadcast(call.sender) {
            return self.ended(21, &header);
        }
        if self.settings.is_own(header.originator) {
            return self.echo(&header, link);
        }
        let verdict = if header.flags & UNIDIRECTIONAL != 0 {
            24
        } else if self.is_stale(&header) {
            27
        } else {
            return self.count_and_pass_on(call, &header, link);
        };
        let stale = self.stale(call, &header, link);
        self.ended(verdict, &header)
            .map(|answer| ReceiveAnswer { stale, ..answer })
    }

    /// A verdict before the two questions: the best link comes with it, and nothing else.
    fn ended(&self, verdict: u64, header: &Header) -> Judged {
        Ok(ReceiveAnswer {
            verdict,
            best: self.best(header.originator),
            ..ReceiveAnswer::default()
        })
    }

    /// Step 3: an own message comes back.
    fn echo(&mut self, header: &Header, link: Link) -> Judged {
        let interface = usize::from(link.interface);
        let accepted = header.flags & DIRECT != 0
            && header.originator == self.settings.rows[interface].own
            && self.last[interface] == Some(header.number);
        if !accepted {
            return self.ended(23, header);
        }
        let row_made = !self.has_row(link);
        if row_made && self.rows().count() >= NEIGHBOURS_MOST {
            return Err(refusal(9));
        }
        self.echoes.insert(link, 0);
        self.ended(22, header)
            .map(|answer| ReceiveAnswer { row_made, ..answer })
    }

    /// The last step: the two questions, counted and passed on.
    fn count_and_pass_on(&mut self, call: &Receive, header: &Header, link: Link) -> Judged {
        let list = self.list_of(header.originator);
        let bidirectional = self.has_row(link);
        let duplicate = words::duplicate(list, self.settings.window, link, header.number);
        let repeats_ttl = list.last().is_some_and(|last| last.ttl == header.ttl);
        let counted = bidirectional && !duplicate;
        let above = self.above_current(header).filter(|_| counted);
        let taken_up = counted && self.stale_to_removed(header);
        let words = if counted {
            Some(self.count(call, header, link)?)
        } else {
            self.words_of(header.originator)
        };
        let mut answer = ReceiveAnswer {
            verdict: 25,
            best: self.best_by(words.as_ref()),
            counted,
            tied: counted && words.as_ref().is_some_and(|words| words.tied(link)),
            left: counted && packet::entries_in(&call.packet) > ENTRIES_MOST,
            above,
            taken_up,
            ..ReceiveAnswer::default()
        };
        let best = words.is_some_and(|words| words.best == link);
        let relay = bidirectional && best && (!duplicate || repeats_ttl);
        let direct = call.sender == header.originator;
        let lowest = if cfg!(wrong = "ttl") { 1 } else { 2 };
        if header.ttl >= lowest && (direct || relay) {
            answer.verdict = 26;
            answer.other_flags = header.flags & !(UNIDIRECTIONAL | DIRECT);
            answer.octets = pass_on(&call.packet, header, direct, bidirectional);
        }
        Ok(answer)
    }

    /// Adds one message to its originator's list and gives the list's words, or refuses by
    /// 10, 11 or 15.
    fn count(&mut self, call: &Receive, header: &Header, link: Link) -> Result<Words, Refusal> {
        let full = self.lists.len() as u64 >= self.settings.capacity;
        let many = packet::entries_in(&call.packet) > ENTRIES_MOST;
        if full && !self.lists.contains_key(&header.originator) {
            return Err(refusal(10).before(many_entries(many)));
        }
        let message = Counted {
            number: header.number,
            link,
            time: call.time,
            ttl: header.ttl,
            entries: packet::entries(packet::hna(&call.packet)),
        };
        let Settings { window, tie, .. } = self.settings;
        let list = self.lists.entry(header.originator).or_default();
        list.push(message);
        let words = words::words(list, window, tie).expect("the list has a message");
        match no_room(&words, many) {
            None => Ok(words),
            Some(refusal) => {
                self.uncount(header.originator);
                Err(refusal)
            }
        }
    }

    /// Takes an originator's last message back; a list is never left empty.
    fn uncount(&mut self, originator: u32) {
        let Some(list) = self.lists.get_mut(&originator) else {
            return;
        };
        list.pop();
        if list.is_empty() {
            self.lists.remove(&originator);
        }
    }
}

/// Refusals 11 and 15, by the words after a message is counted; `many`: it has more entries than
/// a record keeps.
fn no_room(words: &Words, many: bool) -> Option<Refusal> {
    let entries = many_entries(words.moved && many);
    if words.held.len() > LINKS_MOST {
        return Some(refusal(11).before(entries));
    }
    entries
}

/// Refusal 15, by its fact.
fn many_entries(fact: bool) -> Option<Refusal> {
    fact.then(|| refusal(15))
}

/// The copy for the receiving interface: TTL one less, U and D set anew, all else kept.
fn pass_on(octets: &[u8], header: &Header, direct: bool, bidirectional: bool) -> Vec<u8> {
    let mut copy = octets.to_vec();
    let mut flags = header.flags & !(UNIDIRECTIONAL | DIRECT);
    if direct {
        flags |= DIRECT;
    }
    if !bidirectional {
        flags |= UNIDIRECTIONAL;
    }
    copy[1] = flags;
    copy[2] = header.ttl - 1;
    copy
}
