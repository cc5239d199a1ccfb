//! Plays a script: the book beside the program's buffer of cells, and the lines it prints.

use crate::book::{self, BestAnswer, Book, Judged, Own, Receive, Refusal};
use crate::burst::Burst;
use crate::cells;
use crate::counts::Counts;
use crate::lookup::{self, Covering};
use crate::packet::{self, Entry};
use crate::script::{self, Call, Line, BUFFER_CELLS};
use std::io::{self, BufRead, Write};

/// What is known of the cells lent.
#[derive(Clone, Copy, PartialEq, Debug)]
pub enum Lent {
    /// They are the book's encoding; the buffer may wait to be written.
    Book,
    /// They are not a well-formed table.
    Broken,
    /// They are well-formed, and not what the book says: outside a book.
    Outside,
    /// Cells or their number have changed since this was last asked.
    Unknown,
}

pub struct Player {
    pub book: Option<Book>,
    pub lent: usize,
    pub counts: Counts,
    buffer: Vec<u64>,
    state: Lent,
    /// The book has changed since the buffer was written.
    unwritten: bool,
}

/// A table without a history was met; a book can't go on from it.
#[derive(Debug)]
pub struct OutsideBook;

impl Player {
    pub fn new() -> Player {
        Player {
            book: None,
            lent: BUFFER_CELLS,
            counts: Counts::default(),
            buffer: vec![0; BUFFER_CELLS],
            state: Lent::Unknown,
            unwritten: false,
        }
    }

    /// Writes the book into the buffer if that is still to be done.
    fn settle(&mut self) {
        if let (true, Some(book)) = (self.unwritten, &self.book) {
            let needed = cells::cells_needed(book.settings.capacity) as usize;
            cells::encode(book, &mut self.buffer[..needed]);
        }
        self.unwritten = false;
    }

    /// The cells lent, as they stand.
    pub fn cells(&mut self) -> &[u64] {
        self.settle();
        &self.buffer[..self.lent]
    }

    /// What the cells lent are.
    pub fn state(&mut self) -> Lent {
        if self.state == Lent::Unknown {
            self.state = self.find_state();
        }
        self.state
    }

    fn find_state(&mut self) -> Lent {
        self.settle();
        let lent = &self.buffer[..self.lent];
        if let Some(book) = &self.book {
            let mut expected = vec![0; cells::cells_needed(book.settings.capacity) as usize];
            cells::encode(book, &mut expected);
            if lent == expected {
                return Lent::Book;
            }
        }
        if cells::well_formed(lent) {
            Lent::Outside
        } else {
            Lent::Broken
        }
    }

    /// The book, for a call that refusal 1 concerns.
    fn table(&mut self) -> Result<Result<&mut Book, Refusal>, OutsideBook> {
        match (self.state(), &mut self.book) {
            (Lent::Book, Some(book)) => Ok(Ok(book)),
            (Lent::Broken, _) => Ok(Err(book::refusal(1))),
            _ => Err(OutsideBook),
        }
    }

    /// Makes one call and prints its lines.
    pub fn call(&mut self, call: &Call, out: &mut Vec<u8>) -> Result<(), OutsideBook> {
        match call {
            Call::Size { capacity } => {
                say(out, b"size", &[cells::cells_needed(*capacity)]);
                end(out);
            }
            Call::Cells { lent } => self.lend(*lent),
            Call::Make { settings } => self.make(settings, out),
            Call::Receive(arrival) => self.receive(arrival, out)?,
            Call::Burst(burst) => self.burst(burst, out)?,
            Call::Own(own) => self.own(own, out)?,
            Call::Sweep { time } => self.sweep(*time, out)?,
            Call::Best { originator } => self.best(*originator, out)?,
            Call::List { originator, rows } => self.list(*originator, *rows, out)?,
            Call::Lookup { address } => self.lookup(*address, out)?,
            Call::Check { version, packet } => self.check(*version, packet, out),
            Call::Poke { index, value } => self.poke(*index, *value),
            Call::Dump => self.dump(out),
        }
        Ok(())
    }

    fn lend(&mut self, lent: usize) {
        self.settle();
        self.lent = lent;
        self.state = Lent::Unknown;
    }

    fn poke(&mut self, index: usize, value: u64) {
        self.settle();
        self.buffer[index] = value;
        self.state = Lent::Unknown;
    }

    fn dump(&mut self, out: &mut Vec<u8>) {
        for (index, value) in self.cells().iter().enumerate() {
            if *value != 0 {
                say(out, b"cell", &[index as u64, *value]);
                end(out);
            }
        }
    }

    fn make(&mut self, settings: &book::Settings, out: &mut Vec<u8>) {
        let number = match Book::make(*settings, self.lent as u64) {
            Err(refusal) => refusal.number,
            Ok(book) => {
                self.settle();
                self.book = Some(book);
                self.changed();
                0
            }
        };
        say(out, b"make", &[number]);
        end(out);
    }

    /// The book has changed, and the cells lent with it.
    fn changed(&mut self) {
        self.unwritten = true;
        self.state = Lent::Book;
    }

    fn receive(&mut self, arrival: &Receive, out: &mut Vec<u8>) -> Result<(), OutsideBook> {
        let judged = self.table()?.and_then(|book| book.receive(arrival));
        self.packet_answered(&arrival.packet, &judged);
        say(out, b"receive", &packet_fields(&judged));
        say_octets(out, copy(&judged));
        end(out);
        Ok(())
    }

    /// A packet was answered: the buffer and the counts follow.
    fn packet_answered(&mut self, octets: &[u8], judged: &Judged) {
        self.counts
            .packet(packet::hna(octets), judged.as_ref().err());
        if let (Ok(answer), Some(book)) = (judged, &self.book) {
            self.counts.answered(answer, &book.settings);
            self.changed();
        }
    }

    fn burst(&mut self, burst: &Burst, out: &mut Vec<u8>) -> Result<(), OutsideBook> {
        let time = self.book.as_ref().map_or(0, |book| book.time);
        match self.table()?.and_then(|book| book.burst(burst)) {
            Err(refusal) => {
                if refusal.number == 14 {
                    self.counts.refused(burst);
                }
                say(out, b"burst", &[refusal.number, 0, 0]);
                say_octets(out, &[]);
                end(out);
            }
            Ok(answers) => {
                self.counts.taken(burst, &answers, time);
                for (octets, judged) in burst.packets().into_iter().zip(&answers) {
                    self.packet_answered(octets, judged);
                }
                say_burst(out, &answers);
            }
        }
        Ok(())
    }

    fn own(&mut self, own: &Own, out: &mut Vec<u8>) -> Result<(), OutsideBook> {
        let sent = self.table()?.and_then(|book| book.own(own));
        self.counts.packet(&own.hna, sent.as_ref().err());
        match sent {
            Err(refusal) => {
                say(out, b"own", &[refusal.number, refusal.place, 0, 0]);
                say_octets(out, &[]);
            }
            Ok(answer) => {
                self.changed();
                let length = answer.octets.len() as u64;
                say(out, b"own", &[0, 0, length, u64::from(answer.sequence)]);
                say_octets(out, &answer.octets);
            }
        }
        end(out);
        Ok(())
    }

    fn sweep(&mut self, time: u64, out: &mut Vec<u8>) -> Result<(), OutsideBook> {
        match self.table()?.and_then(|book| book.sweep(time)) {
            Err(refusal) => say(out, b"sweep", &[refusal.number, 0]),
            Ok(removed) => {
                self.changed();
                say(out, b"sweep", &[0, removed]);
            }
        }
        end(out);
        Ok(())
    }

    fn best(&mut self, originator: u32, out: &mut Vec<u8>) -> Result<(), OutsideBook> {
        let (number, best) = match self.table()? {
            Err(refusal) => (refusal.number, BestAnswer::default()),
            Ok(book) => (0, book.best(originator)),
        };
        say(out, b"best", &[number]);
        say(out, b"", &best_fields(&best));
        end(out);
        Ok(())
    }

    fn list(&mut self, originator: u32, rows: u64, out: &mut Vec<u8>) -> Result<(), OutsideBook> {
        match self.table()?.and_then(|book| book.list(originator, rows)) {
            Err(refusal) => {
                say(out, b"list", &[refusal.number, 0]);
                end(out);
            }
            Ok(filled) => {
                say(out, b"list", &[0, filled.len() as u64]);
                end(out);
                for row in filled {
                    let neighbour = u64::from(row.neighbour);
                    let best = u64::from(row.best);
                    let fields = [neighbour, row.interface, row.count, row.window, best];
                    say(out, b"row", &fields);
                    end(out);
                }
            }
        }
        Ok(())
    }

    fn lookup(&mut self, address: u32, out: &mut Vec<u8>) -> Result<(), OutsideBook> {
        let covering = self.table()?.map(|book| book.covering(address));
        if let Ok(covering) = &covering {
            self.counts.looked_up(covering);
        }
        say(out, b"lookup", &lookup_fields(&covering));
        end(out);
        Ok(())
    }

    fn check(&mut self, version: u64, octets: &[u8], out: &mut Vec<u8>) {
        let fault = packet::fault(version, octets).err();
        self.counts.packet(packet::hna(octets), fault.as_ref());
        let number = fault.map_or(0, |refusal| refusal.number + 256 * refusal.place);
        say(out, b"check", &[number]);
        end(out);
    }
}

/// The lines of a burst that was taken.
fn say_burst(out: &mut Vec<u8>, answers: &[Judged]) {
    let written: Vec<u8> = answers.iter().flat_map(copy).copied().collect();
    say(
        out,
        b"burst",
        &[0, answers.len() as u64, written.len() as u64],
    );
    say_octets(out, &written);
    end(out);
    for judged in answers {
        say(out, b"packet", &packet_fields(judged));
        end(out);
    }
}

/// What is printed of a packet's answer, its copy aside.
fn packet_fields(judged: &Judged) -> [u64; 7] {
    match judged {
        Err(refusal) => [refusal.number, refusal.place, 0, 0, 0, 0, 0],
        Ok(answer) => {
            let [neighbour, interface, count, window] = best_fields(&answer.best);
            let flags = u64::from(answer.other_flags);
            [
                answer.verdict,
                0,
                flags,
                neighbour,
                interface,
                count,
                window,
            ]
        }
    }
}

/// The octets written for a packet.
fn copy(judged: &Judged) -> &[u8] {
    judged.as_ref().map_or(&[], |answer| &answer.octets)
}

fn best_fields(best: &BestAnswer) -> [u64; 4] {
    let neighbour = u64::from(best.neighbour);
    [neighbour, best.interface, best.count, best.window]
}

/// What is printed of a lookup, by the entries that cover the address.
fn lookup_fields(covering: &Result<Vec<Covering>, Refusal>) -> [u64; 5] {
    match covering.as_deref().map(lookup::located) {
        Err(refusal) => [refusal.number, 0, 0, 0, 0],
        Ok(None) => [0; 5],
        Ok(Some(found)) => {
            let Entry { network, mask } = found.entry;
            let originator = u64::from(found.originator);
            [0, 1, originator, u64::from(network), u64::from(mask)]
        }
    }
}

/// Prints a word and numbers, each number after a space.
fn say(out: &mut Vec<u8>, word: &[u8], numbers: &[u64]) {
    out.extend_from_slice(word);
    for number in numbers {
        out.push(b' ');
        say_number(out, *number);
    }
}

fn say_number(out: &mut Vec<u8>, number: u64) {
    let mut digits = [0; 20];
    let mut start = digits.len();
    let mut rest = number;
    loop {
        start -= 1;
        digits[start] = b'0' + (rest % 10) as u8;
        rest /= 10;
        if rest == 0 {
            break;
        }
    }
    out.extend_from_slice(&digits[start..]);
}

/// Prints a list as a burst's line has it: its number of members, then the members.
pub fn say_list(out: &mut Vec<u8>, members: &[u64]) {
    say(out, b"", &[members.len() as u64]);
    say(out, b"", members);
}

fn say_octets(out: &mut Vec<u8>, octets: &[u8]) {
    out.push(b' ');
    say_hex(out, octets);
}

/// Prints octets in hex, `-` for none.
pub fn say_hex(out: &mut Vec<u8>, octets: &[u8]) {
    const DIGITS: &[u8; 16] = b"0123456789abcdef";
    if octets.is_empty() {
        out.push(b'-');
    }
    for octet in octets {
        out.push(DIGITS[usize::from(octet >> 4)]);
        out.push(DIGITS[usize::from(octet & 15)]);
    }
}

fn end(out: &mut Vec<u8>) {
    out.push(b'\n');
}

/// Plays one line, given without its newline.
pub fn play_line(
    player: &mut Player,
    number: u64,
    line: &[u8],
    out: &mut Vec<u8>,
) -> Result<(), OutsideBook> {
    match script::read(line) {
        Line::Nothing => Ok(()),
        Line::Call(call) => player.call(&call, out),
        Line::Unreadable => {
            say(out, b"error", &[number]);
            end(out);
            Ok(())
        }
    }
}

/// How a script ended.
pub enum Ending {
    Whole,
    Outside(u64),
}

/// Plays a whole script. `numbered` puts the script's line number before each printed line,
/// so that the cause of a difference can be found.
pub fn play(
    player: &mut Player,
    input: &mut dyn BufRead,
    output: &mut dyn Write,
    numbered: bool,
) -> io::Result<Ending> {
    let mut line = Vec::new();
    let mut out = Vec::new();
    let mut number = 0;
    loop {
        line.clear();
        if input.read_until(b'\n', &mut line)? == 0 {
            output.flush()?;
            return Ok(Ending::Whole);
        }
        number += 1;
        if line.last() == Some(&b'\n') {
            line.pop();
        }
        out.clear();
        let played = play_line(player, number, &line, &mut out);
        if numbered {
            for printed in out.split_inclusive(|octet| *octet == b'\n') {
                write!(output, "{number} ")?;
                output.write_all(printed)?;
            }
        } else {
            output.write_all(&out)?;
        }
        if played.is_err() {
            output.flush()?;
            return Ok(Ending::Outside(number));
        }
    }
}
