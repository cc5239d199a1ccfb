//! Reads one line of a script of calls, in the form that the replay program takes.

use crate::book::{InterfaceRow, Own, Receive, Settings, INTERFACES_MOST, TIE_DEFAULT};
use crate::burst::Burst;

pub const BUFFER_CELLS: usize = 66_560;
pub const LINE_MOST: usize = 65_536;
pub const OUTPUT_MOST: u64 = 16_384;
/// Octets of a packet or of HNA entries.
pub const OCTETS_MOST: usize = 2000;
const ROWS_MOST: u64 = 16;
/// Octets, answer rows and members of each list of a burst.
pub const BURST_OCTETS_MOST: usize = 16_384;
pub const BURST_ROWS_MOST: u64 = 40;
pub const BURST_MEMBERS_MOST: u64 = 40;

/// One call of a script.
#[derive(Clone, Debug, PartialEq)]
pub enum Call {
    Size { capacity: u64 },
    Cells { lent: usize },
    Make { settings: Settings },
    Receive(Receive),
    Burst(Burst),
    Own(Own),
    Sweep { time: u64 },
    Best { originator: u32 },
    List { originator: u32, rows: u64 },
    Lookup { address: u32 },
    Check { version: u64, packet: Vec<u8> },
    Poke { index: usize, value: u64 },
    Dump,
}

/// What a line is: nothing (empty or a comment), a call, or unreadable.
#[derive(Clone, Debug, PartialEq)]
pub enum Line {
    Nothing,
    Call(Call),
    Unreadable,
}

/// Reads a line given without its newline.
pub fn read(line: &[u8]) -> Line {
    if line.len() > LINE_MOST {
        return Line::Unreadable;
    }
    let mut words = Words { rest: line };
    match words.next() {
        None => Line::Nothing,
        Some(word) if word[0] == b'#' => Line::Nothing,
        Some(word) => match read_call(word, &mut words) {
            Some(call) if words.next().is_none() => Line::Call(call),
            _ => Line::Unreadable,
        },
    }
}

fn read_call(name: &[u8], words: &mut Words) -> Option<Call> {
    match name {
        b"size" => Some(Call::Size {
            capacity: words.number()?,
        }),
        b"cells" => Some(Call::Cells {
            lent: words.at_most(BUFFER_CELLS as u64)? as usize,
        }),
        b"make" => Some(Call::Make {
            settings: read_settings(words)?,
        }),
        b"receive" => Some(Call::Receive(Receive {
            interface: words.number()?,
            sender: words.address()?,
            time: words.number()?,
            output: words.at_most(OUTPUT_MOST)?,
            packet: words.octets()?,
        })),
        b"burst" => Some(Call::Burst(Burst {
            time: words.number()?,
            output: words.at_most(OUTPUT_MOST)?,
            rows: words.at_most(BURST_ROWS_MOST)?,
            octets: hex(words.next()?, BURST_OCTETS_MOST)?,
            lengths: words.list(Words::number)?,
            senders: words.list(Words::address)?,
            interfaces: words.list(Words::number)?,
        })),
        b"own" => Some(Call::Own(Own {
            interface: words.number()?,
            time: words.number()?,
            ttl: words.at_most(255)? as u8,
            gateway_flags: words.at_most(255)? as u8,
            gateway_port: words.at_most(65_535)? as u16,
            output: words.at_most(OUTPUT_MOST)?,
            hna: words.octets()?,
        })),
        b"sweep" => Some(Call::Sweep {
            time: words.number()?,
        }),
        b"best" => Some(Call::Best {
            originator: words.address()?,
        }),
        b"list" => Some(Call::List {
            originator: words.address()?,
            rows: words.at_most(ROWS_MOST)?,
        }),
        b"lookup" => Some(Call::Lookup {
            address: words.address()?,
        }),
        b"check" => Some(Call::Check {
            version: words.number()?,
            packet: words.octets()?,
        }),
        b"poke" => Some(Call::Poke {
            index: words.at_most(BUFFER_CELLS as u64 - 1)? as usize,
            value: words.number()?,
        }),
        b"dump" => Some(Call::Dump),
        _ => None,
    }
}

fn read_settings(words: &mut Words) -> Option<Settings> {
    let mut settings = Settings {
        version: words.number()?,
        window: words.number()?,
        timeout: words.number()?,
        purge: words.number()?,
        capacity: words.number()?,
        tie: TIE_DEFAULT,
        used: words.number()?,
        rows: [InterfaceRow::default(); INTERFACES_MOST],
    };
    for row in settings.rows.iter_mut() {
        row.own = words.address()?;
        row.broadcast = words.address()?;
        row.first = words.at_most(65_535)? as u16;
    }
    // The tie stands last and may be left out.
    if let Some(word) = words.next() {
        settings.tie = decimal(word)?;
    }
    Some(settings)
}

/// The words of a line, parted by one or more spaces.
struct Words<'a> {
    rest: &'a [u8],
}

impl<'a> Words<'a> {
    fn next(&mut self) -> Option<&'a [u8]> {
        let start = self.rest.iter().position(|octet| *octet != b' ')?;
        let rest = &self.rest[start..];
        let end = rest
            .iter()
            .position(|octet| *octet == b' ')
            .unwrap_or(rest.len());
        self.rest = &rest[end..];
        Some(&rest[..end])
    }

    fn number(&mut self) -> Option<u64> {
        decimal(self.next()?)
    }

    fn at_most(&mut self, most: u64) -> Option<u64> {
        self.number().filter(|number| *number <= most)
    }

    fn address(&mut self) -> Option<u32> {
        self.at_most(u64::from(u32::MAX))
            .map(|number| number as u32)
    }

    fn octets(&mut self) -> Option<Vec<u8>> {
        hex(self.next()?, OCTETS_MOST)
    }

    /// A list of a burst: its number of members, then the members.
    fn list<T>(&mut self, member: fn(&mut Words<'a>) -> Option<T>) -> Option<Vec<T>> {
        let many = self.at_most(BURST_MEMBERS_MOST)?;
        (0..many).map(|_| member(self)).collect()
    }
}

/// Decimal digits alone, below 2^64.
fn decimal(word: &[u8]) -> Option<u64> {
    let mut number: u64 = 0;
    for octet in word {
        if !octet.is_ascii_digit() {
            return None;
        }
        number = number
            .checked_mul(10)?
            .checked_add(u64::from(octet - b'0'))?;
    }
    Some(number)
}

/// Lower-case hex of whole octets, at most so many, or `-` for none.
pub fn hex(word: &[u8], most: usize) -> Option<Vec<u8>> {
    if word == b"-" {
        return Some(Vec::new());
    }
    if word.len() % 2 != 0 || word.len() / 2 > most {
        return None;
    }
    word.chunks(2)
        .map(|pair| Some(digit(pair[0])? * 16 + digit(pair[1])?))
        .collect()
}

fn digit(octet: u8) -> Option<u8> {
    match octet {
        b'0'..=b'9' => Some(octet - b'0'),
        b'a'..=b'f' => Some(octet - b'a' + 10),
        _ => None,
    }
}
