//! The other calls: questions, sweeps, checks, makes, and calls on cells that are no table.

use super::stage::Kind;
use super::{breaks, odd, Generator};
use crate::book::{Settings, LINKS_MOST, TIE_DEFAULT};
use crate::cells::{capacity_of, cells_needed, record, RECORDS};
use crate::play::{self, Lent};
use crate::script::BUFFER_CELLS;

/// The largest capacity of a table whose dump is short.
const SMALL: u64 = 8;

impl Generator<'_> {
    pub(super) fn make(&mut self, settings: &Settings) {
        let mut line = format!(
            "make {} {} {} {} {} {}",
            settings.version,
            settings.window,
            settings.timeout,
            settings.purge,
            settings.capacity,
            settings.used
        );
        for row in &settings.rows {
            line += &format!(" {} {} {}", row.own, row.broadcast, row.first);
        }
        // A third of the lines that mean the default leave the tie out.
        if settings.tie != TIE_DEFAULT || self.random.chance(667) {
            line += &format!(" {}", settings.tie);
        }
        self.say(line);
    }

    /// A make in cells that hold anything, some of those behind them written too; then, of a
    /// small table, all cells as they are left.
    pub(super) fn make_over_anything(&mut self, settings: &Settings) {
        for _ in 0..self.found.below(9) {
            let index = self.found.below(cells_needed(settings.capacity) + 4);
            let value = self.found.next();
            self.say(format!("poke {index} {value}"));
        }
        self.make(settings);
        if settings.capacity <= SMALL {
            self.say("dump".to_string());
        }
    }

    /// A sweep, often exactly at the purge timeout of a record or one more.
    pub(super) fn sweep(&mut self) {
        let now = self.now();
        let purge = self.settings().purge;
        let times: Vec<u64> = self
            .book()
            .lists
            .values()
            .filter_map(|list| list.last().map(|message| message.time))
            .collect();
        let mut time = now;
        let purging = match self.stage.kind {
            Kind::Runs | Kind::Ties | Kind::Entries | Kind::Links => 150,
            Kind::Full => 30,
            _ => 600,
        };
        if !times.is_empty() && self.random.chance(purging) {
            let extra = self.random.pick(&[0, 0, 1, 1, 2]);
            time = self
                .random
                .pick(&times)
                .saturating_add(purge)
                .saturating_add(extra);
        }
        let time = self.spoil_time(time.max(now));
        self.say(format!("sweep {time}"));
    }

    fn asked(&mut self) -> u32 {
        match self.random.below(10) {
            0 => self.address(),
            1 => self.settings().rows[0].own,
            _ => self.originator(),
        }
    }

    pub(super) fn best(&mut self) {
        let originator = self.asked();
        self.say(format!("best {originator}"));
    }

    pub(super) fn list(&mut self) {
        let originator = self.asked();
        let links = self
            .book()
            .words_of(originator)
            .map_or(0, |words| words.held.len() as u64);
        let any = self.random.below(17);
        let rows = self.random.pick(&[
            links,
            links,
            links.saturating_sub(1),
            links + 1,
            LINKS_MOST as u64,
            16,
            0,
            any,
        ]);
        self.say(format!("list {originator} {rows}"));
    }

    pub(super) fn check(&mut self) {
        let (flags, ttl) = (self.random.next() as u8, self.random.next() as u8);
        let number = self.random.next() as u16;
        let originator = self.address();
        let mut packet = self.packet(flags, ttl, number, originator);
        if self.random.chance(200) {
            self.set_host_bits_in(&mut packet);
        }
        self.spoil_packet(&mut packet);
        let table = self.settings().version;
        let version = self.random.pick(&[
            table,
            table,
            table,
            table,
            table,
            table,
            4,
            256 + table,
            u64::MAX,
        ]);
        let mut line = format!("check {version} ").into_bytes();
        play::say_hex(&mut line, &packet);
        self.emit(&line);
    }

    pub(super) fn size(&mut self) {
        let any = self.random.below(300);
        let capacity = self.random.pick(&[
            0,
            1,
            2,
            64,
            255,
            256,
            257,
            any,
            1 << 32,
            (1 << 32) + 1,
            u64::MAX,
        ]);
        self.say(format!("size {capacity}"));
    }

    pub(super) fn dump(&mut self) {
        // A large table's dump is long: seldom.
        if self.settings().capacity <= SMALL || self.random.chance(60) {
            self.say("dump".to_string());
        }
    }

    pub(super) fn odd_line(&mut self) {
        let line = odd::line(&mut self.random);
        self.emit(&line);
    }

    /// A make with one thing not allowed.
    pub(super) fn refused_make(&mut self) {
        let mut settings = self.settings();
        let huge = self.random.pick(&[1 << 32, 1 << 63, u64::MAX]);
        match self.random.below(10) {
            0 => settings.version = self.random.pick(&[256, 260, huge]),
            1 => settings.window = self.random.pick(&[0, 65, 256 + 8, huge | 8]),
            2 => settings.timeout = self.random.pick(&[0, 1001, huge]),
            3 => settings.purge = self.random.pick(&[0, 1 << 32, (1 << 32) + 1, u64::MAX]),
            4 => settings.capacity = self.random.pick(&[0, 257, huge]),
            5 => settings.capacity = settings.capacity % 256 + 1,
            6 => settings.used = self.random.pick(&[0, 5, huge, (1 << 32) + 1]),
            7 => settings.tie = self.random.pick(&[2, 2, 3, 256, 257, huge, (1 << 32) + 1]),
            _ => {
                settings.used = settings.used.max(2);
                let from = self.random.below(settings.used) as usize;
                let to = (from + 1) % settings.used as usize;
                settings.rows[to].own = settings.rows[from].own;
            }
        }
        self.make(&settings);
    }

    pub(super) fn make_anew(&mut self) {
        let settings = self.settings();
        self.make(&settings);
    }

    /// Breaks one clause of well-formedness by pokes, makes calls, and undoes the pokes.
    pub(super) fn broken_cells(&mut self) {
        let cells = self.player.cells().to_vec();
        let pokes = breaks::pokes(&cells, &mut self.random);
        for (index, value) in &pokes {
            self.say(format!("poke {index} {value}"));
        }
        if self.player.state() != Lent::Outside {
            self.calls_meanwhile();
        }
        // A make in between has filled the cells anew.
        if self.player.state() != Lent::Book {
            for (index, _) in pokes.iter().rev() {
                self.say(format!("poke {index} {}", cells[*index]));
            }
        }
    }

    fn calls_meanwhile(&mut self) {
        for _ in 0..1 + self.random.below(4) {
            self.action(false);
        }
        if self.random.chance(60) {
            self.make_anew();
        }
    }

    /// Lends another number of cells for some calls.
    pub(super) fn wrong_number_of_cells(&mut self) {
        let needed = cells_needed(self.settings().capacity);
        let (before_records, a_record) = (RECORDS as u64, record::CELLS as u64);
        let any = self.random.below(BUFFER_CELLS as u64 + 1);
        let lent = self.random.pick(&[
            needed - 1,
            needed + 1,
            needed - a_record,
            needed + a_record,
            0,
            1,
            before_records - 1,
            before_records,
            any,
            BUFFER_CELLS as u64,
        ]);
        self.say(format!("cells {lent}"));
        if self.player.state() == Lent::Broken {
            self.calls_meanwhile();
            if self.random.chance(100) && lent > before_records {
                let mut settings = self.settings();
                settings.capacity = capacity_of(lent);
                self.make(&settings);
            }
        }
        let needed = cells_needed(self.settings().capacity);
        if self.player.lent as u64 != needed {
            self.say(format!("cells {needed}"));
        }
    }
}
