//! Writes a script that plays at the edges of the rules. A player follows every line, so
//! that packets get echoed, counted and refused on purpose; nothing but the seed decides.

mod breaks;
mod bursts;
mod calls;
mod entries;
mod messages;
mod odd;
mod random;
mod stage;

use crate::book::{Book, Settings};
use crate::cells::cells_needed;
use crate::play::{self, Player};
use crate::script::{self, Call, Line};
use crate::words::Link;
use bursts::Gathering;
use random::Random;
use stage::{Kind, Stage};
use std::io::{self, Write};

pub struct Generator<'a> {
    random: Random,
    /// For what a make finds in its cells: whatever this is, all else of a script stays.
    found: Random,
    player: Player,
    output: &'a mut dyn Write,
    line: u64,
    calls: u64,
    limit: u64,
    stage: Stage,
    /// While packets are made for a burst: they are gathered here and no line is written.
    gathering: Option<Gathering>,
    failure: Option<io::Error>,
}

/// Writes a script of this many calls.
pub fn generate(seed: u64, calls: u64, output: &mut dyn Write) -> io::Result<()> {
    let mut generator = Generator {
        random: Random::new(seed),
        found: Random::new(!seed),
        player: Player::new(),
        output,
        line: 0,
        calls: 0,
        limit: calls,
        stage: Stage {
            kind: Kind::General,
            neighbours: vec![1, 2, 3],
            originators: vec![4, 5],
            start: 0,
            run: None,
            stay: 0,
        },
        gathering: None,
        failure: None,
    };
    generator.before_any_make();
    while !generator.done() {
        generator.stretch();
    }
    if let Some(failure) = generator.failure {
        return Err(failure);
    }
    // The last line may lack its newline: with every other seed it does.
    if seed % 2 == 0 {
        output.write_all(b"\n")?;
    }
    output.flush()
}

/// Whether a line makes a call of the library.
fn is_call(line: &[u8]) -> bool {
    match script::read(line) {
        Line::Call(Call::Cells { .. } | Call::Poke { .. } | Call::Dump) => false,
        Line::Call(_) => true,
        Line::Nothing | Line::Unreadable => false,
    }
}

impl Generator<'_> {
    fn done(&self) -> bool {
        self.calls >= self.limit || self.failure.is_some()
    }

    /// Writes one line and plays it.
    fn emit(&mut self, line: &[u8]) {
        if self.done() {
            return;
        }
        self.line += 1;
        if is_call(line) {
            self.calls += 1;
        }
        let mut printed = Vec::new();
        play::play_line(&mut self.player, self.line, line, &mut printed)
            .expect("a generated table has a history");
        let parting: &[u8] = if self.line > 1 { b"\n" } else { b"" };
        let written = self
            .output
            .write_all(parting)
            .and_then(|()| self.output.write_all(line));
        self.failure = written.err();
    }

    fn say(&mut self, line: String) {
        self.emit(line.as_bytes());
    }

    /// The book; there is one after the first make.
    fn book(&self) -> &Book {
        self.player.book.as_ref().expect("a make came first")
    }

    fn settings(&self) -> Settings {
        self.player
            .book
            .as_ref()
            .map_or_else(Settings::default, |book| book.settings)
    }

    /// Calls on cells that no make has filled.
    fn before_any_make(&mut self) {
        self.say("# a generated script".to_string());
        self.say("dump".to_string());
        for line in [
            "best 1",
            "list 1 8",
            "lookup 1",
            "sweep 0",
            "own 0 0 50 0 0 12 -",
        ] {
            self.say(line.to_string());
        }
        self.say("receive 0 1 0 12 040032000001000000000009".to_string());
        self.say("burst 0 12 1 040032000001000000000009 1 12 1 1 1 0".to_string());
        self.say("burst 0 0 0 - 0 0 0".to_string());
        self.say("burst 0 0 0 - 1 0 0 0".to_string());
        self.say("size 64".to_string());
        self.say("cells 0".to_string());
        self.say("best 1".to_string());
        self.say("make 4 8 4 100 1 1 1 255 0 0 0 0 0 0 0 0 0 0".to_string());
    }

    /// One make and the calls that follow it.
    fn stretch(&mut self) {
        let kind = self.choose_kind();
        let settings = self.choose_settings(kind);
        if self.player.lent as u64 != cells_needed(settings.capacity) || self.random.chance(100) {
            self.say(format!("cells {}", cells_needed(settings.capacity)));
        }
        self.make_over_anything(&settings);
        if self.done() {
            return;
        }
        self.stage = self.choose_stage(kind, &settings);
        match kind {
            Kind::LongTimeout => self.long_timeout(),
            _ => self.actions(kind),
        }
    }

    /// The calls of an ordinary stretch.
    fn actions(&mut self, kind: Kind) {
        let many = match kind {
            Kind::Full => 300,
            Kind::Links | Kind::Runs => 150 + self.random.below(250),
            Kind::Ties => 40 + self.random.below(80),
            _ => 60 + self.random.below(300),
        };
        if kind != Kind::General {
            self.opening();
        }
        if kind == Kind::Full {
            self.fill();
        }
        for _ in 0..many {
            if self.done() {
                return;
            }
            self.action(true);
        }
    }

    /// Own packets on every interface and echoes of them, so that links have rows.
    fn opening(&mut self) {
        let used = self.settings().used;
        for interface in 0..used {
            self.own_on(interface);
        }
        let wanted = match self.stage.kind {
            Kind::Neighbours => 33 + self.random.below(4),
            Kind::Links => 9 + self.random.below(8),
            _ => 4,
        };
        for turn in 0..wanted {
            let count = self.stage.neighbours.len() as u64;
            let neighbour = self.stage.neighbours[(turn % count) as usize];
            let interface = match self.stage.kind {
                Kind::Links => (turn / count + turn) % used,
                _ => self.random.below(used),
            };
            self.echo(neighbour, interface);
        }
    }

    /// A message of each originator, in no order, so that the capacity is reached.
    fn fill(&mut self) {
        let mut left = self.stage.originators.clone();
        while !left.is_empty() && !self.done() {
            let originator = self.random.take(&mut left);
            match self.row() {
                Some(link) => self.message(link, originator),
                None => self.any_echo(),
            }
        }
    }

    /// One call, or a few that belong together, and at times a lookup of what it left.
    /// `whole`: pokes and makes are allowed.
    fn action(&mut self, whole: bool) {
        self.action_before_lookup(whole);
        if self.random.chance(150) {
            self.lookup();
        }
    }

    fn action_before_lookup(&mut self, whole: bool) {
        let (own, echo) = match self.stage.kind {
            Kind::Timeout => (200, 200),
            Kind::Neighbours => (20, 300),
            Kind::Links => (20, 90),
            Kind::Runs | Kind::Ties | Kind::Entries | Kind::Full => (10, 30),
            _ => (80, 130),
        };
        let roll = self.random.below(1000);
        if roll < own {
            let interface = self.random.below(self.settings().used.max(1));
            return self.own_on(interface);
        }
        if roll < own + echo {
            return self.any_echo();
        }
        if self.random.chance(110) {
            return self.burst();
        }
        if self.stage.kind == Kind::Runs && self.random.chance(600) {
            // Runs that go on are to fill their window.
            return match self.random.below(20) {
                0 if self.stage.stay < 900 => self.leave_best_behind(),
                _ => self.message_by_row(),
            };
        }
        if self.stage.kind == Kind::Links && self.random.chance(150) {
            return self.one_link_more();
        }
        if self.stage.kind == Kind::Entries && self.random.chance(600) {
            return match self.random.below(5) {
                0..2 => self.message_by_row(),
                _ => self.lookup(),
            };
        }
        if self.stage.kind == Kind::Ties && self.random.chance(750) {
            return match self.random.below(20) {
                0 => self.leave_best_behind(),
                1..10 => self.draw_level(),
                _ => self.message_by_all(),
            };
        }
        match self.random.below(1000) {
            0..380 => self.message_by_row(),
            380..430 => self.draw_level(),
            430..520 => self.message_by_any(),
            520..590 => self.repeat(),
            590..640 => self.wild_receive(),
            640..690 => self.sweep(),
            690..740 => self.best(),
            740..800 => self.list(),
            800..860 => self.check(),
            860..868 => self.size(),
            868..890 => self.refused_make(),
            890..905 => self.dump(),
            905..925 => self.odd_line(),
            925..955 if whole => self.broken_cells(),
            955..970 if whole => self.wrong_number_of_cells(),
            970..973 if whole => self.make_anew(),
            _ => self.message_by_row(),
        }
    }

    /// Own packets until rows are 1,000 behind, with messages at the edge.
    fn long_timeout(&mut self) {
        self.opening();
        for _ in 0..1040 {
            if self.done() {
                return;
            }
            self.own_on(0);
            let edge = self.book().echoes.values().any(|since| *since > 996);
            if edge {
                let links: Vec<Link> = self.book().echoes.keys().copied().collect();
                let link = self.random.pick(&links);
                let originator = self.originator();
                self.message(link, originator);
                self.dump();
            }
        }
    }
}
