//! The settings of each make and the addresses that play after it.

use super::Generator;
use crate::book::{InterfaceRow, Settings, INTERFACES_MOST, NEWEST_WINS, PRESENT_STAYS};
use crate::words::Link;

/// What a stretch between two makes is mainly about.
#[derive(Clone, Copy, PartialEq, Debug)]
pub enum Kind {
    /// A few neighbours, small capacities.
    General,
    /// More than 8 links to few originators.
    Links,
    /// Runs of numbers by one link and then another, so that windows fill and best lags.
    Runs,
    /// The same numbers by several links, so that their counts draw level and part by one.
    Ties,
    /// Several originators that announce the same networks.
    Entries,
    /// More than 32 neighbours that echo.
    Neighbours,
    /// A short link timeout, reached often.
    Timeout,
    /// A large capacity, filled up.
    Full,
    /// The longest link timeout, reached once.
    LongTimeout,
}

/// The addresses that play in a stretch.
pub struct Stage {
    pub kind: Kind,
    pub neighbours: Vec<u32>,
    pub originators: Vec<u32>,
    pub start: u64,
    /// The link of the present run, in a stretch of runs.
    pub run: Option<Link>,
    /// How many times in a thousand a run goes on.
    pub stay: u64,
}

impl Generator<'_> {
    pub(super) fn choose_kind(&mut self) -> Kind {
        match self.random.below(1000) {
            0..170 => Kind::General,
            170..310 => Kind::Links,
            310..450 => Kind::Runs,
            450..630 => Kind::Ties,
            630..730 => Kind::Entries,
            730..825 => Kind::Neighbours,
            825..975 => Kind::Timeout,
            975..997 => Kind::Full,
            _ => Kind::LongTimeout,
        }
    }

    pub(super) fn choose_settings(&mut self, kind: Kind) -> Settings {
        let random = &mut self.random;
        let any_window = 1 + random.below(64);
        let window = match kind {
            Kind::Links => random.pick(&[1, 2, 8, 8, 8, 63, 64, 64]),
            Kind::Runs | Kind::Ties => random.pick(&[2, 4, 6, 8, 8, 8, 63, 64, any_window]),
            _ => random.pick(&[1, 2, 8, 8, 63, 64, any_window]),
        };
        let timeout = match kind {
            Kind::LongTimeout => 1000,
            Kind::Timeout => random.pick(&[1, 2, 3, 4, 4, 5]),
            Kind::General => random.pick(&[1, 2, 4, 32, 1000]),
            Kind::Full => 1000,
            _ => random.pick(&[4, 32, 1000]),
        };
        let capacity = match kind {
            Kind::Full => random.pick(&[64, 64, 64, 256]),
            Kind::Entries => random.pick(&[3, 8, 8]),
            _ => random.pick(&[1, 2, 3, 8]),
        };
        let settings = Settings {
            version: random.pick(&[4, 4, 4, 4, 4, 0, 5, 255]),
            window,
            timeout,
            purge: match kind {
                Kind::Runs | Kind::Ties | Kind::Entries | Kind::Full => {
                    random.pick(&[100, 5000, 640_000, 4_294_967_295])
                }
                _ => random.pick(&[1, 2, 10, 100, 5000, 640_000, 4_294_967_295]),
            },
            capacity,
            // Where the present link stays, a third of the make lines leave the tie out.
            tie: random.pick(&[
                NEWEST_WINS,
                NEWEST_WINS,
                PRESENT_STAYS,
                PRESENT_STAYS,
                PRESENT_STAYS,
            ]),
            used: match kind {
                Kind::Links => 2 + random.below(3),
                _ => 1 + random.below(4),
            },
            rows: [InterfaceRow::default(); INTERFACES_MOST],
        };
        self.choose_rows(settings)
    }

    /// Interface rows: own addresses in use differ, all else may repeat.
    fn choose_rows(&mut self, mut settings: Settings) -> Settings {
        for place in 0..INTERFACES_MOST {
            let mut own = self.address();
            while place < settings.used as usize
                && settings.rows[..place].iter().any(|row| row.own == own)
            {
                own = self.address();
            }
            let other = settings.rows[0].own;
            settings.rows[place] = InterfaceRow {
                own,
                broadcast: self
                    .random
                    .pick(&[0x0a01_ffff, 0x0a01_ffff, u32::MAX, 0, other]),
                first: match self.random.below(4) {
                    0 => 65_535,
                    1 => 0,
                    2 => 65_000 + self.random.below(536) as u16,
                    _ => self.random.next() as u16,
                },
            };
        }
        settings
    }

    pub(super) fn address(&mut self) -> u32 {
        match self.random.below(10) {
            0 => self.random.pick(&[0, 1, 2, 3]),
            1 => u32::MAX - self.random.below(3) as u32,
            2 => 0x7fff_fffe + self.random.below(4) as u32,
            _ => 0x0a01_0000 + self.random.below(96) as u32,
        }
    }

    pub(super) fn choose_stage(&mut self, kind: Kind, settings: &Settings) -> Stage {
        let (neighbours, originators) = match kind {
            Kind::Links => (5 + self.random.below(8), 1 + self.random.below(3)),
            Kind::Runs | Kind::Ties => (2 + self.random.below(3), 1),
            Kind::Neighbours => (34 + self.random.below(6), 3),
            Kind::Full => (4, settings.capacity * 5 / 4 + 5),
            _ => (2 + self.random.below(5), settings.capacity + 2),
        };
        let start = match self.random.below(8) {
            0 => u64::MAX - self.random.below(400),
            1 => (1 << 63) - self.random.below(10),
            2 => 0,
            _ => self.random.below(1000),
        };
        Stage {
            kind,
            neighbours: self.addresses(neighbours, settings),
            originators: self.addresses(originators, settings),
            start,
            run: None,
            stay: self.random.pick(&[400, 600, 700, 800, 990]),
        }
    }

    /// Different addresses that are neither own nor broadcast ones in use.
    fn addresses(&mut self, how_many: u64, settings: &Settings) -> Vec<u32> {
        let mut chosen: Vec<u32> = Vec::new();
        // An unused row's own address is an ordinary one.
        if let Some(row) = settings.rows.get(settings.used as usize) {
            chosen.push(row.own);
        }
        while (chosen.len() as u64) < how_many {
            chosen.push(match self.random.below(2) {
                0 => self.address(),
                _ => 0x0a02_0000 + self.random.below(4 * how_many) as u32,
            });
            chosen.sort_unstable();
            chosen.dedup();
        }
        let own = settings.rows_in_use();
        chosen.retain(|address| {
            own.iter()
                .all(|row| row.own != *address && row.broadcast != *address)
        });
        if chosen.is_empty() {
            chosen.push(0x0a03_0000);
        }
        chosen
    }
}
