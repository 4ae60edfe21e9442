//! Random scripts. A model runs beside the writing, so that most calls are put to something.

use super::{
    sheets::{chain, deep_or_wide_sheet, random_sheet, varied, Files},
    Profile, Random,
};
use crate::{
    model::Model,
    reply::{Refusal, Reply},
    script::{size, Call, MAX_BYTES, MAX_SHEET, MAX_TEXT},
};

/// Room left for the largest call.
const ENOUGH_BYTES: usize = MAX_BYTES - 150_000;

/// The same with a call for each of 8,192 records, and for one that is not there.
const ENOUGH_BEFORE_RECORDS: usize = ENOUGH_BYTES - 12 * 8_193;

/// The longest run, in bytes, that is put just to fill a store.
const SHORT_RUN: usize = 4_000;

pub struct Writer {
    pub random: Random,
    pub model: Model,
    calls: Vec<Call>,
    bytes: usize,
    sheets: Vec<Files>,
}

/// The random script of this seed.
pub fn script(seed: u64, profile: Profile) -> Vec<Call> {
    let mut writer = Writer {
        random: Random::new(seed),
        model: Model::default(),
        calls: Vec::new(),
        bytes: 0,
        sheets: Vec::new(),
    };
    let length = *writer.random.pick(&[20, 100, 300]);
    if writer.random.chance(30) {
        writer.store();
    }
    let enough = match profile {
        Profile::All => ENOUGH_BEFORE_RECORDS,
        _ => ENOUGH_BYTES,
    };
    while writer.calls.len() < length && writer.bytes < enough {
        writer.activity(profile);
    }
    if profile == Profile::All {
        writer.all_records();
    }
    writer.calls
}

impl Writer {
    pub fn put(&mut self, call: Call) -> Reply {
        let reply = self.model.answer(&call);
        self.bytes += size(&call);
        self.calls.push(call);
        reply
    }

    fn activity(&mut self, profile: Profile) {
        let is_empty = self.model.counts().records == 0;
        let first = self.random.below(100);
        if first < 2 {
            return self.store();
        }
        if profile == Profile::Queries && (is_empty || first < 15) {
            return match self.random.chance(40) {
                true => self.run_deep_or_wide(),
                false => self.run(),
            };
        }
        if is_empty {
            return self.run();
        }
        match profile {
            Profile::Sheets => self.run(),
            Profile::Queries | Profile::Reading if first < 25 => self.run(),
            Profile::Queries => self.query(),
            Profile::Reading => self.reading(),
            Profile::All => match first {
                0..=11 => self.run(),
                12 | 13 => self.run_deep_or_wide(),
                14..=16 => self.little_room(),
                17..=56 => self.edit(),
                57 | 58 => self.grow(),
                _ => self.reading(),
            },
        }
    }

    fn query(&mut self) {
        match self.random.below(5) {
            0 | 1 => self.steps(),
            2 | 3 => self.offsets(),
            _ => self.identities(),
        }
    }

    /// A call that reads, or some of a sort.
    fn reading(&mut self) {
        match self.random.below(20) {
            0..=2 => self.steps(),
            3..=5 => self.offsets(),
            6..=8 => self.identities(),
            9..=12 => self.walk(),
            13..=18 => self.text(),
            _ => self.records(),
        }
    }

    /// Every record, and one that is not there.
    fn all_records(&mut self) {
        for number in 0..=self.model.counts().records as u32 {
            self.put(Call::Record { number });
        }
    }

    /// A sheet in a store that has little more room than it needs, then edits.
    fn little_room(&mut self) {
        let (sheet, text) = match self.random.chance(40) {
            true => chain(&mut self.random).files(),
            false => random_sheet(&mut self.random),
        };
        let each = self.random.chance(50);
        let run = Call::Run { each, sheet, text };
        let mut alone = Model::default();
        alone.answer(&run);
        let needed = alone.counts();
        if needed.records == 0 || size(&run) > SHORT_RUN {
            return;
        }
        let mut with_more = |needed: usize, most: usize| (needed + self.random.below(most)) as u32;
        let (records, places) = (with_more(needed.records, 5), with_more(needed.places, 16));
        self.put(Call::Store {
            records,
            places,
            bytes: needed.bytes as u32,
        });
        self.put(run);
        for _ in 0..self.random.between(2, 8) {
            self.edit();
        }
        if self.random.chance(50) {
            self.all_records();
        }
    }

    /// A new store: a small one that runs full soon, one near the limits, or any.
    fn store(&mut self) {
        let sizes = [
            [6, 6, 6],
            [60, 90, 90],
            [300, 600, 400],
            [70_000; 3],
            [70_000; 3],
        ];
        let most = *self.random.pick(&sizes);
        let lent = most.map(|it| self.random.below(it) as u32);
        let [records, places, bytes] = match self.random.chance(20) {
            true => [8_192, 16_384, 65_536],
            false => lent,
        };
        self.put(Call::Store {
            records,
            places,
            bytes,
        });
    }

    fn run_deep_or_wide(&mut self) {
        let (sheet, text) = deep_or_wide_sheet(&mut self.random);
        let each = self.random.chance(20);
        self.put(Call::Run { each, sheet, text });
    }

    /// A new sheet, one that was run before, or one like it.
    fn run(&mut self) {
        let files = match self.random.below(10) {
            0..=2 if !self.sheets.is_empty() => self.random.pick(&self.sheets).clone(),
            3 if !self.sheets.is_empty() => {
                let before = self.random.pick(&self.sheets).clone();
                varied(&mut self.random, &before)
            }
            _ => random_sheet(&mut self.random),
        };
        if files.0.len() > MAX_SHEET || files.1.len() > MAX_TEXT {
            return;
        }
        self.sheets.push(files.clone());
        let (sheet, text) = files;
        let each = self.random.chance(80);
        let reply = self.put(Call::Run { each, sheet, text });
        // Little more happens in a full store.
        if reply.refusal() == Some(Refusal::STORE_FULL) && self.random.chance(40) {
            self.store();
        }
    }
}
