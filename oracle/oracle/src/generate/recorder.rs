//! Calls as they are put, with a model beside them that knows the replies.

use crate::{
    model::Model,
    reply::Reply,
    script::{Call, Path},
    sheet::SheetWriter,
};

/// The places of a store that may use all that document 01 allows.
pub const MOST: [u32; 3] = [8_192, 16_384, 65_536];

#[derive(Default)]
pub struct Recorder {
    pub calls: Vec<Call>,
    pub model: Model,
}

impl Recorder {
    pub fn put(&mut self, call: Call) -> Reply {
        let reply = self.model.answer(&call);
        self.calls.push(call);
        reply
    }

    pub fn store(&mut self, [records, places, bytes]: [u32; 3]) {
        self.put(Call::Store {
            records,
            places,
            bytes,
        });
    }

    /// Runs a sheet, with a line for each event, and answers its root.
    pub fn tree(&mut self, writer: SheetWriter) -> u32 {
        let (sheet, text) = writer.files();
        let each = true;
        match self.put(Call::Run { each, sheet, text }) {
            Reply::Run(run) => run.outcome.expect("a tree"),
            _ => unreachable!("a run's reply"),
        }
    }

    pub fn record_count(&self) -> u32 {
        self.model.counts().records as u32
    }

    /// Asks for every record, and for one that is not there.
    pub fn all_records(&mut self) {
        for number in 0..=self.record_count() {
            self.put(Call::Record { number });
        }
    }

    pub fn is_node(&self, path: &Path) -> bool {
        let number = self.model.number_at(path);
        number.is_some_and(|it| self.model.children(it).is_some())
    }
}
