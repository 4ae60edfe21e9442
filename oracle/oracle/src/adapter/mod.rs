//! Answers to calls by rowan itself. Outside the comparison's domain (refusals 1 to 4 and 14 to
//! 16, and where-is, which rowan does not have) the model answers; inside it the answer comes
//! from rowan, and a panic is the refusal that document 01 names for it.

mod edit;
mod panics;
mod reading;
mod run;
mod table;
mod text;
mod walk;

pub use panics::caught;

use crate::{
    model::Model,
    reply::Reply,
    script::{Call, Group, SLOTS},
};
use panics::caught_with_message;
use rowan::NodeCache;
use table::Table;
use text::Text;
use walk::Walk;

/// A disagreement that no reply can express, in words.
#[derive(Debug, Clone, PartialEq, Eq)]
pub struct Fault(pub String);

/// What the two readings say to one call.
#[derive(Debug)]
pub struct Answer {
    pub rowan: Result<Reply, Fault>,
    pub model: Reply,
}

impl Answer {
    pub fn agree(&self) -> bool {
        self.rowan.as_ref() == Ok(&self.model)
    }
}

/// rowan's node cache and trees, beside a model that is put the same calls.
#[derive(Default)]
pub struct Adapter {
    model: Model,
    cache: NodeCache,
    table: Table,
    walks: [Option<Walk>; SLOTS],
    texts: [Option<Text>; SLOTS],
}

impl Adapter {
    pub fn answer(&mut self, call: &Call) -> Answer {
        let model = self.model.answer(call);
        // A panic that stands for no refusal is a disagreement as well.
        let rowan = caught_with_message(|| self.by_rowan(call, &model))
            .unwrap_or_else(|message| Err(Fault(format!("panic: {message}"))));
        Answer { rowan, model }
    }

    pub fn model(&self) -> &Model {
        &self.model
    }

    fn by_rowan(&mut self, call: &Call, model: &Reply) -> Result<Reply, Fault> {
        match call.group() {
            Group::Store => Ok(self.renew()),
            Group::Run => self.run(call, model),
            Group::Edit => self.edit(call, model),
            Group::Walk => Ok(self.walk(call, model)),
            Group::Text => Ok(self.text(call, model)),
            Group::Query | Group::Record => self.read(call, model),
            Group::Unknown => Ok(Reply::NotOffered),
        }
    }

    /// All that is left is the model, which has its new store already.
    fn renew(&mut self) -> Reply {
        let model = std::mem::take(&mut self.model);
        *self = Adapter {
            model,
            ..Adapter::default()
        };
        Reply::Ok
    }
}

/// Whether the model's reply is the answer because rowan has none to give.
fn is_outside_domain(model: &Reply) -> bool {
    model.refusal().is_some_and(|it| it.outside_domain())
}
