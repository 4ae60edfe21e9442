//! Comparison of the two readings with each other, and of a program with them.

mod matching;
mod minimise;
mod program;
mod tally;

pub use matching::check_output;
pub use minimise::minimise;
pub use program::Program;
pub use tally::Tally;

use crate::{
    adapter::Adapter,
    reply::Reply,
    script::{Call, Group},
};
use std::fmt;

/// The first call of a script to which two replies differ.
#[derive(Debug, Clone, PartialEq, Eq)]
pub struct Difference {
    /// Counted from 0.
    pub call: usize,
    pub what: String,
    /// Each reply with the name of its giver.
    pub replies: [(&'static str, String); 2],
}

impl fmt::Display for Difference {
    fn fmt(&self, f: &mut fmt::Formatter<'_>) -> fmt::Result {
        writeln!(f, "call {}: {}", self.call, self.what)?;
        for (giver, reply) in &self.replies {
            writeln!(f, "{giver}:")?;
            for line in reply.lines() {
                writeln!(f, "    {line}")?;
            }
        }
        Ok(())
    }
}

/// What became of a call in a comparison without a difference.
#[derive(Debug, Clone, Copy, PartialEq, Eq, PartialOrd, Ord)]
pub enum Fate {
    Compared,
    /// The program does not offer it.
    NotOffered,
    /// The program does not offer an edit that was accepted before, so its store is another.
    AfterEdit,
}

/// A call of a script that shows no difference.
#[derive(Debug, Clone, PartialEq, Eq)]
pub struct Checked {
    pub group: Group,
    pub fate: Fate,
    /// The oracle's.
    pub reply: Reply,
}

/// Puts a script to both readings: rowan's replies, or the first difference.
pub fn replies(calls: &[Call]) -> Result<Vec<Reply>, Difference> {
    let mut adapter = Adapter::default();
    calls
        .iter()
        .enumerate()
        .map(|(number, call)| reply(&mut adapter, number, call))
        .collect()
}

/// Replies that no program was asked for.
pub fn all_compared(calls: &[Call], replies: Vec<Reply>) -> Vec<Checked> {
    let checked = |(call, reply): (&Call, Reply)| Checked {
        group: call.group(),
        fate: Fate::Compared,
        reply,
    };
    calls.iter().zip(replies).map(checked).collect()
}

/// rowan's reply to the call of this number, if the model gives the same.
pub fn reply(adapter: &mut Adapter, number: usize, call: &Call) -> Result<Reply, Difference> {
    let answer = adapter.answer(call);
    if answer.agree() {
        return Ok(answer.model);
    }
    let rowan = answer
        .rowan
        .map_or_else(|fault| fault.0, |it| it.to_string());
    Err(Difference {
        call: number,
        what: call.to_string(),
        replies: [("rowan", rowan), ("model", answer.model.to_string())],
    })
}

/// What a script is put to: both readings, or both and a program.
pub enum Subject {
    Readings,
    Program(Program),
}

impl Subject {
    /// The replies, or the first difference. The error is one of running the program.
    pub fn check(&self, calls: &[Call]) -> Result<Result<Vec<Checked>, Difference>, String> {
        match self {
            Subject::Readings => Ok(replies(calls).map(|replies| all_compared(calls, replies))),
            Subject::Program(program) => Ok(check_output(calls, &program.output(calls)?)),
        }
    }

    /// The difference of a shorter script that still has one, and that script.
    pub fn minimised(&self, calls: &[Call]) -> Result<(Vec<Call>, Option<Difference>), String> {
        let differs = |calls: &[Call]| matches!(self.check(calls), Ok(Err(_)));
        let calls = minimise(calls, differs);
        let difference = self.check(&calls)?.err();
        Ok((calls, difference))
    }
}
