//! `oracle replay` and `oracle model`.

use super::{read_file, Failure};
use crate::{
    adapter::Adapter,
    compare::reply,
    model::Model,
    reply::Reply,
    script::{self, Call},
};
use std::io::{self, BufWriter, Write};

/// Prints rowan's replies. Where the model's differs, says so and stops.
pub fn replay(file: &str) -> Result<(), Failure> {
    let mut adapter = Adapter::default();
    let mut difference = None;
    let calls = read_script(file)?;
    let replies = calls.iter().enumerate().map_while(|(number, call)| {
        let reply = reply(&mut adapter, number, call);
        reply.map_err(|it| difference = Some(it)).ok()
    });
    print(replies)?;
    match difference {
        None => Ok(()),
        Some(difference) => {
            eprint!("oracle: the two readings differ at {difference}");
            Err(Failure::Differs)
        }
    }
}

pub fn model(file: &str) -> Result<(), Failure> {
    let mut model = Model::default();
    print(read_script(file)?.iter().map(|call| model.answer(call)))
}

pub fn read_script(file: &str) -> Result<Vec<Call>, Failure> {
    let calls = script::read(&read_file(file)?);
    calls.map_err(|error| Failure::Input(format!("{file}: {error}")))
}

fn print(replies: impl Iterator<Item = Reply>) -> Result<(), Failure> {
    let mut out = BufWriter::new(io::stdout().lock());
    let mut written = Ok(());
    for reply in replies {
        written = written.and_then(|()| writeln!(out, "{reply}"));
    }
    written
        .and_then(|()| out.flush())
        .map_err(|error| Failure::Input(format!("standard output: {error}")))
}
