//! `oracle list`: document 01's program `list`, by rowan.

use super::{read_file, Failure};
use crate::{
    adapter::Adapter,
    compare::reply,
    reply::{Refusal, Reply},
    script::{Call, Path},
};

pub fn list(sheet: &str, text: &str) -> Result<(), Failure> {
    let listing = listing(read_file(sheet)?, read_file(text)?)?;
    print!("{listing}");
    Ok(())
}

/// The lines for a sheet run in an empty store.
fn listing(sheet: Vec<u8>, text: Vec<u8>) -> Result<String, Failure> {
    let mut adapter = Adapter::default();
    let each = false;
    let run = ask(&mut adapter, &Call::Run { each, sheet, text })?;
    let Reply::Run(run) = run else {
        return Ok(String::new());
    };
    let root = match run.outcome {
        Ok(root) => root,
        Err((Refusal(number), ordinal)) => {
            return Ok(format!("refused {number} event {ordinal}\n"));
        }
    };
    let mut lines = String::new();
    if let Reply::Measured { size, length, .. } =
        ask(&mut adapter, &Call::Element { number: root })?
    {
        let records = run.store.records;
        lines += &format!("tree records {records} size {size} length {length}\n");
    }
    let path = Path {
        root,
        indexes: Vec::new(),
    };
    let (slot, tokens) = (0, true);
    ask(&mut adapter, &Call::WalkBegin { slot, tokens, path })?;
    loop {
        let (letter, element) = match ask(&mut adapter, &Call::WalkNext { slot })? {
            Reply::Enter(element) => ('E', element),
            Reply::Leave(element) => ('L', element),
            _ => return Ok(lines),
        };
        let (kind, start, end) = (element.kind, element.start, element.end);
        lines += &format!("{letter} {kind} {start} {end}\n");
    }
}

fn ask(adapter: &mut Adapter, call: &Call) -> Result<Reply, Failure> {
    reply(adapter, 0, call).map_err(|difference| {
        eprint!("oracle: the two readings differ at {difference}");
        Failure::Differs
    })
}
