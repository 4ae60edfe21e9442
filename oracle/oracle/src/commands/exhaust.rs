//! `oracle exhaust`.

use super::{
    compare::Comparison,
    number,
    options::{take_flag, take_value},
    progress::Progress,
    Failure,
};
use crate::{
    generate::{all_sheets, run_twice, sheet_count, tree_calls, Topic},
    script::{size, Call, MAX_BYTES},
};

/// More would take hours.
const MAX_EVENTS: usize = 9;

pub fn exhaust(events: &str, words: &[&str]) -> Result<(), Failure> {
    let events: usize = number(events)?;
    let mut words = words.to_vec();
    let topics = take_topics(&mut words);
    let program = take_value(&mut words, "--program")?;
    let save = take_value(&mut words, "--save")?;
    if !words.is_empty() || events > MAX_EVENTS {
        return Err(Failure::Use);
    }
    let mut batch = Batch {
        comparison: Comparison::new(program, save)?,
        calls: Vec::new(),
        bytes: 0,
    };
    let sheets = sheet_count(events);
    let mut trees = 0;
    let mut progress = Progress::new(sheets, "sheets");
    for run in all_sheets(events) {
        trees += usize::from(batch.sheet(&run, &topics)?);
        progress.advance();
    }
    batch.flush()?;
    let asked = match topics.is_empty() {
        true => String::new(),
        false => format!(", {trees} trees with all {}", names(&topics)),
    };
    println!(
        "no difference: {sheets} sheets{asked}; {}",
        batch.comparison.tally
    );
    Ok(())
}

/// The topics that stand among the words as `--` and their name.
fn take_topics(words: &mut Vec<&str>) -> Vec<Topic> {
    let mut is_there = |topic: &Topic| take_flag(words, &format!("--{}", topic.name()));
    Topic::ALL.into_iter().filter(|it| is_there(it)).collect()
}

fn names(topics: &[Topic]) -> String {
    let names: Vec<&str> = topics.iter().map(|it| it.name()).collect();
    names.join(", ")
}

/// Calls of many sheets in one script, which saves runs of a program.
struct Batch<'a> {
    comparison: Comparison<'a>,
    calls: Vec<Call>,
    bytes: usize,
}

impl Batch<'_> {
    /// Adds all calls about a sheet; whether it makes a tree that is asked about.
    fn sheet(&mut self, run: &Call, topics: &[Topic]) -> Result<bool, Failure> {
        // Queries are put after the two runs that are made of any sheet.
        let mut is_run = false;
        let mut is_tree = false;
        for topic in topics {
            let Some(parts) = tree_calls(run, *topic) else {
                break;
            };
            is_tree = true;
            is_run |= *topic == Topic::Queries;
            parts.into_iter().try_for_each(|it| self.add(it))?;
        }
        if !is_run {
            self.add(run_twice(run))?;
        }
        Ok(is_tree)
    }

    fn add(&mut self, calls: Vec<Call>) -> Result<(), Failure> {
        let bytes = calls.iter().map(size).sum::<usize>();
        if self.bytes + bytes > MAX_BYTES {
            self.flush()?;
        }
        self.bytes += bytes;
        self.calls.extend(calls);
        Ok(())
    }

    fn flush(&mut self) -> Result<(), Failure> {
        self.comparison.check(&self.calls, "short sheets")?;
        self.calls.clear();
        self.bytes = 0;
        Ok(())
    }
}
