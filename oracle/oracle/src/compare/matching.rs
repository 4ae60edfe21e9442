//! A program's output against the oracle's replies.

use super::{program::ENDED_WITH, reply, Checked, Difference, Fate};
use crate::{
    adapter::Adapter,
    reply::Reply,
    script::{Call, Group, Path},
};
use std::str::SplitTerminator;

/// In place of a line that is not there.
const NO_MORE: &str = "(no more output)";

/// The oracle's replies, or the first difference between them and a program's output. A reply of
/// `-` is passed over, and after that of an accepted edit all replies up to the next store. The
/// path of a where-is is free, so it is followed to its end.
pub fn check_output(calls: &[Call], output: &str) -> Result<Vec<Checked>, Difference> {
    let mut adapter = Adapter::default();
    let mut lines = output.split_terminator('\n');
    let mut all_checked = Vec::with_capacity(calls.len());
    let mut is_other_store = false;
    for (number, call) in calls.iter().enumerate() {
        let reply = reply(&mut adapter, number, call)?;
        is_other_store &= call.group() != Group::Store;
        let fate = match is_other_store {
            true => pass_over(call, &mut lines),
            false => match_reply(&adapter, call, &reply, &mut lines),
        };
        let fate = fate.map_err(|got| difference(number, call, &reply, got))?;
        is_other_store |= fate == Fate::NotOffered && is_accepted_edit(&reply);
        all_checked.push(Checked {
            group: call.group(),
            fate,
            reply,
        });
    }
    let beyond = |what: &str, got: String| Difference {
        call: calls.len(),
        what: what.into(),
        replies: [("oracle", String::new()), ("program", got)],
    };
    match lines.next() {
        Some(line) => Err(beyond("output after the last reply", line.into())),
        None if !output.is_empty() && !output.ends_with('\n') => {
            Err(beyond("the last line is not ended", String::new()))
        }
        None => Ok(all_checked),
    }
}

fn difference(number: usize, call: &Call, expected: &Reply, got: String) -> Difference {
    Difference {
        call: number,
        what: call.to_string(),
        replies: [("oracle", expected.to_string()), ("program", got)],
    }
}

fn is_accepted_edit(reply: &Reply) -> bool {
    matches!(reply, Reply::Edited { outcome: Ok(_), .. })
}

/// Takes the lines of one reply, whatever they say: a run's events have a line each.
fn pass_over(call: &Call, lines: &mut SplitTerminator<char>) -> Result<Fate, String> {
    let is_event = |it: &&str| call.group() == Group::Run && it.starts_with("e ");
    match lines.find(|it| !is_event(it)) {
        Some(line) if line.starts_with(ENDED_WITH) => Err(line.into()),
        Some(_) => Ok(Fate::AfterEdit),
        None => Err(NO_MORE.into()),
    }
}

/// Takes the lines of one reply; the error is what was got in place of it.
fn match_reply(
    adapter: &Adapter,
    call: &Call,
    expected: &Reply,
    lines: &mut SplitTerminator<char>,
) -> Result<Fate, String> {
    let mut got = String::new();
    for (place, wanted) in expected.to_string().split('\n').enumerate() {
        let Some(line) = lines.next() else {
            return Err(got + NO_MORE);
        };
        if place == 0 && line == "-" {
            return Ok(Fate::NotOffered);
        }
        got = got + line + "\n";
        if line != wanted && !is_other_occurrence(adapter, call, expected, line) {
            return Err(got);
        }
    }
    Ok(Fate::Compared)
}

/// Whether a line answers a where-is with another path to the same element.
fn is_other_occurrence(adapter: &Adapter, call: &Call, expected: &Reply, line: &str) -> bool {
    let (Call::WhereIs { number, root }, Reply::Found(_)) = (call, expected) else {
        return false;
    };
    let Some(indexes) = found_indexes(line) else {
        return false;
    };
    let path = Path {
        root: *root,
        indexes,
    };
    adapter.model().number_at(&path) == Some(*number)
}

/// The indexes of a line `found d i1 .. id`, if it is written exactly so.
fn found_indexes(line: &str) -> Option<Vec<u32>> {
    let words = line.strip_prefix("found ")?.split(' ');
    let numbers: Vec<u32> = words.map(|it| it.parse().ok()).collect::<Option<_>>()?;
    let indexes = numbers.get(1..)?.to_vec();
    (Reply::Found(indexes.clone()).to_string() == line).then_some(indexes)
}
