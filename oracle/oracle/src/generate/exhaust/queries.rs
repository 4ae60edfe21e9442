//! All queries of a small tree.

use super::{all_paths, run_twice};
use crate::{
    model::Model,
    reply::Reply,
    script::{Call, Path, Step},
};

/// The queries of the tree that a run makes a second time.
pub fn calls(run: &Call) -> Vec<Call> {
    let mut calls = run_twice(run);
    let mut model = Model::default();
    let last = calls.iter().map(|it| model.answer(it)).last();
    if let Some(Reply::Run(reply)) = last {
        let root = reply
            .outcome
            .expect("a run that makes a tree makes it again");
        calls.extend(all_queries(&model, root));
    }
    calls
}

/// All queries of the tree of a root, at all paths and some that lead nowhere: all offsets and
/// ranges and some past the end, all pairs of paths; and what the store keeps of each record.
pub fn all_queries(model: &Model, root: u32) -> Vec<Call> {
    let paths = all_paths(model, root);
    let past_end = model.length(root).unwrap_or(0) + 1;
    let mut calls = Vec::new();
    for path in &paths {
        at_path(path, past_end, &mut calls);
        calls.extend(paths.iter().map(|right| Call::SameElement {
            left: path.clone(),
            right: right.clone(),
        }));
    }
    for number in 0..=model.counts().records as u32 {
        calls.push(Call::Element { number });
        calls.push(Call::Mark { number });
        calls.push(Call::WhereIs { number, root });
    }
    calls
}

#[rustfmt::skip]
fn at_path(path: &Path, past_end: u32, calls: &mut Vec<Call>) {
    for step in Step::ALL {
        calls.push(Call::Step { step, path: path.clone() });
    }
    for start in 0..=past_end {
        calls.push(Call::TokenAtOffset { offset: start, path: path.clone() });
        for end in 0..=past_end {
            calls.push(Call::ChildOrTokenAtRange { start, end, path: path.clone() });
            calls.push(Call::CoveringElement { start, end, path: path.clone() });
        }
    }
}
