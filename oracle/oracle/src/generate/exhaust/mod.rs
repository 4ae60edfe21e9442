//! All sheets of few events over a small alphabet, and all calls of a sort about a small tree.

mod edits;
mod queries;
pub mod texts;
pub mod walks;

pub use queries::all_queries;

use super::recorder::{Recorder, MOST};
use crate::{
    model::Model,
    reply::Reply,
    script::{Call, Path},
    sheet::SheetWriter,
};

/// What an event can be: tokens of two kinds, an empty one, nodes of two kinds with 0 among them.
const LETTERS: usize = 8;

fn letter(writer: SheetWriter, letter: usize) -> SheetWriter {
    match letter {
        0 => writer.token(2, b"a"),
        1 => writer.token(3, b"b"),
        2 => writer.token(2, b""),
        3 => writer.start(0),
        4 => writer.start(1),
        5 => writer.finish(),
        6 => writer.checkpoint(0),
        _ => writer.start_at(1, 0),
    }
}

/// The count of sheets of up to so many events.
pub fn sheet_count(most_events: usize) -> usize {
    (0..=most_events).map(|it| LETTERS.pow(it as u32)).sum()
}

/// The runs of all sheets of up to so many events.
pub fn all_sheets(most_events: usize) -> impl Iterator<Item = Call> {
    (0..=most_events).flat_map(|length| {
        let count = LETTERS.pow(length as u32);
        (0..count).map(move |number| sheet_run(number, length))
    })
}

/// The run of the sheet whose letters are the digits of a number.
fn sheet_run(number: usize, length: usize) -> Call {
    let digits = (0..length).map(|place| number / LETTERS.pow(place as u32) % LETTERS);
    let (sheet, text) = digits.fold(SheetWriter::default(), letter).files();
    let each = true;
    Call::Run { each, sheet, text }
}

/// A run in an empty store, and again on what it left, where it finds all that is sharable.
pub fn run_twice(run: &Call) -> Vec<Call> {
    vec![empty_store(), run.clone(), run.clone()]
}

fn empty_store() -> Call {
    let [records, places, bytes] = MOST;
    Call::Store {
        records,
        places,
        bytes,
    }
}

/// What a tree can be asked, each sort on its own.
#[derive(Debug, Clone, Copy, PartialEq, Eq)]
pub enum Topic {
    Queries,
    Walks,
    Texts,
    Edits,
}

impl Topic {
    pub const ALL: [Topic; 4] = [Topic::Queries, Topic::Walks, Topic::Texts, Topic::Edits];

    pub fn name(self) -> &'static str {
        match self {
            Topic::Queries => "queries",
            Topic::Walks => "walks",
            Topic::Texts => "texts",
            Topic::Edits => "edits",
        }
    }
}

/// All calls of a topic about the tree that a run makes, in parts that each start with a store;
/// none if it makes no tree.
pub fn tree_calls(run: &Call, topic: Topic) -> Option<Vec<Vec<Call>>> {
    let tree = Tree::of(run)?;
    Some(match topic {
        Topic::Queries => vec![queries::calls(run)],
        Topic::Walks => walks::calls(&tree),
        Topic::Texts => texts::calls(&tree),
        Topic::Edits => edits::calls(&tree),
    })
}

/// A run that makes a tree in an empty store.
struct Tree<'a> {
    run: &'a Call,
    model: Model,
    paths: Vec<Path>,
}

impl Tree<'_> {
    fn of(run: &Call) -> Option<Tree<'_>> {
        let mut model = Model::default();
        let Reply::Run(reply) = model.answer(run) else {
            return None;
        };
        let paths = all_paths(&model, reply.outcome.ok()?);
        Some(Tree { run, model, paths })
    }

    /// A part that begins with the tree in an empty store.
    fn recorder(&self) -> Recorder {
        let mut recorder = Recorder::default();
        recorder.put(empty_store());
        recorder.put(self.run.clone());
        recorder
    }
}

/// The paths of all elements, and for each one that leads nowhere.
pub fn all_paths(model: &Model, root: u32) -> Vec<Path> {
    let mut paths = Vec::new();
    let indexes = Vec::new();
    collect_paths(model, Path { root, indexes }, &mut paths);
    paths
}

fn collect_paths(model: &Model, path: Path, paths: &mut Vec<Path>) {
    let number = model.number_at(&path);
    let children = number.and_then(|it| model.children(it));
    let count = children.unwrap_or_default().len() as u32;
    for index in 0..=count {
        let mut child = path.clone();
        child.indexes.push(index);
        if index < count {
            collect_paths(model, child, paths);
        } else {
            paths.push(child);
        }
    }
    paths.push(path);
}
