//! Runs of sheets by rowan's builder over one node cache.
//!
//! The builder shows nothing of what waits in it, so the elements are looked at when the run is
//! over. Every event that yields an element appends it to what waits or puts it over the last of
//! it, so the elements in the order of their events are the waiting trees in postorder.

use super::{caught, table::Green, Adapter, Fault};
use crate::{
    reply::{Counts, Maker, Refusal, Reply, Run},
    script::Call,
    sheet::{Event, Sheet},
};
use rowan::{Checkpoint, GreenNode, GreenNodeBuilder, NodeCache, NodeOrToken, SyntaxKind};

/// rowan's cache keeps no node of more than three children.
const PADS: usize = 4;

impl Adapter {
    pub(super) fn run(&mut self, call: &Call, model: &Reply) -> Result<Reply, Fault> {
        let (Call::Run { each, sheet, text }, Reply::Run(expected)) = (call, model) else {
            return Err(Fault("the model answers no run".into()));
        };
        self.run_sheet(sheet, text, *each, expected).map(Reply::Run)
    }

    fn run_sheet(
        &mut self,
        sheet: &[u8],
        text: &[u8],
        each: bool,
        model: &Run,
    ) -> Result<Run, Fault> {
        let before = self.table.counts();
        let events = events_in_domain(sheet, model);
        let run = drive(&mut self.cache, &events, text, model)?;
        let mut yields = Vec::new();
        for tree in &run.forest {
            self.admit_in_postorder(tree, &mut yields)?;
        }
        let outcome = match (run.outcome, yields.last()) {
            (Ok(()), Some((root, _))) => Ok(*root),
            (Ok(()), None) => return Err(Fault("rowan finishes a run of no element".into())),
            (Err(refused), _) => Err(refused),
        };
        Ok(Run {
            events: with_yields(&events[..run.accepted], before, yields)?,
            outcome,
            store: self.table.counts(),
            each,
        })
    }

    /// Numbers the elements of a tree, children first, with the store's counts after each.
    fn admit_in_postorder(
        &mut self,
        tree: &Green,
        yields: &mut Vec<(u32, Counts)>,
    ) -> Result<(), Fault> {
        if let NodeOrToken::Node(node) = tree {
            for child in owned_children(node) {
                self.admit_in_postorder(&child, yields)?;
            }
        }
        let number = self.table.admit(tree.clone(), Maker::Event)?;
        self.check_children(number)?;
        yields.push((number, self.table.counts()));
        Ok(())
    }

    /// A record of rowan must stand over the same records as the model's.
    pub(super) fn check_children(&self, number: u32) -> Result<(), Fault> {
        let rowan = self.table.children(number);
        let model = self.model.children(number).unwrap_or_default();
        if rowan == model {
            return Ok(());
        }
        Err(Fault(format!(
            "record {number} stands over {rowan:?} in rowan and over {model:?} in the model"
        )))
    }
}

/// The events that rowan is put: those before the first one that is refused outside the domain.
fn events_in_domain(sheet: &[u8], model: &Run) -> Vec<Event> {
    let Some(sheet) = Sheet::read(sheet) else {
        return Vec::new();
    };
    let count = match model.outcome {
        Err((refusal, ordinal)) if refusal.outside_domain() => ordinal,
        _ => sheet.events.len(),
    };
    let events = sheet.events[..count].iter();
    events.map_while(|it| Event::of_words(*it)).collect()
}

/// What each accepted event yields, with the counts after it.
fn with_yields(
    events: &[Event],
    before: Counts,
    yields: Vec<(u32, Counts)>,
) -> Result<Vec<(Option<u32>, Counts)>, Fault> {
    let mut yields = yields.into_iter();
    let mut store = before;
    let mut shown = Vec::with_capacity(events.len());
    for event in events {
        let mut yielded = None;
        if matches!(event, Event::Token { .. } | Event::Finish) {
            let next = yields.next();
            let (number, after) = next.ok_or_else(|| Fault("rowan has lost an element".into()))?;
            (yielded, store) = (Some(number), after);
        }
        shown.push((yielded, store));
    }
    match yields.next() {
        None => Ok(shown),
        Some(_) => Err(Fault("rowan has an element of no event".into())),
    }
}

fn owned_children(node: &GreenNode) -> impl Iterator<Item = Green> + '_ {
    node.children().map(|it| match it {
        NodeOrToken::Node(node) => NodeOrToken::Node(node.to_owned()),
        NodeOrToken::Token(token) => NodeOrToken::Token(token.to_owned()),
    })
}

/// How a run ended: the count of accepted events, the refusal, and all that was made.
struct Ended {
    accepted: usize,
    outcome: Result<(), (Refusal, usize)>,
    forest: Vec<Green>,
}

/// An element that is in the cache already, to be added again.
enum Pad<'a> {
    Token(u16, &'a str),
    ChildlessNode(u16),
}

fn drive(
    cache: &mut NodeCache,
    events: &[Event],
    text: &[u8],
    model: &Run,
) -> Result<Ended, Fault> {
    let mut run = BuilderRun::new(cache, text);
    let refused = run.events(events);
    let accepted = refused.map_or(events.len(), |it| it.1);
    let ended = |outcome, forest| {
        Ok(Ended {
            accepted,
            outcome,
            forest,
        })
    };
    match (refused, model.outcome) {
        (Some(refused), _) => ended(Err(refused), run.reveal()),
        (None, Ok(_)) => match run.finish() {
            Some(root) => ended(Ok(()), vec![root.into()]),
            None => Err(Fault("rowan panics in finish".into())),
        },
        (None, Err(refused)) if refused.0.outside_domain() => ended(Err(refused), run.reveal()),
        (None, Err((Refusal::NO_SINGLE_ROOT, _))) => {
            // `finish` drops what waits when it panics, so it is put to a second run.
            let forest = run.reveal();
            let mut again = BuilderRun::new(cache, text);
            match (again.events(events), again.finish()) {
                (None, None) => ended(Err((Refusal::NO_SINGLE_ROOT, accepted)), forest),
                _ => Err(Fault("rowan accepts finish".into())),
            }
        }
        (None, Err((_, ordinal))) => Err(Fault(format!("rowan accepts event {ordinal}"))),
    }
}

struct BuilderRun<'a> {
    builder: GreenNodeBuilder<'a>,
    text_left: &'a [u8],
    registers: [Option<Checkpoint>; 64],
    bottom: Checkpoint,
    /// The kinds of the open nodes.
    parents: Vec<u16>,
    /// The first element that was yielded: a token, or a node with nothing to stand over.
    pad: Option<Pad<'a>>,
}

impl<'a> BuilderRun<'a> {
    fn new(cache: &'a mut NodeCache, text: &'a [u8]) -> BuilderRun<'a> {
        let builder = GreenNodeBuilder::with_cache(cache);
        BuilderRun {
            bottom: builder.checkpoint(),
            builder,
            text_left: text,
            registers: [None; 64],
            parents: Vec::new(),
            pad: None,
        }
    }

    /// Runs the events up to the first refused one, and says which that is.
    fn events(&mut self, events: &[Event]) -> Option<(Refusal, usize)> {
        events
            .iter()
            .enumerate()
            .find_map(|(ordinal, event)| Some((self.event(*event).err()?, ordinal)))
    }

    fn event(&mut self, event: Event) -> Result<(), Refusal> {
        match event {
            Event::Token { kind, length } => self.token(kind, length as usize),
            Event::Start { kind } => {
                self.builder.start_node(SyntaxKind(kind));
                self.parents.push(kind);
            }
            Event::Finish => {
                caught(|| self.builder.finish_node()).ok_or(Refusal::NOTHING_OPEN)?;
                let kind = self.parents.pop().ok_or(Refusal::NOTHING_OPEN)?;
                self.pad.get_or_insert(Pad::ChildlessNode(kind));
            }
            Event::Checkpoint { register } => {
                self.registers[register as usize] = Some(self.builder.checkpoint());
            }
            Event::StartAt { kind, register } => {
                // rowan has no checkpoint that was never taken.
                let checkpoint =
                    self.registers[register as usize].ok_or(Refusal::UNFIT_CHECKPOINT)?;
                caught(|| self.builder.start_node_at(checkpoint, SyntaxKind(kind)))
                    .ok_or(Refusal::UNFIT_CHECKPOINT)?;
                self.parents.push(kind);
            }
        }
        Ok(())
    }

    fn token(&mut self, kind: u16, length: usize) {
        let (text, left) = self.text_left.split_at(length);
        let text = std::str::from_utf8(text).expect("the model refuses bytes over 127");
        self.builder.token(SyntaxKind(kind), text);
        self.text_left = left;
        self.pad.get_or_insert(Pad::Token(kind, text));
    }

    /// The root; none if rowan panics.
    fn finish(self) -> Option<GreenNode> {
        caught(|| self.builder.finish())
    }

    /// All that waits, in order. Open nodes are closed and the whole is put under one root, each
    /// over so many elements that rowan's cache takes none of them in: the elements added are in
    /// it already, so the cache is left as it was.
    fn reveal(mut self) -> Vec<Green> {
        if self.pad.is_none() {
            return Vec::new();
        }
        let depth = self.parents.len();
        for _ in 0..depth {
            self.add_pads();
            self.builder.finish_node();
        }
        self.builder.start_node_at(self.bottom, SyntaxKind(0));
        self.add_pads();
        self.builder.finish_node();
        unpadded(&self.builder.finish(), depth)
    }

    fn add_pads(&mut self) {
        for _ in 0..PADS {
            match self.pad {
                Some(Pad::Token(kind, text)) => self.builder.token(SyntaxKind(kind), text),
                Some(Pad::ChildlessNode(kind)) => {
                    self.builder.start_node(SyntaxKind(kind));
                    self.builder.finish_node();
                }
                None => {}
            }
        }
    }
}

/// The children before the pads, those of the nodes closed inside last among them.
fn unpadded(node: &GreenNode, depth: usize) -> Vec<Green> {
    let mut waiting: Vec<Green> = owned_children(node).collect();
    waiting.truncate(waiting.len() - PADS);
    if depth > 0 {
        if let Some(NodeOrToken::Node(closed)) = waiting.pop() {
            waiting.extend(unpadded(&closed, depth - 1));
        }
    }
    waiting
}
