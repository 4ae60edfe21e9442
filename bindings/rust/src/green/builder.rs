//! rowan's builder. It collects a sheet of events and runs it at the end.

use std::{error::Error, fmt};

use crate::{
    calls::Yields,
    green::{
        sheet::{Code, Sheet},
        GreenElement, GreenNode, Store,
    },
    refusal::Refusal,
    SyntaxKind,
};

/// Registers of a sheet.
const REGISTERS: usize = 64;
/// An event that yields no element.
const NOTHING: u32 = u32::MAX;

/// A place in a builder's list of finished elements: how many there were.
#[derive(Clone, Copy, Debug, PartialEq, Eq)]
pub struct Checkpoint(usize);

/// What a builder was told.
#[derive(Debug, Clone)]
enum Call {
    Token {
        kind: SyntaxKind,
        length: usize,
    },
    StartNode {
        kind: SyntaxKind,
    },
    FinishNode,
    /// `since`: before which call the list last had the checkpoint's length, if it ever had.
    StartNodeAt {
        kind: SyntaxKind,
        since: Option<usize>,
    },
}

/// A builder of a green tree. As rowan's: its methods answer nothing, and what breaks a rule is refused by [`finish`], where
/// rowan would panic.
///
/// ```
/// use notes_tree::{GreenNodeBuilder, Store, SyntaxKind, SyntaxNode};
/// const SIGHT: SyntaxKind = SyntaxKind(1);
/// const TARGET: SyntaxKind = SyntaxKind(2);
/// const WORD: SyntaxKind = SyntaxKind(3);
/// const BLANK: SyntaxKind = SyntaxKind(4);
///
/// let mut builder = GreenNodeBuilder::new();
/// builder.start_node(SIGHT);
/// let checkpoint = builder.checkpoint();
/// builder.token(WORD, "BS");
/// builder.token(BLANK, " ");
/// builder.token(WORD, "CP4");
/// builder.start_node_at(checkpoint, TARGET);
/// builder.finish_node();
/// builder.token(BLANK, "\n");
/// builder.finish_node();
///
/// let mut store = Store::new();
/// let root = builder.finish(&mut store)?;
/// let sight = SyntaxNode::new_root(&store, root)?;
/// assert_eq!(sight.first_child().unwrap().text(), "BS CP4");
/// # Ok::<(), Box<dyn std::error::Error>>(())
/// ```
///
/// [`finish`]: GreenNodeBuilder::finish
#[derive(Debug, Clone)]
pub struct GreenNodeBuilder {
    calls: Vec<Call>,
    text: Vec<u8>,
    /// How many finished elements wait.
    waiting: usize,
    /// That number at the start of each open node.
    parents: Vec<usize>,
    /// By number: before which call it was last the number of waiting elements.
    reached: Vec<usize>,
}

impl Default for GreenNodeBuilder {
    fn default() -> GreenNodeBuilder {
        GreenNodeBuilder::new()
    }
}

impl GreenNodeBuilder {
    /// A builder with nothing open and nothing waiting.
    pub fn new() -> GreenNodeBuilder {
        GreenNodeBuilder { calls: Vec::new(), text: Vec::new(), waiting: 0, parents: Vec::new(), reached: vec![0] }
    }

    /// Adds a token.
    pub fn token(&mut self, kind: SyntaxKind, text: &str) {
        self.text.extend_from_slice(text.as_bytes());
        self.call(Call::Token { kind, length: text.len() }, self.waiting + 1);
    }

    /// Starts a node, which is the open one from then on.
    pub fn start_node(&mut self, kind: SyntaxKind) {
        self.parents.push(self.waiting);
        self.call(Call::StartNode { kind }, self.waiting);
    }

    /// Finishes the open node: what has come since its start are its children.
    pub fn finish_node(&mut self) {
        // With nothing open the run ends here, refused.
        let first_child = self.parents.pop().unwrap_or(self.waiting);
        self.call(Call::FinishNode, first_child + 1);
    }

    /// The present place, for a node that may be started there later on.
    pub fn checkpoint(&self) -> Checkpoint {
        Checkpoint(self.waiting)
    }

    /// Starts a node at a checkpoint: what has come since is inside it.
    pub fn start_node_at(&mut self, checkpoint: Checkpoint, kind: SyntaxKind) {
        let Checkpoint(length) = checkpoint;
        self.parents.push(length);
        let since = self.reached.get(length).copied();
        self.call(Call::StartNodeAt { kind, since }, self.waiting);
    }

    fn call(&mut self, call: Call, waiting: usize) {
        self.calls.push(call);
        self.waiting = waiting;
        // The list grows by one at a time, so every number up to this one has been reached before.
        self.reached.resize(self.reached.len().max(waiting + 1), 0);
        self.reached[waiting] = self.calls.len();
    }

    /// Runs the events on a store, and answers the root.
    ///
    /// A refusal says which call it was; what the calls before it made stays in the store.
    pub fn finish(self, store: &mut Store) -> Result<GreenNode, BuildError> {
        self.run(store).root
    }

    /// As [`finish`](GreenNodeBuilder::finish), and says which element each call yielded.
    pub fn run(self, store: &mut Store) -> Run {
        let sheet = match self.sheet() {
            Ok(sheet) => sheet,
            Err(error) => return Run { yields: Vec::new(), root: Err(error) },
        };
        let mut yields: Yields = [NOTHING; 4096];
        let ended = store.places.run(&sheet.to_bytes(), sheet.text(), &mut yields);
        let accepted = match ended {
            Ok(_) => sheet.events(),
            Err((_, event)) => event,
        };
        let root = ended.map(|number| GreenNode::named(store, number)).map_err(|(refusal, event)| {
            let is_call = |code: &u32| *code != Code::Checkpoint as u32;
            BuildError::Refused { refusal, event, call: sheet.codes().take(event).filter(is_call).count() }
        });
        let yields = sheet.codes().zip(yields).take(accepted);
        let yields = yields.filter(|(code, _)| *code != Code::Checkpoint as u32);
        let named = |(code, number)| (number != NOTHING).then(|| store.named(number, code == Code::FinishNode as u32));
        Run { yields: yields.map(named).collect(), root }
    }

    /// The events so far as a sheet.
    ///
    /// A checkpoint is set in a register just before the list of waiting elements outgrows it, and the register is free again
    /// after the last start there. One that nothing is started at takes no event.
    pub fn sheet(&self) -> Result<Sheet, BuildError> {
        let mut last_use = vec![None; self.calls.len()];
        for (i, call) in self.calls.iter().enumerate() {
            if let Call::StartNodeAt { since: Some(since), .. } = call {
                last_use[*since] = Some(i);
            }
        }
        let mut registers = Registers::default();
        let mut set_at = vec![0; self.calls.len()];
        let mut sheet = Sheet::new(self.text.clone());
        for (i, call) in self.calls.iter().enumerate() {
            if let Some(until) = last_use[i] {
                set_at[i] = registers.take(i, until)?;
                sheet.push(Code::Checkpoint, 0, set_at[i]);
            }
            match call {
                Call::Token { kind, length } => sheet.push(Code::Token, kind.0, *length as u32),
                Call::StartNode { kind } => sheet.push(Code::StartNode, kind.0, 0),
                Call::FinishNode => sheet.push(Code::FinishNode, 0, 0),
                Call::StartNodeAt { kind, since: Some(since) } => sheet.push(Code::StartNodeAt, kind.0, set_at[*since]),
                Call::StartNodeAt { kind, since: None } => sheet.push(Code::StartNodeAt, kind.0, registers.unset()?),
            }
        }
        Ok(sheet)
    }
}

/// Up to which call each register is needed, if it is set.
struct Registers([Option<usize>; REGISTERS]);

impl Default for Registers {
    fn default() -> Registers {
        Registers([None; REGISTERS])
    }
}

impl Registers {
    /// The lowest register that is not needed at call `from`, now needed up to call `until`.
    fn take(&mut self, from: usize, until: usize) -> Result<u32, BuildError> {
        let free = self.0.iter().position(|needed| needed.is_none_or(|last| last < from));
        let register = free.ok_or(BuildError::TooManyCheckpoints)?;
        self.0[register] = Some(until);
        Ok(register as u32)
    }

    /// A register that was never set: a start there is refused, as that of a checkpoint past all that ever waited.
    fn unset(&self) -> Result<u32, BuildError> {
        let unset = self.0.iter().position(Option::is_none);
        unset.map(|register| register as u32).ok_or(BuildError::TooManyCheckpoints)
    }
}

/// What the run of a builder's events gave.
#[derive(Debug, Clone)]
#[non_exhaustive]
pub struct Run {
    /// The element that each accepted call yielded: a token, a finished node, or none by a start. Calls are counted as in
    /// [`BuildError::Refused`].
    pub yields: Vec<Option<GreenElement>>,
    /// The root, or what was refused.
    pub root: Result<GreenNode, BuildError>,
}

/// Why [`GreenNodeBuilder::finish`] made no tree.
#[derive(Debug, Clone, Copy, PartialEq, Eq)]
#[non_exhaustive]
pub enum BuildError {
    /// An event was refused; those before it stay.
    Refused {
        /// Why.
        refusal: Refusal,
        /// The event's ordinal in the sheet, from 0; the number of events for the end.
        event: usize,
        /// Which call of the builder that is, from 0: `token`, `start_node`, `finish_node` and `start_node_at` count, and the
        /// end is one more.
        call: usize,
    },
    /// More than 64 checkpoints of different lengths are needed at once. No event was run.
    TooManyCheckpoints,
}

impl BuildError {
    /// The refusal, if an event was refused.
    pub fn refusal(&self) -> Option<Refusal> {
        match self {
            BuildError::Refused { refusal, .. } => Some(*refusal),
            BuildError::TooManyCheckpoints => None,
        }
    }
}

impl fmt::Display for BuildError {
    fn fmt(&self, f: &mut fmt::Formatter<'_>) -> fmt::Result {
        match self {
            BuildError::Refused { refusal, event, call } => {
                write!(f, "{refusal}, at event {event} of the sheet, call {call} of the builder")
            }
            BuildError::TooManyCheckpoints => f.write_str("more than 64 checkpoints are needed at once"),
        }
    }
}

impl Error for BuildError {
    fn source(&self) -> Option<&(dyn Error + 'static)> {
        match self {
            BuildError::Refused { refusal, .. } => Some(refusal),
            BuildError::TooManyCheckpoints => None,
        }
    }
}
