//! Both walks, fed by the call that gives many events at once.

use std::{fmt, iter};

use crate::{
    calls::{Event, Found, Walk},
    cursor::{Handle, SyntaxElement, SyntaxNode, SyntaxToken},
    indexes::{Indexes, Place},
    refusal::Refusal,
    utility_types::{NodeOrToken, WalkEvent},
};

/// The most events that one call gives.
const MANY: usize = 32;

/// An event.
struct Step<'s> {
    is_leave: bool,
    is_node: bool,
    handle: Handle<'s>,
}

impl<'s> Step<'s> {
    #[inline]
    fn element(self) -> SyntaxElement<'s> {
        match self.is_node {
            true => NodeOrToken::Node(SyntaxNode(self.handle)),
            false => NodeOrToken::Token(SyntaxToken(self.handle)),
        }
    }
}

/// A walk and the events that it has given ahead of its reader.
#[derive(Clone)]
struct Ahead<'s> {
    /// The node that is walked.
    start: Handle<'s>,
    /// The path of the last event's element, which the next one's is a step away from.
    path: Place,
    /// The walk before those events, and after them.
    before: Walk,
    after: Walk,
    events: [Event; MANY],
    /// How many of them there are, and how many the reader has taken.
    given: usize,
    taken: usize,
    /// How many the next call may give. A skip throws away what was given ahead, so after one it is few.
    at_most: usize,
    has_ended: bool,
}

impl<'s> Ahead<'s> {
    fn new(start: &SyntaxNode<'s>, with_tokens: bool) -> Ahead<'s> {
        let start = start.0.clone();
        let walk = Walk::new(&start.store.places, start.root, with_tokens, &start.at.path);
        let walk = walk.expect("a handle names a node of its store");
        Ahead {
            path: start.at.path.to_place(),
            start,
            before: walk.clone(),
            after: walk,
            events: [[0; 7]; MANY],
            given: 0,
            taken: 0,
            at_most: MANY,
            has_ended: false,
        }
    }

    /// Moves the walk on from `before`, by as many events as there are asked for.
    fn walk_on(&mut self, count: usize) {
        self.after = self.before.clone();
        let given = self.after.next_many(&self.start.store.places, &mut self.events[..count]);
        self.given = given.expect("a walk's store does not change under it");
        self.has_ended = self.given < count;
    }

    /// Asks for events; none may be left.
    fn refill(&mut self) {
        if !self.has_ended {
            self.before = self.after.clone();
            self.taken = 0;
            self.walk_on(self.at_most);
            self.at_most = MANY.min(self.at_most * 2);
        }
    }

    /// The next event's words. None at the walk's end.
    #[inline]
    fn event(&mut self) -> Option<Event> {
        if self.taken == self.given {
            self.refill();
        }
        let event = *self.events[..self.given].get(self.taken)?;
        self.taken += 1;
        Some(event)
    }

    /// The element of an event that comes next.
    #[inline]
    fn arrive(&mut self, [_, _, kind, depth, index, start, end]: Event) -> Handle<'s> {
        let depth = depth as usize;
        if let Some(last) = depth.checked_sub(1) {
            self.path[last] = index as u32;
        }
        let path = Indexes::new(&self.path[..depth]);
        self.start.to(Found::new(&[start as usize, end as usize, depth, kind as usize], path))
    }

    /// The next event. None at the walk's end.
    #[inline]
    fn advance(&mut self) -> Option<Step<'s>> {
        let event = self.event()?;
        let [is_leave, is_node, ..] = event;
        Some(Step { is_leave: is_leave == 1, is_node: is_node == 1, handle: self.arrive(event) })
    }

    /// The next element that is entered. No handle is made of one that is left.
    #[inline]
    fn enter(&mut self) -> Option<Step<'s>> {
        loop {
            let event = self.event()?;
            let [is_leave, is_node, ..] = event;
            if is_leave == 0 {
                return Some(Step { is_leave: false, is_node: is_node == 1, handle: self.arrive(event) });
            }
        }
    }

    /// Takes back what was given ahead, and skips where the reader is.
    fn skip_subtree(&mut self) -> Result<(), Refusal> {
        let taken = self.taken;
        if taken < self.given {
            self.walk_on(taken);
        }
        self.after.skip_subtree()?;
        self.at_most = 2;
        Ok(())
    }
}

/// The walk of a node and the nodes below it: an iterator.
///
/// ```
/// use notes_tree::{GreenNodeBuilder, Store, SyntaxKind, SyntaxNode, WalkEvent};
///
/// let mut store = Store::new();
/// let mut builder = GreenNodeBuilder::new();
/// builder.start_node(SyntaxKind(1));
/// builder.start_node(SyntaxKind(2));
/// builder.start_node(SyntaxKind(3));
/// builder.finish_node();
/// builder.finish_node();
/// builder.start_node(SyntaxKind(4));
/// builder.finish_node();
/// builder.finish_node();
/// let root = builder.finish(&mut store)?;
///
/// let mut walk = SyntaxNode::new_root(&store, root)?.preorder();
/// let mut entered = Vec::new();
/// while let Some(event) = walk.next() {
///     if let WalkEvent::Enter(node) = event {
///         entered.push(node.kind().0);
///         if node.kind() == SyntaxKind(2) {
///             walk.skip_subtree()?;
///         }
///     }
/// }
/// assert_eq!(entered, [1, 2, 4]);
/// # Ok::<(), Box<dyn std::error::Error>>(())
/// ```
#[derive(Clone)]
pub struct Preorder<'s>(Ahead<'s>);

impl<'s> Preorder<'s> {
    pub(super) fn new(start: &SyntaxNode<'s>) -> Preorder<'s> {
        Preorder(Ahead::new(start, false))
    }

    /// The nodes alone, as they are entered.
    pub(super) fn entered(mut self) -> impl Iterator<Item = SyntaxNode<'s>> {
        iter::from_fn(move || self.0.enter().map(|step| SyntaxNode(step.handle)))
    }

    /// If the walk would enter a node next, it leaves that node's parent instead: children are passed over after an Enter,
    /// the siblings that are left after a Leave. [`Refusal::SkipTooEarly`] before the first event.
    pub fn skip_subtree(&mut self) -> Result<(), Refusal> {
        self.0.skip_subtree()
    }
}

impl<'s> Iterator for Preorder<'s> {
    type Item = WalkEvent<SyntaxNode<'s>>;

    #[inline]
    fn next(&mut self) -> Option<WalkEvent<SyntaxNode<'s>>> {
        let Step { is_leave, handle, .. } = self.0.advance()?;
        match is_leave {
            false => Some(WalkEvent::Enter(SyntaxNode(handle))),
            true => Some(WalkEvent::Leave(SyntaxNode(handle))),
        }
    }
}

/// The walk of a node and all elements below it: an iterator.
#[derive(Clone)]
pub struct PreorderWithTokens<'s>(Ahead<'s>);

impl<'s> PreorderWithTokens<'s> {
    pub(super) fn new(start: &SyntaxNode<'s>) -> PreorderWithTokens<'s> {
        PreorderWithTokens(Ahead::new(start, true))
    }

    /// The elements alone, as they are entered.
    pub(super) fn entered(mut self) -> impl Iterator<Item = SyntaxElement<'s>> {
        iter::from_fn(move || self.0.enter().map(Step::element))
    }

    /// As [`Preorder::skip_subtree`], tokens being passed over too.
    pub fn skip_subtree(&mut self) -> Result<(), Refusal> {
        self.0.skip_subtree()
    }
}

impl<'s> Iterator for PreorderWithTokens<'s> {
    type Item = WalkEvent<SyntaxElement<'s>>;

    #[inline]
    fn next(&mut self) -> Option<WalkEvent<SyntaxElement<'s>>> {
        let step = self.0.advance()?;
        match step.is_leave {
            false => Some(WalkEvent::Enter(step.element())),
            true => Some(WalkEvent::Leave(step.element())),
        }
    }
}

impl fmt::Debug for Preorder<'_> {
    fn fmt(&self, f: &mut fmt::Formatter<'_>) -> fmt::Result {
        self.0.start.debug("Preorder", f)
    }
}

impl fmt::Debug for PreorderWithTokens<'_> {
    fn fmt(&self, f: &mut fmt::Formatter<'_>) -> fmt::Result {
        self.0.start.debug("PreorderWithTokens", f)
    }
}
