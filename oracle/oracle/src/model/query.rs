//! The reading calls of one answer.

use super::{cursor::Cursor, store::Store};
use crate::{
    reply::{Element, Refusal, Reply},
    script::Step,
};
use std::{collections::HashSet, iter::successors};

pub fn step(cursor: Cursor, step: Step) -> Result<Option<Element>, Refusal> {
    let found = match step {
        Step::Here => Some(cursor),
        Step::Parent => cursor.parent(),
        Step::FirstChild => cursor.node()?.children().find(Cursor::is_node),
        Step::LastChild => cursor.node()?.children().filter(Cursor::is_node).last(),
        Step::FirstChildOrToken => first_child(&cursor.node()?),
        Step::LastChildOrToken => last_child(&cursor.node()?),
        Step::NextSibling => siblings(&cursor.node()?, Cursor::next_sibling).find(Cursor::is_node),
        Step::PrevSibling => siblings(&cursor.node()?, Cursor::prev_sibling).find(Cursor::is_node),
        Step::NextSiblingOrToken => cursor.next_sibling(),
        Step::PrevSiblingOrToken => cursor.prev_sibling(),
        Step::FirstToken => end_token(cursor, first_child),
        Step::LastToken => end_token(cursor, last_child),
        Step::NextToken => near_token(cursor, Cursor::next_sibling, first_child)?,
        Step::PrevToken => near_token(cursor, Cursor::prev_sibling, last_child)?,
    };
    Ok(found.map(|it| it.element()))
}

fn first_child<'a>(cursor: &Cursor<'a>) -> Option<Cursor<'a>> {
    cursor.child(0)
}

fn last_child<'a>(cursor: &Cursor<'a>) -> Option<Cursor<'a>> {
    cursor.child(cursor.child_count().checked_sub(1)?)
}

/// The siblings beyond an element, in one direction.
fn siblings<'a>(
    cursor: &Cursor<'a>,
    beside: fn(&Cursor<'a>) -> Option<Cursor<'a>>,
) -> impl Iterator<Item = Cursor<'a>> {
    successors(beside(cursor), beside)
}

/// The token at the end of first (or last) children. There is none where a node without children stands at that end.
fn end_token<'a>(
    mut cursor: Cursor<'a>,
    child: fn(&Cursor<'a>) -> Option<Cursor<'a>>,
) -> Option<Cursor<'a>> {
    while cursor.is_node() {
        cursor = child(&cursor)?;
    }
    Some(cursor)
}

/// The first token of what comes after this one: of its next sibling, or of the nearest ancestor's that has one. The other way round, the last
/// token of what comes before.
fn near_token<'a>(
    token: Cursor<'a>,
    beside: fn(&Cursor<'a>) -> Option<Cursor<'a>>,
    child: fn(&Cursor<'a>) -> Option<Cursor<'a>>,
) -> Result<Option<Cursor<'a>>, Refusal> {
    if token.is_node() {
        return Err(Refusal::NO_SUCH_ELEMENT);
    }
    let sibling = successors(Some(token), Cursor::parent).find_map(|it| beside(&it));
    Ok(sibling.and_then(|it| end_token(it, child)))
}

/// The tokens that have the offset inside or at an end; those without text do not count.
pub fn token_at_offset(cursor: Cursor, offset: u32) -> Result<Reply, Refusal> {
    let cursor = cursor.node()?;
    if !holds(&cursor, offset) {
        return Err(Refusal::OUT_OF_RANGE);
    }
    let mut tokens = Vec::new();
    tokens_holding(&cursor, offset, &mut tokens);
    let mut tokens = tokens.into_iter();
    Ok(match (tokens.next(), tokens.next(), tokens.next()) {
        (only, None, _) => only.into(),
        (Some(left), Some(right), None) => Reply::Between(left, right),
        _ => unreachable!("more than two nonempty tokens meet at no offset"),
    })
}

fn holds(cursor: &Cursor, offset: u32) -> bool {
    cursor.start() <= offset && offset <= cursor.end()
}

fn tokens_holding(cursor: &Cursor, offset: u32, tokens: &mut Vec<Element>) {
    if !holds(cursor, offset) || cursor.start() == cursor.end() {
        return;
    }
    if !cursor.is_node() {
        tokens.push(cursor.element());
    }
    for child in cursor.children() {
        tokens_holding(&child, offset, tokens);
    }
}

pub fn child_or_token_at_range(
    cursor: Cursor,
    start: u32,
    end: u32,
) -> Result<Option<Element>, Refusal> {
    let cursor = cursor.node()?;
    if start > end || start < cursor.start() {
        return Err(Refusal::OUT_OF_RANGE);
    }
    Ok(child_at_range(&cursor, start, end).map(|it| it.element()))
}

/// A range of some bytes is looked for in one child. An empty one is inside a child, or behind the last child that ends
/// there, or, at the front, before the first.
fn child_at_range<'a>(cursor: &Cursor<'a>, start: u32, end: u32) -> Option<Cursor<'a>> {
    let find = |qualifies: &dyn Fn(&Cursor) -> bool| cursor.children().find(|it| qualifies(it));
    if start < end {
        return find(&|it| it.start() <= start && end <= it.end());
    }
    find(&|it| it.start() < start && start < it.end())
        .or_else(|| cursor.children().filter(|it| it.end() == start).last())
        .or_else(|| cursor.child(0).filter(|it| it.start() == start))
}

/// Down from child to child, as long as one of them has the range.
pub fn covering_element(cursor: Cursor, start: u32, end: u32) -> Result<Element, Refusal> {
    let mut cursor = cursor.node()?;
    if start > end || start < cursor.start() || end > cursor.end() {
        return Err(Refusal::OUT_OF_RANGE);
    }
    while let Some(child) = child_at_range(&cursor, start, end) {
        cursor = child;
    }
    Ok(cursor.element())
}

/// The path of the number's first occurrence in preorder.
pub fn where_is(store: &Store, number: u32, root: u32) -> Result<Reply, Refusal> {
    store.get(number)?;
    if !store.get(root)?.is_node() {
        return Err(Refusal::NO_SUCH_ELEMENT);
    }
    let mut indexes = Vec::new();
    let mut searched = HashSet::new();
    if find_below(store, number, root, &mut indexes, &mut searched) {
        Ok(Reply::Found(indexes))
    } else {
        Ok(Reply::None)
    }
}

/// Searches each record once: what is not under it at one place is not at another.
fn find_below(
    store: &Store,
    number: u32,
    from: u32,
    indexes: &mut Vec<u32>,
    searched: &mut HashSet<u32>,
) -> bool {
    if from == number {
        return true;
    }
    if !searched.insert(from) {
        return false;
    }
    let children = store.children(store.at(from)).unwrap_or_default();
    for (index, child) in children.iter().enumerate() {
        indexes.push(index as u32);
        if find_below(store, number, *child, indexes, searched) {
            return true;
        }
        indexes.pop();
    }
    false
}
