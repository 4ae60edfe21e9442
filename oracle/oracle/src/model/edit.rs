//! Edits: each makes records and never looks for old ones.

use super::{
    cursor::Cursor,
    store::{measured_node, NewNode, Record, Store},
};
use crate::{
    reply::{Counts, Maker, Refusal},
    script::{Call, Path},
};

pub fn edit(store: &mut Store, call: &Call) -> Result<u32, Refusal> {
    match call {
        Call::ReplaceChild { node, index, new } => replace_child(store, *node, *index, *new),
        Call::InsertChild { node, index, new } => splice(store, *node, *index, *index, &[*new]),
        Call::RemoveChild { node, index } => {
            // The largest index has no end after it, and is past any node's children.
            splice(store, *node, *index, index.saturating_add(1), &[])
        }
        Call::SpliceChildren {
            node,
            start,
            end,
            new,
        } => splice(store, *node, *start, *end, new),
        Call::ReplaceWith { new, path } => replace_with(store, *new, path),
        _ => unreachable!("not an edit"),
    }
}

/// A node's kind and children.
fn node(store: &Store, number: u32) -> Result<(u16, Vec<u32>), Refusal> {
    let record = store.get(number)?;
    let children = store.children(record).ok_or(Refusal::NO_SUCH_ELEMENT)?;
    Ok((record.kind, children.to_vec()))
}

/// Past the last child nothing is replaced and the result is a copy.
fn replace_child(store: &mut Store, number: u32, index: u32, new: u32) -> Result<u32, Refusal> {
    let (kind, mut children) = node(store, number)?;
    store.get(new)?;
    if let Some(child) = children.get_mut(index as usize) {
        *child = new;
    }
    let made = store.new_node(kind, children)?;
    store.make(made, Maker::Edit)
}

fn splice(
    store: &mut Store,
    number: u32,
    start: u32,
    end: u32,
    new: &[u32],
) -> Result<u32, Refusal> {
    let (kind, children) = node(store, number)?;
    for element in new {
        store.get(*element)?;
    }
    let (start, end) = (start as usize, end as usize);
    if start > end || end > children.len() {
        return Err(Refusal::OUT_OF_RANGE);
    }
    let spliced = [&children[..start], new, &children[end..]].concat();
    let made = store.new_node(kind, spliced)?;
    store.make(made, Maker::Edit)
}

/// Makes a record for each ancestor, the lowest first, all or none.
fn replace_with(store: &mut Store, new: u32, path: &Path) -> Result<u32, Refusal> {
    let cursor = Cursor::resolve(store, path)?;
    let replacement = store.get(new)?;
    let old = cursor.record();
    if old.kind != replacement.kind || old.is_node() != replacement.is_node() {
        return Err(Refusal::UNLIKE_REPLACEMENT);
    }
    let ancestors = new_ancestors(store, &cursor, new)?;
    store.room(Counts {
        records: ancestors.len(),
        places: ancestors.iter().map(NewNode::place_count).sum(),
        bytes: 0,
    })?;
    let mut root = new;
    for ancestor in ancestors {
        root = store.make(ancestor, Maker::Edit)?;
    }
    Ok(root)
}

/// The ancestors of a replaced element, the lowest first, if all keep the limits.
fn new_ancestors(store: &Store, cursor: &Cursor, new: u32) -> Result<Vec<NewNode>, Refusal> {
    let mut made: Vec<NewNode> = Vec::new();
    let mut below = store.measures(new);
    let mut number = new;
    for (ancestor, index) in cursor.ancestors() {
        let record: &Record = store.at(ancestor);
        let mut children = store.children(record).unwrap_or_default().to_vec();
        let mut measures: Vec<_> = children.iter().map(|it| store.measures(*it)).collect();
        children[index as usize] = number;
        measures[index as usize] = below;
        let node = measured_node(record.kind, children, &measures)?;
        below = node.measures();
        number = (store.counts().records + made.len()) as u32;
        made.push(node);
    }
    Ok(made)
}
