//! Calls in readable form, for reports.

use super::{Call, Group, Path, Step};
use crate::sheet::Sheet;
use std::fmt::{self, Display};

impl Display for Path {
    fn fmt(&self, f: &mut fmt::Formatter<'_>) -> fmt::Result {
        write!(f, "root {} path {:?}", self.root, self.indexes)
    }
}

impl Group {
    /// For so many of them.
    pub fn name(self) -> &'static str {
        match self {
            Group::Store => "stores",
            Group::Run => "runs",
            Group::Edit => "edits",
            Group::Query => "queries",
            Group::Walk => "calls of walks",
            Group::Text => "calls of texts",
            Group::Record => "calls of records",
            Group::Unknown => "unknown calls",
        }
    }
}

impl Step {
    pub fn name(self) -> &'static str {
        match self {
            Step::Here => "here",
            Step::Parent => "parent",
            Step::FirstChild => "first_child",
            Step::LastChild => "last_child",
            Step::FirstChildOrToken => "first_child_or_token",
            Step::LastChildOrToken => "last_child_or_token",
            Step::NextSibling => "next_sibling",
            Step::PrevSibling => "prev_sibling",
            Step::NextSiblingOrToken => "next_sibling_or_token",
            Step::PrevSiblingOrToken => "prev_sibling_or_token",
            Step::FirstToken => "first_token",
            Step::LastToken => "last_token",
            Step::NextToken => "next_token",
            Step::PrevToken => "prev_token",
        }
    }
}

#[rustfmt::skip]
impl Display for Call {
    fn fmt(&self, f: &mut fmt::Formatter<'_>) -> fmt::Result {
        match self {
            Call::Store { records, places, bytes } => write!(f, "store {records} {places} {bytes}"),
            Call::Run { each, sheet, text } => {
                let name = if *each { "run_events" } else { "run" };
                write!(f, "{name} {}", Sheet::shown(sheet, text))
            }
            Call::ReplaceChild { node, index, new } => {
                write!(f, "replace_child node {node} index {index} new {new}")
            }
            Call::InsertChild { node, index, new } => {
                write!(f, "insert_child node {node} index {index} new {new}")
            }
            Call::RemoveChild { node, index } => write!(f, "remove_child node {node} index {index}"),
            Call::SpliceChildren { node, start, end, new } => {
                write!(f, "splice_children node {node} range {start}..{end} new {new:?}")
            }
            Call::ReplaceWith { new, path } => write!(f, "replace_with new {new} {path}"),
            Call::Step { step, path } => write!(f, "{} {path}", step.name()),
            Call::TokenAtOffset { offset, path } => write!(f, "token_at_offset {offset} {path}"),
            Call::ChildOrTokenAtRange { start, end, path } => {
                write!(f, "child_or_token_at_range {start}..{end} {path}")
            }
            Call::CoveringElement { start, end, path } => {
                write!(f, "covering_element {start}..{end} {path}")
            }
            Call::SameElement { left, right } => write!(f, "same_element {left} and {right}"),
            Call::WhereIs { number, root } => write!(f, "where_is {number} root {root}"),
            Call::Element { number } => write!(f, "element {number}"),
            Call::Mark { number } => write!(f, "mark {number}"),
            Call::Record { number } => write!(f, "record {number}"),
            Call::Unknown { op, words } => write!(f, "call number {op} with {words:?}"),
            _ => self.show_slot_call(f),
        }
    }
}

#[rustfmt::skip]
impl Call {
    /// The calls of walks and texts.
    fn show_slot_call(&self, f: &mut fmt::Formatter<'_>) -> fmt::Result {
        match self {
            Call::WalkBegin { slot, tokens, path } => {
                let mode = if *tokens { "with tokens" } else { "nodes" };
                write!(f, "walk_begin slot {slot} {mode} {path}")
            }
            Call::WalkNext { slot } => write!(f, "walk_next slot {slot}"),
            Call::WalkSkip { slot } => write!(f, "walk_skip slot {slot}"),
            Call::WalkMany { slot, count } => write!(f, "walk_many slot {slot} count {count}"),
            Call::TextOf { slot, path } => write!(f, "text_of slot {slot} {path}"),
            Call::TextSlice { to, from, start, end } => {
                write!(f, "text_slice to slot {to} from slot {from} range {start}..{end}")
            }
            Call::TextLength { slot } => write!(f, "text_length slot {slot}"),
            Call::ChunkBegin { slot } => write!(f, "chunk_begin slot {slot}"),
            Call::ChunkNext { slot } => write!(f, "chunk_next slot {slot}"),
            Call::TextContains { slot, byte } => write!(f, "text_contains slot {slot} byte {byte}"),
            Call::TextFind { slot, byte } => write!(f, "text_find slot {slot} byte {byte}"),
            Call::TextCharAt { slot, offset } => write!(f, "text_char_at slot {slot} offset {offset}"),
            Call::TextEqual { left, right } => write!(f, "text_equal slots {left} and {right}"),
            _ => unreachable!("not a call with a slot"),
        }
    }
}
