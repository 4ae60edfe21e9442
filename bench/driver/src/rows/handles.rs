//! The same program text over rowan's handles and over those of the Rust crate.

use super::{sum, ABSENT};
use crate::{case::Case, measure::Bench};
use notes_tree::{GreenNode, Store};

macro_rules! programs {
    ($side:ident, $node:ty) => {
        mod $side {
            use super::{sum, ABSENT};

            macro_rules! of {
                ($element:expr) => {{
                    let range = $element.text_range();
                    let [start, end] = [range.start(), range.end()].map(|it| u32::from(it) as usize);
                    sum(start, end, $element.kind().0 as usize)
                }};
            }

            pub fn descendants(root: &$node) -> u64 {
                root.descendants_with_tokens().map(|it| of!(it)).sum()
            }

            pub fn children(root: &$node) -> u64 {
                root.descendants().flat_map(|it| it.children_with_tokens()).map(|it| of!(it)).sum()
            }

            pub fn next_token(root: &$node) -> u64 {
                let mut total = 0;
                let mut next = root.first_token();
                while let Some(token) = next {
                    total += of!(token);
                    next = token.next_token();
                }
                total
            }

            pub fn token_text(root: &$node) -> u64 {
                let tokens = root.descendants_with_tokens().filter_map(|it| it.into_token());
                tokens.map(|it| it.text().bytes().last().map_or(0, u64::from)).sum()
            }

            pub fn chunks(root: &$node) -> u64 {
                let mut total = 0;
                root.text().for_each_chunk(|it| total += it.bytes().last().map_or(0, u64::from));
                total
            }

            pub fn find(root: &$node) -> u64 {
                root.text().find_char(ABSENT).map_or(u64::MAX, |it| u32::from(it).into())
            }
        }
    };
}

programs!(rowans, rowan::cursor::SyntaxNode);
programs!(ours, notes_tree::SyntaxNode<'_>);

pub fn rows(case: &Case, bench: &mut Bench) {
    let mut store = Store::new();
    let green: GreenNode = case.sheet.build_in(&mut store);
    let root = notes_tree::SyntaxNode::new_root(&store, green).expect("it is of this store");
    let (elements, tokens) = (case.places.len(), case.tokens().count());
    let mut row = |key, units, rowans: fn(&rowan::cursor::SyntaxNode) -> u64, ours: fn(&notes_tree::SyntaxNode) -> u64| {
        if bench.wants(key) {
            bench.time(case.name, key, units, |_| rowans(&case.tree), || ours(&root));
        }
    };
    row("crate_walk", elements, rowans::descendants, ours::descendants);
    row("crate_children", elements - 1, rowans::children, ours::children);
    row("crate_next_token", tokens, rowans::next_token, ours::next_token);
    row("crate_text", tokens, rowans::token_text, ours::token_text);
    row("crate_chunks", tokens, rowans::chunks, ours::chunks);
    row("crate_find", tokens, rowans::find, ours::find);
}
