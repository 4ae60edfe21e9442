//! The reading calls of one answer, by rowan's cursors.

use super::{caught, is_outside_domain, table::Table, Adapter, Fault};
use crate::{
    reply::{Element, Refusal, Reply},
    script::{Call, Path, Step},
};
use rowan::{
    cursor::{SyntaxElement, SyntaxNode, SyntaxToken},
    NodeOrToken, TextRange, TokenAtOffset,
};

const OUT_OF_RANGE_REPLY: Reply = Reply::Refused(Refusal::OUT_OF_RANGE);

/// The cursor at a path that the model has found to lead somewhere.
pub fn resolve(table: &Table, path: &Path) -> SyntaxElement {
    let root = SyntaxNode::new_root(table.node(path.root).clone());
    path.indexes.iter().fold(root.into(), |element, index| {
        let node = element.into_node();
        let child = node.and_then(|it| it.children_with_tokens().nth(*index as usize));
        child.expect("the model refuses a path that leads nowhere")
    })
}

/// The cursor at a path that the model has found to lead to a node.
pub fn resolve_node(table: &Table, path: &Path) -> SyntaxNode {
    let node = resolve(table, path).into_node();
    node.expect("the model refuses a token here")
}

/// An element as replies name it.
pub fn to_element(element: &SyntaxElement) -> Element {
    let mut indexes = Vec::new();
    let mut at = element.clone();
    while let Some(parent) = at.parent() {
        indexes.push(at.index() as u32);
        at = parent.into();
    }
    indexes.reverse();
    Element {
        is_node: element.as_node().is_some(),
        kind: element.kind().0,
        start: element.text_range().start().into(),
        end: element.text_range().end().into(),
        indexes,
    }
}

impl Adapter {
    #[rustfmt::skip]
    pub(super) fn read(&self, call: &Call, model: &Reply) -> Result<Reply, Fault> {
        if is_outside_domain(model) {
            return Ok(model.clone());
        }
        Ok(match call {
            Call::Step { step, path } => answer_step(resolve(&self.table, path), *step),
            Call::TokenAtOffset { offset, path } => {
                let node = resolve_node(&self.table, path);
                caught(|| node.token_at_offset((*offset).into())).map_or(OUT_OF_RANGE_REPLY, tokens)
            }
            Call::ChildOrTokenAtRange { start, end, path } => {
                let node = resolve_node(&self.table, path);
                caught(|| node.child_or_token_at_range(range(*start, *end)))
                    .map_or(OUT_OF_RANGE_REPLY, |child| child.as_ref().map(to_element).into())
            }
            Call::CoveringElement { start, end, path } => {
                let node = resolve_node(&self.table, path);
                caught(|| node.covering_element(range(*start, *end)))
                    .map_or(OUT_OF_RANGE_REPLY, |element| Reply::Element(to_element(&element)))
            }
            Call::SameElement { left, right } => {
                Reply::flag(resolve(&self.table, left) == resolve(&self.table, right))
            }
            Call::WhereIs { number, root } => self.check_where_is(*number, *root, model)?,
            Call::Element { number } => self.table.measured(*number),
            Call::Mark { number } => Reply::Mark(self.table.hash(*number)),
            Call::Record { number } => self.table.shown(*number)?,
            _ => unreachable!("not a reading call"),
        })
    }

    /// rowan has no where-is; the model's answer must be true of rowan's records.
    fn check_where_is(&self, number: u32, root: u32, model: &Reply) -> Result<Reply, Fault> {
        let is_true = match model {
            Reply::Found(indexes) => self.table.number_at(root, indexes) == Some(number),
            Reply::None => !self.table.occurs(number, root),
            _ => false,
        };
        if is_true {
            Ok(model.clone())
        } else {
            Err(Fault(format!("\"{model}\" is not true of rowan's records")))
        }
    }
}

/// Panics, like the calls that it is made for, if the range would end before its start.
fn range(start: u32, end: u32) -> TextRange {
    TextRange::new(start.into(), end.into())
}

fn tokens(found: TokenAtOffset<SyntaxToken>) -> Reply {
    match found.map(|it| to_element(&it.into())) {
        TokenAtOffset::None => Reply::None,
        TokenAtOffset::Single(token) => Reply::Element(token),
        TokenAtOffset::Between(left, right) => Reply::Between(left, right),
    }
}

fn answer_step(element: SyntaxElement, step: Step) -> Reply {
    let node = || element.as_node().expect("the model refuses a token here");
    let token = || element.as_token().expect("the model refuses a node here");
    let found: Option<SyntaxElement> = match step {
        Step::Here => Some(element.clone()),
        Step::Parent => element.parent().map(NodeOrToken::Node),
        Step::FirstChild => node().first_child().map(NodeOrToken::Node),
        Step::LastChild => node().last_child().map(NodeOrToken::Node),
        Step::FirstChildOrToken => node().first_child_or_token(),
        Step::LastChildOrToken => node().last_child_or_token(),
        Step::NextSibling => node().next_sibling().map(NodeOrToken::Node),
        Step::PrevSibling => node().prev_sibling().map(NodeOrToken::Node),
        Step::NextSiblingOrToken => element.next_sibling_or_token(),
        Step::PrevSiblingOrToken => element.prev_sibling_or_token(),
        Step::FirstToken => element.first_token().map(NodeOrToken::Token),
        Step::LastToken => element.last_token().map(NodeOrToken::Token),
        Step::NextToken => token().next_token().map(NodeOrToken::Token),
        Step::PrevToken => token().prev_token().map(NodeOrToken::Token),
    };
    found.as_ref().map(to_element).into()
}
