//! Edits by rowan's green nodes and cursors.

use super::{caught, is_outside_domain, reading, table::Green, Adapter, Fault};
use crate::{
    reply::{Maker, Refusal, Reply},
    script::{Call, Path},
};
use rowan::{cursor::SyntaxElement, GreenNode, NodeOrToken};

impl Adapter {
    pub(super) fn edit(&mut self, call: &Call, model: &Reply) -> Result<Reply, Fault> {
        let outcome = match model.refusal() {
            Some(refusal) if is_outside_domain(model) => Err(refusal),
            _ => self.edited(call)?,
        };
        Ok(Reply::Edited {
            outcome,
            store: self.table.counts(),
        })
    }

    fn edited(&mut self, call: &Call) -> Result<Result<u32, Refusal>, Fault> {
        if let Call::ReplaceWith { new, path } = call {
            return self.replace_with(*new, path);
        }
        match caught(|| self.new_node(call)) {
            Some(node) => self.admit_new(node).map(Ok),
            None => Ok(Err(Refusal::OUT_OF_RANGE)),
        }
    }

    #[rustfmt::skip]
    fn new_node(&self, call: &Call) -> GreenNode {
        let green = |number: &u32| self.table.green(*number).clone();
        match call {
            Call::ReplaceChild { node, index, new } => {
                self.table.node(*node).replace_child(*index as usize, green(new))
            }
            Call::InsertChild { node, index, new } => {
                self.table.node(*node).insert_child(*index as usize, green(new))
            }
            Call::RemoveChild { node, index } => self.table.node(*node).remove_child(*index as usize),
            Call::SpliceChildren { node, start, end, new } => {
                let range = *start as usize..*end as usize;
                self.table.node(*node).splice_children(range, new.iter().map(green))
            }
            _ => unreachable!("not an edit of one node"),
        }
    }

    /// Numbers a record that an edit must have made.
    fn admit_new(&mut self, node: GreenNode) -> Result<u32, Fault> {
        let next = self.table.counts().records as u32;
        let number = self.table.admit(node.into(), Maker::Edit)?;
        if number != next {
            return Err(Fault(format!(
                "rowan's edit answers the old record {number}"
            )));
        }
        self.check_children(number)?;
        Ok(number)
    }

    fn replace_with(&mut self, new: u32, path: &Path) -> Result<Result<u32, Refusal>, Fault> {
        let element = reading::resolve(&self.table, path);
        let root = caught(|| replaced(&element, self.table.green(new).clone())).flatten();
        let Some(root) = root else {
            return Ok(Err(Refusal::UNLIKE_REPLACEMENT));
        };
        if path.indexes.is_empty() {
            return self.table.admit(root.into(), Maker::Edit).map(Ok);
        }
        let mut ancestors = vec![root];
        for index in &path.indexes[..path.indexes.len() - 1] {
            let above = &ancestors[ancestors.len() - 1];
            let Some(NodeOrToken::Node(below)) = above.children().nth(*index as usize) else {
                return Err(Fault("rowan's new tree has lost the path".into()));
            };
            let below = below.to_owned();
            ancestors.push(below);
        }
        let mut number = new;
        for ancestor in ancestors.into_iter().rev() {
            number = self.admit_new(ancestor)?;
        }
        Ok(Ok(number))
    }
}

/// rowan takes a node for a node and a token for a token; other calls cannot be made.
fn replaced(element: &SyntaxElement, new: Green) -> Option<GreenNode> {
    match (element, new) {
        (NodeOrToken::Node(old), NodeOrToken::Node(new)) => Some(old.replace_with(new)),
        (NodeOrToken::Token(old), NodeOrToken::Token(new)) => Some(old.replace_with(new)),
        _ => None,
    }
}
