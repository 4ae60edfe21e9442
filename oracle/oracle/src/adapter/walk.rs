//! rowan's two preorder walks.

use super::{
    is_outside_domain,
    reading::{resolve_node, to_element},
    Adapter,
};
use crate::{reply::Reply, script::Call};
use rowan::{
    cursor::{Preorder, PreorderWithTokens, SyntaxElement},
    WalkEvent,
};

pub enum Walk {
    Nodes(Preorder),
    WithTokens(PreorderWithTokens),
}

impl Adapter {
    pub(super) fn walk(&mut self, call: &Call, model: &Reply) -> Reply {
        match call {
            Call::WalkBegin { slot, tokens, path } => {
                self.walks[*slot] = None;
                if is_outside_domain(model) {
                    return model.clone();
                }
                let start = resolve_node(&self.table, path);
                self.walks[*slot] = Some(match tokens {
                    false => Walk::Nodes(start.preorder()),
                    true => Walk::WithTokens(start.preorder_with_tokens()),
                });
                Reply::Ok
            }
            Call::WalkNext { slot } => match &mut self.walks[*slot] {
                Some(walk) => walk.next(),
                None => Reply::NoWalk,
            },
            Call::WalkMany { slot, count } => match &mut self.walks[*slot] {
                Some(walk) => Reply::many(*count, || walk.next()),
                None => Reply::NoWalk,
            },
            Call::WalkSkip { slot } => match &mut self.walks[*slot] {
                Some(_) if is_outside_domain(model) => model.clone(),
                Some(walk) => walk.skip(),
                None => Reply::NoWalk,
            },
            _ => unreachable!("not a call of walks"),
        }
    }
}

impl Walk {
    fn next(&mut self) -> Reply {
        let event: Option<WalkEvent<SyntaxElement>> = match self {
            Walk::Nodes(walk) => walk.next().map(|event| event.map(SyntaxElement::Node)),
            Walk::WithTokens(walk) => walk.next(),
        };
        match event {
            Some(WalkEvent::Enter(element)) => Reply::Enter(to_element(&element)),
            Some(WalkEvent::Leave(element)) => Reply::Leave(to_element(&element)),
            None => Reply::Ended,
        }
    }

    fn skip(&mut self) -> Reply {
        match self {
            Walk::Nodes(walk) => walk.skip_subtree(),
            Walk::WithTokens(walk) => walk.skip_subtree(),
        }
        Reply::Ok
    }
}
