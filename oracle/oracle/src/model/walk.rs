//! Preorder walks.

use super::{cursor::Cursor, store::Store, Model};
use crate::{
    reply::{Refusal, Reply},
    script::{Call, Path},
};

#[derive(Debug, Clone)]
enum Coming {
    Enter(Path),
    Leave(Path),
}

#[derive(Debug, Clone)]
pub struct Walk {
    tokens: bool,
    /// How many indexes lead to the walk's start.
    start_depth: usize,
    /// None after Leave of the start.
    coming: Option<Coming>,
    is_new: bool,
}

impl Model {
    pub(super) fn walk(&mut self, call: &Call) -> Reply {
        match call {
            Call::WalkBegin { slot, tokens, path } => {
                let begun = Walk::begin(&self.store, *tokens, path);
                self.walks[*slot] = begun.as_ref().ok().cloned();
                begun.map_or_else(Reply::Refused, |_| Reply::Ok)
            }
            Call::WalkNext { slot } => match &mut self.walks[*slot] {
                Some(walk) => walk.next(&self.store),
                None => Reply::NoWalk,
            },
            Call::WalkMany { slot, count } => match &mut self.walks[*slot] {
                Some(walk) => Reply::many(*count, || walk.next(&self.store)),
                None => Reply::NoWalk,
            },
            Call::WalkSkip { slot } => match &mut self.walks[*slot] {
                Some(walk) => walk.skip(),
                None => Reply::NoWalk,
            },
            _ => unreachable!("not a call of walks"),
        }
    }
}

impl Walk {
    fn begin(store: &Store, tokens: bool, path: &Path) -> Result<Walk, Refusal> {
        let start = Cursor::resolve(store, path)?.node()?;
        Ok(Walk {
            tokens,
            start_depth: start.depth(),
            coming: Some(Coming::Enter(start.path())),
            is_new: true,
        })
    }

    fn next(&mut self, store: &Store) -> Reply {
        self.is_new = false;
        let Some(event) = self.coming.take() else {
            return Reply::Ended;
        };
        let (Coming::Enter(path) | Coming::Leave(path)) = &event;
        let cursor = Cursor::resolve(store, path).expect("records never change");
        match event {
            Coming::Enter(_) => {
                let below = cursor.children().find(|it| self.takes(it));
                self.coming = Some(match below {
                    Some(child) => Coming::Enter(child.path()),
                    None => Coming::Leave(cursor.path()),
                });
                Reply::Enter(cursor.element())
            }
            Coming::Leave(_) => {
                if cursor.depth() > self.start_depth {
                    self.coming = self.after(&cursor);
                }
                Reply::Leave(cursor.element())
            }
        }
    }

    /// What comes after Leave of an element below the start.
    fn after(&self, cursor: &Cursor) -> Option<Coming> {
        let mut sibling = cursor.next_sibling();
        while let Some(it) = sibling {
            if self.takes(&it) {
                return Some(Coming::Enter(it.path()));
            }
            sibling = it.next_sibling();
        }
        cursor.parent().map(|it| Coming::Leave(it.path()))
    }

    fn takes(&self, cursor: &Cursor) -> bool {
        self.tokens || cursor.is_node()
    }

    /// What would be entered next is passed over, and its parent left.
    fn skip(&mut self) -> Reply {
        if self.is_new {
            return Reply::Refused(Refusal::SKIP_BEFORE_FIRST);
        }
        if let Some(Coming::Enter(path)) = &mut self.coming {
            let mut parent = path.clone();
            parent.indexes.pop();
            self.coming = Some(Coming::Leave(parent));
        }
        Reply::Ok
    }
}
