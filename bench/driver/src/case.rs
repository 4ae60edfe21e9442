//! One tree on both sides, and the places in it that are asked about.

use crate::{
    ask,
    ffi::{Path, ENTER},
    store::Store,
    trees::{self, Random, Sheet},
};
use rowan::{
    cursor::{SyntaxElement, SyntaxNode, SyntaxToken},
    NodeCache, NodeOrToken,
};

/// The trees that every row is timed on.
pub fn sheets() -> [(&'static str, Sheet); 4] {
    [
        ("survey", trees::survey(4_096)),
        ("wide", trees::wide(4_000)),
        ("chain", trees::chain(60)),
        ("random", trees::random(3_000)),
    ]
}

/// An element of the tree on both sides: rowan's handle, and a path and a number.
pub struct Place {
    pub handle: SyntaxElement,
    pub path: Path,
    pub depth: usize,
    pub number: usize,
}

impl Place {
    pub fn token(&self) -> Option<&SyntaxToken> {
        self.handle.as_token()
    }

    pub fn node(&self) -> Option<&SyntaxNode> {
        self.handle.as_node()
    }
}

pub struct Case {
    pub name: &'static str,
    pub sheet: Sheet,
    pub tree: SyntaxNode,
    /// A second tree, spelled alike: of the second run of the sheet in one cache and store.
    pub twin: SyntaxNode,
    pub store: Store,
    pub root: usize,
    pub twin_root: usize,
    /// Every element in preorder.
    pub places: Vec<Place>,
    pub length: usize,
}

impl Case {
    pub fn new(name: &'static str, sheet: Sheet) -> Case {
        let mut cache = NodeCache::default();
        let tree = SyntaxNode::new_root(sheet.build(&mut cache));
        let twin = SyntaxNode::new_root(sheet.build(&mut cache));
        let mut store = Store::new();
        let root = store.run(&sheet);
        let twin_root = store.run(&sheet);
        let places = places(&tree, &store, root);
        let length = u32::from(tree.text_range().len()) as usize;
        Case { name, sheet, tree, twin, store, root, twin_root, places, length }
    }

    pub fn tokens(&self) -> impl Iterator<Item = &Place> {
        self.places.iter().filter(|it| it.token().is_some())
    }

    pub fn nodes(&self) -> impl Iterator<Item = &Place> {
        self.places.iter().filter(|it| it.node().is_some())
    }

    /// Random ranges of up to 8 bytes.
    pub fn ranges(&self, count: usize) -> Vec<(usize, usize)> {
        let mut random = Random::new(99);
        let mut range = || {
            let start = random.below(self.length + 1);
            (start, (start + random.below(9)).min(self.length))
        };
        (0..count).map(|_| range()).collect()
    }

    /// Random elements among those given.
    pub fn sample<'a>(&self, from: impl Iterator<Item = &'a Place>, count: usize) -> Vec<&'a Place> {
        let all: Vec<&Place> = from.collect();
        let mut random = Random::new(41);
        (0..count).map(|_| all[random.below(all.len())]).collect()
    }
}

/// Both walks side by side. They must agree in every event: the timed rows rely on the trees being one.
pub fn places(tree: &SyntaxNode, store: &Store, root: usize) -> Vec<Place> {
    let mut walk = [0; 8];
    let mut path = [0; 64];
    let mut words = [0; 8];
    ask!(store, notes_walk_begin, root, 1, &path, 0, &mut walk);
    let mut places = Vec::new();
    for event in tree.preorder_with_tokens() {
        let before = path;
        let outcome = ask!(store, notes_walk_next, &mut walk, &mut path, &mut words);
        let (enters, handle) = match event {
            rowan::WalkEvent::Enter(handle) => (true, handle),
            rowan::WalkEvent::Leave(handle) => (false, handle),
        };
        let range = handle.text_range();
        let is_node = matches!(handle, NodeOrToken::Node(_));
        assert_eq!(outcome == ENTER, enters);
        assert_eq!(words[0], u32::from(range.start()) as usize);
        assert_eq!(words[1], u32::from(range.end()) as usize);
        assert_eq!(words[3], handle.kind().0 as usize);
        assert_eq!(words[4] == 1, is_node);
        if enters {
            let depth = words[2];
            let number = store.number_at(root, &before[..depth]);
            places.push(Place { handle, path: before, depth, number });
        }
    }
    assert_eq!(ask!(store, notes_walk_next, &mut walk, &mut path, &mut words), 0);
    places
}
