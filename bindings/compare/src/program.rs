//! The program: random trees, all that can be asked of them, and edits. It writes down every answer.

use std::{collections::HashMap, fmt::Write};

use super::side::{
    answer, identity, place, Bench, Builder, Direction, Element, GreenElement, GreenNode, Node, SyntaxKind, Text,
    TextRange, WalkEvent,
};
use crate::random::Random;

/// Trees beyond this text length or size are not put into others.
const MOST: usize = 300;
/// Texts of tokens.
const TEXTS: [&str; 6] = ["", "a", "b", "ab", "abc", " "];

struct Program {
    random: Random,
    bench: Bench,
    /// Every tree stays, so that no address stands for two records.
    trees: Vec<GreenNode>,
    /// Records, in the order in which they are first met.
    met: HashMap<u64, usize>,
    answers: String,
}

/// The program's answers for a seed, one a line.
pub fn run(seed: u64) -> String {
    let mut program = Program {
        random: Random::new(seed),
        bench: Bench::default(),
        trees: Vec::new(),
        met: HashMap::new(),
        answers: String::new(),
    };
    for _ in 0..3 {
        program.build();
    }
    for _ in 0..4 {
        program.edit();
    }
    program.build();
    for tree in program.trees.clone() {
        program.read(&tree);
    }
    program.compare_texts();
    program.answers
}

macro_rules! tell {
    ($program:expr, $($words:tt)*) => {
        writeln!($program.answers, $($words)*).unwrap()
    };
}

/// Kind, range, index and record of an element.
fn show(met: &mut HashMap<u64, usize>, element: Option<Element>) -> String {
    let Some(element) = element else {
        return "none".into();
    };
    let next = met.len();
    let record = *met.entry(identity(&element)).or_insert(next);
    let range = element.text_range();
    let letter = if element.as_node().is_some() { 'n' } else { 't' };
    let (start, end) = (u32::from(range.start()), u32::from(range.end()));
    format!("{letter}{} {start}..{end} i{} r{record}", element.kind().0, element.index())
}

impl Program {
    fn build(&mut self) {
        // Numbers of its own: a panic leaves some of them undrawn.
        let seed = self.random.below(usize::MAX) as u64;
        let made = self.bench.build(|builder| events(&mut Random::new(seed), builder));
        tell!(self, "built {}", made.is_some());
        self.trees.extend(made);
    }

    fn edit(&mut self) {
        if self.trees.is_empty() {
            return;
        }
        let tree = self.random.one_of(&self.trees).clone();
        let Some(new) = self.any_element() else {
            return;
        };
        let count = self.bench.root(&tree).children_with_tokens().count();
        let (index, other) = (self.random.below(count + 2), self.random.below(count + 2));
        let what = self.random.below(5);
        let made = match what {
            0 => self.bench.replace_child(&tree, index, new),
            1 => self.bench.insert_child(&tree, index, new),
            2 => self.bench.remove_child(&tree, index),
            3 => self.bench.splice_children(&tree, (index, other), vec![new.clone(), new]),
            _ => self.replace_somewhere(&tree, new),
        };
        tell!(self, "edit {what} at {index}: {}", made.is_some());
        self.trees.extend(made);
    }

    /// Replaces some element of a tree, mostly by one of its kind.
    fn replace_somewhere(&mut self, tree: &GreenNode, new: GreenElement) -> Option<GreenNode> {
        let root = self.bench.root(tree);
        let all: Vec<Element> = root.descendants_with_tokens().collect();
        let old = self.random.one_of(&all).clone();
        let (kind, is_node, at) = (old.kind(), old.as_node().is_some(), place(&old));
        drop((all, old, root));
        if self.random.once_in(4) {
            return self.bench.replace_with(&at, new);
        }
        let text = *self.random.one_of(&["", "z", "zz"]);
        let made = self.bench.build(|builder| {
            builder.start_node(kind);
            builder.token(kind, text);
            builder.finish_node();
        })?;
        let replacement = if is_node { made.clone().into() } else { self.bench.child(&made, 0)? };
        // Kept, as its record may be met.
        self.trees.push(made);
        self.bench.replace_with(&at, replacement)
    }

    /// Some child of some small tree, or that tree.
    fn any_element(&mut self) -> Option<GreenElement> {
        let tree = self.random.one_of(&self.trees).clone();
        let root = self.bench.root(&tree);
        let count = root.children_with_tokens().count();
        let size = root.descendants_with_tokens().count();
        let length = u32::from(root.text_range().len()) as usize;
        drop(root);
        if size > MOST || length > MOST {
            return None;
        }
        if count == 0 || self.random.once_in(3) {
            return Some(tree.into());
        }
        let index = self.random.below(count);
        self.bench.child(&tree, index)
    }

    /// Asks all there is of a tree.
    fn read(&mut self, tree: &GreenNode) {
        let Program { random, bench, met, answers, .. } = self;
        let root = bench.root(tree);
        for element in root.descendants_with_tokens().take(MOST) {
            writeln!(answers, "{} {:?}", show(met, Some(element.clone())), element.to_string()).unwrap();
            steps(met, &element, answers);
            if let Some(node) = element.as_node() {
                node_steps(met, node, answers);
                if random.once_in(4) {
                    ranges(random, met, node, answers);
                    walks(random, met, node, answers);
                    text(random, node, answers);
                }
            }
        }
    }

    /// Equality of texts, slices and elements of any two trees.
    fn compare_texts(&mut self) {
        let Program { random, bench, trees, answers, .. } = self;
        for one in trees.iter() {
            for other in trees.iter() {
                let (one, other) = (bench.root(one), bench.root(other));
                let (left, right) = (one.text(), other.text());
                let (from, to) = (random.below(6) as u32, random.below(6) as u32);
                let slice = |text: &Text| {
                    answer(|| text.slice(TextRange::new(from.into(), to.into()))).map(|it| it.to_string())
                };
                let sliced = |text: &Text, other: &Text| -> Option<bool> {
                    let range = || TextRange::new(from.into(), to.into());
                    Some(answer(|| text.slice(range()))? == answer(|| other.slice(range()))?)
                };
                writeln!(
                    answers,
                    "equal {} {} {:?} {:?} {}",
                    left == right,
                    one == other,
                    sliced(&left, &right),
                    slice(&left),
                    left == right.to_string().as_str()
                )
                .unwrap();
            }
        }
    }
}

/// Random builder events, mostly of a whole tree.
fn events(random: &mut Random, builder: &mut Builder) {
    let kind = |random: &mut Random| SyntaxKind(random.below(4) as u16);
    let mut checkpoints = Vec::new();
    // For each open node, how many checkpoints lie before it: those do not fit.
    let mut open = vec![0];
    builder.start_node(kind(random));
    for _ in 0..random.below(60) {
        match random.below(12) {
            0..=3 => builder.token(kind(random), TEXTS[random.below(TEXTS.len())]),
            4 | 5 if open.len() < 12 => {
                builder.start_node(kind(random));
                open.push(checkpoints.len());
            }
            6 | 7 if open.len() > 1 || random.once_in(40) => {
                builder.finish_node();
                checkpoints.truncate(open.pop().unwrap_or(0) + 1);
            }
            8 | 9 => checkpoints.push(builder.checkpoint()),
            10 | 11 if !checkpoints.is_empty() && open.len() < 12 => {
                // Mostly one that fits.
                let before = if random.once_in(30) { 0 } else { open[open.len() - 1] };
                let at = before + random.below(checkpoints.len().saturating_sub(before));
                if let Some(checkpoint) = checkpoints.get(at) {
                    builder.start_node_at(*checkpoint, kind(random));
                    open.push(at);
                }
            }
            _ => {}
        }
        if open.is_empty() {
            return;
        }
    }
    open.iter().for_each(|_| builder.finish_node());
}

fn steps(met: &mut HashMap<u64, usize>, element: &Element, answers: &mut String) {
    let found = [
        element.parent().map(Element::from),
        element.next_sibling_or_token(),
        element.prev_sibling_or_token(),
        element.first_token().map(Element::from),
        element.last_token().map(Element::from),
        Some(element.tree_top().into()),
    ];
    for element in found {
        writeln!(answers, "  {}", show(met, element)).unwrap();
    }
    if let Some(token) = element.as_token() {
        let near = [token.next_token(), token.prev_token()].map(|it| show(met, it.map(Element::from)));
        let before = token.siblings_with_tokens(Direction::Prev).count();
        writeln!(answers, "  {near:?} {:?} {before} {}", token.text(), token.ancestors().count()).unwrap();
    }
}

fn node_steps(met: &mut HashMap<u64, usize>, node: &Node, answers: &mut String) {
    let found = [node.first_child(), node.last_child(), node.next_sibling(), node.prev_sibling()];
    for node in found {
        writeln!(answers, "  {}", show(met, node.map(Element::from))).unwrap();
    }
    let ends = [node.first_child_or_token(), node.last_child_or_token()].map(|it| show(met, it));
    let after = node.siblings(Direction::Next).count();
    let counts = (node.children().count(), node.children_with_tokens().count(), node.descendants().count(), after);
    writeln!(answers, "  {ends:?} {counts:?} {}", node.ancestors().count()).unwrap();
}

fn ranges(random: &mut Random, met: &mut HashMap<u64, usize>, node: &Node, answers: &mut String) {
    let (start, end) = (u32::from(node.text_range().start()), u32::from(node.text_range().end()));
    for _ in 0..6 {
        let mut offset = || (start + random.below((end - start) as usize + 3) as u32).saturating_sub(1);
        let (one, other) = (offset(), offset());
        let tokens = answer(|| node.token_at_offset(one.into()));
        let tokens = tokens.map(|it| Iterator::map(it, |token| show(met, Some(token.into()))).collect::<Vec<_>>());
        let covering = answer(|| node.covering_element(TextRange::new(one.into(), other.into())));
        let covering = covering.map(|it| show(met, Some(it)));
        let child = answer(|| node.child_or_token_at_range(TextRange::new(one.into(), other.into())));
        let child = child.map(|it| show(met, it));
        writeln!(answers, "  at {one} {other}: {tokens:?} {covering:?} {child:?}").unwrap();
    }
}

/// Both walks, with skips now and then: never before the first event, where the two differ by intent.
fn walks(random: &mut Random, met: &mut HashMap<u64, usize>, node: &Node, answers: &mut String) {
    let skips = 2 + random.below(9);
    let mut walk = node.preorder_with_tokens();
    while let Some(event) = walk.next() {
        let (letter, element) = match event {
            WalkEvent::Enter(element) => ('E', element),
            WalkEvent::Leave(element) => ('L', element),
        };
        writeln!(answers, "  {letter} {}", show(met, Some(element))).unwrap();
        if random.once_in(skips) {
            let _ = walk.skip_subtree();
        }
    }
    let mut walk = node.preorder();
    while let Some(event) = walk.next() {
        let (letter, node) = match event {
            WalkEvent::Enter(node) => ('E', node),
            WalkEvent::Leave(node) => ('L', node),
        };
        writeln!(answers, "  {letter} {}", show(met, Some(node.into()))).unwrap();
        if random.once_in(skips) {
            let _ = walk.skip_subtree();
            let _ = walk.skip_subtree();
        }
    }
    writeln!(answers, "  ended {}", walk.next().is_none()).unwrap();
}

fn text(random: &mut Random, node: &Node, answers: &mut String) {
    let mut text = node.text();
    for _ in 0..3 {
        let mut chunks = Vec::new();
        text.for_each_chunk(|chunk| chunks.push(chunk.to_string()));
        let length = u32::from(text.len());
        let offset = random.below(length as usize + 2) as u32;
        let found = text.find_char('b').map(u32::from);
        let at = text.char_at(offset.into());
        let (has_a, is_empty) = (text.contains_char('a'), text.is_empty());
        writeln!(answers, "  {chunks:?} {length} {found:?} {at:?} {has_a} {is_empty} {text:?}").unwrap();
        let (from, to) = (random.below(length as usize + 1) as u32, random.below(length as usize + 2) as u32);
        let sliced = answer(|| text.slice(TextRange::new(from.into(), to.into())));
        writeln!(answers, "  slice {from} {to}: {}", sliced.is_some()).unwrap();
        text = sliced.unwrap_or(text);
    }
}
