//! The trees that are timed, as sheets (docs/SHEETS.md) that both sides are built from.

use rowan::{GreenNode, GreenNodeBuilder, NodeCache, SyntaxKind};

enum Event {
    Start(u16),
    Token(u16, String),
    Finish,
}

/// Drives either builder by a sheet's bytes.
macro_rules! events {
    ($sheet:expr, $builder:ident, $kind:path) => {
        let count = $sheet.number(0) as usize;
        let mut at = 0;
        for event in 0..count {
            let word = $sheet.number(8 + 4 * event);
            let kind = $kind(word as u16);
            match word >> 16 {
                1 => {
                    let end = at + $sheet.number(8 + 4 * count + 4 * event) as usize;
                    $builder.token(kind, std::str::from_utf8(&$sheet.text[at..end]).unwrap());
                    at = end;
                }
                2 => $builder.start_node(kind),
                _ => $builder.finish_node(),
            }
        }
    };
}

/// A sheet's bytes and its text.
#[derive(Clone)]
pub struct Sheet {
    pub events: Vec<u8>,
    pub text: Vec<u8>,
    pub count: usize,
}

impl Sheet {
    fn new(events: &[Event]) -> Sheet {
        let mut words = Vec::new();
        let mut operands = Vec::new();
        let mut text = Vec::new();
        for event in events {
            let (word, operand) = match event {
                Event::Token(kind, token) => {
                    text.extend(token.bytes());
                    (1 << 16 | u32::from(*kind), token.len() as u32)
                }
                Event::Start(kind) => (2 << 16 | u32::from(*kind), 0),
                Event::Finish => (3 << 16, 0),
            };
            words.push(word);
            operands.push(operand);
        }
        let head = [events.len() as u32, text.len() as u32];
        let numbers = head.iter().chain(&words).chain(&operands);
        Sheet { events: numbers.flat_map(|it| it.to_le_bytes()).collect(), text, count: events.len() }
    }

    fn number(&self, at: usize) -> u32 {
        u32::from_le_bytes(self.events[at..at + 4].try_into().unwrap())
    }

    /// rowan's builder, driven by the bytes that the library reads.
    pub fn build(&self, cache: &mut NodeCache) -> GreenNode {
        let mut builder = GreenNodeBuilder::with_cache(cache);
        events!(self, builder, SyntaxKind);
        builder.finish()
    }

    /// The Rust crate's builder, likewise.
    pub fn build_in(&self, store: &mut notes_tree::Store) -> notes_tree::GreenNode {
        let mut builder = notes_tree::GreenNodeBuilder::new();
        events!(self, builder, notes_tree::SyntaxKind);
        builder.finish(store).expect("the sheets are in order and fit")
    }
}

/// Xorshift: depends on the seed alone.
pub struct Random(u64);

impl Random {
    pub fn new(seed: u64) -> Random {
        Random(seed)
    }

    pub fn below(&mut self, bound: usize) -> usize {
        self.0 ^= self.0 << 13;
        self.0 ^= self.0 >> 7;
        self.0 ^= self.0 << 17;
        ((self.0.wrapping_mul(0x2545_f491_4f6c_dd1d) >> 11) % bound as u64) as usize
    }
}

/// A root over lines of 3 to 8 tokens, as many as `most` events have room for.
pub fn survey(most: usize) -> Sheet {
    let mut random = Random::new(7);
    let mut events = vec![Event::Start(1)];
    loop {
        let line = survey_line(&mut random);
        if events.len() + line.len() + 1 > most {
            break;
        }
        events.extend(line);
    }
    events.push(Event::Finish);
    Sheet::new(&events)
}

/// A word, numbers with blanks between, a newline.
fn survey_line(random: &mut Random) -> Vec<Event> {
    let tokens = 3 + random.below(6);
    let word = ["P", "ST", "BS", "FS", "CHK"][random.below(5)];
    let mut line = vec![Event::Start(2), Event::Token(10, word.to_string())];
    for at in 1..tokens - 1 {
        line.push(match at % 2 {
            1 => Event::Token(11, " ".to_string()),
            _ if random.below(4) == 0 => Event::Token(12, random.below(50).to_string()),
            _ => Event::Token(13, format!("{}.{:03}", random.below(2000), random.below(1000))),
        });
    }
    line.push(Event::Token(14, "\n".to_string()));
    line.push(Event::Finish);
    line
}

/// One node over `tokens` tokens, every second one a blank.
pub fn wide(tokens: usize) -> Sheet {
    let mut random = Random::new(3);
    let token = |at| match at % 2 {
        1 => Event::Token(11, " ".to_string()),
        _ => Event::Token(12, random.below(3000).to_string()),
    };
    under_root((0..tokens).map(token).collect())
}

/// One node over tokens no two of which are alike: every search of a first build is in vain.
pub fn distinct(tokens: usize) -> Sheet {
    under_root((0..tokens).map(|at| Event::Token(12, at.to_string())).collect())
}

fn under_root(mut tokens: Vec<Event>) -> Sheet {
    tokens.insert(0, Event::Start(1));
    tokens.push(Event::Finish);
    Sheet::new(&tokens)
}

/// A chain of nodes with a token before and after each.
pub fn chain(nodes: usize) -> Sheet {
    let mut events = Vec::new();
    for at in 0..nodes {
        events.push(Event::Start(2));
        events.push(Event::Token(10, format!("({}", at % 7)));
    }
    events.push(Event::Token(12, "x".to_string()));
    for _ in 0..nodes {
        events.push(Event::Token(11, ")".to_string()));
        events.push(Event::Finish);
    }
    Sheet::new(&events)
}

/// Any tree of so many elements, up to 30 deep; empty tokens, but no childless node.
pub fn random(elements: usize) -> Sheet {
    let mut random = Random::new(5);
    let mut events = vec![Event::Start(1)];
    let mut depth = 1;
    let mut made = 0;
    let blank = || Event::Token(11, " ".to_string());
    while made < elements {
        match random.below(10) {
            0..=5 => {
                let kind = 10 + random.below(6) as u16;
                let text = ["a", "let", " ", "0.5", "foo_bar", ""][random.below(6)];
                events.push(Event::Token(kind, text.to_string()));
                made += 1;
            }
            6 | 7 if depth < 30 => {
                events.push(Event::Start(2 + random.below(5) as u16));
                depth += 1;
                made += 1;
            }
            _ if depth > 1 => {
                if let Some(Event::Start(_)) = events.last() {
                    events.push(blank());
                    made += 1;
                }
                events.push(Event::Finish);
                depth -= 1;
            }
            _ => (),
        }
    }
    if let Some(Event::Start(_)) = events.last() {
        events.push(blank());
    }
    events.extend((0..depth).map(|_| Event::Finish));
    Sheet::new(&events)
}
