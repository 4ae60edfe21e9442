//! A parser of field notes: setups, sights, angles, distances and remarks, one a line. Every byte becomes part of a token.

// Each example uses a part of this.
#![allow(dead_code)]

use notes_tree::{Checkpoint, GreenNodeBuilder, SyntaxKind};

/// The kinds of the notes' elements: nodes, then tokens.
#[derive(Debug, Clone, Copy, PartialEq, Eq)]
pub enum Kind {
    /// The whole job: its title, then the setups.
    Job = 1,
    /// A setup: its target, the height of the instrument, and every sight and remark up to the next one.
    Setup = 2,
    /// A sight, back (`BS`) or fore (`FS`): its target, then its readings.
    Sight = 3,
    /// Keyword, blank, point.
    Target = 4,
    /// `HI`, `ANG` or `DIST`, blank, number.
    Reading = 5,
    Remark = 6,
    Title = 7,
    /// A line that is none of these.
    Other = 8,
    Keyword = 16,
    /// `CP` and a number, a traverse point, or `IP` and a number, an iron pin.
    Point = 17,
    Number = 18,
    Word = 19,
    Blank = 20,
    Newline = 21,
}

impl Kind {
    pub fn of(kind: SyntaxKind) -> Kind {
        use Kind::*;
        let nodes = [Job, Setup, Sight, Target, Reading, Remark, Title, Other];
        let tokens = [Keyword, Point, Number, Word, Blank, Newline];
        let found = nodes.into_iter().chain(tokens).find(|known| *known as u16 == kind.0);
        found.expect("the parser makes no other kind")
    }

    pub fn name(self) -> String {
        format!("{self:?}").to_lowercase()
    }
}

impl From<Kind> for SyntaxKind {
    fn from(kind: Kind) -> SyntaxKind {
        SyntaxKind(kind as u16)
    }
}

/// The events of the notes.
pub fn parse(notes: &str) -> GreenNodeBuilder {
    let mut parser = Parser { builder: GreenNodeBuilder::new(), is_in_setup: false };
    parser.start(Kind::Job);
    for line in notes.split_inclusive('\n') {
        parser.line(&pieces(line));
    }
    if parser.is_in_setup {
        parser.finish();
    }
    parser.finish();
    parser.builder
}

struct Parser {
    builder: GreenNodeBuilder,
    /// A setup stays open for its sights and remarks.
    is_in_setup: bool,
}

impl Parser {
    fn start(&mut self, kind: Kind) {
        self.builder.start_node(kind.into());
    }

    fn start_at(&mut self, checkpoint: Checkpoint, kind: Kind) {
        self.builder.start_node_at(checkpoint, kind.into());
    }

    fn finish(&mut self) {
        self.builder.finish_node();
    }

    fn token(&mut self, kind: Kind, text: &str) {
        self.builder.token(kind.into(), text);
    }

    /// One line, by its first word.
    fn line(&mut self, pieces: &[&str]) {
        let blanks = pieces.iter().take_while(|piece| is_blank(piece)).count();
        let (blanks, rest) = pieces.split_at(blanks);
        let keyword = rest.first().copied().unwrap_or_default();
        if keyword == "SETUP" && self.is_in_setup {
            self.finish();
        }
        blanks.iter().for_each(|blank| self.token(Kind::Blank, blank));
        match keyword {
            "SETUP" => {
                self.sight(Kind::Setup, rest);
                self.is_in_setup = true;
            }
            "BS" | "FS" => {
                self.sight(Kind::Sight, rest);
                self.finish();
            }
            "JOB" => self.sentence(Kind::Title, rest),
            "REM" => self.sentence(Kind::Remark, rest),
            "" | "\n" => rest.iter().for_each(|piece| self.piece(piece)),
            _ => self.sentence(Kind::Other, rest),
        }
    }

    /// A setup or a sight, left open. Its target comes first, so the node around both is started where the target began.
    fn sight(&mut self, kind: Kind, pieces: &[&str]) {
        let checkpoint = self.builder.checkpoint();
        let mut rest = &pieces[1..];
        self.token(Kind::Keyword, pieces[0]);
        if let [blank, point, after @ ..] = rest {
            if is_blank(blank) && is_word(point) {
                self.token(Kind::Blank, blank);
                self.token(Kind::Point, point);
                self.start_at(checkpoint, Kind::Target);
                self.finish();
                rest = after;
            }
        }
        self.start_at(checkpoint, kind);
        while let Some((piece, after)) = rest.split_first() {
            rest = match (*piece, after) {
                ("HI" | "ANG" | "DIST", [blank, number, after @ ..]) if is_blank(blank) && is_word(number) => {
                    self.reading(piece, blank, number);
                    after
                }
                _ => {
                    self.piece(piece);
                    after
                }
            };
        }
    }

    fn reading(&mut self, keyword: &str, blank: &str, number: &str) {
        self.start(Kind::Reading);
        self.token(Kind::Keyword, keyword);
        self.token(Kind::Blank, blank);
        self.token(Kind::Number, number);
        self.finish();
    }

    /// A line of words.
    fn sentence(&mut self, kind: Kind, pieces: &[&str]) {
        self.start(kind);
        let (first, rest) = pieces.split_at(1);
        self.token(if kind == Kind::Other { Kind::Word } else { Kind::Keyword }, first[0]);
        rest.iter().for_each(|piece| self.piece(piece));
        self.finish();
    }

    fn piece(&mut self, piece: &str) {
        let kind = match piece {
            "\n" => Kind::Newline,
            _ if is_blank(piece) => Kind::Blank,
            _ if is_point(piece) => Kind::Point,
            _ => Kind::Word,
        };
        self.token(kind, piece);
    }
}

/// A line's words, the blanks between them and its newline.
fn pieces(line: &str) -> Vec<&str> {
    let class = |byte: &u8| (*byte == b'\n', is_blank_byte(*byte));
    let mut rest = line;
    let runs = line.as_bytes().chunk_by(|one, next| class(one) == class(next));
    runs.map(|run| {
        let (piece, after) = rest.split_at(run.len());
        rest = after;
        piece
    })
    .collect()
}

fn is_blank_byte(byte: u8) -> bool {
    matches!(byte, b' ' | b'\t' | b'\r')
}

fn is_blank(piece: &str) -> bool {
    piece.bytes().all(is_blank_byte)
}

fn is_word(piece: &str) -> bool {
    !is_blank(piece) && piece != "\n"
}

fn is_point(piece: &str) -> bool {
    let number = piece.strip_prefix("CP").or(piece.strip_prefix("IP"));
    number.is_some_and(|number| !number.is_empty() && number.bytes().all(|byte| byte.is_ascii_digit()))
}
