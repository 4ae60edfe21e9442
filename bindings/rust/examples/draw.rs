//! Draws the tree of field notes as the store keeps it: a box for each record, a line for each child. What is shared is one
//! box with many lines into it.
//!
//! usage: draw NOTES PICTURE.svg

mod notes;

use std::{
    collections::HashMap,
    env,
    error::Error,
    fmt::{self, Write},
    fs,
    process::ExitCode,
};

use notes::Kind;
use notes_tree::{Store, SyntaxElement, SyntaxNode, WalkEvent};

const ROW: usize = 19;
const BOX_HEIGHT: usize = 15;
const COLUMN: usize = 290;
const BOX_WIDTH: usize = 190;
const MARGIN: usize = 12;
/// Longer texts are cut.
const TEXT: usize = 26;

fn main() -> ExitCode {
    let words: Vec<String> = env::args().skip(1).collect();
    let done = match &words[..] {
        [notes, picture] => run(notes, picture),
        _ => Err("usage: draw NOTES PICTURE.svg".into()),
    };
    match done {
        Ok(()) => ExitCode::SUCCESS,
        Err(error) => {
            eprintln!("draw: {error}");
            ExitCode::FAILURE
        }
    }
}

fn run(notes: &str, picture: &str) -> Result<(), Box<dyn Error>> {
    let notes = fs::read_to_string(notes).map_err(|error| format!("{notes}: {error}"))?;
    let mut store = Store::new();
    let job = notes::parse(&notes).finish(&mut store)?;
    let records = Records::of(&SyntaxNode::new_root(&store, job)?);
    fs::write(picture, records.draw()?)?;
    println!("{} records, {} lines", records.drawn.len(), records.lines.len());
    Ok(())
}

/// A record as it is drawn.
struct Drawn {
    kind: Kind,
    text: String,
    /// The longest way down from the root; tokens stand in a column of their own.
    column: usize,
    lines_in: usize,
}

/// The records of a tree in the order in which a walk meets them, and the lines from parents to children.
#[derive(Default)]
struct Records {
    drawn: Vec<Drawn>,
    lines: Vec<(usize, usize)>,
}

impl Records {
    fn of(root: &SyntaxNode) -> Records {
        let mut records = Records::default();
        let mut places = HashMap::new();
        // The parents of the walk's element, each with whether it is met for the first time.
        let mut parents: Vec<(usize, bool)> = Vec::new();
        for event in root.preorder_with_tokens() {
            let WalkEvent::Enter(element) = event else {
                parents.pop();
                continue;
            };
            let next = records.drawn.len();
            let place = *places.entry(element.green().number()).or_insert(next);
            if place == next {
                records.drawn.push(Drawn::of(&element));
            }
            let record = &mut records.drawn[place];
            record.column = record.column.max(parents.len());
            if let Some((parent, true)) = parents.last() {
                record.lines_in += 1;
                records.lines.push((*parent, place));
            }
            parents.push((place, place == next));
        }
        records.put_tokens_last();
        records
    }

    fn put_tokens_last(&mut self) {
        let last = self.drawn.iter().map(|record| record.column).max().unwrap_or_default();
        self.drawn.iter_mut().filter(|record| record.is_token()).for_each(|record| record.column = last);
    }

    /// Where each box stands: by columns, each spread over the picture's height.
    fn places(&self) -> (Vec<(usize, usize)>, usize) {
        let columns = self.drawn.iter().map(|record| record.column + 1).max().unwrap_or_default();
        let counts: Vec<usize> =
            (0..columns).map(|column| self.drawn.iter().filter(|record| record.column == column).count()).collect();
        let height = counts.iter().max().unwrap_or(&0) * ROW;
        let mut met = vec![0; columns];
        let place = |record: &Drawn| {
            let (column, row) = (record.column, met[record.column]);
            met[column] += 1;
            (MARGIN + column * COLUMN, MARGIN + (2 * row + 1) * height / (2 * counts[column]))
        };
        (self.drawn.iter().map(place).collect(), height)
    }

    fn draw(&self) -> Result<String, fmt::Error> {
        let (places, height) = self.places();
        let width = places.iter().map(|(x, _)| x + BOX_WIDTH + 34).max().unwrap_or_default();
        let mut svg = String::new();
        writeln!(
            svg,
            "<svg xmlns=\"http://www.w3.org/2000/svg\" viewBox=\"0 0 {} {}\" font-family=\"sans-serif\" font-size=\"10\">",
            width + MARGIN,
            height + 2 * MARGIN
        )?;
        svg.push_str(STYLE);
        // The palest lines first, below the others.
        let mut lines: Vec<&(usize, usize)> = self.lines.iter().collect();
        lines.sort_by_key(|(_, child)| !self.drawn[*child].is_space());
        for (parent, child) in lines {
            let ((x0, y0), (x1, y1)) = (places[*parent], places[*child]);
            let (from, to) = (x0 + BOX_WIDTH, x1);
            let bend = (to - from) / 2;
            let class = self.drawn[*child].line_class();
            writeln!(
                svg,
                "<path class=\"{class}\" d=\"M{from} {y0}C{} {y0} {} {y1} {to} {y1}\"/>",
                from + bend,
                to - bend
            )?;
        }
        for (record, (x, y)) in self.drawn.iter().zip(&places) {
            record.draw(*x, *y, &mut svg)?;
        }
        svg.push_str("</svg>\n");
        Ok(svg)
    }
}

const STYLE: &str = "<style>
path{fill:none;stroke:#7a8aa0;stroke-opacity:.55}
path.shared{stroke:#c2410c;stroke-opacity:.75}
path.space{stroke:#9aa4b2;stroke-opacity:.16}
rect{stroke:#64748b;fill:#fff}
rect.node{fill:#e0ecf8}
rect.shared{fill:#ffedd5;stroke:#c2410c;stroke-width:1.5}
rect.back{fill:#fff;stroke:none}
.kind{fill:#475569}
.count{fill:#c2410c;font-weight:bold}
</style>
<rect class=\"back\" width=\"100%\" height=\"100%\"/>
";

impl Drawn {
    fn of(element: &SyntaxElement) -> Drawn {
        let text = format!("{:?}", element.to_string());
        let mut cut: String = text.chars().take(TEXT).collect();
        if cut.len() < text.len() {
            cut.push_str("..");
        }
        Drawn { kind: Kind::of(element.kind()), text: cut, column: 0, lines_in: 0 }
    }

    fn is_token(&self) -> bool {
        self.kind as u16 >= Kind::Keyword as u16
    }

    /// Blanks and newlines stand nearly everywhere, so their lines are pale.
    fn is_space(&self) -> bool {
        matches!(self.kind, Kind::Blank | Kind::Newline)
    }

    fn line_class(&self) -> &'static str {
        match self {
            _ if self.is_space() => "space",
            _ if self.lines_in > 1 => "shared",
            _ => "once",
        }
    }

    fn draw(&self, x: usize, y: usize, svg: &mut String) -> fmt::Result {
        let class = match self {
            _ if self.lines_in > 1 => "shared",
            _ if self.is_token() => "token",
            _ => "node",
        };
        let (top, base) = (y - BOX_HEIGHT / 2, y + 4);
        let text = self.text.replace('&', "&amp;").replace('<', "&lt;");
        writeln!(
            svg,
            "<rect class=\"{class}\" x=\"{x}\" y=\"{top}\" width=\"{BOX_WIDTH}\" height=\"{BOX_HEIGHT}\" rx=\"3\"/>"
        )?;
        write!(
            svg,
            "<text x=\"{}\" y=\"{base}\"><tspan class=\"kind\">{}</tspan> {text}</text>",
            x + 5,
            self.kind.name()
        )?;
        if self.lines_in > 1 {
            write!(svg, "<text class=\"count\" x=\"{}\" y=\"{base}\">x {}</text>", x + BOX_WIDTH + 4, self.lines_in)?;
        }
        svg.push('\n');
        Ok(())
    }
}
