//! The ratios as bars, on a scale of logarithms.

use crate::{measure::Row, rows::SPECS};
use std::fmt::Write;

const LABELS: f64 = 330.0;
const BARS: f64 = 560.0;
const FIGURES: f64 = 60.0;
const BAR: f64 = 9.0;
const GAP: f64 = 12.0;
const TOP: f64 = 62.0;

/// The ends of the scale; a bar past them is cut there, and its figure tells the rest.
const LEAST: f64 = 0.02;
const MOST: f64 = 100.0;
const TICKS: [f64; 9] = [0.02, 0.05, 0.2, 0.5, 1.0, 2.0, 5.0, 20.0, 100.0];

/// Readable on white and on black.
const COLOURS: [&str; 4] = ["#3b82c4", "#d98b1f", "#2f9e77", "#b565a7"];

const STYLE: &str =
    "text{font:12px sans-serif;fill:#24292f}.figure{font-size:9px}.line{stroke:#8c959f;stroke-width:.5}\
.one{stroke:#24292f;stroke-width:1.5}.ground{fill:#fff}@media(prefers-color-scheme:dark){text{fill:#e6edf3}\
.one{stroke:#e6edf3}.ground{fill:#0d1117}}";

pub fn chart(rows: &[Row], trees: &[&str]) -> String {
    let group = BAR * trees.len() as f64 + GAP;
    let height = TOP + group * SPECS.len() as f64 + 10.0;
    let width = LABELS + BARS + FIGURES;
    let mut svg = format!(
        "<svg xmlns=\"http://www.w3.org/2000/svg\" viewBox=\"0 0 {width} {height}\" width=\"{width}\" height=\"{height}\" \
         role=\"img\"><title>rowan's time over ours</title><style>{STYLE}</style>\
         <rect class=\"ground\" width=\"{width}\" height=\"{height}\"/>\n"
    );
    legend(&mut svg, trees);
    scale(&mut svg, height);
    for (at, spec) in SPECS.iter().enumerate() {
        let top = TOP + group * at as f64;
        let middle = top + group / 2.0 - 2.0;
        writeln!(svg, "<text x=\"{}\" y=\"{middle:.1}\" text-anchor=\"end\">{}</text>", LABELS - 10.0, spec.title)
            .unwrap();
        for (tree, name) in trees.iter().enumerate() {
            let row = rows.iter().find(|it| it.key == spec.key && it.tree == *name);
            if let Some(row) = row {
                bar(&mut svg, row.ratio, top + BAR * tree as f64, COLOURS[tree]);
            }
        }
    }
    svg + "</svg>\n"
}

fn legend(svg: &mut String, trees: &[&str]) {
    svg.push_str("<text x=\"10\" y=\"18\">rowan's time over ours: right of 1 the library is faster</text>\n");
    for (at, tree) in trees.iter().enumerate() {
        let x = LABELS + 100.0 + 110.0 * at as f64;
        let colour = COLOURS[at];
        writeln!(svg, "<rect x=\"{x}\" y=\"9\" width=\"10\" height=\"10\" fill=\"{colour}\"/><text x=\"{}\" y=\"18\">{tree}</text>", x + 15.0).unwrap();
    }
}

fn scale(svg: &mut String, height: f64) {
    for tick in TICKS {
        let x = place(tick);
        let class = if tick == 1.0 { "one" } else { "line" };
        writeln!(svg, "<text x=\"{x:.1}\" y=\"44\" text-anchor=\"middle\">{tick}</text>").unwrap();
        writeln!(svg, "<line class=\"{class}\" x1=\"{x:.1}\" x2=\"{x:.1}\" y1=\"50\" y2=\"{:.1}\"/>", height - 8.0)
            .unwrap();
    }
}

fn bar(svg: &mut String, ratio: f64, y: f64, colour: &str) {
    let (one, end) = (place(1.0), place(ratio));
    let (left, width) = (one.min(end), (end - one).abs());
    let (x, anchor) = if ratio < 1.0 { (end - 3.0, "end") } else { (end + 3.0, "start") };
    let size = BAR - 1.0;
    write!(svg, "<rect x=\"{left:.1}\" y=\"{y:.1}\" width=\"{width:.1}\" height=\"{size}\" fill=\"{colour}\"/>")
        .unwrap();
    writeln!(
        svg,
        "<text class=\"figure\" x=\"{x:.1}\" y=\"{:.1}\" text-anchor=\"{anchor}\">{ratio:.2}</text>",
        y + size - 0.5
    )
    .unwrap();
}

fn place(ratio: f64) -> f64 {
    let part = (ratio.clamp(LEAST, MOST) / LEAST).ln() / (MOST / LEAST).ln();
    LABELS + BARS * part
}
