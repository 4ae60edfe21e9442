//! What a full run writes: the tables of docs/PERFORMANCE.md, between its marker lines, and the chart beside it.

pub mod chart;
pub mod tables;

use std::{fs, path::Path};

const BEGIN: &str = "<!-- tables: bench/run writes from here -->";
const END: &str = "<!-- tables: to here -->";

/// Puts the text between the marker lines of the document.
pub fn place(document: &Path, text: &str) -> Result<(), String> {
    let name = document.display();
    let old = fs::read_to_string(document).map_err(|it| format!("{name}: {it}"))?;
    let parts = old.split_once(BEGIN).and_then(|(before, rest)| Some((before, rest.split_once(END)?.1)));
    let (before, after) = parts.ok_or(format!("{name} has no marker lines"))?;
    let new = format!("{before}{BEGIN}\n{text}\n{END}{after}");
    fs::write(document, new).map_err(|it| format!("{name}: {it}"))
}
