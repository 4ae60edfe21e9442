//! Tables in Markdown.

use crate::{
    measure::Row,
    rows::{Spec, SPECS},
};
use std::{fs, process::Command};

/// Which crates rowan was compiled over, as `over` says.
const OVER: &str = env!("ROWAN_OVER");

/// Where and over what it was measured.
pub fn heading(samples: usize) -> String {
    format!(
        "rowan over {OVER}. {}; {}; {}; load {}; medians of {samples} samples.\n",
        output("date", &["-u", "+%Y-%m-%d"]),
        machine(),
        output("rustc", &["--version"]).split(" (").next().unwrap_or(""),
        fs::read_to_string("/proc/loadavg").unwrap_or_default().split(' ').next().unwrap_or("unknown"),
    )
}

/// The processor's name and number, and nothing that tells one machine from its like.
fn machine() -> String {
    let info = fs::read_to_string("/proc/cpuinfo").unwrap_or_default();
    let names = || info.lines().filter(|it| it.starts_with("model name"));
    let name = names().next().and_then(|it| it.split(": ").nth(1)).unwrap_or("unknown");
    format!("{name}, {} cores", names().count())
}

fn output(program: &str, arguments: &[&str]) -> String {
    let output = Command::new(program).args(arguments).output();
    output.map(|it| String::from_utf8_lossy(&it.stdout).trim().to_string()).unwrap_or_default()
}

/// A column for each tree: the ratio, and the nanoseconds of both.
pub fn ratios(specs: &[Spec], rows: &[Row], trees: &[&str]) -> String {
    let mut table = head(&["", "a unit"], trees);
    for spec in specs {
        let cells = trees.iter().map(|tree| match find(rows, spec.key, tree) {
            Some(row) => format!("**{:.2}** ({} / {})", row.ratio, figure(row.rowan), figure(row.ours)),
            None => String::new(),
        });
        table += &line(spec, cells);
    }
    table
}

/// Two columns for each size: nanoseconds of rowan, and ours.
pub fn growth(rows: &[Row], sizes: &[&str]) -> String {
    let columns: Vec<String> =
        ["rowan", "ours"].iter().flat_map(|it| sizes.iter().map(move |size| format!("{it} {size}"))).collect();
    let columns: Vec<&str> = columns.iter().map(String::as_str).collect();
    let mut table = head(&["", "a unit"], &columns);
    for spec in &SPECS {
        let found: Vec<&Row> = sizes.iter().filter_map(|size| find(rows, spec.key, size)).collect();
        let rowan = found.iter().map(|it| figure(it.rowan));
        table += &line(spec, rowan.chain(found.iter().map(|it| figure(it.ours))));
    }
    table
}

fn find<'a>(rows: &'a [Row], key: &str, tree: &str) -> Option<&'a Row> {
    rows.iter().find(|it| it.key == key && it.tree == tree)
}

fn head(left: &[&str], right: &[&str]) -> String {
    let names = format!("| {} | {} |\n", left.join(" | "), right.join(" | "));
    names + "|" + &"---|".repeat(left.len()) + &"---:|".repeat(right.len()) + "\n"
}

fn line(spec: &Spec, cells: impl Iterator<Item = String>) -> String {
    let cells: Vec<String> = cells.collect();
    match cells.iter().all(String::is_empty) {
        true => String::new(),
        false => format!("| {} | {} | {} |\n", spec.title, spec.unit, cells.join(" | ")),
    }
}

/// Three figures, as far as they mean something.
fn figure(value: f64) -> String {
    match value {
        ..10.0 => format!("{value:.1}"),
        10.0..1_000.0 => format!("{value:.0}"),
        _ => thousands(value.round() as u64),
    }
}

pub fn thousands(value: u64) -> String {
    match value {
        0..1_000 => value.to_string(),
        _ => format!("{},{:03}", thousands(value / 1_000), value % 1_000),
    }
}
