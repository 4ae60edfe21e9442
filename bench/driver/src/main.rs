//! driver [ROWS [SAMPLES]]: prints rows, each with its units, rowan's and our nanoseconds for one, and rowan's time over ours.
//! driver --write FOLDER [SAMPLES]: all of them, and writes PERFORMANCE.md's tables and performance.svg in the folder.

use driver::{
    case::{sheets, Case},
    measure::Bench,
    report::{chart, place, tables},
    rows, trees,
};
use std::{env, fs, path::Path, process::Command};

const SAMPLES: usize = 101;
const TREES: [&str; 4] = ["survey", "wide", "chain", "random"];
const SIZES: [(&str, usize); 4] = [("512", 512), ("1,024", 1_024), ("2,048", 2_048), ("4,096", 4_096)];

fn main() {
    let words: Vec<String> = env::args().skip(1).collect();
    let words: Vec<&str> = words.iter().map(String::as_str).collect();
    let samples = |at: usize| words.get(at).and_then(|it| it.parse().ok()).unwrap_or(SAMPLES);
    match words[..] {
        ["--write", folder, ..] => write(Path::new(folder), samples(2)),
        _ => {
            timed(words.first().unwrap_or(&""), samples(1));
        }
    }
}

fn timed(wanted: &str, samples: usize) -> Bench {
    let mut bench = Bench::new(wanted, samples);
    for (name, sheet) in sheets() {
        rows::all(&Case::new(name, sheet), &mut bench);
    }
    bench
}

fn write(folder: &Path, samples: usize) {
    let heading = tables::heading(samples);
    let bench = timed("", samples);
    let text = [
        heading,
        tables::ratios(&rows::SPECS, &bench.rows, &TREES),
        "### Through the Rust crate\n\nOne program text over the handles of both, which a reader in Rust writes.\n"
            .to_string(),
        tables::ratios(&rows::HANDLES, &bench.rows, &TREES),
        "### Growth\n\nNanoseconds for a unit, on survey jobs of at most so many events.\n".to_string(),
        tables::growth(&grown(trees::survey, rows_of_case, samples).rows, &SIZES.map(|it| it.0)),
        "The builds of one wide node of so many events, less two, half of them alike:\n".to_string(),
        tables::growth(&grown(|most| trees::wide(most - 2), rows::builds, samples).rows, &SIZES.map(|it| it.0)),
        "And where no two tokens are alike, so that every search of a first build goes over all records:\n".to_string(),
        tables::growth(&grown(|most| trees::distinct(most - 2), rows::builds, samples).rows, &SIZES.map(|it| it.0)),
        "### Memory\n\nBytes after the first build.\n".to_string(),
        memory(),
    ];
    let done = place(&folder.join("PERFORMANCE.md"), &text.join("\n"));
    let chart = chart::chart(&bench.rows, &TREES);
    let done = done.and(fs::write(folder.join("performance.svg"), chart).map_err(|it| it.to_string()));
    if let Err(line) = done {
        eprintln!("driver: {line}");
        std::process::exit(1);
    }
}

/// Rows on the trees of each size.
fn grown(
    tree: impl Fn(usize) -> trees::Sheet,
    rows: fn(&'static str, &trees::Sheet, &mut Bench),
    samples: usize,
) -> Bench {
    let mut bench = Bench::new("", samples);
    for (name, most) in SIZES {
        rows(name, &tree(most), &mut bench);
    }
    bench
}

fn rows_of_case(name: &'static str, sheet: &trees::Sheet, bench: &mut Bench) {
    rows::all(&Case::new(name, sheet.clone()), bench);
}

/// By the program beside this one.
fn memory() -> String {
    let program = env::current_exe().map(|it| it.with_file_name("memory"));
    let output = program.and_then(|it| Command::new(it).output()).expect("the program memory is beside this one");
    String::from_utf8_lossy(&output.stdout).trim_end().to_string()
}
