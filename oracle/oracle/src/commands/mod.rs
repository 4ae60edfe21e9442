//! The commands of the program `oracle`.

mod compare;
mod exhaust;
mod gen;
mod list;
mod options;
mod progress;
mod replay;
mod sample;

use std::{fs, path::Path, process::ExitCode};

pub const USE: &str = "\
use: oracle replay FILE
         prints the replies to a call script, by rowan and, outside the domain, by the model
     oracle model FILE
         prints the model's replies alone
     oracle gen SEED COUNT FOLDER [PROFILE]
         writes random call scripts; a profile is sheets, queries, reading or all
     oracle exhaust EVENTS [--queries] [--walks] [--texts] [--edits] [--program PROGRAM] [--save FILE]
         compares all sheets of up to so many events, on request with all queries, walks, texts
         or edits of each tree
     oracle compare [PROGRAM] [--seed SEED] [--scripts COUNT] [--profile PROFILE] [--no-marks] [--save FILE]
         compares rowan and the model, and a program with them, on random call scripts;
         a script that shows a difference is minimised, printed and on request saved;
         without marks, for a hasher that is not document 01's, call 61 is left out and the
         tokens that are made for their marks are changed to ordinary ones
     oracle compare [PROGRAM] --script FILE [--save FILE]
         the same on one call script
     oracle sample FILE
         writes the call script of the stored sample
     oracle list SHEET TEXT
         prints what document 01's program `list` prints, by rowan
";

/// Why a command did not do its work.
pub enum Failure {
    /// The words are not a command's.
    Use,
    /// A file or program cannot be used; one line that says so.
    Input(String),
    /// Replies differ, and the difference has been printed.
    Differs,
}

/// Runs the command that the words after the program's name give.
pub fn run(words: &[String]) -> ExitCode {
    let words: Vec<&str> = words.iter().map(String::as_str).collect();
    let done = match words[..] {
        ["replay", file] => replay::replay(file),
        ["model", file] => replay::model(file),
        ["gen", seed, count, folder] => gen::gen(seed, count, folder, "all"),
        ["gen", seed, count, folder, profile] => gen::gen(seed, count, folder, profile),
        ["exhaust", events, ref rest @ ..] => exhaust::exhaust(events, rest),
        ["compare", ref rest @ ..] => compare::compare(rest),
        ["sample", file] => sample::sample(file),
        ["list", sheet, text] => list::list(sheet, text),
        _ => Err(Failure::Use),
    };
    match done {
        Ok(()) => ExitCode::SUCCESS,
        Err(Failure::Differs) => ExitCode::from(1),
        Err(Failure::Input(line)) => {
            eprintln!("oracle: {line}");
            ExitCode::from(2)
        }
        Err(Failure::Use) => {
            eprint!("{USE}");
            ExitCode::from(2)
        }
    }
}

fn read_file(file: &str) -> Result<Vec<u8>, Failure> {
    fs::read(Path::new(file)).map_err(|error| Failure::Input(format!("{file}: {error}")))
}

fn write_file(file: &Path, bytes: &[u8]) -> Result<(), Failure> {
    let failed = |error| Failure::Input(format!("{}: {error}", file.display()));
    fs::write(file, bytes).map_err(failed)
}

fn number<T: std::str::FromStr>(word: &str) -> Result<T, Failure> {
    let number = word.parse();
    number.map_err(|_| Failure::Input(format!("{word} is no number that fits here")))
}
