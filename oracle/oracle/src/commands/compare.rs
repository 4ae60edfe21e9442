//! `oracle compare`.

use super::{
    gen::profile_of_name,
    number,
    options::{take_flag, take_value},
    progress::Progress,
    replay::read_script,
    write_file, Failure,
};
use crate::{
    compare::{Program, Subject, Tally},
    generate::{collisions, script, Profile},
    script::{write, Call},
};
use std::path::Path;

const DEFAULT_SCRIPTS: u64 = 1_000;

pub fn compare(words: &[&str]) -> Result<(), Failure> {
    let mut words = words.to_vec();
    let seed = take_value(&mut words, "--seed")?.map_or(Ok(1), number::<u64>)?;
    let count = take_value(&mut words, "--scripts")?.map_or(Ok(DEFAULT_SCRIPTS), number::<u64>)?;
    let profile = take_value(&mut words, "--profile")?.map_or(Ok(Profile::All), profile_of_name)?;
    let file = take_value(&mut words, "--script")?;
    let save = take_value(&mut words, "--save")?;
    let without_marks = take_flag(&mut words, "--no-marks");
    let program = match words[..] {
        [] => None,
        [program] if !program.starts_with("--") => Some(program),
        _ => return Err(Failure::Use),
    };
    let mut comparison = Comparison::new(program, save)?;
    if let Some(file) = file {
        comparison.check(&read_script(file)?, file)?;
    } else {
        let mut progress = Progress::new(count as usize, "scripts");
        for seed in (0..count).map(|it| seed.wrapping_add(it)) {
            let mut calls = script(seed, profile);
            if without_marks {
                calls.retain(|it| !matches!(it, Call::Mark { .. }));
                collisions::make_ordinary(&mut calls);
            }
            comparison.check(&calls, &format!("seed {seed}"))?;
            progress.advance();
        }
    }
    println!("no difference: {}", comparison.tally);
    Ok(())
}

/// A comparison of many scripts, up to the first that shows a difference.
pub struct Comparison<'a> {
    subject: Subject,
    /// Where a script that shows a difference is written.
    save: Option<&'a str>,
    pub tally: Tally,
}

impl<'a> Comparison<'a> {
    /// Of the two readings, or of a program with both.
    pub fn new(program: Option<&str>, save: Option<&'a str>) -> Result<Comparison<'a>, Failure> {
        let subject = match program {
            None => Subject::Readings,
            Some(path) => {
                let program = Program::new(Path::new(path)).map_err(Failure::Input)?;
                Subject::Program(program)
            }
        };
        Ok(Comparison {
            subject,
            save,
            tally: Tally::default(),
        })
    }

    /// Puts one script to the subject. A difference is printed after the calls that bring it about.
    pub fn check(&mut self, calls: &[Call], name: &str) -> Result<(), Failure> {
        let first = match self.subject.check(calls).map_err(Failure::Input)? {
            Ok(checked) => {
                self.tally.add(&checked);
                return Ok(());
            }
            Err(difference) => difference,
        };
        let (shorter, difference) = self.subject.minimised(calls).map_err(Failure::Input)?;
        println!("difference in the script of {name}; with all dropped that can be:");
        for (number, call) in shorter.iter().enumerate() {
            println!("{number}: {call}");
        }
        print!("{}", difference.unwrap_or(first));
        if let Some(file) = self.save {
            write_file(Path::new(file), &write(&shorter))?;
        }
        Err(Failure::Differs)
    }
}
