//! Running a program that replays scripts.

use crate::script::{self, Call};
use std::{
    env, fs,
    path::{Path, PathBuf},
    process::{self, Command},
    sync::atomic::{AtomicU32, Ordering},
};

/// A program that reads the file `calls` in its current folder and prints the replies.
pub struct Program(PathBuf);

/// How the line begins that tells of a program's failure.
pub const ENDED_WITH: &str = "(the program ended with ";

/// A folder of this process's own, removed with the value.
struct Folder(PathBuf);

impl Folder {
    fn new() -> Result<Folder, String> {
        static COUNT: AtomicU32 = AtomicU32::new(0);
        let count = COUNT.fetch_add(1, Ordering::Relaxed);
        let folder = env::temp_dir().join(format!("oracle-{}-{count}", process::id()));
        match fs::create_dir(&folder) {
            Ok(()) => Ok(Folder(folder)),
            Err(error) => Err(format!("{}: {error}", folder.display())),
        }
    }
}

impl Drop for Folder {
    fn drop(&mut self) {
        // A folder left behind does no harm to the comparison.
        let _ = fs::remove_dir_all(&self.0);
    }
}

impl Program {
    /// The program of this path, which is made absolute since it runs in another folder.
    pub fn new(path: &Path) -> Result<Program, String> {
        let absolute = fs::canonicalize(path);
        let absolute = absolute.map_err(|error| format!("{}: {error}", path.display()))?;
        Ok(Program(absolute))
    }

    /// What the program prints to a script.
    pub fn output(&self, calls: &[Call]) -> Result<String, String> {
        let folder = Folder::new()?;
        let failed = |error: &dyn std::fmt::Display| format!("{}: {error}", self.0.display());
        let file = folder.0.join("calls");
        fs::write(&file, script::write(calls))
            .map_err(|error| format!("{}: {error}", file.display()))?;
        let run = Command::new(&self.0).current_dir(&folder.0).output();
        let output = run.map_err(|error| failed(&error))?;
        let text = String::from_utf8_lossy(&output.stdout).into_owned();
        match output.status.success() {
            true => Ok(text),
            // What it printed before is compared, and this line is no reply to any call.
            false => Ok(text + &format!("{ENDED_WITH}{})\n", output.status)),
        }
    }
}
