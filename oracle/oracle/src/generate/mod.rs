//! Scripts made by rule: random ones from a seed, and all short sheets.

pub mod collisions;
mod edits;
mod exhaust;
mod paths;
mod queries;
mod random;
mod recorder;
mod sample;
mod script;
mod sheets;

pub use exhaust::{all_sheets, run_twice, sheet_count, tree_calls, Topic};
pub use random::Random;
pub use sample::sample;
pub use script::script;

/// Which calls a script may hold, for programs that do not offer all of them.
#[derive(Debug, Clone, Copy, PartialEq, Eq)]
pub enum Profile {
    /// Stores and runs of sheets.
    Sheets,
    /// These, and the calls that take paths and answer at once, on deep and wide trees more often.
    Queries,
    /// Stores and runs, and the calls under Reading and Text.
    Reading,
    /// All calls.
    All,
}

impl Profile {
    pub const NAMES: &'static str = "sheets, queries, reading or all";

    pub fn of_name(name: &str) -> Option<Profile> {
        match name {
            "sheets" => Some(Profile::Sheets),
            "queries" => Some(Profile::Queries),
            "reading" => Some(Profile::Reading),
            "all" => Some(Profile::All),
            _ => None,
        }
    }
}
