//! `oracle gen`.

use super::{number, write_file, Failure};
use crate::{
    generate::{script, Profile},
    script::write,
};
use std::{fs, path::Path};

/// Writes the scripts of the seeds from `seed` on, each to a file named after its seed.
pub fn gen(seed: &str, count: &str, folder: &str, profile: &str) -> Result<(), Failure> {
    let (seed, count): (u64, u64) = (number(seed)?, number(count)?);
    let profile = profile_of_name(profile)?;
    let failed = |error| Failure::Input(format!("{folder}: {error}"));
    fs::create_dir_all(folder).map_err(failed)?;
    for seed in (0..count).map(|it| seed.wrapping_add(it)) {
        let file = Path::new(folder).join(format!("{seed}.calls"));
        write_file(&file, &write(&script(seed, profile)))?;
    }
    Ok(())
}

pub fn profile_of_name(name: &str) -> Result<Profile, Failure> {
    let unknown = || Failure::Input(format!("{name}: a profile is {}", Profile::NAMES));
    Profile::of_name(name).ok_or_else(unknown)
}
