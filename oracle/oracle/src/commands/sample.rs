//! `oracle sample`.

use super::{write_file, Failure};
use crate::{generate, script::write};
use std::path::Path;

pub fn sample(file: &str) -> Result<(), Failure> {
    write_file(Path::new(file), &write(&generate::sample()))
}
