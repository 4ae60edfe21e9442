//! Options in words.

use super::Failure;

/// Takes the word after an option out of the words; none if the option is not there.
pub fn take_value<'a>(words: &mut Vec<&'a str>, option: &str) -> Result<Option<&'a str>, Failure> {
    let Some(at) = words.iter().position(|it| *it == option) else {
        return Ok(None);
    };
    if at + 1 == words.len() {
        return Err(Failure::Use);
    }
    words.remove(at);
    Ok(Some(words.remove(at)))
}

/// Takes an option without a value out of the words; whether it was there.
pub fn take_flag(words: &mut Vec<&str>, option: &str) -> bool {
    let before = words.len();
    words.retain(|it| *it != option);
    words.len() < before
}
