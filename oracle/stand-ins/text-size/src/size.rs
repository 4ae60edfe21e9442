use std::{
    fmt,
    ops::{Add, AddAssign, Sub},
};

/// An offset in a text, or a length of one, in bytes.
#[derive(Clone, Copy, Default, PartialEq, Eq, PartialOrd, Ord, Hash)]
pub struct TextSize(u32);

impl TextSize {
    /// The length of a text. No text that rowan is given here reaches 2^32 bytes.
    #[inline]
    pub fn of(text: &str) -> TextSize {
        TextSize(text.len() as u32)
    }

    pub(crate) fn checked_sub(self, other: TextSize) -> Option<TextSize> {
        self.0.checked_sub(other.0).map(TextSize)
    }
}

impl fmt::Debug for TextSize {
    fn fmt(&self, f: &mut fmt::Formatter<'_>) -> fmt::Result {
        write!(f, "{}", self.0)
    }
}

impl From<u32> for TextSize {
    #[inline]
    fn from(size: u32) -> TextSize {
        TextSize(size)
    }
}

impl From<TextSize> for u32 {
    #[inline]
    fn from(size: TextSize) -> u32 {
        size.0
    }
}

impl Add for TextSize {
    type Output = TextSize;

    #[inline]
    fn add(self, other: TextSize) -> TextSize {
        TextSize(self.0 + other.0)
    }
}

impl AddAssign for TextSize {
    #[inline]
    fn add_assign(&mut self, other: TextSize) {
        *self = *self + other;
    }
}

impl Sub for TextSize {
    type Output = TextSize;

    #[inline]
    fn sub(self, other: TextSize) -> TextSize {
        TextSize(self.0 - other.0)
    }
}
