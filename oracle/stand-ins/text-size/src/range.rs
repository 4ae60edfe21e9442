use crate::TextSize;
use std::{
    cmp::{max, min, Ordering},
    fmt,
    ops::{Index, Sub},
};

/// A range of a text, from `start` up to and without `end`.
#[derive(Clone, Copy, PartialEq, Eq, Hash)]
pub struct TextRange {
    start: TextSize,
    end: TextSize,
}

impl TextRange {
    /// Panics if the range would end before its start.
    #[inline]
    pub fn new(start: TextSize, end: TextSize) -> TextRange {
        assert!(start <= end, "a range ends before its start");
        TextRange { start, end }
    }

    #[inline]
    pub fn at(start: TextSize, len: TextSize) -> TextRange {
        TextRange::new(start, start + len)
    }

    #[inline]
    pub fn start(self) -> TextSize {
        self.start
    }

    #[inline]
    pub fn end(self) -> TextSize {
        self.end
    }

    #[inline]
    pub fn len(self) -> TextSize {
        self.end - self.start
    }

    #[inline]
    pub fn is_empty(self) -> bool {
        self.start == self.end
    }

    #[inline]
    pub fn contains_range(self, other: TextRange) -> bool {
        self.start <= other.start && other.end <= self.end
    }

    /// What lies in both: an empty range if they only touch, none if they do not even touch.
    #[inline]
    pub fn intersect(self, other: TextRange) -> Option<TextRange> {
        let start = max(self.start, other.start);
        let end = min(self.end, other.end);
        (start <= end).then_some(TextRange { start, end })
    }

    /// Less if `self` ends at or before the other's start, greater the other way about, equal if
    /// they overlap.
    #[inline]
    pub fn ordering(self, other: TextRange) -> Ordering {
        if self.end <= other.start {
            Ordering::Less
        } else if other.end <= self.start {
            Ordering::Greater
        } else {
            Ordering::Equal
        }
    }
}

impl fmt::Debug for TextRange {
    fn fmt(&self, f: &mut fmt::Formatter<'_>) -> fmt::Result {
        write!(f, "{:?}..{:?}", self.start, self.end)
    }
}

impl Sub<TextSize> for TextRange {
    type Output = TextRange;

    /// The range moved towards the start. Panics if it would pass it.
    #[inline]
    fn sub(self, offset: TextSize) -> TextRange {
        let moved = self.start.checked_sub(offset);
        let start = moved.expect("a range is moved past the start of the text");
        TextRange {
            start,
            end: self.end - offset,
        }
    }
}

impl Index<TextRange> for str {
    type Output = str;

    #[inline]
    fn index(&self, range: TextRange) -> &str {
        &self[u32::from(range.start) as usize..u32::from(range.end) as usize]
    }
}

#[cfg(test)]
mod tests {
    use super::*;
    use std::panic::catch_unwind;

    fn range(start: u32, end: u32) -> TextRange {
        TextRange::new(start.into(), end.into())
    }

    #[test]
    fn touching_ranges_are_in_order() {
        assert_eq!(range(0, 2).ordering(range(2, 3)), Ordering::Less);
        assert_eq!(range(2, 3).ordering(range(0, 2)), Ordering::Greater);
        assert_eq!(range(0, 3).ordering(range(2, 5)), Ordering::Equal);
        // An empty range at the same point ends at the other's start.
        assert_eq!(range(2, 2).ordering(range(2, 2)), Ordering::Less);
        assert_eq!(range(1, 3).ordering(range(2, 2)), Ordering::Equal);
    }

    #[test]
    fn touching_ranges_meet_in_an_empty_one() {
        assert_eq!(range(0, 2).intersect(range(2, 5)), Some(range(2, 2)));
        assert_eq!(range(0, 4).intersect(range(2, 5)), Some(range(2, 4)));
        assert_eq!(range(0, 1).intersect(range(2, 5)), None);
    }

    #[test]
    fn a_range_contains_itself_and_its_ends() {
        assert!(range(1, 3).contains_range(range(1, 3)));
        assert!(range(1, 3).contains_range(range(3, 3)));
        assert!(!range(1, 3).contains_range(range(0, 2)));
        assert!(!range(1, 3).contains_range(range(3, 4)));
    }

    #[test]
    fn what_cannot_be_panics() {
        assert!(catch_unwind(|| range(2, 1)).is_err());
        assert!(catch_unwind(|| range(1, 2) - TextSize::from(2)).is_err());
        assert_eq!(range(3, 5) - TextSize::from(2), range(1, 3));
    }

    #[test]
    fn a_string_is_cut_at_bytes() {
        assert_eq!(&"BS 12"[range(1, 3)], "S ");
        assert_eq!(TextSize::of("BS 12"), 5.into());
        assert_eq!(range(1, 3).len(), 2.into());
        assert!(TextRange::at(4.into(), 0.into()).is_empty());
    }
}
