//! Stands for the crate countme, which counts live values of a type when that is switched on. It
//! is off by default and rowan's answers do not depend on it, so this one counts nothing.

use std::marker::PhantomData;

/// A field of a type whose values are to be counted. It has no size, as rowan's layout wants.
#[derive(Debug, Clone, Copy, PartialEq, Eq, Hash)]
pub struct Count<T>(PhantomData<fn(T)>);

impl<T> Count<T> {
    pub fn new() -> Count<T> {
        Count(PhantomData)
    }
}

impl<T> Default for Count<T> {
    fn default() -> Count<T> {
        Count::new()
    }
}

#[cfg(test)]
mod tests {
    use super::Count;

    #[test]
    fn a_count_has_no_size() {
        assert_eq!(std::mem::size_of::<Count<u64>>(), 0);
    }
}
