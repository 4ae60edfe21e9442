//! Stands for the crate memoffset. rowan's `arc.rs` uses its `offset_of!` alone, which the
//! standard library has by now.

pub use std::mem::offset_of;

#[cfg(test)]
mod tests {
    #[repr(C)]
    struct Pair<T> {
        first: u64,
        second: T,
    }

    #[test]
    fn the_offset_of_a_field() {
        assert_eq!(crate::offset_of!(Pair<u8>, first), 0);
        assert_eq!(crate::offset_of!(Pair<u8>, second), 8);
    }
}
