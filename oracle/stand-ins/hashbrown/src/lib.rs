//! Stands for the crate hashbrown, with the raw-entry interface of its `HashMap` as rowan's node
//! cache uses it: the caller brings hash and equality, finds or inserts, and never removes.
//!
//! Entries lie densely in the order of insertion, with their hashes. Beside them is a table of
//! their places, a power of two long, open-addressed with linear probing and at most three
//! quarters full. A slot is chosen by the hash's high bits: FxHash leaves its low bits poor.

pub mod hash_map;

pub use hash_map::HashMap;
