//! The 64-bit hash that document 01 calls a mark.

const FACTOR: u64 = 0x517c_c1b7_2722_0a95;

/// The hash after these words, from 0.
pub fn of_words(words: impl IntoIterator<Item = u64>) -> u64 {
    words.into_iter().fold(0, |hash: u64, word| {
        (hash.rotate_left(5) ^ word).wrapping_mul(FACTOR)
    })
}

/// Of a token: the kind first, then byte after byte, and 255 where the text ends.
pub fn of_token(kind: u16, text: &[u8]) -> u64 {
    let bytes = text.iter().map(|it| u64::from(*it));
    of_words([kind.into()].into_iter().chain(bytes).chain([255]))
}

/// Of a node: the kind first, then the hashes of its children. 0 if it is not sharable.
pub fn of_node(kind: u16, children: &[u64]) -> u64 {
    if !is_sharable(children) {
        return 0;
    }
    of_words([kind.into()].into_iter().chain(children.iter().copied()))
}

/// Whether a node over children of these hashes is sharable: at most three, none of them 0.
pub fn is_sharable(children: &[u64]) -> bool {
    children.len() <= 3 && !children.contains(&0)
}
