//! Elements whose hashes collide, found by search. Random ones never do, and a program may be wrong
//! about exactly these.

use crate::script::Call;

/// A token's kind and text.
pub type Token = (u16, &'static [u8]);

/// Tokens of hash 0. Their bytes lead to the one state that the closing 255 takes to 0, so with the
/// same bytes added to each they still have equal hashes, then other than 0.
pub const ZERO_TOKENS: [Token; 4] = [
    (12_301, b"mnI>BnG\""),
    (46_309, b"'^UB/hb\""),
    (31_608, b"sW\x02bCs~!"),
    (48_782, b"N\x03kjcL0#"),
];

/// Nodes of hash 0: a kind, and the one token that stands under it.
pub const ZERO_NODES: [(u16, Token); 2] = [
    (30_927, (1_451, b"&s6Ei")),
    (33_186, (12_700, b"!\x05\rg#")),
];

/// Makes these tokens ordinary ones in a script, for a hasher that is not document 01's: it would find nothing special in them, and so share
/// other records. The last byte is changed, and no length.
pub fn make_ordinary(calls: &mut [Call]) {
    let tokens = ZERO_TOKENS.iter().chain(ZERO_NODES.iter().map(|it| &it.1));
    let special: Vec<&[u8]> = tokens.map(|it| it.1).collect();
    for call in calls {
        let Call::Run { text, .. } = call else {
            continue;
        };
        for end in 1..=text.len() {
            if special.iter().any(|it| text[..end].ends_with(it)) {
                text[end - 1] = b'~';
            }
        }
    }
}

#[cfg(test)]
mod tests {
    use super::*;

    #[test]
    fn a_special_token_is_made_ordinary_wherever_it_stands() {
        let run = |text: &[u8]| Call::Run {
            each: false,
            sheet: Vec::new(),
            text: text.to_vec(),
        };
        let mut calls = [run(b"12sW\x02bCs~!x&s6Ei"), run(b"sW\x02bCs~")];
        make_ordinary(&mut calls);
        assert_eq!(calls, [run(b"12sW\x02bCs~~x&s6E~"), run(b"sW\x02bCs~")]);
    }
}
