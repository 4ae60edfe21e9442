//! The small example of the call script's page, byte for byte.

use oracle::{
    compare::replies,
    model::Model,
    script::{read, write},
};

const WORDS: &str = "
    00000003 00000010
      00000030
      00000005 00000005  00020001 00010002 00010003 00010004 00030000
                         00000000 00000002 00000001 00000002 00000000
      00000005 31205342 00000032
    00000032 00000003 00000000 00000003 00000000
    00000033 00000004 00000001 00000000 00000001 00000003
    00000036 00000001 00000001
    00000036 00000001 00000001
    00000036 00000001 00000001
    00000036 00000001 00000001
    00000036 00000001 00000001
";

const REPLIES: [&str; 13] = [
    "e - 0 0 0",
    "e 0 1 0 2",
    "e 1 2 0 3",
    "e 2 3 0 5",
    "e 3 4 3 5",
    "root 3 store 4 3 5",
    "ok",
    "ok",
    "chunk 1 53",
    "chunk 1 20",
    "chunk 0",
    "ended",
    "ended",
];

fn script() -> Vec<u8> {
    let words = WORDS.split_whitespace();
    let word = |it| u32::from_str_radix(it, 16).expect("a hexadecimal word");
    words.flat_map(|it| word(it).to_le_bytes()).collect()
}

#[test]
fn both_readings_reply_as_the_page_has_it() {
    let calls = read(&script()).expect("a script");
    let by_rowan = replies(&calls).expect("the readings agree");
    let lines: Vec<String> = by_rowan.iter().map(ToString::to_string).collect();
    assert_eq!(lines.join("\n"), REPLIES.join("\n"));
    let mut model = Model::default();
    let lines: Vec<String> = calls
        .iter()
        .map(|it| model.answer(it).to_string())
        .collect();
    assert_eq!(lines.join("\n"), REPLIES.join("\n"));
}

#[test]
fn the_script_is_written_as_it_was_read() {
    let calls = read(&script()).expect("a script");
    assert_eq!(calls.len(), 8);
    assert_eq!(write(&calls), script());
}
