//! The examples' parser keeps every byte of any notes.

#[path = "../examples/notes/mod.rs"]
mod notes;

use notes_tree::{GreenNode, Store, SyntaxNode};

/// Kinds and texts of a node's children, tokens in quotes.
fn shape(node: &SyntaxNode) -> String {
    let children = node.children_with_tokens().map(|child| match child.as_node() {
        Some(node) => shape(node),
        None => format!("{:?}", child.to_string()),
    });
    format!("{}({})", notes::Kind::of(node.kind()).name(), children.collect::<Vec<_>>().join(" "))
}

fn parsed(text: &str) -> (Store<'static>, GreenNode) {
    let mut store = Store::new();
    let job = notes::parse(text).finish(&mut store).unwrap();
    assert_eq!(SyntaxNode::new_root(&store, job).unwrap().text(), text);
    (store, job)
}

#[test]
fn shapes() {
    for (text, expected) in [
        ("", "job()"),
        ("\n", r#"job("\n")"#),
        ("BS", r#"job(sight("BS"))"#),
        ("BS  CP4 \n", r#"job(sight(target("BS" "  " "CP4") " " "\n"))"#),
        ("FS IP1 ANG", r#"job(sight(target("FS" " " "IP1") " " "ANG"))"#),
        (
            "SETUP CP1 HI 1.5\n REM ok\nSETUP CP2\n",
            concat!(
                r#"job(setup(target("SETUP" " " "CP1") " " reading("HI" " " "1.5") "\n" " " remark("REM" " " "ok" "\n")) "#,
                r#"setup(target("SETUP" " " "CP2") "\n"))"#
            ),
        ),
        ("rain at noon\r\n", r#"job(other("rain" " " "at" " " "noon" "\r" "\n"))"#),
    ] {
        let (store, job) = parsed(text);
        assert_eq!(shape(&SyntaxNode::new_root(&store, job).unwrap()), expected);
    }
}

#[test]
fn any_words_in_any_order() {
    let words =
        ["SETUP", "BS", "FS", "REM", "JOB", "ANG", "DIST", "HI", "CP1", "IP22", "1.5", "x", " ", "\t", "\n", "\r\n"];
    let mut state: u64 = 7;
    for _ in 0..200 {
        let mut text = String::new();
        for _ in 0..60 {
            state = state.wrapping_mul(6_364_136_223_846_793_005).wrapping_add(1_442_695_040_888_963_407);
            text.push_str(words[(state >> 33) as usize % words.len()]);
        }
        parsed(&text);
    }
}
