//! What is listed in several places, held to the one list that decides. The lists are read from the sources, so that a question, an edit, an outcome, a
//! refusal or an exported call that is added in one place and forgotten in another fails here.

use std::{collections::BTreeMap, fs, path::PathBuf};

/// A file of the project.
fn file(name: &str) -> String {
    let path = PathBuf::from(env!("CARGO_MANIFEST_DIR")).join("../..").join(name);
    fs::read_to_string(&path).unwrap_or_else(|error| panic!("{}: {error}", path.display()))
}

/// The files of a folder whose names end so.
fn files(folder: &str, ending: &str) -> Vec<String> {
    let path = PathBuf::from(env!("CARGO_MANIFEST_DIR")).join("../..").join(folder);
    let mut names: Vec<String> =
        fs::read_dir(path).unwrap().map(|it| it.unwrap().file_name().into_string().unwrap()).collect();
    names.retain(|name| name.ends_with(ending));
    names.sort();
    assert!(!names.is_empty(), "{folder} has no file *{ending}");
    names.iter().map(|name| file(&format!("{folder}/{name}"))).collect()
}

/// The items `a ∷ b ∷ .. ∷ []` of a definition.
fn items(text: &str, definition: &str) -> Vec<String> {
    let from = text.find(definition).unwrap_or_else(|| panic!("no definition {definition:?}")) + definition.len();
    let upto = from + text[from..].find("∷ []").expect("a list ends by []");
    text[from..upto].split('∷').map(|item| item.split_whitespace().collect::<Vec<_>>().join(" ")).collect()
}

/// `FirstChild` as `FIRST_CHILD`.
fn in_capitals(name: &str) -> String {
    let mut capitals = String::new();
    for c in name.chars() {
        if c.is_uppercase() && !capitals.is_empty() {
            capitals.push('_');
        }
        capitals.extend(c.to_uppercase());
    }
    capitals
}

/// A question's name in the header: a flag says with tokens, and a text's questions are named as rowan has them.
fn question_name(item: &str) -> String {
    let words: Vec<&str> = item.split(' ').collect();
    match words[0].trim_start_matches("question.") {
        "Text" => "NODE_TEXT".into(),
        "Contains" => "CONTAINS_CHAR".into(),
        "Find" => "FIND_CHAR".into(),
        name if words.get(1) == Some(&"true") => in_capitals(name) + "_OR_TOKEN",
        name => in_capitals(name),
    }
}

/// The constants `NOTES_NAME = n` of the header.
fn header() -> BTreeMap<String, usize> {
    let text = file("bindings/c/notes_tree.h");
    let constant = |part: &str| -> Option<(String, usize)> {
        let (name, rest) = part.split_once(" = ")?;
        let digits: String = rest.chars().take_while(char::is_ascii_digit).collect();
        Some((name.to_string(), digits.parse().ok()?))
    };
    text.split("NOTES_").skip(1).filter_map(constant).collect()
}

/// The constants `pub const NAME: usize = n;` of a Rust file.
fn constants(text: &str) -> BTreeMap<String, usize> {
    let constant = |line: &str| -> Option<(String, usize)> {
        let (name, value) = line.strip_prefix("pub const ")?.split_once(": usize = ")?;
        Some((name.to_string(), value.trim_end_matches(';').parse().ok()?))
    };
    text.lines().filter_map(constant).collect()
}

/// Questions and edits by their codes: the place in the list of the specs.
fn codes() -> Vec<(String, usize)> {
    let questions = items(&file("crates/abi/specs/Codes.antt"), "questions m =");
    let edits = items(&file("crates/notes_tree_ffi/specs/Exports.antt"), "edits n from to news path =");
    let questions = questions.iter().map(|item| question_name(item)).enumerate();
    let edits =
        edits.iter().map(|item| in_capitals(item.split(' ').next().unwrap().trim_start_matches("Edit."))).enumerate();
    questions.chain(edits).map(|(code, name)| (name.to_uppercase(), code)).collect()
}

/// The header has a constant for each code, and the Rust declarations have the header's numbers.
#[test]
fn codes_are_the_places_in_the_lists() {
    let header = header();
    for (name, code) in codes() {
        assert_eq!(header.get(&name), Some(&code), "NOTES_{name} in notes_tree.h");
    }
    for rust in ["bindings/rust/src/ffi.rs", "bench/driver/src/ffi.rs"] {
        for (name, number) in constants(&file(rust)) {
            assert_eq!(header.get(&name), Some(&number), "{name} in {rust}");
        }
    }
}

/// A constant of the header is a question's or an edit's code, or an outcome of the specs.
#[test]
fn outcomes_are_those_of_the_specs() {
    let specs = file("crates/abi/specs/Outcomes.antt");
    let outcomes: BTreeMap<&str, usize> = specs
        .lines()
        .filter_map(|line| line.split_once("_outcome = "))
        .filter_map(|(name, n)| Some((name, n.parse().ok()?)))
        .collect();
    let codes = codes();
    for (name, number) in header() {
        if name == "REFUSED" || codes.iter().any(|(code, _)| *code == name) {
            continue;
        }
        let named = name.to_lowercase();
        assert_eq!(outcomes.get(named.as_str()), Some(&number), "NOTES_{name}, in Outcomes.antt");
    }
    assert!(outcomes.len() >= 15, "{outcomes:?}");
}

/// The dispatcher's questions are those of the list, a walk's beginning apart; `replay` puts each of them.
#[test]
fn every_question_has_a_code_and_a_call() {
    let source = file("crates/query/src/question.rt");
    let (_, variants) = source.split_once("pub enum Question {").unwrap();
    let variants = variants.lines().take_while(|line| *line != "}").filter(|line| !line.trim().starts_with("//"));
    let variants: Vec<&str> = variants
        .map(|line| line.trim().split(['(', ',', '{']).next().unwrap())
        .filter(|name| !name.is_empty())
        .collect();
    let listed = items(&file("crates/abi/specs/Codes.antt"), "questions m =");
    let calls = files("crates/questions/src", ".rt").concat();
    for variant in &variants {
        let has_code = listed.iter().any(|item| item.split(' ').next() == Some(&format!("question.{variant}")));
        assert!(has_code || *variant == "Walk", "{variant} has no code");
        assert!(calls.contains(&format!("Question::{variant}")), "{variant} is put by no call of a script");
    }
    assert!(variants.len() >= 20, "{variants:?}");
}

/// What is exported is declared in the header, which declares nothing else, and the Rust declarations name nothing that is not exported.
#[test]
fn exported_calls_are_declared() {
    let sources = [files("crates/cursor_ffi_c/src", ".rt"), files("crates/notes_tree_ffi_c/src", ".rt")].concat().concat();
    let mut exported: Vec<&str> =
        sources.split("extern \"C\" fn ").skip(1).map(|rest| rest.split(['(', '<']).next().unwrap()).collect();
    exported.sort_unstable();
    let text = file("bindings/c/notes_tree.h")
        .replace("NOTES_QUESTION(name) size_t notes_##name", "")
        .replace("NOTES_QUESTION(", "size_t notes_")
        .replace(");", "(");
    let mut declared: Vec<&str> = text.split("\nsize_t ").skip(1).map(|rest| rest.split('(').next().unwrap()).collect();
    declared.sort_unstable();
    assert_eq!(exported, declared);
    let used = [file("bindings/rust/src/ffi.rs"), file("bench/driver/src/ffi.rs")].concat();
    for name in used.split(|c: char| !(c.is_alphanumeric() || c == '_')).filter(|word| word.starts_with("notes_")) {
        assert!(name == "notes_tree" || exported.contains(&name), "{name} is not exported");
    }
}

/// The crate's refusals are those of the definitions, and each has its row in SHEETS.md.
#[test]
fn refusals_are_those_of_the_definitions() {
    let order: Vec<usize> =
        items(&file("crates/definitions/specs/Refusal.antt"), "order =").iter().map(|n| n.parse().unwrap()).collect();
    let source = file("bindings/rust/src/refusal.rs");
    let (_, variants) = source.split_once("pub enum Refusal {").unwrap();
    let variants = variants
        .lines()
        .take_while(|line| *line != "}")
        .filter_map(|line| line.trim().trim_end_matches(',').split_once(" = "));
    let numbers: Vec<usize> = variants.map(|(_, number)| number.parse().unwrap()).collect();
    assert_eq!(numbers, order);
    let sheets = file("docs/SHEETS.md");
    for number in order {
        assert!(sheets.contains(&format!("\n| {number} | ")), "{number} in SHEETS.md");
    }
}
