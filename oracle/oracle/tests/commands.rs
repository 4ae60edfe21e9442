//! The program `oracle` as it is called.

mod support;

use std::{
    env, fs,
    os::unix::fs::PermissionsExt,
    path::{Path, PathBuf},
    process::{self, Command},
};
use support::tree_t;

const ORACLE: &str = env!("CARGO_BIN_EXE_oracle");

/// A folder for one test, removed at its end.
struct Folder(PathBuf);

impl Folder {
    fn new(name: &str) -> Folder {
        let folder = env::temp_dir().join(format!("oracle-test-{}-{name}", process::id()));
        fs::create_dir_all(&folder).expect("a folder");
        Folder(folder)
    }

    fn file(&self, name: &str, bytes: &[u8]) -> PathBuf {
        let file = self.0.join(name);
        fs::write(&file, bytes).expect("a file");
        file
    }

    /// A program for `oracle compare`, as a shell script.
    fn program(&self, name: &str, line: &str) -> PathBuf {
        let file = self.file(name, format!("#!/bin/sh\n{line}\n").as_bytes());
        fs::set_permissions(&file, fs::Permissions::from_mode(0o755)).expect("permissions");
        file
    }
}

impl Drop for Folder {
    fn drop(&mut self) {
        let _ = fs::remove_dir_all(&self.0);
    }
}

/// Exit status, standard output and standard error.
fn oracle(words: &[&str]) -> (Option<i32>, String, String) {
    let output = Command::new(ORACLE)
        .args(words)
        .output()
        .expect("the program runs");
    let text = |bytes: Vec<u8>| String::from_utf8(bytes).expect("text");
    (
        output.status.code(),
        text(output.stdout),
        text(output.stderr),
    )
}

fn word(path: &Path) -> &str {
    path.to_str().expect("a path in UTF-8")
}

#[test]
fn list_prints_tree_t_as_the_paper_has_it() {
    let folder = Folder::new("list");
    let (sheet, text) = tree_t().files();
    let (sheet, text) = (folder.file("sheet", &sheet), folder.file("text", &text));
    let (status, out, _) = oracle(&["list", word(&sheet), word(&text)]);
    let lines = "\
tree records 4 size 4 length 5
E 1 0 5
E 2 0 2
L 2 0 2
E 3 2 3
L 3 2 3
E 4 3 5
L 4 3 5
L 1 0 5
";
    assert_eq!((status, out.as_str()), (Some(0), lines));
}

#[test]
fn list_prints_one_line_if_refused() {
    let folder = Folder::new("refused");
    let mut writer = tree_t();
    writer.events[0] = (0x4_0000, 0);
    writer.events[4] = (0x4_0000, 0);
    let (sheet, text) = writer.files();
    let (sheet, text) = (folder.file("sheet", &sheet), folder.file("text", &text));
    let (status, out, _) = oracle(&["list", word(&sheet), word(&text)]);
    assert_eq!((status, out.as_str()), (Some(0), "refused 13 event 5\n"));
}

#[test]
fn replay_and_model_print_the_same() {
    let folder = Folder::new("replay");
    let (status, _, _) = oracle(&["gen", "7", "2", word(&folder.0), "all"]);
    assert_eq!(status, Some(0));
    for seed in ["7", "8"] {
        let file = folder.0.join(format!("{seed}.calls"));
        let (status, by_rowan, _) = oracle(&["replay", word(&file)]);
        assert_eq!(status, Some(0));
        assert!(by_rowan.lines().count() > 10, "{by_rowan}");
        assert_eq!(oracle(&["model", word(&file)]).1, by_rowan);
    }
}

#[test]
fn compare_accepts_a_right_program_and_reports_a_wrong_one() {
    let folder = Folder::new("compare");
    let right = folder.program("right", &format!("exec '{ORACLE}' replay calls"));
    let (status, out, _) = oracle(&["compare", word(&right), "--scripts", "5", "--seed", "3"]);
    assert_eq!(status, Some(0), "{out}");
    assert!(out.starts_with("no difference: 5 scripts, "), "{out}");
    let line = format!("'{ORACLE}' replay calls | sed 's/^ended$/none/'");
    let wrong = folder.program("wrong", &line);
    let saved = folder.0.join("saved");
    let save = [
        "compare",
        word(&wrong),
        "--scripts",
        "5",
        "--seed",
        "3",
        "--save",
        word(&saved),
    ];
    let (status, out, _) = oracle(&save);
    assert_eq!(status, Some(1), "{out}");
    assert!(
        out.ends_with("oracle:\n    ended\nprogram:\n    none\n"),
        "{out}"
    );
    let calls = out
        .lines()
        .filter(|it| it.contains(": walk_") || it.contains(": run"));
    assert!(calls.count() < 20, "minimised: {out}");
    let again = |program| oracle(&["compare", word(program), "--script", word(&saved)]).0;
    assert_eq!((again(&right), again(&wrong)), (Some(0), Some(1)));
}

#[test]
fn compare_reports_a_program_that_fails() {
    let folder = Folder::new("fails");
    let failing = folder.program("failing", &format!("'{ORACLE}' replay calls; exit 3"));
    let (status, out, _) = oracle(&["compare", word(&failing), "--scripts", "1"]);
    assert_eq!(status, Some(1), "{out}");
    assert!(
        out.contains("the program ended with exit status: 3"),
        "{out}"
    );
}

#[test]
fn exhaust_counts_its_sheets() {
    let (status, out, _) = oracle(&["exhaust", "2", "--queries"]);
    assert_eq!(status, Some(0), "{out}");
    assert!(
        out.starts_with("no difference: 73 sheets, 2 trees with all queries; "),
        "{out}"
    );
    let folder = Folder::new("exhaust");
    let right = folder.program("right", &format!("exec '{ORACLE}' replay calls"));
    let (status, with_program, _) =
        oracle(&["exhaust", "2", "--queries", "--program", word(&right)]);
    assert_eq!((status, with_program), (Some(0), out));
}

#[test]
fn exhaust_asks_all_that_is_wanted_of_each_tree() {
    for (words, wanted) in [
        (&["exhaust", "2"][..], "no difference: 73 sheets; "),
        (
            &["exhaust", "2", "--walks"],
            "no difference: 73 sheets, 2 trees with all walks; ",
        ),
        (
            &["exhaust", "2", "--edits", "--texts"],
            "no difference: 73 sheets, 2 trees with all texts, edits; ",
        ),
    ] {
        let (status, out, error) = oracle(words);
        assert_eq!((status, error.as_str()), (Some(0), ""), "{out}");
        assert!(out.starts_with(wanted), "{out}");
    }
}

#[test]
fn compare_passes_over_what_comes_after_an_edit_that_is_not_offered() {
    let folder = Folder::new("edits");
    let edit = "s/^(element [0-9]+|refused [0-9]+) store .*/-/";
    let line = format!("'{ORACLE}' replay calls | sed -E '{edit}'");
    let without = folder.program("without", &line);
    let (status, out, _) = oracle(&["compare", word(&without), "--scripts", "5", "--seed", "3"]);
    assert_eq!(status, Some(0), "{out}");
    assert!(
        out.contains(" calls not offered and passed over; "),
        "{out}"
    );
    let end = " passed over after an edit that was not offered\n";
    assert!(out.ends_with(end), "{out}");
}

#[test]
fn wrong_words_print_the_use() {
    for words in [
        &[][..],
        &["what"],
        &["replay"],
        &["exhaust", "2", "x"],
        &["compare", "--seed"],
    ] {
        let (status, out, error) = oracle(words);
        assert_eq!((status, out.as_str()), (Some(2), ""), "{words:?}");
        assert!(
            error.starts_with("use: oracle replay FILE\n"),
            "{words:?}: {error}"
        );
    }
}

#[test]
fn what_cannot_be_used_is_told_in_one_line() {
    let folder = Folder::new("input");
    let broken = folder.file("broken", b"abc");
    let absent = folder.0.join("absent");
    let (broken, absent) = (word(&broken), word(&absent));
    for words in [
        &["replay", absent][..],
        &["model", absent],
        &["list", absent, absent],
        &["replay", broken],
        &["compare", absent],
        &["compare", "--seed", "x"],
        &["gen", "1", "1", broken],
        &["gen", "1", "1", absent, "some"],
    ] {
        let (status, out, error) = oracle(words);
        assert_eq!((status, out.as_str()), (Some(2), ""), "{words:?}");
        assert!(error.starts_with("oracle: "), "{words:?}: {error}");
        assert_eq!(error.lines().count(), 1, "{words:?}: {error}");
    }
}
