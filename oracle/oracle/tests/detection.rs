//! Differences are seen: wrong, missing and superfluous lines are reported, and only those.

mod support;

use oracle::{
    compare::{check_output, minimise, Difference, Fate},
    generate::{script, Profile},
    script::{Call, Step},
};
use support::*;

/// Tree T by events, then two queries and a where-is.
fn calls() -> Vec<Call> {
    let (sheet, text) = tree_t().files();
    let each = true;
    vec![
        Call::Run { each, sheet, text },
        step(Step::LastToken, 3, &[]),
        same(path(3, &[0]), path(3, &[1])),
        replace_with(0, 3, &[0]),
    ]
}

const RIGHT: [&str; 9] = [
    "e - 0 0 0",
    "e 0 1 0 2",
    "e 1 2 0 3",
    "e 2 3 0 5",
    "e 3 4 3 5",
    "root 3 store 4 3 5",
    "token 4 3 5 1 2",
    "no",
    "element 4 store 5 6 5",
];

/// What becomes of each call if there is no difference.
fn fates(calls: &[Call], lines: &[&str]) -> Result<Vec<Fate>, Difference> {
    let checked = check_output(calls, &(lines.join("\n") + "\n"))?;
    assert_eq!(checked.len(), calls.len());
    Ok(checked.iter().map(|it| it.fate).collect())
}

/// How many replies are passed over if there is no difference.
fn check(lines: &[&str]) -> Result<usize, Difference> {
    let fates = fates(&calls(), lines)?;
    Ok(fates.iter().filter(|it| **it != Fate::Compared).count())
}

#[test]
fn the_right_output_passes() {
    assert_eq!(check(&RIGHT), Ok(0));
}

#[test]
fn every_wrong_line_is_reported_with_its_call() {
    for place in 0..RIGHT.len() {
        let mut lines = RIGHT;
        lines[place] = "ended";
        let difference = check(&lines).expect_err("a wrong line");
        assert_eq!(difference.call, place.saturating_sub(5), "line {place}");
        assert!(difference.replies[1].1.contains("ended"), "line {place}");
    }
}

#[test]
fn small_slips_are_reported() {
    for wrong in [
        "token 4 3 5 1 2 ",
        "token 4 3 5  1 2",
        "token 4 3 5 1 02",
        "token 4 3 5 1 2\r",
    ] {
        let mut lines = RIGHT;
        lines[6] = wrong;
        let difference = check(&lines).expect_err("a wrong line");
        assert_eq!(difference.what, "last_token root 3 path []");
        assert_eq!(difference.replies[0], ("oracle", "token 4 3 5 1 2".into()));
        assert_eq!(difference.replies[1], ("program", format!("{wrong}\n")));
    }
}

#[test]
fn missing_and_superfluous_lines_are_reported() {
    assert_eq!(check(&RIGHT[..8]).map_err(|it| it.call), Err(3));
    assert_eq!(check(&RIGHT[..3]).map_err(|it| it.call), Err(0));
    let more = [&RIGHT[..], &["ok"]].concat();
    assert_eq!(check(&more).map_err(|it| it.call), Err(4));
    let unended = check_output(&calls(), &RIGHT.join("\n"));
    assert_eq!(
        unended.map_err(|it| it.what),
        Err("the last line is not ended".into())
    );
}

#[test]
fn a_call_that_is_not_offered_is_passed_over() {
    assert_eq!(check(&["-", RIGHT[6], "-", RIGHT[8]]), Ok(2));
    assert_eq!(
        check(&["-", RIGHT[6], "-", "element 5 store 5 6 5"]).map_err(|it| it.call),
        Err(3)
    );
    // In place of a later line of a run it is a wrong reply.
    let mut lines = RIGHT;
    lines[2] = "-";
    assert_eq!(check(&lines).map_err(|it| it.call), Err(0));
}

#[test]
fn all_is_passed_over_from_an_edit_that_is_not_offered_to_the_next_store() {
    use Fate::*;
    let record = |number| Call::Record { number };
    let [run, ..] = &calls()[..] else {
        unreachable!("tree T's run is first")
    };
    let edited = [
        run.clone(),
        insert_child(3, 9, 0),
        record(3),
        remove_child(3, 0),
        record(4),
        run.clone(),
        store(9, 9, 9),
        record(0),
    ];
    let rest = ["-", "node 1 event 3 0 1 2", "-", "refused 4"];
    let lines = [&RIGHT[..6], &rest, &RIGHT[..6], &["ok", "refused 4"]].concat();
    // The refused insertion makes nothing, so what comes after it is compared.
    let expected = [
        Compared, NotOffered, Compared, NotOffered, AfterEdit, AfterEdit, Compared, Compared,
    ];
    assert_eq!(fates(&edited, &lines), Ok(expected.to_vec()));
    let mut wrong = lines.clone();
    wrong[7] = "node 1 edit 3 0 1 2";
    assert_eq!(fates(&edited, &wrong).map_err(|it| it.call), Err(2));
    wrong = lines.clone();
    wrong[17] = "token 2 2 4253";
    assert_eq!(fates(&edited, &wrong).map_err(|it| it.call), Err(7));
    // A program that stops or fails there is reported.
    assert_eq!(fates(&edited, &lines[..9]).map_err(|it| it.call), Err(4));
    let failed = [&lines[..9], &["(the program ended with exit status: 1)"]].concat();
    assert_eq!(fates(&edited, &failed).map_err(|it| it.call), Err(4));
}

#[test]
fn the_path_of_where_is_is_free() {
    let twice = sheet()
        .start(1)
        .token(2, b"a")
        .token(2, b"a")
        .token(3, b"b")
        .finish();
    let (sheet, text) = twice.files();
    let calls = [run_files(sheet, text), where_is(0, 2), where_is(2, 2)];
    let check = |line: &str| {
        let output = format!("root 2 store 3 3 2\n{line}\nfound 0\n");
        check_output(&calls, &output)
            .map(|_| ())
            .map_err(|it| it.call)
    };
    assert_eq!(check("found 1 0"), Ok(()));
    assert_eq!(check("found 1 1"), Ok(()));
    for wrong in [
        "found 1 2",
        "found 1 3",
        "found 2 1",
        "found 01 1",
        "found 0",
        "none",
        "found",
    ] {
        assert_eq!(check(wrong), Err(1), "{wrong}");
    }
}

#[test]
fn none_is_not_free() {
    let (sheet, text) = tree_t().files();
    let calls = [run_files(sheet, text), remove_child(3, 0), where_is(0, 4)];
    let head = "root 3 store 4 3 5\nelement 4 store 5 5 5\n";
    assert!(check_output(&calls, &format!("{head}none\n")).is_ok());
    assert!(check_output(&calls, &format!("{head}found 1 0\n")).is_err());
}

#[test]
fn scripts_are_minimised_to_the_calls_that_matter() {
    let calls: Vec<Call> = (1..=5)
        .flat_map(|seed| script(seed, Profile::All))
        .collect();
    let is_walk = |it: &Call| matches!(it, Call::WalkNext { .. });
    let is_run = |it: &Call| matches!(it, Call::Run { .. });
    let differs = |calls: &[Call]| calls.iter().any(is_walk) && calls.iter().any(is_run);
    assert!(differs(&calls) && calls.len() > 100);
    let shorter = minimise(&calls, differs);
    assert_eq!(shorter.len(), 2);
    assert!(differs(&shorter));
}

#[test]
fn sheets_are_minimised_to_the_events_that_matter() {
    let (sheet, text) = tree_t().files();
    let calls = [run_files(sheet, text)];
    let takes_space =
        |calls: &[Call]| matches!(calls, [Call::Run { text, .. }] if text.contains(&b' '));
    let (sheet, text) = support::sheet().token(3, b" ").files();
    assert_eq!(minimise(&calls, takes_space), [run_files(sheet, text)]);
}
