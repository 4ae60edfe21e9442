//! The sharing rule of the model, against document 01's "spelled alike" taken by its words: two
//! events yield one number exactly if their elements are spelled alike and sharable.

use oracle::{
    generate::{script, Profile},
    model::Model,
    reply::Reply,
    script::Call,
};

/// An element written out whole.
fn spelling(model: &Model, number: u32) -> String {
    let kind = model.kind(number).expect("an element");
    match model.children(number) {
        None => format!("{kind}{:?}", model.token_text(number)),
        Some(children) => {
            let below: Vec<String> = children.iter().map(|it| spelling(model, *it)).collect();
            format!("{kind}[{}]", below.join(","))
        }
    }
}

fn mark(model: &mut Model, number: u32) -> Reply {
    model.answer(&Call::Mark { number })
}

/// Tokens are, and nodes of up to three children unless one of these has mark 0.
fn is_sharable(model: &mut Model, number: u32) -> bool {
    let Some(children) = model.children(number).map(<[u32]>::to_vec) else {
        return true;
    };
    children.len() <= 3 && children.iter().all(|it| mark(model, *it) != Reply::Mark(0))
}

#[test]
fn numbers_are_equal_exactly_for_sharable_elements_spelled_alike() {
    let (mut equal, mut copies) = (0, 0);
    for seed in 0..300 {
        let mut model = Model::default();
        let calls = script(seed, Profile::Sheets).into_iter();
        // One store, so that all numbers are of one list; few events, for all pairs are taken.
        let runs = calls.filter(|it| matches!(it, Call::Run { sheet, .. } if sheet.len() < 400));
        let mut yields = Vec::new();
        for call in runs.take(6) {
            if let Reply::Run(run) = model.answer(&call) {
                yields.extend(run.events.iter().filter_map(|it| it.0));
            }
        }
        let spelled: Vec<_> = yields.iter().map(|it| spelling(&model, *it)).collect();
        for right in 0..yields.len() {
            let sharable = is_sharable(&mut model, yields[right]);
            for left in 0..right {
                let is_one = spelled[left] == spelled[right] && sharable;
                assert_eq!(yields[left] == yields[right], is_one, "{}", spelled[right]);
                equal += usize::from(is_one);
                copies += usize::from(spelled[left] == spelled[right] && !sharable);
            }
        }
    }
    assert!(
        equal > 10_000 && copies > 100,
        "{equal} pairs of one number, {copies} of two"
    );
}
