//! The sample that is stored with the program `replay`.

use oracle::{
    compare::replies,
    generate::sample,
    model::Model,
    reply::{Refusal, Reply},
    script::{write, Call, MAX_BYTES},
};
use std::{
    collections::{BTreeMap, BTreeSet},
    fs,
    path::Path,
};

fn stored(name: &str) -> Vec<u8> {
    let folder = Path::new(env!("CARGO_MANIFEST_DIR")).join("../../crates/replay");
    fs::read(folder.join(name)).expect("the sample is stored")
}

/// The number of a call in a script.
fn op(call: &Call) -> u8 {
    write(std::slice::from_ref(call))[0]
}

/// The form of a reply, by its last line.
fn form(call: &Call, reply: &Reply) -> String {
    let shown = reply.to_string();
    let line = shown.lines().last().unwrap_or_default();
    let words: Vec<&str> = line.split(' ').collect();
    let words = match (call, &words[..]) {
        (_, ["refused", number, ..]) => return format!("refused {number}"),
        (_, ["no", ..] | ["chunk", "0"]) => &words[..],
        (_, ["enter" | "leave", ..]) => &words[..2],
        (_, ["token", rest @ ..]) if rest.contains(&"token") => return "token token".into(),
        (Call::Record { .. }, ["token", _, "0"]) => return "token 0".into(),
        (Call::Record { .. }, ["node", _, maker, ..]) => return format!("node {maker}"),
        _ => &words[..1],
    };
    words.join(" ")
}

/// The forms that the replies to each call can have, those of refusals as their numbers.
#[rustfmt::skip]
const FORMS: [(u8, &str, &[u8]); 43] = [
    (1, "ok", &[]),
    (2, "root", &[1, 2, 3, 11, 12, 13, 14, 15]),
    (3, "root", &[1, 2, 3, 11, 12, 13, 14, 15]),
    (10, "element", &[4, 14, 15]),
    (11, "element", &[4, 5, 14, 15]),
    (12, "element", &[4, 5, 15]),
    (13, "element", &[4, 5, 14, 15]),
    (14, "element", &[4, 6, 14, 15]),
    (20, "node, token", &[4]),
    (21, "node, none", &[4]),
    (22, "node, none", &[4]),
    (23, "node, none", &[4]),
    (24, "node, token, none", &[4]),
    (25, "node, token, none", &[4]),
    (26, "node, none", &[4]),
    (27, "node, none", &[4]),
    (28, "node, token, none", &[4]),
    (29, "node, token, none", &[4]),
    (30, "token, none", &[4]),
    (31, "token, none", &[4]),
    (32, "token, none", &[4]),
    (33, "token, none", &[4]),
    (34, "token, token token, none", &[4, 5]),
    (35, "node, token, none", &[4, 5]),
    (36, "node, token", &[4, 5]),
    (37, "yes, no", &[4]),
    (38, "found, none", &[4]),
    (40, "ok", &[4]),
    (41, "enter node, enter token, leave node, leave token, ended, no walk", &[]),
    (42, "ok, no walk", &[16]),
    // of the first of its events; none at all if none was asked for
    (43, "enter node, enter token, leave node, leave token, ended, no walk, ", &[]),
    (50, "ok", &[4]),
    (51, "ok, no text", &[5]),
    (52, "length, no text", &[]),
    (53, "ok, no text", &[]),
    (54, "chunk, chunk 0, ended, no text", &[]),
    (55, "yes, no, no text", &[]),
    (56, "at, none, no text", &[]),
    (57, "char, none, no text", &[]),
    (58, "yes, no, no text", &[]),
    (60, "node, token", &[4]),
    (61, "mark", &[4]),
    (64, "token, token 0, node event, node edit", &[4]),
];

#[test]
fn every_call_is_put_and_met_by_every_form_of_reply() {
    let calls = sample();
    let replies = replies(&calls).expect("the readings agree");
    let mut met = BTreeMap::<u8, BTreeSet<String>>::new();
    for (call, reply) in calls.iter().zip(&replies) {
        met.entry(op(call)).or_default().insert(form(call, reply));
    }
    let wanted: BTreeMap<u8, BTreeSet<String>> = FORMS
        .iter()
        .map(|(op, forms, refusals)| {
            let refused = refusals.iter().map(|it| format!("refused {it}"));
            let forms = forms.split(", ").map(String::from).chain(refused);
            (*op, forms.collect())
        })
        .collect();
    assert_eq!(met, wanted);
}

#[test]
fn where_is_has_one_answer() {
    let mut model = Model::default();
    for call in sample() {
        if let (Call::WhereIs { number, root }, Reply::Found(_)) = (&call, model.answer(&call)) {
            assert_eq!(occurrences(&model, *number, *root), 1, "{call}");
        }
    }
}

fn occurrences(model: &Model, number: u32, under: u32) -> usize {
    let children = model.children(under).unwrap_or_default();
    let below = children.iter().map(|it| occurrences(model, number, *it));
    below.sum::<usize>() + usize::from(number == under)
}

/// Length, size, height and count of children; the limits are met by nodes that just keep them.
#[test]
fn edits_reach_every_limit() {
    let mut most = [0; 4];
    let mut most_places = 0;
    let mut model = Model::default();
    for call in sample() {
        let Reply::Edited {
            outcome: Ok(number),
            store,
        } = model.answer(&call)
        else {
            continue;
        };
        most_places = most_places.max(store.places);
        let measured = measures(&mut model, number);
        (0..4).for_each(|it| most[it] = measured[it].max(most[it]));
    }
    assert_eq!(most, [4_294_967_295, 1_048_576, 64, 4_096]);
    assert_eq!(most_places, 16_384);
}

fn measures(model: &mut Model, number: u32) -> [u32; 4] {
    match model.answer(&Call::Element { number }) {
        Reply::Measured {
            length,
            size,
            height,
            children,
            ..
        } => [length, size, height, children],
        reply => panic!("{reply}"),
    }
}

/// A replacement that is too high at the top, where the lower ancestors have no room.
#[test]
fn refusal_14_is_met_before_15() {
    let (mut model, mut lent) = (Model::default(), 8_192);
    let mut met = 0;
    for call in sample() {
        match (&call, model.answer(&call)) {
            (Call::Store { records, .. }, _) => lent = (*records).min(8_192) as usize,
            (Call::ReplaceWith { path, .. }, Reply::Edited { outcome, store }) => {
                let lacks_room = store.records + path.indexes.len() > lent;
                met += usize::from(lacks_room && outcome == Err(Refusal::OVER_LIMIT));
            }
            _ => {}
        }
    }
    assert!(met >= 2, "{met}");
}

#[test]
fn the_stored_files_are_the_command_s() {
    let calls = sample();
    let script = write(&calls);
    assert!(script.len() <= MAX_BYTES);
    assert!(script == stored("data/calls"));
    let replies = replies(&calls).expect("the readings agree");
    let lines: String = replies.iter().map(|it| format!("{it}\n")).collect();
    assert!(lines.as_bytes() == stored("stdout"));
}
