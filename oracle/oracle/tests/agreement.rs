//! The two readings against each other: random scripts and all short sheets. The program's own
//! commands do the same at scale.

use oracle::{
    compare::{replies, Subject, Tally},
    generate::{all_sheets, run_twice, script, sheet_count, tree_calls, Profile, Topic},
    model::Model,
    reply::{Counts, Refusal, Reply},
    script::{read, write, Call, MAX_BYTES},
};
use std::collections::{BTreeMap, BTreeSet};

const ALL_REFUSALS: [u8; 12] = [1, 2, 3, 4, 5, 6, 11, 12, 13, 14, 15, 16];

#[test]
fn random_scripts() {
    let mut tally = Tally::default();
    for seed in 1..=150 {
        let checked = Subject::Readings.check(&script(seed, Profile::All));
        let checked = checked.expect("no program is run");
        tally.add(&checked.unwrap_or_else(|it| panic!("seed {seed}: {it}")));
    }
    assert!(tally.calls() > 10_000 && tally.events > 20_000, "{tally}");
    let met: Vec<u8> = tally.refusals.keys().copied().collect();
    assert_eq!(met, ALL_REFUSALS, "{tally}");
}

#[test]
fn all_sheets_of_three_events_with_all_that_a_tree_can_be_asked() {
    let (mut sheets, mut trees) = (0, 0);
    for run in all_sheets(3) {
        sheets += 1;
        replies(&run_twice(&run)).unwrap_or_else(|it| panic!("{it}"));
        for topic in Topic::ALL {
            let Some(parts) = tree_calls(&run, topic) else {
                break;
            };
            trees += usize::from(topic == Topic::Queries);
            for calls in parts {
                replies(&calls).unwrap_or_else(|it| panic!("{it}"));
            }
        }
    }
    assert_eq!((sheets, sheet_count(3)), (1 + 8 + 64 + 512, sheets));
    // Of two events: start and finish, in two kinds. Of three: a token between them (6), a
    // checkpoint anywhere (6), a start before (4) or after (4); checkpoint, start at it, finish.
    assert_eq!(trees, 2 + 6 + 6 + 4 + 4 + 1);
}

/// The number of a call in a script.
fn op(call: &Call) -> u8 {
    write(std::slice::from_ref(call))[0]
}

#[test]
fn random_scripts_meet_every_refusal_of_every_call() {
    let mut met = BTreeMap::<u8, BTreeMap<u8, usize>>::new();
    for seed in 1..=150 {
        let calls = script(seed, Profile::All);
        let mut model = Model::default();
        for call in &calls {
            if let Some(refusal) = model.answer(call).refusal() {
                *met.entry(op(call))
                    .or_default()
                    .entry(refusal.0)
                    .or_default() += 1;
            }
        }
    }
    let expected: [(u8, &[u8]); 12] = [
        (3, &[1, 2, 3, 11, 12, 13, 14, 15]),
        (10, &[4, 14, 15]),
        (11, &[4, 5, 14, 15]),
        (12, &[4, 5, 15]),
        (13, &[4, 5, 14, 15]),
        (14, &[4, 6, 14, 15]),
        (36, &[4, 5]),
        (40, &[4]),
        (42, &[16]),
        (50, &[4]),
        (51, &[5]),
        (64, &[4]),
    ];
    for (op, refusals) in expected {
        let often: Vec<u8> = met[&op]
            .iter()
            .filter(|it| *it.1 >= 10)
            .map(|it| *it.0)
            .collect();
        assert_eq!(often, refusals, "call number {op}: {:?}", met[&op]);
    }
}

/// Whether a refusal by 14 of a replacement would else be one by 15: each index of its path wants a
/// record.
fn lacks_room(call: &Call, store: Counts, lent: u32) -> bool {
    match call {
        Call::ReplaceWith { path, .. } => store.records + path.indexes.len() > lent as usize,
        _ => false,
    }
}

#[test]
fn random_scripts_meet_14_before_15() {
    let mut met = 0;
    for seed in 1..=150 {
        let (mut model, mut lent) = (Model::default(), 8_192);
        for call in &script(seed, Profile::All) {
            let reply = model.answer(call);
            match (call, reply) {
                (Call::Store { records, .. }, _) => lent = (*records).min(8_192),
                (
                    _,
                    Reply::Edited {
                        outcome: Err(Refusal::OVER_LIMIT),
                        store,
                    },
                ) => {
                    met += usize::from(lacks_room(call, store, lent));
                }
                _ => {}
            }
        }
    }
    assert!(met > 10, "{met}");
}

#[test]
fn a_script_ends_with_all_records() {
    for seed in 1..=50 {
        let calls = script(seed, Profile::All);
        let mut model = Model::default();
        calls.iter().for_each(|it| drop(model.answer(it)));
        let records = model.counts().records as u32;
        let all: Vec<Call> = (0..=records)
            .map(|number| Call::Record { number })
            .collect();
        assert!(calls.ends_with(&all), "seed {seed}");
    }
}

#[test]
fn scripts_keep_their_size_and_form() {
    for seed in 1..=300 {
        let calls = script(seed, Profile::All);
        assert_eq!(
            calls,
            script(seed, Profile::All),
            "seed {seed} gives one script"
        );
        let bytes = write(&calls);
        assert!(bytes.len() <= MAX_BYTES, "seed {seed}");
        assert_eq!(read(&bytes).as_ref(), Ok(&calls), "seed {seed}");
    }
}

#[test]
fn profiles_hold_what_they_say() {
    let ops = |profile| -> BTreeSet<u8> {
        let scripts = (1..=60).map(|seed| write(&script(seed, profile)));
        scripts
            .flat_map(|it| {
                let calls = read(&it).expect("a script");
                calls.iter().map(op).collect::<Vec<_>>()
            })
            .collect()
    };
    let sheets = BTreeSet::from([1, 2, 3]);
    let edits = BTreeSet::from([10, 11, 12, 13, 14]);
    let queries: BTreeSet<u8> = (20..=38).collect();
    let others = (40..=43).chain(50..=58).chain([60, 61, 64]);
    let reading: BTreeSet<u8> = queries.iter().copied().chain(others).collect();
    assert_eq!(ops(Profile::Sheets), sheets);
    assert_eq!(ops(Profile::Queries), &sheets | &queries);
    assert_eq!(ops(Profile::Reading), &sheets | &reading);
    assert_eq!(ops(Profile::All), &(&sheets | &reading) | &edits);
}

#[test]
fn a_broken_script_is_told_with_its_call() {
    let error = |words: &[u32]| {
        let bytes: Vec<u8> = words.iter().flat_map(|it| it.to_le_bytes()).collect();
        read(&bytes).expect_err("no script").to_string()
    };
    assert_eq!(error(&[41, 1, 0, 41, 1, 4]), "call 1: there is no slot 4");
    assert_eq!(
        error(&[41, 2, 0, 0]),
        "call 0: call number 41 has 1 words too many"
    );
    assert_eq!(error(&[20, 2, 3, 1]), "call 0: 0 words are left, 1 needed");
    assert_eq!(error(&[55, 2, 0, 256]), "call 0: 256 is no byte");
    let deep = [&[20, 69, 3, 67][..], &[0; 67]].concat();
    assert_eq!(error(&deep), "call 0: 67 where at most 66 are allowed");
    let many = [&[13, 4_204, 3, 0, 0][..], &[0; 4_201]].concat();
    assert_eq!(error(&many), "call 0: 4201 where at most 4200 are allowed");
    assert_eq!(
        error(&[2, 1, 33_001]),
        "call 0: 33001 where at most 33000 are allowed"
    );
    assert_eq!(error(&[40, 4, 0, 2, 0, 0]), "call 0: a walk has no mode 2");
    let odd = read(&[1, 0, 0]).expect_err("no script").to_string();
    assert_eq!(odd, "call 0: a script is a list of 32-bit words");
    // A call that is not known is passed over.
    let unknown = Call::Unknown {
        op: 99,
        words: vec![7],
    };
    let bytes = write(std::slice::from_ref(&unknown));
    assert_eq!(read(&bytes), Ok(vec![unknown.clone()]));
    assert_eq!(replies(&[unknown]), Ok(vec![Reply::NotOffered]));
}
