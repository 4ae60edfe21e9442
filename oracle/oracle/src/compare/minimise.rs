//! Shorter scripts that still show a difference.

use crate::{
    script::Call,
    sheet::{Event, Sheet},
};

/// Most scripts that are tried; each may be a run of a program.
const MAX_TRIALS: usize = 800;

/// Drops calls as long as the rest still differs, then events of the sheets that are left.
pub fn minimise(calls: &[Call], differs: impl Fn(&[Call]) -> bool) -> Vec<Call> {
    let mut trials = 0;
    let mut try_one = |calls: &[Call]| {
        trials += 1;
        trials <= MAX_TRIALS && differs(calls)
    };
    let mut kept = drop_parts(calls.to_vec(), &mut try_one);
    for place in 0..kept.len() {
        let Some(events) = SheetEvents::of(&kept[place]) else {
            continue;
        };
        let with = |events: &[TextEvent]| {
            let mut calls = kept.clone();
            calls[place] = events_call(&kept[place], events);
            calls
        };
        let fewer = drop_parts(events.0, &mut |events| try_one(&with(events)));
        kept = with(&fewer);
    }
    kept
}

/// Drops runs of items, long ones first, as long as the rest passes the test.
fn drop_parts<T: Clone>(items: Vec<T>, passes: &mut impl FnMut(&[T]) -> bool) -> Vec<T> {
    let mut kept = items;
    let mut length = kept.len().div_ceil(2);
    while length > 0 {
        // From the end: later calls and events mostly hang on earlier ones.
        let mut end = kept.len();
        while end > 0 {
            let start = end.saturating_sub(length);
            let shorter = [&kept[..start], &kept[end..]].concat();
            if passes(&shorter) {
                kept = shorter;
            }
            end = start;
        }
        length /= 2;
    }
    kept
}

/// The words of an event, with the text that it takes.
type TextEvent = ((u32, u32), Vec<u8>);

struct SheetEvents(Vec<TextEvent>);

impl SheetEvents {
    /// The events of a run; none of a sheet whose tokens do not take its text exactly.
    fn of(call: &Call) -> Option<SheetEvents> {
        let Call::Run { sheet, text, .. } = call else {
            return None;
        };
        let mut text_left = &text[..];
        let mut events = Vec::new();
        for words in Sheet::read(sheet)?.events {
            let length = match Event::of_words(words) {
                Some(Event::Token { length, .. }) => length as usize,
                _ => 0,
            };
            let (taken, left) = text_left.split_at_checked(length)?;
            events.push((words, taken.to_vec()));
            text_left = left;
        }
        text_left.is_empty().then_some(SheetEvents(events))
    }
}

/// The run with these events in place of its own.
fn events_call(call: &Call, events: &[TextEvent]) -> Call {
    let each = matches!(call, Call::Run { each: true, .. });
    let text: Vec<u8> = events.iter().flat_map(|it| it.1.clone()).collect();
    let sheet = Sheet {
        text_length: text.len() as u32,
        events: events.iter().map(|it| it.0).collect(),
    };
    let sheet = sheet.write();
    Call::Run { each, sheet, text }
}
