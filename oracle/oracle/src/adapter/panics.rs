//! Panics of rowan as values.

use std::{
    cell::Cell,
    panic::{catch_unwind, set_hook, take_hook, AssertUnwindSafe},
    sync::Once,
};

thread_local! {
    /// Whether a panic of this thread is expected and needs no message.
    static EXPECTED: Cell<bool> = const { Cell::new(false) };
}

static HOOK: Once = Once::new();

/// What the call returns; none if it panics. rowan's builder, trees and texts are as they were
/// before a call that panics: it tests first and changes after.
pub fn caught<T>(call: impl FnOnce() -> T) -> Option<T> {
    caught_with_message(call).ok()
}

/// What the call returns, or the message of its panic.
pub fn caught_with_message<T>(call: impl FnOnce() -> T) -> Result<T, String> {
    HOOK.call_once(|| {
        let shown = take_hook();
        set_hook(Box::new(move |info| {
            if !EXPECTED.get() {
                shown(info);
            }
        }));
    });
    let outside = EXPECTED.replace(true);
    let result = catch_unwind(AssertUnwindSafe(call));
    EXPECTED.set(outside);
    result.map_err(|panic| {
        let message = panic.downcast_ref::<String>().map(String::as_str);
        let message = message.or_else(|| panic.downcast_ref::<&str>().copied());
        message.unwrap_or("no message").into()
    })
}
