//! Panics as missing answers.

use std::cell::Cell;
use std::panic::{self, AssertUnwindSafe};
use std::sync::Once;

thread_local! {
    static ASKING: Cell<bool> = const { Cell::new(false) };
}

static HOOK: Once = Once::new();

/// The answer, or `None` where the question panics. Only such panics are kept silent.
pub fn caught<T>(question: impl FnOnce() -> T) -> Option<T> {
    HOOK.call_once(|| {
        let report = panic::take_hook();
        panic::set_hook(Box::new(move |info| {
            if !ASKING.with(Cell::get) {
                report(info);
            }
        }));
    });

    ASKING.with(|asking| asking.set(true));
    let answer = panic::catch_unwind(AssertUnwindSafe(question));
    ASKING.with(|asking| asking.set(false));
    answer.ok()
}
