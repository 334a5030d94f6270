//! Assertions and panics of the crate, caught.

use std::cell::{Cell, RefCell};
use std::panic::{AssertUnwindSafe, catch_unwind, resume_unwind, set_hook};

thread_local! {
    static CATCHING: Cell<bool> = const { Cell::new(false) };
    static LAST: RefCell<String> = const { RefCell::new(String::new()) };
}

/// From now on a panic inside `caught` prints nothing.
pub fn keep_silent() {
    set_hook(Box::new(|info| {
        let payload = info.payload();
        let text = match (payload.downcast_ref::<&str>(), payload.downcast_ref::<String>()) {
            (Some(text), _) => text,
            (None, Some(text)) => text.as_str(),
            _ => "a panic",
        };
        let place = info.location().map_or(String::new(), |at| {
            let file = at.file().rsplit('/').next().unwrap_or_default();
            format!("{file}:{}", at.line())
        });
        let text = format!("panicked {place}: {text}").replace('\n', " ");
        if !CATCHING.get() {
            eprintln!("{text}");
        }
        LAST.set(text);
    }));
}

/// What the call answers, or where and why it panicked.
pub fn caught<T>(call: impl FnOnce() -> T) -> Result<T, String> {
    CATCHING.set(true);
    let answer = catch_unwind(AssertUnwindSafe(call)).map_err(|_| LAST.take());
    CATCHING.set(false);
    answer
}

/// Panics as another thread did.
pub fn again(text: String) -> ! {
    LAST.set(text);
    resume_unwind(Box::new(()))
}
