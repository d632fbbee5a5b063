//! Stands for the crate's logging macros. The crate logs what it loses and counts nothing, so the log lines of losses are counted here.

use std::cell::Cell;

thread_local! {
    static LOST_ANSWERS: Cell<u32> = const { Cell::new(0) };
    static LOST_NOTICES: Cell<u32> = const { Cell::new(0) };
}

/// An error that the crate logs, by its format text.
pub fn logged(text: &str) {
    if text.ends_with("a response is already pending") {
        LOST_ANSWERS.set(LOST_ANSWERS.get() + 1);
    } else if text.starts_with("Parsing URC FAILED") {
        LOST_NOTICES.set(LOST_NOTICES.get() + 1);
    }
}

/// The lost answers and lost notices since the last call.
pub fn losses() -> (u32, u32) {
    (LOST_ANSWERS.replace(0), LOST_NOTICES.replace(0))
}

macro_rules! debug {
    ($text:literal $(, $x:expr)* $(,)?) => {
        if false {
            let _ = format_args!($text $(, $x)*);
        }
    };
}

macro_rules! warn {
    ($text:literal $(, $x:expr)* $(,)?) => {
        if false {
            let _ = format_args!($text $(, $x)*);
        }
    };
}

macro_rules! error {
    ($text:literal $(, $x:expr)* $(,)?) => {{
        $crate::fmt::logged($text);
        if false {
            let _ = format_args!($text $(, $x)*);
        }
    }};
}
