//! Who decided a line: the crate, by answering or by panicking, or the harness, as at its limit.

use std::cell::RefCell;
use std::panic::{self, AssertUnwindSafe};
use std::sync::Once;

/// The longest digest input and ingress buffer; the crate has no such limit, so refusal 1 is the harness's.
pub const LONGEST: usize = 4096;

/// Who decided a line.
#[derive(Clone, Copy, Debug, PartialEq, Eq)]
pub enum Origin {
    /// The crate.
    Crate,
    /// The crate, but that a CS, CE or CP function, ours on both sides, was what matched somewhere.
    Ours,
    /// The harness: refusals 1 and 2, a line that doesn't read, a slot memory of a size that isn't supported, R-3's mode at a longer CONNECT line.
    Harness,
    /// The crate panicked where ours answers.
    Panic,
}

impl Origin {
    pub fn letter(self) -> char {
        match self {
            Origin::Crate => 'c',
            Origin::Ours => 'o',
            Origin::Harness => 'h',
            Origin::Panic => 'p',
        }
    }
}

thread_local! {
    static PLACE: RefCell<String> = const { RefCell::new(String::new()) };
}

/// What `f` answers, or the name of the source file in which it panicked.
pub fn caught<T>(f: impl FnOnce() -> T) -> Result<T, String> {
    static HOOK: Once = Once::new();
    HOOK.call_once(|| {
        panic::set_hook(Box::new(|info| {
            let file = info.location().map_or("", |l| l.file());
            PLACE.set(file.rsplit('/').next().unwrap_or("").to_owned());
        }));
    });
    panic::catch_unwind(AssertUnwindSafe(f)).map_err(|_| PLACE.take())
}
