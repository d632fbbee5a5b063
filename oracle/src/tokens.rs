//! The table behind the crate's digester. The digester takes a type and three plain functions, so the table of the case at hand
//! stands beside them, one for the thread.
//!
//! Notices go through the crate's own `try_urc` and `urc_helper`, in table order. Custom successes, errors and prompts are
//! functions that a user of the crate writes: those here are ours, written by document 01, and no evidence about the crate.

use crate::queue::LONGEST_NOTICE;
use crate::table::{Mark, Record};
use crate::{lines, longer};
use atat::digest::parser::{try_urc, urc_helper};
use atat::digest::ParseError;
use atat::{AtDigester, AtatUrc, DigestResult, Digester, Parser};
use std::cell::{Cell, RefCell};
use std::rc::Rc;

thread_local! {
    static TABLE: RefCell<Rc<Vec<Record>>> = RefCell::new(Rc::new(Vec::new()));
    static MATCHED: Cell<usize> = const { Cell::new(0) };
    static ASKED_US: Cell<bool> = const { Cell::new(false) };
    static IS_QUIET: Cell<bool> = const { Cell::new(false) };
    static MET_LONGER: Cell<bool> = const { Cell::new(false) };
    static FIRST_DIGITS: RefCell<Option<Vec<u8>>> = const { RefCell::new(None) };
}

/// The digits of the first answer for the slot since the last call of this: those that a free slot is to store.
pub fn first_digits() -> Vec<u8> {
    FIRST_DIGITS.take().unwrap_or_default()
}

/// Before a case of which nothing has been digested yet.
pub fn begin() {
    MET_LONGER.set(false);
}

/// Did a digest since `begin` have a longer CONNECT line before it?
pub fn met_longer() -> bool {
    MET_LONGER.get()
}

/// Lays the table of the next case open.
pub fn lay(records: Vec<Record>) {
    TABLE.set(Rc::new(records));
    ASKED_US.set(false);
}

/// Did one of our own functions decide an answer since `lay`?
pub fn asked_us() -> bool {
    ASKED_US.get()
}

/// The number of the record whose notice was matched last.
pub fn matched() -> usize {
    MATCHED.get()
}

fn table() -> Rc<Vec<Record>> {
    TABLE.with_borrow(Rc::clone)
}

/// The number of a custom error, known by its text: the crate carries none. Of equal texts the earlier wins.
pub fn custom_number(text: &[u8]) -> Option<usize> {
    table().iter().position(|r| r.mark == Mark::Error && r.text == text)
}

pub struct Notices;

impl Parser for Notices {
    fn parse(buf: &[u8]) -> Result<(&[u8], usize), ParseError> {
        for (number, record) in table().iter().enumerate() {
            if record.mark != Mark::Notice {
                continue;
            }
            if let Some(said) = try_urc(urc_helper(&record.text[..]), buf) {
                MATCHED.set(number);
                return said;
            }
        }
        Err(ParseError::NoMatch)
    }
}

/// Where CRLF, the text and CRLF first stand in `buf`.
fn find_line(buf: &[u8], text: &[u8]) -> Option<usize> {
    let line = [b"\r\n", text, b"\r\n"].concat();
    buf.windows(line.len()).position(|w| w == line)
}

fn custom_success(buf: &[u8]) -> Result<(&[u8], usize), ParseError> {
    for record in table().iter().filter(|r| r.mark == Mark::Success) {
        if let Some(at) = find_line(buf, &record.text) {
            ASKED_US.set(true);
            return Ok((buf[..at].trim_ascii(), at + record.text.len() + 4));
        }
    }
    Err(ParseError::NoMatch)
}

fn custom_error(buf: &[u8]) -> Result<(&[u8], usize), ParseError> {
    for record in table().iter().filter(|r| r.mark == Mark::Error) {
        if let Some(at) = find_line(buf, &record.text) {
            ASKED_US.set(true);
            let end = at + 2 + record.text.len();
            return Ok((&buf[at + 2..end], end + 2));
        }
    }
    Err(ParseError::NoMatch)
}

fn custom_prompt(buf: &[u8]) -> Result<(u8, usize), ParseError> {
    let mut kept = buf;
    while let [front @ .., b' ' | b'\t' | b'\r' | b'\n'] = kept {
        kept = front;
    }
    for record in table().iter() {
        if let Mark::Prompt(prompt) = record.mark {
            if kept.ends_with(&record.text) {
                ASKED_US.set(true);
                return Ok((prompt, buf.len()));
            }
        }
    }
    Err(ParseError::NoMatch)
}

/// The crate's digester under the table that lies open; while it is quiet, one that hears nothing.
pub struct Tokens(AtDigester<Notices>);

impl Tokens {
    pub fn new() -> Self {
        let plain = AtDigester::new();
        Self(plain.with_custom_success(custom_success).with_custom_error(custom_error).with_custom_prompt(custom_prompt))
    }
}

impl Default for Tokens {
    fn default() -> Self {
        Self::new()
    }
}

/// Runs `f` while no digester hears anything: so the ingress's end can be put back where it was.
pub fn quietly<T>(f: impl FnOnce() -> T) -> T {
    IS_QUIET.set(true);
    let done = f();
    IS_QUIET.set(false);
    done
}

impl Digester for Tokens {
    fn digest<'a>(&mut self, buf: &'a [u8]) -> (DigestResult<'a>, usize) {
        if IS_QUIET.get() {
            return (DigestResult::None, 0);
        }
        if longer::stands_in(buf) {
            MET_LONGER.set(true);
        }
        let (answer, consumed) = self.0.digest(buf);
        if !matches!(answer, DigestResult::None | DigestResult::Urc(_)) {
            FIRST_DIGITS.with_borrow_mut(|first| {
                first.get_or_insert_with(|| lines::digits_of(&answer, &buf[..consumed]).to_vec());
            });
        }
        (answer, consumed)
    }
}

/// A notice as the queue holds it: by R-9 a line of 1 to 1,024 bytes, and else nothing.
#[derive(Clone)]
pub struct Notice {
    pub number: usize,
    pub line: Vec<u8>,
}

impl AtatUrc for Notice {
    fn parse(line: &[u8]) -> Option<Self> {
        (1..=LONGEST_NOTICE).contains(&line.len()).then(|| Notice { number: matched(), line: line.to_vec() })
    }
}
