//! A proved AT digester and ingress behind types that a user of [atat](https://docs.rs/atat/0.25.0) knows at sight.
//!
//! The work is done by `libgateway.a`, a static library written in Rattle in which each function is proved to meet its
//! contract; this crate hands it slices and turns its numbers into types. What the digester answers is what atat 0.25.0
//! answers, but for the differences that the repository's `docs/DIFFERENCES.md` lists. Beside atat it has a
//! [token table](Table) in the place of the traits and function pointers, a [notice queue](NoticeQueue) of fixed size, and
//! [refusals](Refusal) with numbers in the place of panics.
//!
//! | atat | here |
//! |---|---|
//! | `AtDigester`, `with_custom_success`, .. | [`Digester`], [`TableBuilder`]; [`Digester::connect`] hears text behind `CONNECT` too, [`Digester::numeric`] a modem in V0 |
//! | `DigestResult`, `InternalError` | [`DigestResult`], [`InternalError`], with an error's digits beside its code |
//! | `Ingress`, `write_buf`, `try_advance`, `try_write`, `clear` | [`Ingress`], with the same calls; for single bytes [`Ingress::try_feed`] |
//! | `ResponseSlot`, `try_get`, `reset`, `Response` | [`ResponseSlot`] at [`Ingress::res_slot`], `try_get`, [`ResponseSlot::reset_next`], [`Response`]; `reset` here takes a [serial number](ResponseSlot#late-answers) |
//! | `UrcChannel` | [`NoticeQueue`] at [`Ingress::notices`], [`Urc`] |
//! | `ingress::Error` | [`Refusal`]; of a reset [`ResetRefusal`] |
//!
//! A queue that was kept before version 0.6.0 has records of another form: [`convert_queue`] reads it. What stands behind the colon
//! of an answer, such as `(0-31,99),(0-7,99)`, is read by a [`List`]. A box that plays the modem on a bench writes its answers by a
//! [`Saying`].
//!
//! There is no allocation, no thread and no global state: all memory is lent by the caller. No call panics, but for one reason:
//! the archive that was linked is of another version than this crate.
//!
//! ```
//! use walumbeex::{Digester, DigestResult, Table};
//! let digester = Digester::new(Table::empty());
//! let (heard, consumed) = digester.digest(b"AT+CSQ\r\r\n+CSQ: 17,99\r\n\r\nOK\r\n\r\n> ").unwrap();
//! assert_eq!(heard, DigestResult::Response(Ok(b"+CSQ: 17,99")));
//! assert_eq!(consumed, 28);
//! ```
#![no_std]
#![deny(unsafe_code, missing_docs)]

mod digest;
#[allow(unsafe_code)]
mod ffi;
mod ingress;
mod list;
mod memory;
mod notice_queue;
mod refusal;
mod response_slot;
mod saying;
mod table;

pub use digest::{ConnectionError, DigestResult, Digester, InternalError, Urc, LONGEST_INPUT, RING};
pub use ingress::Ingress;
pub use list::{Element, ElementKind, Elements, List, Members, LIST_MEMORY, MOST_BRACKETS, MOST_ELEMENTS};
pub use memory::MemoryError;
pub use notice_queue::{convert_queue, NoticeQueue, LONGEST_NOTICE, MOST_NOTICES, NOTICE_RECORD, OLD_NOTICE_RECORD};
pub use refusal::{ConvertRefusal, ListRefusal, Refusal, ResetRefusal, SayRefusal};
pub use response_slot::{Response, ResponseSlot};
pub use saying::Saying;
pub use table::{Table, TableBuilder, TableError, LONGEST_TEXT, MOST_RECORDS};

// The README's example runs with the others.
#[cfg(doctest)]
#[doc = include_str!("../README.md")]
struct Readme;
