//! Notices through the queue: how they are counted. The Rust's channel for them is a stand-in altogether, so that ours stands alone.

use crate::shapes::{joined, over_and_over};
use std::hint::black_box;

/// Payloads in bytes: a short notice, one that a record held before R-9, and one of a scan, which before R-9 was lost.
pub const LENS: [usize; 3] = [12, 100, 900];

/// What becomes of a notice.
pub const TAKEN: &str = "taken";
pub const LOST: &str = "lost";

/// An ingress of ours with its queue, under a table that has the notice.
pub trait Queue {
    /// Writes a notice in one piece, and takes it: its payload, nothing where it was lost.
    fn through(&mut self, notice: &[u8]) -> Option<&[u8]>;

    /// How many notices were lost so far.
    fn lost(&self) -> u64;
}

/// A notice whose payload has so many bytes.
fn notice(len: usize) -> Vec<u8> {
    let head = b"\r\n+UUSORD: ";
    joined(&[head, &over_and_over(b"0,4", len + 2 - head.len()), b"\r\n"])
}

/// Runs each notice through the queue between the marks, and prints what became of it, `queue` and its length. It is run once before, to see that, so that no call
/// between the marks is the first. `paged` and `marked` as for the numeric digester.
pub fn count(queue: &mut dyn Queue, paged: fn(&[u8]) -> &'static [u8], marked: fn(&mut dyn FnMut())) -> Result<(), String> {
    for len in LENS {
        let notice = paged(&notice(len));
        let lost = queue.lost();
        let payload = queue.through(notice).map(<[u8]>::to_vec);
        let fate = match payload.as_deref() {
            Some(payload) if payload == &notice[2..notice.len() - 2] => TAKEN,
            None if queue.lost() == lost + 1 => LOST,
            _ => return Err(format!("a notice of {len} bytes is neither taken as it came nor counted as lost: {payload:?}")),
        };
        println!("{fate}\tqueue\t{len}");
        marked(&mut || {
            black_box(queue.through(black_box(notice)));
        });
    }
    Ok(())
}

#[cfg(test)]
mod tests {
    use super::*;

    #[test]
    fn a_notice_has_the_payload_that_is_asked_for() {
        assert_eq!(notice(12), b"\r\n+UUSORD: 0,4\r\n");
        for len in LENS {
            assert_eq!(notice(len).len(), len + 4);
        }
    }
}
