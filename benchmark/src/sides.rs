//! What both sides can do with a stream, and the two ways of calling that are measured.

use crate::heard::Held;
use std::hint::black_box;

pub trait Ears {
    /// Drops what is in the buffer.
    fn clear(&mut self);

    /// Writes a piece; how many bytes were taken.
    fn write(&mut self, piece: &[u8]) -> usize;

    /// Signals an Ok with this payload to the slot.
    fn signal(&mut self, payload: &[u8]);

    /// Frees the slot, as a client does that has read its answer.
    fn reset(&mut self);

    /// What the slot holds.
    fn held(&mut self) -> Held;

    /// The bytes in the buffer. They are dropped.
    fn waiting(&mut self) -> Vec<u8>;
}

/// Writes a stream in pieces of so many bytes; how many were taken.
#[inline]
pub fn write_all<E: Ears>(ears: &mut E, stream: &[u8], piece: usize) -> usize {
    stream.chunks(piece).map(|piece| ears.write(piece)).sum()
}

/// What is measured of an ingress: an exchange from an empty buffer to the freed slot.
#[inline]
pub fn exchange<E: Ears>(ears: &mut E, stream: &[u8], piece: usize) -> usize {
    ears.clear();
    let taken = write_all(ears, stream, piece);
    ears.reset();
    taken
}

/// An exchange, ready to be called.
pub fn exchanging<E: Ears + 'static>(mut ears: E, stream: &'static [u8], piece: usize) -> Box<dyn FnMut()> {
    Box::new(move || {
        black_box(exchange(&mut ears, black_box(stream), piece));
    })
}

/// What came of an exchange: bytes taken, the answer, bytes left in the buffer.
pub fn outcome<E: Ears>(ears: &mut E, stream: &[u8], piece: usize) -> (usize, Held, Vec<u8>) {
    ears.clear();
    let taken = write_all(ears, stream, piece);
    let held = ears.held();
    let waiting = ears.waiting();
    ears.reset();
    (taken, held, waiting)
}

/// What is measured of a slot: an answer signalled, and the slot freed.
#[inline]
pub fn signalled<E: Ears>(ears: &mut E, payload: &[u8]) {
    ears.signal(payload);
    ears.reset();
}
