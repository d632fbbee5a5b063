//! The Rust side: atat's own digester, ingress and slot, called as its users call them.

use crate::heard::{Heard, Held};
use crate::sides::Ears;
use crate::{BUFFER, QUEUE, SLOT};
use atat::digest::ParseError;
use atat::{AtDigester, AtatIngress, AtatUrc, ConnectionError, DigestResult, Digester, InternalError, Parser, Response, ResponseSlot, UrcChannel};

/// A user's custom error function: the line SIM BUSY. The crate has no such function of its own, so this one is ours.
pub fn sim_busy(buf: &[u8]) -> Result<(&[u8], usize), ParseError> {
    let line = b"\r\nSIM BUSY\r\n";
    let at = buf.windows(line.len()).position(|w| w == line).ok_or(ParseError::NoMatch)?;
    Ok((&buf[at + 2..at + line.len() - 2], at + line.len()))
}

/// What is heard in the input.
pub fn heard<P: Parser>(digester: &mut AtDigester<P>, input: &[u8]) -> Heard {
    let (answer, consumed) = digester.digest(input);
    let (kind, number, payload) = match answer {
        DigestResult::None => ("none", None, &b""[..]),
        DigestResult::Prompt(prompt) => ("prompt", Some(prompt.into()), &b""[..]),
        DigestResult::Urc(line) => ("notice", None, line),
        DigestResult::Response(Ok(payload)) => ("ok", None, payload),
        DigestResult::Response(Err(e)) => error(e),
    };
    let place = if payload.is_empty() { 0 } else { payload.as_ptr() as usize - input.as_ptr() as usize };
    Heard { kind, number, place, len: payload.len(), consumed }
}

fn error(e: InternalError<'_>) -> (&'static str, Option<u64>, &[u8]) {
    match e {
        InternalError::CmeError(e) => ("cme", Some(u16::from(e).into()), b""),
        InternalError::CmsError(e) => ("cms", Some(u16::from(e).into()), b""),
        InternalError::ConnectionError(ConnectionError::NoCarrier) => ("no carrier", None, b""),
        InternalError::ConnectionError(ConnectionError::Busy) => ("busy", None, b""),
        InternalError::ConnectionError(ConnectionError::NoAnswer) => ("no answer", None, b""),
        InternalError::ConnectionError(ConnectionError::NoDialtone) => ("no dialtone", None, b""),
        InternalError::Error => ("error", None, b""),
        InternalError::Capacity => ("capacity", None, b""),
        InternalError::Custom(text) => ("custom", None, text),
        // Neither the digester nor the slot makes the others; an answer with this word differs from ours.
        _ => ("other", None, b""),
    }
}

/// No workload of the ingress has a notice: the crate's channel for them is a stand-in, and would be what is measured.
#[derive(Clone)]
pub struct Unheard;

impl AtatUrc for Unheard {
    fn parse(line: &[u8]) -> Option<Self> {
        panic!("a workload of the ingress has the notice {line:?}")
    }
}

pub struct Ingress<P: Parser + 'static> {
    ingress: atat::Ingress<'static, AtDigester<P>, Unheard, SLOT, QUEUE, 1>,
    slot: &'static ResponseSlot<SLOT>,
}

impl<P: Parser + 'static> Ingress<P> {
    /// The memories are lent for good: an ingress here lives as long as the program.
    pub fn new() -> Self {
        let slot: &ResponseSlot<SLOT> = Box::leak(Box::new(ResponseSlot::new()));
        let channel: &UrcChannel<Unheard, QUEUE, 1> = Box::leak(Box::new(UrcChannel::holding(QUEUE)));
        Self { ingress: atat::Ingress::new(AtDigester::new(), vec![0; BUFFER].leak(), slot, channel), slot }
    }
}

impl<P: Parser + 'static> Ears for Ingress<P> {
    #[inline]
    fn clear(&mut self) {
        self.ingress.clear();
    }

    #[inline]
    fn write(&mut self, piece: &[u8]) -> usize {
        self.ingress.try_write(piece).expect("the Rust's ingress refused a workload")
    }

    #[inline]
    fn signal(&mut self, payload: &[u8]) {
        atat::reach::signal_response(self.slot, Ok(payload)).expect("the Rust's slot refused a signal");
    }

    #[inline]
    fn reset(&mut self) {
        self.slot.reset();
    }

    fn held(&mut self) -> Held {
        let Some(held) = self.slot.try_get() else {
            return Held::nothing();
        };
        if let Response::Prompt(prompt) = *held {
            return Held { kind: "prompt", number: Some(prompt.into()), payload: Vec::new() };
        }
        let (kind, number, payload) = match <Result<&[u8], InternalError>>::from(&*held) {
            Ok(payload) => ("ok", None, payload),
            Err(e) => error(e),
        };
        Held { kind, number, payload: payload.to_vec() }
    }

    /// The room shows where the bytes in the buffer end; once they are dropped the room is the whole buffer, and they can be read.
    fn waiting(&mut self) -> Vec<u8> {
        let end = BUFFER - self.ingress.write_buf().len();
        self.ingress.clear();
        self.ingress.write_buf()[..end].to_vec()
    }
}
