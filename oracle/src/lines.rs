//! What the crate answers, in the words of an answer line, in the crate's own types: MODEM ERROR is its CmeError::Unknown and so
//! reads `cme 100`, NA is its NotAllowed and reads `cme 3`.

use crate::notation::Hex;
use crate::tokens;
use atat::{CmeError, CmsError, ConnectionError, DigestResult, InternalError, Response};

/// A kind, its number and its payload.
pub struct Said<'a> {
    pub kind: &'static str,
    pub number: Option<usize>,
    pub payload: &'a [u8],
}

fn plain(kind: &'static str) -> Said<'static> {
    numbered(kind, None)
}

fn numbered(kind: &'static str, number: Option<usize>) -> Said<'static> {
    Said { kind, number, payload: &[] }
}

fn error(e: InternalError<'_>) -> Said<'_> {
    match e {
        InternalError::CmeError(e) => numbered("cme", Some(u16::from(e).into())),
        InternalError::CmsError(e) => numbered("cms", Some(u16::from(e).into())),
        InternalError::ConnectionError(ConnectionError::NoCarrier) => plain("nocarrier"),
        InternalError::ConnectionError(ConnectionError::Busy) => plain("busy"),
        InternalError::ConnectionError(ConnectionError::NoAnswer) => plain("noanswer"),
        InternalError::ConnectionError(ConnectionError::NoDialtone) => plain("nodialtone"),
        InternalError::Error => plain("error"),
        InternalError::Capacity => plain("capacity"),
        InternalError::Custom(text) => Said { kind: "custom", number: tokens::custom_number(text), payload: text },
        // Neither the digester nor the slot makes the others; a line that has this word differs from ours.
        _ => plain("other"),
    }
}

/// The digits with which a numeric error ends that the crate consumed: what stands in front of its line ending. The crate doesn't tell them, so this is the
/// harness's reading. NA, which is a CME code in the crate's types, has none.
pub fn digits_of<'a>(answer: &DigestResult<'_>, consumed: &'a [u8]) -> &'a [u8] {
    if !matches!(answer, DigestResult::Response(Err(InternalError::CmeError(_) | InternalError::CmsError(_)))) {
        return &[];
    }
    let line = consumed.strip_suffix(b"\n").unwrap_or(consumed);
    let line = line.strip_suffix(b"\r").unwrap_or(line);
    let others = line.iter().rposition(|b| !b.is_ascii_digit()).map_or(0, |at| at + 1);
    &line[others..]
}

/// What a digest answered.
pub fn of_digest(answer: DigestResult<'_>) -> Said<'_> {
    match answer {
        DigestResult::None => plain("none"),
        DigestResult::Prompt(prompt) => numbered("prompt", Some(prompt.into())),
        DigestResult::Urc(line) => Said { kind: "notice", number: Some(tokens::matched()), payload: line },
        DigestResult::Response(Ok(payload)) => Said { kind: "ok", number: None, payload },
        DigestResult::Response(Err(e)) => error(e),
    }
}

/// What a slot holds, read by the crate's own conversion but for a prompt, whose byte that conversion drops.
pub fn of_response<const N: usize>(held: &Response<N>) -> Said<'_> {
    if let Response::Prompt(prompt) = held {
        return numbered("prompt", Some((*prompt).into()));
    }
    match <Result<&[u8], InternalError>>::from(held) {
        Ok(payload) => Said { kind: "ok", number: None, payload },
        Err(e) => error(e),
    }
}

impl Said<'_> {
    /// The number, `-` for none.
    pub fn number(&self) -> String {
        self.number.map_or("-".to_owned(), |n| n.to_string())
    }

    /// The payload's place in `input`, which it is a part of; 0 for no bytes.
    pub fn place(&self, input: &[u8]) -> usize {
        if self.payload.is_empty() {
            return 0;
        }
        self.payload.as_ptr() as usize - input.as_ptr() as usize
    }
}

/// A kind and number of ours turned into the crate's type.
pub fn in_its_type(kind: &str, number: &str) -> Option<(&'static str, u16)> {
    match kind {
        "unknown" if number == "-" => Some(("cme", CmeError::Unknown.into())),
        "notallowed" if number == "-" => Some(("cme", CmeError::NotAllowed.into())),
        "cme" => Some(("cme", CmeError::from(number.parse::<u16>().ok()?).into())),
        "cms" => Some(("cms", CmsError::from(number.parse::<u16>().ok()?).into())),
        _ => None,
    }
}

/// How many of the 65,536 codes come out of the crate's CME and CMS types as another number.
pub fn folded() -> (usize, usize) {
    let cme = (0..=u16::MAX).filter(|&n| u16::from(CmeError::from(n)) != n).count();
    let cms = (0..=u16::MAX).filter(|&n| u16::from(CmsError::from(n)) != n).count();
    (cme, cms)
}

/// A taken notice.
pub fn notice(number: usize, line: &[u8]) -> String {
    format!("notice {number} {}", Hex(line))
}
