use core::fmt;

use crate::{ffi, Refusal, Table};

/// The most bytes that one digest takes, and the longest buffer of an ingress.
pub const LONGEST_INPUT: usize = 4096;

/// The number of the notice `RING` by [`Digester::numeric`], at [`Urc::record`] in the place of a record's: no table has so many.
pub const RING: u8 = 255;

/// What the bytes from a modem were; the cases are atat's, and a payload or an error's digits are a part of the caller's own input.
#[derive(Debug, Clone, Copy, PartialEq, Eq)]
pub enum DigestResult<'a> {
    /// A notice of the token table, or [`RING`].
    Urc(Urc<'a>),
    /// An answer: the bytes before `OK` (or another success), trimmed; or an error.
    Response(Result<&'a [u8], InternalError<'a>>),
    /// A prompt for data: `>`, `@`, or the prompt byte of a custom prompt's record.
    Prompt(u8),
    /// Nothing is finished yet.
    None,
}

/// A notice: the number of its record in the token table, and its line, trimmed.
#[derive(Debug, Clone, Copy, PartialEq, Eq)]
pub struct Urc<'a> {
    /// The record's number in the table, from 0; [`RING`] for the code of that name.
    pub record: u8,
    /// The whole line, such as `+UUSORD: 0,4`; of [`RING`] its digit, `2`.
    pub payload: &'a [u8],
}

/// An error that a modem answered. The names are atat's; codes stay the numbers that were read.
///
/// A numeric error has its digits too, as they came: a maker's sheet may have `0010` where the code is 10. Its words have the
/// digits, or the code where there are none.
///
/// ```
/// use walumbeex::InternalError;
/// let error = InternalError::CmeError { code: 10, digits: b"0010" };
/// assert_eq!(error.to_string(), "GSM Equipment related error 0010");
/// let error = InternalError::CmeError { code: 10, digits: b"" };
/// assert_eq!(error.to_string(), "GSM Equipment related error 10");
/// ```
#[derive(Debug, Clone, Copy, PartialEq, Eq)]
pub enum InternalError<'a> {
    /// `ERROR` or `COMMAND NOT SUPPORT`.
    Error,
    /// `+CME ERROR: n`.
    CmeError {
        /// The number that was read.
        code: u16,
        /// Its digits as they came, leading zeros included.
        digits: &'a [u8],
    },
    /// `+CMS ERROR: n`.
    CmsError {
        /// The number that was read.
        code: u16,
        /// Its digits as they came, leading zeros included.
        digits: &'a [u8],
    },
    /// `MODEM ERROR: n` (atat folds it into a CME error).
    Unknown {
        /// The digits of `n` as they came, leading zeros included.
        digits: &'a [u8],
    },
    /// `NA` (atat folds it into a CME error).
    NotAllowed,
    /// `NO CARRIER`, `BUSY`, `NO ANSWER` or `NO DIALTONE`.
    ConnectionError(ConnectionError),
    /// A custom error of the token table.
    Custom {
        /// The record's number in the table, from 0.
        record: u8,
        /// The record's text, as it stands in the input.
        text: &'a [u8],
    },
}

/// How a connection failed.
#[derive(Debug, Clone, Copy, PartialEq, Eq)]
pub enum ConnectionError {
    /// `NO CARRIER`.
    NoCarrier,
    /// `NO DIALTONE`.
    NoDialtone,
    /// `BUSY`.
    Busy,
    /// `NO ANSWER`.
    NoAnswer,
}

impl fmt::Display for ConnectionError {
    fn fmt(&self, f: &mut fmt::Formatter<'_>) -> fmt::Result {
        f.write_str(match self {
            Self::NoCarrier => "No carrier",
            Self::NoDialtone => "No dialtone",
            Self::Busy => "Busy",
            Self::NoAnswer => "No answer",
        })
    }
}

impl fmt::Display for InternalError<'_> {
    fn fmt(&self, f: &mut fmt::Formatter<'_>) -> fmt::Result {
        match self {
            Self::Error => f.write_str("Generic error response"),
            Self::CmeError { code, digits: [] } => write!(f, "GSM Equipment related error {code}"),
            Self::CmeError { digits, .. } => write!(f, "GSM Equipment related error {}", digits.escape_ascii()),
            Self::CmsError { code, digits: [] } => write!(f, "GSM Network related error {code}"),
            Self::CmsError { digits, .. } => write!(f, "GSM Network related error {}", digits.escape_ascii()),
            Self::Unknown { digits: [] } => f.write_str("Modem error"),
            Self::Unknown { digits } => write!(f, "Modem error {}", digits.escape_ascii()),
            Self::NotAllowed => f.write_str("Not allowed"),
            Self::ConnectionError(e) => write!(f, "Connection Error: {e}"),
            Self::Custom { record, text } => write!(f, "Custom error match: record {record}, {}", text.escape_ascii()),
        }
    }
}

impl core::error::Error for ConnectionError {}
impl core::error::Error for InternalError<'_> {}

/// The numbers of the kinds, as the archive has them.
pub(crate) mod kind {
    pub(crate) const NONE: u64 = 0;
    pub(crate) const OK: u64 = 1;
    pub(crate) const PROMPT: u64 = 2;
    pub(crate) const CME: u64 = 3;
    pub(crate) const CMS: u64 = 4;
    pub(crate) const UNKNOWN: u64 = 5;
    pub(crate) const NOT_ALLOWED: u64 = 6;
    pub(crate) const ERROR: u64 = 7;
    pub(crate) const NO_CARRIER: u64 = 8;
    pub(crate) const BUSY: u64 = 9;
    pub(crate) const NO_ANSWER: u64 = 10;
    pub(crate) const NO_DIALTONE: u64 = 11;
    pub(crate) const CUSTOM: u64 = 12;
    pub(crate) const NOTICE: u64 = 13;
    pub(crate) const CAPACITY: u64 = 14;
}

/// The answer of a kind, its number, its payload and its digits. Codes are at most 65,535, records at most 63 or `RING`, prompts
/// bytes.
pub(crate) fn answer<'a>(kind: u64, number: u64, payload: &'a [u8], digits: &'a [u8]) -> DigestResult<'a> {
    let error = match kind {
        kind::OK => return DigestResult::Response(Ok(payload)),
        kind::PROMPT => return DigestResult::Prompt(number as u8),
        kind::CME => InternalError::CmeError { code: number as u16, digits },
        kind::CMS => InternalError::CmsError { code: number as u16, digits },
        kind::UNKNOWN => InternalError::Unknown { digits },
        kind::NOT_ALLOWED => InternalError::NotAllowed,
        kind::ERROR => InternalError::Error,
        kind::NO_CARRIER => InternalError::ConnectionError(ConnectionError::NoCarrier),
        kind::BUSY => InternalError::ConnectionError(ConnectionError::Busy),
        kind::NO_ANSWER => InternalError::ConnectionError(ConnectionError::NoAnswer),
        kind::NO_DIALTONE => InternalError::ConnectionError(ConnectionError::NoDialtone),
        kind::CUSTOM => InternalError::Custom { record: number as u8, text: payload },
        kind::NOTICE => return DigestResult::Urc(Urc { record: number as u8, payload }),
        _ => return DigestResult::None,
    };
    DigestResult::Response(Err(error))
}

/// The kind and number of an answer, and its payload or digits: `answer` the other way.
pub(crate) fn parts<'a>(result: &DigestResult<'a>) -> (u64, u64, &'a [u8]) {
    match *result {
        DigestResult::None => (kind::NONE, 0, &[]),
        DigestResult::Urc(Urc { record, payload }) => (kind::NOTICE, record.into(), payload),
        DigestResult::Prompt(byte) => (kind::PROMPT, byte.into(), &[]),
        DigestResult::Response(Ok(payload)) => (kind::OK, 0, payload),
        DigestResult::Response(Err(error)) => match error {
            InternalError::Error => (kind::ERROR, 0, &[]),
            InternalError::CmeError { code, digits } => (kind::CME, code.into(), digits),
            InternalError::CmsError { code, digits } => (kind::CMS, code.into(), digits),
            InternalError::Unknown { digits } => (kind::UNKNOWN, 0, digits),
            InternalError::NotAllowed => (kind::NOT_ALLOWED, 0, &[]),
            InternalError::ConnectionError(ConnectionError::NoCarrier) => (kind::NO_CARRIER, 0, &[]),
            InternalError::ConnectionError(ConnectionError::Busy) => (kind::BUSY, 0, &[]),
            InternalError::ConnectionError(ConnectionError::NoAnswer) => (kind::NO_ANSWER, 0, &[]),
            InternalError::ConnectionError(ConnectionError::NoDialtone) => (kind::NO_DIALTONE, 0, &[]),
            InternalError::Custom { record, text } => (kind::CUSTOM, record.into(), text),
        },
    }
}

/// The part of a memory at a place, of a length; its empty front part where that doesn't fit.
pub(crate) fn part(memory: &[u8], place: u64, len: u64) -> &[u8] {
    let place = place as usize;
    place.checked_add(len as usize).and_then(|end| memory.get(place..end)).unwrap_or(&memory[..0])
}

/// Which digester, by the number that the archive has for it.
#[derive(Debug, Clone, Copy, PartialEq, Eq)]
enum Which {
    Verbose = 0,
    Connect = 1,
    Numeric = 2,
}

/// The digester, in the place of atat's `AtDigester`: [`new`](Digester::new) hears what atat hears,
/// [`connect`](Digester::connect) text behind `CONNECT` too, and [`numeric`](Digester::numeric) a modem in V0.
///
/// ```
/// use walumbeex::{Digester, DigestResult, TableBuilder, Urc};
///
/// let mut memory = [0; 32];
/// let mut builder = TableBuilder::new(&mut memory);
/// let sord = builder.urc(b"+UUSORD").unwrap();
/// let digester = Digester::new(builder.finish());
///
/// let heard = digester.digest(b"AT+CSQ\r\r\n+CSQ: 17,99\r\n\r\nOK\r\n").unwrap();
/// assert_eq!(heard, (DigestResult::Response(Ok(b"+CSQ: 17,99")), 28));
///
/// let heard = digester.digest(b"\r\n+UUSORD: 0,4\r\n").unwrap();
/// assert_eq!(heard, (DigestResult::Urc(Urc { record: sord, payload: b"+UUSORD: 0,4" }), 16));
/// ```
#[derive(Debug, Clone, Copy, PartialEq, Eq)]
pub struct Digester<'t> {
    which: Which,
    table: &'t [u8],
}

impl<'t> Digester<'t> {
    /// A digester that knows the records of a table.
    #[must_use]
    pub const fn new(table: Table<'t>) -> Self {
        Self::unchecked(table.as_bytes())
    }

    /// As [`new`](Digester::new), and it hears a `CONNECT` line with text behind it too, as V.250 lets a modem send it; atat hears
    /// the bare line alone.
    ///
    /// The longer line is CRLF, `CONNECT`, one space and everything through the next CRLF. It is an Ok, as the bare one is, and
    /// the first of either counts. [`digest_with_text`](Digester::digest_with_text) has its text; through an
    /// [`Ingress`](crate::Ingress) it frees a client that waits, and the text is gone.
    ///
    /// ```
    /// use walumbeex::{Digester, DigestResult, Table};
    /// let line = b"\r\nCONNECT 9600\r\n";
    /// assert_eq!(Digester::connect(Table::empty()).digest(line), Ok((DigestResult::Response(Ok(b"")), 16)));
    /// assert_eq!(Digester::new(Table::empty()).digest(line), Ok((DigestResult::None, 0)));
    /// ```
    #[must_use]
    pub const fn connect(table: Table<'t>) -> Self {
        Self { which: Which::Connect, table: table.as_bytes() }
    }

    /// A digester of a modem in V0, which ends an answer with a decimal code and CR, no CRLF before it, and information text with
    /// CRLF; atat hears none of it. It takes no table: the codes are all that it hears, so no prompt and no `+CME ERROR` (with
    /// `AT+CMEE=0` a modem answers 4 in its place).
    ///
    /// | Code | Is | Code | Is |
    /// |---|---|---|---|
    /// | 0 | OK | 4 | ERROR |
    /// | 1 | CONNECT, an Ok too | 6 | NO DIALTONE |
    /// | 2 | RING, a notice with the number [`RING`] | 7 | BUSY |
    /// | 3 | NO CARRIER | 8 | NO ANSWER |
    ///
    /// A CR is *lone* where no LF stands right behind it; one at the input's end is lone. A line starts at the first byte, behind
    /// each CRLF and behind each lone CR. A code is one of these digits at a line start and a lone CR right behind it: `10\r`,
    /// `5\r`, ` 0\r` and `\n0\r` are none. The leftmost code is the answer, and is consumed through its CR with all that stands
    /// before it; where there is none, the answer is [`DigestResult::None`] and 0 bytes are consumed.
    ///
    /// An Ok's payload is what stands before the code, from behind the last lone CR there (an echo ends in one) or from the first
    /// byte on, trimmed:
    ///
    /// ```
    /// use walumbeex::{DigestResult, Digester, InternalError};
    /// let digester = Digester::numeric();
    /// let ok = |payload| DigestResult::Response(Ok(payload));
    /// assert_eq!(digester.digest(b"AT+CSQ\r+CSQ: 17,99\r\n0\r"), Ok((ok(b"+CSQ: 17,99"), 22)));
    /// assert_eq!(digester.digest(b"4\r"), Ok((DigestResult::Response(Err(InternalError::Error)), 2)));
    /// // A line of information that is one digit, and an answer that has it.
    /// assert_eq!(digester.digest(b"0\r\n"), Ok((DigestResult::None, 0)));
    /// assert_eq!(digester.digest(b"0\r\n0\r"), Ok((ok(b"0"), 5)));
    /// ```
    ///
    /// What stands before a RING is consumed with it, and not heard:
    ///
    /// ```
    /// use walumbeex::{DigestResult, Digester, Urc, RING};
    /// let (digester, input) = (Digester::numeric(), b"+CSQ: 1\r\n2\r0\r");
    /// assert_eq!(digester.digest(input), Ok((DigestResult::Urc(Urc { record: RING, payload: b"2" }), 11)));
    /// assert_eq!(digester.digest(&input[11..]), Ok((DigestResult::Response(Ok(b"")), 2)));
    /// ```
    ///
    /// What a cut behind a CR does stands at [`Ingress`](crate::Ingress#a-modem-in-v0).
    #[must_use]
    pub const fn numeric() -> Self {
        Self { which: Which::Numeric, table: &[] }
    }

    /// As [`new`](Digester::new), over bytes that haven't been checked: each call that uses it checks them, and refuses with 2
    /// where they are no good table.
    #[must_use]
    pub const fn unchecked(table: &'t [u8]) -> Self {
        Self { which: Which::Verbose, table }
    }

    pub(crate) const fn number(&self) -> u32 {
        self.which as u32
    }

    pub(crate) const fn table(&self) -> &'t [u8] {
        self.table
    }

    /// Digests an input once: what it was, and how many of its bytes are consumed.
    ///
    /// Refused with 1 where the input is over 4,096 bytes, and with 2 where the table isn't good.
    /// How much stack that takes, and so what to give a thread, is in include/walumbeex.h.
    ///
    /// ```
    /// use walumbeex::{Digester, DigestResult, InternalError, Table};
    /// let digester = Digester::new(Table::empty());
    /// assert_eq!(
    ///     digester.digest(b"\r\n+CME ERROR: 0010\r\n"),
    ///     Ok((DigestResult::Response(Err(InternalError::CmeError { code: 10, digits: b"0010" })), 20))
    /// );
    /// assert_eq!(digester.digest(b"\r\nO"), Ok((DigestResult::None, 0)));
    /// assert_eq!(digester.digest(&[0; 4097]).unwrap_err().number(), 1);
    /// ```
    pub fn digest<'a>(&self, input: &'a [u8]) -> Result<(DigestResult<'a>, usize), Refusal> {
        let (heard, _, consumed) = self.digest_with_text(input)?;
        Ok((heard, consumed))
    }

    /// Digests an input once, as [`digest`](Digester::digest) does: what it was, the text behind `CONNECT`, and how many of the
    /// input's bytes are consumed.
    ///
    /// The text is what stands between the space behind `CONNECT` and the line's CRLF, as it came: it isn't trimmed, and a lone
    /// CR or LF may be in it. It is empty where there is none: for a bare line, for every other answer, and always for a digester
    /// that isn't made by [`connect`](Digester::connect). A custom success and `OK` rank before `CONNECT`: where one of them is
    /// there, a longer line before it is in its payload.
    ///
    /// ```
    /// use walumbeex::{Digester, DigestResult, Table};
    /// let ok = |payload| DigestResult::Response(Ok(payload));
    /// let digester = Digester::connect(Table::empty());
    ///
    /// let heard = digester.digest_with_text(b"ATD1\r\r\nCONNECT 9600\r\n").unwrap();
    /// assert_eq!(heard, (ok(b""), &b"9600"[..], 21));
    ///
    /// let heard = digester.digest_with_text(b"\r\nCONNECT 9600\r\n\r\nOK\r\n").unwrap();
    /// assert_eq!(heard, (ok(b"CONNECT 9600"), &b""[..], 22));
    /// ```
    pub fn digest_with_text<'a>(&self, input: &'a [u8]) -> Result<(DigestResult<'a>, &'a [u8], usize), Refusal> {
        let [kind, number, place, len, consumed, digits_place, digits_len, text_place, text_len] =
            ffi::digest(self.number(), self.table, input)?;
        let (payload, digits) = (part(input, place, len), part(input, digits_place, digits_len));
        Ok((answer(kind, number, payload, digits), part(input, text_place, text_len), consumed as usize))
    }
}

impl Default for Digester<'_> {
    /// The digester that knows no notice and no custom line.
    fn default() -> Self {
        Self::new(Table::empty())
    }
}
