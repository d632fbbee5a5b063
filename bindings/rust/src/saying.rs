use crate::digest::kind;
use crate::{ffi, SayRefusal, Table, Urc};

/// An answer as a modem gives it, for a bench that plays the modem: [`write`](Saying::write) makes its bytes. atat has no such side.
///
/// ```
/// use walumbeex::{DigestResult, Digester, Saying, Table, LONGEST_INPUT};
///
/// let mut memory = [0; LONGEST_INPUT];
/// let bytes = Saying::Ok(b"+CSQ: 17,99").write(Table::empty(), &mut memory).unwrap();
/// assert_eq!(bytes, b"\r\n+CSQ: 17,99\r\n\r\nOK\r\n");
///
/// let heard = Digester::default().digest(bytes).unwrap();
/// assert_eq!(heard, (DigestResult::Response(Ok(b"+CSQ: 17,99")), bytes.len()));
/// ```
///
/// What is written is read back: a [`Digester`](crate::Digester) over the same table hears this kind, number and payload in the
/// bytes, and consumes all of them. What it wouldn't hear so is refused with 16, and not written:
///
/// ```
/// use walumbeex::{SayRefusal, Saying, Table, Urc, LONGEST_INPUT};
///
/// let mut memory = [0; LONGEST_INPUT];
/// let table = Table::new(b"UR\x04+CSQ").unwrap();
/// for answer in [
///     Saying::Ok(b"OK"),                                          // heard as an empty Ok, and a second one
///     Saying::Ok(b" x"),                                          // a payload is heard without blanks at its ends
///     Saying::Ok(b"+CSQ: 17,99"),                                 // a notice of this table
///     Saying::Urc(Urc { record: 0, payload: b"+CSQ 17,99" }),     // and this is none
///     Saying::Prompt(b'#'),                                       // > and @, and those of the table's records
/// ] {
///     assert_eq!(answer.write(table, &mut memory), Err(SayRefusal::NotReadBack), "{answer:?}");
/// }
/// assert_eq!(memory, [0; LONGEST_INPUT]);
/// ```
///
/// Over the empty table nothing else is: every code and every fixed line can be written, of the prompts `>` and `@`, and an Ok whose
/// payload has at most 4,086 bytes, begins and ends with no blank (space, tab, LF, form feed, CR), and leaves no line `OK` in what is
/// written but the last.
///
/// That is of one answer alone: [`Error`](Saying::Error) and an Ok behind it, digested in one piece, are heard as an Ok. Which answers
/// nothing behind them changes is in `docs/WAITING.md`, and more of what can be said in `docs/SAYING.md`.
#[derive(Debug, Clone, Copy, PartialEq, Eq)]
pub enum Saying<'a> {
    /// The payload as a line, unless it is empty, and behind it the line `OK`.
    Ok(&'a [u8]),
    /// The byte and a space, behind CRLF and with none behind them.
    Prompt(u8),
    /// `+CME ERROR: n`, with no zeros in front of the code.
    CmeError(u16),
    /// `+CMS ERROR: n`, likewise.
    CmsError(u16),
    /// `ERROR`.
    Error,
    /// `NO CARRIER`.
    NoCarrier,
    /// `BUSY`.
    Busy,
    /// `NO ANSWER`.
    NoAnswer,
    /// `NO DIALTONE`.
    NoDialtone,
    /// A notice of the token table: its payload, which is the whole line.
    Urc(Urc<'a>),
}

impl<'a> Saying<'a> {
    /// Writes the answer to the front of `output`, and gives that part of it. The rest stays as it was; refused, all of it does.
    ///
    /// Refused with 16 where the bytes wouldn't be read back so under this table, and else with 17 where `output` is too short for
    /// them. [`LONGEST_INPUT`](crate::LONGEST_INPUT) bytes never are. How much stack that takes is in include/walumbeex.h.
    ///
    /// ```
    /// use walumbeex::{SayRefusal, Saying, Table};
    /// let mut output = [b'.'; 20];
    /// assert_eq!(Saying::CmeError(10).write(Table::empty(), &mut output), Ok(&b"\r\n+CME ERROR: 10\r\n"[..]));
    /// assert_eq!(&output, b"\r\n+CME ERROR: 10\r\n..");
    /// assert_eq!(Saying::CmeError(10).write(Table::empty(), &mut output[..17]), Err(SayRefusal::TooShort));
    /// ```
    pub fn write<'m>(&self, table: Table<'_>, output: &'m mut [u8]) -> Result<&'m [u8], SayRefusal> {
        let (kind, number, payload) = self.parts();
        let len = ffi::say(table, kind as u32, number, payload, output)?;
        // The promise has it within the memory.
        Ok(output.get(..len).unwrap_or_default())
    }

    /// Its kind, its number where it has one, and its payload.
    fn parts(&self) -> (u64, Option<u32>, &'a [u8]) {
        match *self {
            Self::Ok(payload) => (kind::OK, None, payload),
            Self::Prompt(byte) => (kind::PROMPT, Some(byte.into()), &[]),
            Self::CmeError(code) => (kind::CME, Some(code.into()), &[]),
            Self::CmsError(code) => (kind::CMS, Some(code.into()), &[]),
            Self::Error => (kind::ERROR, None, &[]),
            Self::NoCarrier => (kind::NO_CARRIER, None, &[]),
            Self::Busy => (kind::BUSY, None, &[]),
            Self::NoAnswer => (kind::NO_ANSWER, None, &[]),
            Self::NoDialtone => (kind::NO_DIALTONE, None, &[]),
            Self::Urc(Urc { record, payload }) => (kind::NOTICE, Some(record.into()), payload),
        }
    }
}
