use core::fmt;

use crate::{ffi, Refusal};

/// The most records that a table may have.
pub const MOST_RECORDS: usize = 64;
/// The longest text that a record may have.
pub const LONGEST_TEXT: usize = 32;

/// A good token table: the notices (URCs) and the custom lines that a digester knows.
///
/// It stands in the place of atat's `AtatUrc` parser and of `with_custom_success`, `with_custom_error` and
/// `with_custom_prompt`. A record is known by its number in the table, from 0; of equal texts the earlier record wins.
#[derive(Debug, Clone, Copy, PartialEq, Eq)]
pub struct Table<'t> {
    bytes: &'t [u8],
    records: usize,
}

impl<'t> Table<'t> {
    /// The empty table: no notices, no custom lines.
    #[must_use]
    pub const fn empty() -> Self {
        Self { bytes: &[], records: 0 }
    }

    /// A table that is written as bytes already: records of a two-byte mark (`UR`, `CS`, `CE`, `CP`), for `CP` a prompt
    /// byte, a length byte and the text. Refused with 2 where it breaks a rule.
    ///
    /// ```
    /// use walumbeex::{Refusal, Table};
    /// let table = Table::new(b"UR\x07+UUSORDCS\x05READY").unwrap();
    /// assert_eq!(table.records(), 2);
    /// assert_eq!(Table::new(b"UR\x07+UUSORDCS\x06READY"), Err(Refusal::BadTable { record: 1 }));
    /// ```
    pub fn new(bytes: &'t [u8]) -> Result<Self, Refusal> {
        let records = ffi::table_check(bytes)?;
        Ok(Self { bytes, records })
    }

    /// How many records it has.
    #[must_use]
    pub const fn records(&self) -> usize {
        self.records
    }

    /// The table as bytes.
    #[must_use]
    pub const fn as_bytes(&self) -> &'t [u8] {
        self.bytes
    }
}

/// Why a record can't be added to a table.
#[derive(Debug, Clone, Copy, PartialEq, Eq)]
pub enum TableError {
    /// A text has 1 to 32 bytes; this has so many.
    TextLength(usize),
    /// A text's bytes are 0x20 to 0x7E, and its first and last are no space; this place of it breaks that.
    TextByte(usize),
    /// There are 64 records already.
    TooManyRecords,
    /// The memory lent is too short; so many more bytes are needed.
    MemoryFull(usize),
}

impl fmt::Display for TableError {
    fn fmt(&self, f: &mut fmt::Formatter<'_>) -> fmt::Result {
        match self {
            Self::TextLength(n) => write!(f, "a text has 1 to 32 bytes, and this has {n}"),
            Self::TextByte(at) => {
                write!(f, "byte {at} of the text is not one of 0x20 to 0x7E, or it is a space at its beginning or end")
            }
            Self::TooManyRecords => f.write_str("a table has at most 64 records"),
            Self::MemoryFull(n) => write!(f, "the memory lent for the table is {n} bytes too short"),
        }
    }
}

impl core::error::Error for TableError {}

/// Builds a token table in memory that the caller lends. A record takes its text and 3 bytes, a prompt's record 4.
///
/// Each call answers the number of the record it has added; a call that fails has added nothing.
///
/// ```
/// use walumbeex::{TableBuilder, TableError};
/// let mut memory = [0; 64];
/// let mut builder = TableBuilder::new(&mut memory);
/// assert_eq!(builder.urc(b"+UUSORD"), Ok(0));
/// assert_eq!(builder.custom_success(b"SHUT OK"), Ok(1));
/// assert_eq!(builder.custom_error(b"+FTPERROR"), Ok(2));
/// assert_eq!(builder.custom_prompt(b'$', b"SEND:"), Ok(3));
/// assert_eq!(builder.urc(b" RING"), Err(TableError::TextByte(0)));
/// let table = builder.finish();
/// assert_eq!(table.records(), 4);
/// ```
#[derive(Debug)]
pub struct TableBuilder<'t> {
    memory: &'t mut [u8],
    len: usize,
    records: usize,
}

impl<'t> TableBuilder<'t> {
    /// A builder of a table that is still empty.
    #[must_use]
    pub fn new(memory: &'t mut [u8]) -> Self {
        Self { memory, len: 0, records: 0 }
    }

    /// A notice (`UR`): a line that is the text, or the text, `:` and more. The text must be all that stands before the `:`.
    ///
    /// ```
    /// use walumbeex::{Digester, DigestResult, TableBuilder, Urc};
    /// let mut memory = [0; 32];
    /// let mut builder = TableBuilder::new(&mut memory);
    /// let ipd = builder.urc(b"+IPD").unwrap();
    /// let digester = Digester::new(builder.finish());
    /// let heard = digester.digest(b"\r\n+IPD: 12,abc\r\n").unwrap();
    /// assert_eq!(heard, (DigestResult::Urc(Urc { record: ipd, payload: b"+IPD: 12,abc" }), 16));
    /// // What follows the text is neither `:` nor CRLF: no notice.
    /// assert_eq!(digester.digest(b"\r\n+IPD,12:abc\r\n"), Ok((DigestResult::None, 0)));
    /// ```
    pub fn urc(&mut self, text: &[u8]) -> Result<u8, TableError> {
        self.add(b"UR", text)
    }

    /// A custom success (`CS`): a line that is the text ends an answer as `OK` does.
    pub fn custom_success(&mut self, text: &[u8]) -> Result<u8, TableError> {
        self.add(b"CS", text)
    }

    /// A custom error (`CE`): a line that is the text ends an answer as `ERROR` does.
    pub fn custom_error(&mut self, text: &[u8]) -> Result<u8, TableError> {
        self.add(b"CE", text)
    }

    /// A custom prompt (`CP`): an input that ends in the text, blanks aside, is the prompt `prompt`.
    pub fn custom_prompt(&mut self, prompt: u8, text: &[u8]) -> Result<u8, TableError> {
        self.add(&[b'C', b'P', prompt], text)
    }

    fn add(&mut self, head: &[u8], text: &[u8]) -> Result<u8, TableError> {
        if text.is_empty() || text.len() > LONGEST_TEXT {
            return Err(TableError::TextLength(text.len()));
        }
        let last = text.len() - 1;
        let breaks = |(i, b): (usize, &u8)| !(0x20..=0x7E).contains(b) || (*b == b' ' && (i == 0 || i == last));
        if let Some(at) = text.iter().enumerate().position(breaks) {
            return Err(TableError::TextByte(at));
        }
        if self.records == MOST_RECORDS {
            return Err(TableError::TooManyRecords);
        }
        let end = self.len + head.len() + 1 + text.len();
        let Some(place) = self.memory.get_mut(self.len..end) else {
            return Err(TableError::MemoryFull(end - self.memory.len()));
        };
        let (front, rest) = place.split_at_mut(head.len());
        front.copy_from_slice(head);
        rest[0] = text.len() as u8;
        rest[1..].copy_from_slice(text);
        self.len = end;
        self.records += 1;
        Ok((self.records - 1) as u8)
    }

    /// The table.
    #[must_use]
    pub fn finish(self) -> Table<'t> {
        let Self { memory, len, records } = self;
        let memory: &'t [u8] = memory;
        Table { bytes: &memory[..len], records }
    }
}
