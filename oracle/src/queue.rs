//! The queue's records as documents 01 and 02 lay them out. The crate has no such memory: its notices wait in a channel.

/// The longest notice that is kept, by its payload's bytes. A longer one is lost, and so is one without any.
pub const LONGEST_NOTICE: usize = 1024;

const MARK: &[u8] = b"UX";

/// The bytes of a record: its mark, the table number, the payload's length in two bytes, the payload.
pub const RECORD: usize = MARK.len() + 1 + 2 + LONGEST_NOTICE;

/// The most records that a queue holds, however long its memory is.
pub const MOST_RECORDS: usize = 16;

/// How many records a memory of so many bytes holds.
pub fn capacity(memory: usize) -> usize {
    (memory / RECORD).min(MOST_RECORDS)
}

/// What a notice that is kept writes at a record's front; the bytes behind it stay.
pub fn record(number: usize, line: &[u8]) -> Vec<u8> {
    let length = (line.len() as u16).to_be_bytes();
    [MARK, &[number as u8], &length, line].concat()
}
