//! The archive's calls, declared, and a safe wrapper around each: the only file with unsafe code.
//!
//! A wrapper takes slices and arrays of a fixed length, so that every pointer is good for the length that goes with it and
//! the borrow rules keep what is written apart from everything else. No call has a condition on its arguments (that is part
//! of what is proved of it), so nothing else has to hold but that the archive has arrays of the same length and meaning:
//! `same_version` asks that where one is first handed over. `wx_payload` and `wx_slot_payload` have no wrapper: `get` on a slice
//! gives the same part.
//!
//! The calling convention is System V's: `build.rs` links for x86-64 Linux with pointers of 64 bits only, where it is `"C"`.

use crate::{ConvertRefusal, Digester, ListRefusal, Refusal, ResetRefusal, SayRefusal, Table, LIST_MEMORY};

/// The version of the calls and arrays below: `WX_VERSION` of `include/walumbeex.h`.
const VERSION: u32 = 6;

/// The places of a state's ten numbers, of those that are used here. The slot's are 1 to 5 and the last, the queue's 6 to 8.
pub(crate) const END: usize = 0;
pub(crate) const SIGNALLED: usize = 1;
pub(crate) const SLOT_LOST: usize = 5;
pub(crate) const START: usize = 6;
pub(crate) const COUNT: usize = 7;
pub(crate) const QUEUE_LOST: usize = 8;
pub(crate) const SERIAL: usize = 9;

/// A state's ten numbers.
pub(crate) const NUMBERS: usize = 10;
pub(crate) type State = [u64; NUMBERS];

/// The findings about the bytes in a buffer, sixteen numbers.
const FINDINGS: usize = 16;
pub(crate) type Findings = [u64; FINDINGS];

/// The nine numbers that a call may answer.
const OUT: usize = 9;
pub(crate) type Out = [u64; OUT];

extern "C" {
    fn wx_table_check(table: *const u8, table_len: usize, out: *mut u64) -> u32;
    fn wx_digest(digester: u32, table: *const u8, table_len: usize, input: *const u8, input_len: usize, out: *mut u64) -> u32;
    fn wx_slot_new(state: *mut u64);
    fn wx_slot_signal(
        state: *mut u64,
        answer: *const u64,
        payload: *const u8,
        payload_len: usize,
        mem: *mut u8,
        mem_len: usize,
    ) -> u32;
    fn wx_slot_lookup(state: *const u64, mem: *const u8, mem_len: usize, out: *mut u64) -> u32;
    fn wx_slot_reset(state: *mut u64, serial: u32, mem: *const u8, mem_len: usize) -> u32;
    fn wx_queue_new(state: *mut u64);
    fn wx_queue_capacity(len: usize) -> usize;
    fn wx_queue_put(state: *mut u64, mem: *mut u8, mem_len: usize, number: u8, payload: *const u8, payload_len: usize) -> u32;
    fn wx_queue_take(state: *mut u64, mem: *const u8, mem_len: usize, out: *mut u64) -> u32;
    fn wx_queue_convert(
        old: *const u64,
        old_mem: *const u8,
        old_mem_len: usize,
        state: *mut u64,
        mem: *mut u8,
        mem_len: usize,
    ) -> u32;
    fn wx_ingress_advance(
        state: *mut u64,
        commit: usize,
        digester: u32,
        table: *const u8,
        table_len: usize,
        buf: *mut u8,
        buf_len: usize,
        slot_mem: *mut u8,
        slot_len: usize,
        queue_mem: *mut u8,
        queue_len: usize,
        out: *mut u64,
    ) -> u32;
    fn wx_ingress_write(
        state: *mut u64,
        piece: *const u8,
        piece_len: usize,
        digester: u32,
        table: *const u8,
        table_len: usize,
        buf: *mut u8,
        buf_len: usize,
        slot_mem: *mut u8,
        slot_len: usize,
        queue_mem: *mut u8,
        queue_len: usize,
        out: *mut u64,
    ) -> u32;
    fn wx_ingress_clear(state: *mut u64);
    fn wx_feed_advance(
        state: *mut u64,
        findings: *mut u64,
        commit: usize,
        digester: u32,
        table: *const u8,
        table_len: usize,
        buf: *mut u8,
        buf_len: usize,
        slot_mem: *mut u8,
        slot_len: usize,
        queue_mem: *mut u8,
        queue_len: usize,
        out: *mut u64,
    ) -> u32;
    fn wx_feed_write(
        state: *mut u64,
        findings: *mut u64,
        piece: *const u8,
        piece_len: usize,
        digester: u32,
        table: *const u8,
        table_len: usize,
        buf: *mut u8,
        buf_len: usize,
        slot_mem: *mut u8,
        slot_len: usize,
        queue_mem: *mut u8,
        queue_len: usize,
        out: *mut u64,
    ) -> u32;
    fn wx_findings_start(findings: *mut u64, state: *const u64, buf: *const u8, buf_len: usize);
    fn wx_list_read(payload: *const u8, payload_len: usize, elements: *mut u64, out: *mut u64) -> u32;
    fn wx_say(
        table: *const u8,
        table_len: usize,
        kind: u32,
        numbered: bool,
        number: u32,
        payload: *const u8,
        payload_len: usize,
        output: *mut u8,
        output_len: usize,
        out: *mut u64,
    ) -> u32;
    fn wx_version() -> u32;
}

/// Stops where the archive is of another version: what it takes for an array may be longer than what it is handed.
///
/// Asked where numbers first reach the archive: a table, an input, a new slot, a new queue, a queue to be converted, a list to be
/// read, an answer to be written. Every other state goes through a new slot and a new queue.
fn same_version() {
    // SAFETY: it takes nothing.
    let version = unsafe { wx_version() };
    assert!(
        version == VERSION,
        "libgateway.a is of version {version} and this binding of version {VERSION}: take both from the same sources"
    );
}

/// The refusal of a number: `out` has the record's number at 2, and `taken` are the bytes taken at 5.
fn refused(number: u32, out: &Out, taken: usize) -> Result<(), Refusal> {
    match number {
        0 => Ok(()),
        1 => Err(Refusal::TooLong),
        // The promise of each call has it at 64 or below.
        2 => Err(Refusal::BadTable { record: out[0] as u8 }),
        4 => Err(Refusal::NoRoom),
        5 => Err(Refusal::QueueFull { taken }),
        // 3; no call but a reset, a conversion, the reading of a list and the writing of an answer, which have their own, answers a
        // number over 5.
        _ => Err(Refusal::BadState),
    }
}

/// How many records a good table has.
pub(crate) fn table_check(table: &[u8]) -> Result<usize, Refusal> {
    same_version();
    let mut out: Out = [0; OUT];
    // SAFETY: see the head of this file.
    let number = unsafe { wx_table_check(table.as_ptr(), table.len(), out.as_mut_ptr()) };
    refused(number, &out, 0)?;
    Ok(out[0] as usize)
}

/// Kind, number, payload's place and length, bytes consumed, digits' place and length, text's place and length.
pub(crate) fn digest(digester: u32, table: &[u8], input: &[u8]) -> Result<Out, Refusal> {
    same_version();
    let mut out: Out = [0; OUT];
    // SAFETY: see the head of this file.
    let number = unsafe { wx_digest(digester, table.as_ptr(), table.len(), input.as_ptr(), input.len(), out.as_mut_ptr()) };
    refused(number, &out, 0)?;
    Ok(out)
}

/// A new slot in the state.
pub(crate) fn slot_new(state: &mut State) {
    same_version();
    // SAFETY: see the head of this file.
    unsafe { wx_slot_new(state.as_mut_ptr()) }
}

/// An answer and its bytes, the payload or the digits, signalled.
pub(crate) fn slot_signal(state: &mut State, answer: &Out, bytes: &[u8], mem: &mut [u8]) -> Result<(), Refusal> {
    // SAFETY: see the head of this file.
    let number =
        unsafe { wx_slot_signal(state.as_mut_ptr(), answer.as_ptr(), bytes.as_ptr(), bytes.len(), mem.as_mut_ptr(), mem.len()) };
    refused(number, answer, 0)
}

/// 1, what is held, its number, the length of its payload or digits and the serial number that it bears; 0 of a free slot.
pub(crate) fn slot_lookup(state: &State, mem: &[u8]) -> Result<Out, Refusal> {
    let mut out: Out = [0; OUT];
    // SAFETY: see the head of this file.
    let number = unsafe { wx_slot_lookup(state.as_ptr(), mem.as_ptr(), mem.len(), out.as_mut_ptr()) };
    refused(number, &out, 0)?;
    Ok(out)
}

/// A free slot, under another serial number.
pub(crate) fn slot_reset(state: &mut State, serial: u32, mem: &[u8]) -> Result<(), ResetRefusal> {
    // SAFETY: see the head of this file.
    let number = unsafe { wx_slot_reset(state.as_mut_ptr(), serial, mem.as_ptr(), mem.len()) };
    match number {
        0 => Ok(()),
        15 => Err(ResetRefusal::Repeated { serial }),
        // 3; a reset answers no other number.
        _ => Err(ResetRefusal::BadState),
    }
}

/// An empty queue in the state.
pub(crate) fn queue_new(state: &mut State) {
    same_version();
    // SAFETY: see the head of this file.
    unsafe { wx_queue_new(state.as_mut_ptr()) }
}

/// How many records a memory of `len` bytes holds.
pub(crate) fn queue_capacity(len: usize) -> usize {
    // SAFETY: see the head of this file.
    unsafe { wx_queue_capacity(len) }
}

/// A notice, put into the queue.
pub(crate) fn queue_put(state: &mut State, mem: &mut [u8], record: u8, payload: &[u8]) -> Result<(), Refusal> {
    // SAFETY: see the head of this file.
    let number =
        unsafe { wx_queue_put(state.as_mut_ptr(), mem.as_mut_ptr(), mem.len(), record, payload.as_ptr(), payload.len()) };
    refused(number, &[0; OUT], 0)
}

/// 1, the oldest notice's table number, its payload's place and length; 0 from an empty queue.
pub(crate) fn queue_take(state: &mut State, mem: &[u8]) -> Result<Out, Refusal> {
    let mut out: Out = [0; OUT];
    // SAFETY: see the head of this file.
    let number = unsafe { wx_queue_take(state.as_mut_ptr(), mem.as_ptr(), mem.len(), out.as_mut_ptr()) };
    refused(number, &out, 0)?;
    Ok(out)
}

/// A queue of the old form, written into `mem` and the state's numbers.
pub(crate) fn queue_convert(old: &State, old_mem: &[u8], state: &mut State, mem: &mut [u8]) -> Result<(), ConvertRefusal> {
    same_version();
    // SAFETY: see the head of this file.
    let number = unsafe {
        wx_queue_convert(old.as_ptr(), old_mem.as_ptr(), old_mem.len(), state.as_mut_ptr(), mem.as_mut_ptr(), mem.len())
    };
    match number {
        0 => Ok(()),
        // Behind 3, so that the count is at most 16.
        13 => Err(ConvertRefusal::TooFew { held: old[COUNT] as usize }),
        // 3; a conversion answers no other number.
        _ => Err(ConvertRefusal::BadState),
    }
}

/// The commit, digested and delivered.
pub(crate) fn ingress_advance(
    state: &mut State,
    commit: usize,
    digester: Digester<'_>,
    buf: &mut [u8],
    slot_mem: &mut [u8],
    queue_mem: &mut [u8],
) -> Result<(), Refusal> {
    let mut out: Out = [0; OUT];
    // SAFETY: see the head of this file.
    let number = unsafe {
        wx_ingress_advance(
            state.as_mut_ptr(),
            commit,
            digester.number(),
            digester.table().as_ptr(),
            digester.table().len(),
            buf.as_mut_ptr(),
            buf.len(),
            slot_mem.as_mut_ptr(),
            slot_mem.len(),
            queue_mem.as_mut_ptr(),
            queue_mem.len(),
            out.as_mut_ptr(),
        )
    };
    refused(number, &out, commit)
}

/// A piece, copied in, digested and delivered: the bytes taken.
pub(crate) fn ingress_write(
    state: &mut State,
    piece: &[u8],
    digester: Digester<'_>,
    buf: &mut [u8],
    slot_mem: &mut [u8],
    queue_mem: &mut [u8],
) -> Result<usize, Refusal> {
    let mut out: Out = [0; OUT];
    // SAFETY: see the head of this file.
    let number = unsafe {
        wx_ingress_write(
            state.as_mut_ptr(),
            piece.as_ptr(),
            piece.len(),
            digester.number(),
            digester.table().as_ptr(),
            digester.table().len(),
            buf.as_mut_ptr(),
            buf.len(),
            slot_mem.as_mut_ptr(),
            slot_mem.len(),
            queue_mem.as_mut_ptr(),
            queue_mem.len(),
            out.as_mut_ptr(),
        )
    };
    refused(number, &out, out[0] as usize)?;
    Ok(out[0] as usize)
}

/// The buffer's bytes, dropped.
pub(crate) fn ingress_clear(state: &mut State) {
    // SAFETY: see the head of this file.
    unsafe { wx_ingress_clear(state.as_mut_ptr()) }
}

/// The commit, digested and delivered, with findings.
pub(crate) fn feed_advance(
    state: &mut State,
    findings: &mut Findings,
    commit: usize,
    digester: Digester<'_>,
    buf: &mut [u8],
    slot_mem: &mut [u8],
    queue_mem: &mut [u8],
) -> Result<(), Refusal> {
    let mut out: Out = [0; OUT];
    // SAFETY: see the head of this file.
    let number = unsafe {
        wx_feed_advance(
            state.as_mut_ptr(),
            findings.as_mut_ptr(),
            commit,
            digester.number(),
            digester.table().as_ptr(),
            digester.table().len(),
            buf.as_mut_ptr(),
            buf.len(),
            slot_mem.as_mut_ptr(),
            slot_mem.len(),
            queue_mem.as_mut_ptr(),
            queue_mem.len(),
            out.as_mut_ptr(),
        )
    };
    refused(number, &out, commit)
}

/// A piece, copied in, digested and delivered, with findings: the bytes taken.
pub(crate) fn feed_write(
    state: &mut State,
    findings: &mut Findings,
    piece: &[u8],
    digester: Digester<'_>,
    buf: &mut [u8],
    slot_mem: &mut [u8],
    queue_mem: &mut [u8],
) -> Result<usize, Refusal> {
    let mut out: Out = [0; OUT];
    // SAFETY: see the head of this file.
    let number = unsafe {
        wx_feed_write(
            state.as_mut_ptr(),
            findings.as_mut_ptr(),
            piece.as_ptr(),
            piece.len(),
            digester.number(),
            digester.table().as_ptr(),
            digester.table().len(),
            buf.as_mut_ptr(),
            buf.len(),
            slot_mem.as_mut_ptr(),
            slot_mem.len(),
            queue_mem.as_mut_ptr(),
            queue_mem.len(),
            out.as_mut_ptr(),
        )
    };
    refused(number, &out, out[0] as usize)?;
    Ok(out[0] as usize)
}

/// The findings of the buffer's bytes.
pub(crate) fn findings_start(state: &State, buf: &[u8]) -> Findings {
    let mut findings: Findings = [0; FINDINGS];
    // SAFETY: see the head of this file.
    unsafe { wx_findings_start(findings.as_mut_ptr(), state.as_ptr(), buf.as_ptr(), buf.len()) }
    findings
}

/// How many elements a payload has; they stand at the front of `elements`, six numbers each.
pub(crate) fn list_read(payload: &[u8], elements: &mut [u64; LIST_MEMORY]) -> Result<usize, ListRefusal> {
    same_version();
    let mut out: Out = [0; OUT];
    // SAFETY: see the head of this file.
    let number = unsafe { wx_list_read(payload.as_ptr(), payload.len(), elements.as_mut_ptr(), out.as_mut_ptr()) };
    let told = out[0] as usize;
    match number {
        0 => Ok(told),
        7 => Err(ListRefusal::TooDeep { place: told }),
        8 => Err(ListRefusal::TooLarge { place: told }),
        9 => Err(ListRefusal::TooMany { place: told }),
        // 6; the reading of a list answers no other number.
        _ => Err(ListRefusal::Malformed { place: told }),
    }
}

/// How many bytes an answer has; they stand at the front of `output`.
pub(crate) fn say(
    table: Table<'_>,
    kind: u32,
    number: Option<u32>,
    payload: &[u8],
    output: &mut [u8],
) -> Result<usize, SayRefusal> {
    same_version();
    let mut out: Out = [0; OUT];
    // SAFETY: see the head of this file.
    let refusal = unsafe {
        wx_say(
            table.as_bytes().as_ptr(),
            table.as_bytes().len(),
            kind,
            number.is_some(),
            number.unwrap_or_default(),
            payload.as_ptr(),
            payload.len(),
            output.as_mut_ptr(),
            output.len(),
            out.as_mut_ptr(),
        )
    };
    match refusal {
        0 => Ok(out[0] as usize),
        17 => Err(SayRefusal::TooShort),
        // 16; a `Table` is good, so that 2 isn't answered.
        _ => Err(SayRefusal::NotReadBack),
    }
}
