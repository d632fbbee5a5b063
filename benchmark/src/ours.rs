//! The Rattle side: the exports of the archive, as include/walumbeex.h declares them. All that is unsafe about them stands here.

use crate::heard::{Heard, Held};
use crate::sides::Ears;
use crate::{BUFFER, QUEUE, SLOT};
use growth::notices::Queue;
use std::hint::black_box;

/// The numbers of a state; among them the notices lost, and the slot's serial number.
type State = [u64; 10];
const QUEUE_LOST: usize = 8;
const SERIAL: usize = 9;

/// The findings about the bytes in a buffer; of none they are zeros.
type Findings = [u64; 16];

/// The bytes of a record in the queue's memory; before R-9 they were 132.
const RECORD: usize = 1029;

extern "C" {
    fn wx_digest(digester: u32, table: *const u8, table_len: usize, input: *const u8, input_len: usize, out: *mut [u64; 9]) -> u32;
    fn wx_slot_new(state: *mut State);
    fn wx_slot_signal(state: *mut State, answer: *const [u64; 9], payload: *const u8, payload_len: usize, mem: *mut u8, mem_len: usize) -> u32;
    fn wx_slot_lookup(state: *const State, mem: *const u8, mem_len: usize, out: *mut [u64; 9]) -> u32;
    fn wx_slot_reset(state: *mut State, serial: u32, mem: *const u8, mem_len: usize) -> u32;
    fn wx_queue_new(state: *mut State);
    fn wx_queue_take(state: *mut State, mem: *const u8, mem_len: usize, out: *mut [u64; 9]) -> u32;
    fn wx_ingress_clear(state: *mut State);
    fn wx_list_read(payload: *const u8, payload_len: usize, elements: *mut [u64; 1536], out: *mut [u64; 9]) -> u32;
    fn wx_ingress_write(
        state: *mut State,
        piece: *const u8,
        piece_len: usize,
        digester: u32,
        table: *const u8,
        table_len: usize,
        buf: *mut u8,
        buf_len: usize,
        slot_mem: *mut u8,
        slot_mem_len: usize,
        queue_mem: *mut u8,
        queue_mem_len: usize,
        out: *mut [u64; 9],
    ) -> u32;
    fn wx_feed_write(
        state: *mut State,
        findings: *mut Findings,
        piece: *const u8,
        piece_len: usize,
        digester: u32,
        table: *const u8,
        table_len: usize,
        buf: *mut u8,
        buf_len: usize,
        slot_mem: *mut u8,
        slot_mem_len: usize,
        queue_mem: *mut u8,
        queue_mem_len: usize,
        out: *mut [u64; 9],
    ) -> u32;
}

/// `WX_VERBOSE`: the digester that hears what the crate hears.
const VERBOSE: u32 = 0;
/// `WX_NUMERIC`: that of a modem in V0, with the empty table.
const NUMERIC: u32 = 2;

/// The refusal's number, 0 for none; the answer stands in `out`.
#[inline]
pub fn digest(table: &[u8], input: &[u8], out: &mut [u64; 9]) -> u32 {
    // SAFETY: each pointer and length is a slice's own, and `out` is a lent array of nine.
    unsafe { wx_digest(VERBOSE, table.as_ptr(), table.len(), input.as_ptr(), input.len(), out) }
}

/// The same by the numeric digester, of which the crate has none.
pub fn digest_numeric(input: &[u8], out: &mut [u64; 9]) -> u32 {
    // SAFETY: as above; the table is the input's empty front part.
    unsafe { wx_digest(NUMERIC, input.as_ptr(), 0, input.as_ptr(), input.len(), out) }
}

/// A parameter list, read into the memory for its elements; the crate has no such reader.
pub fn list_read(payload: &[u8], elements: &mut [u64; 1536], out: &mut [u64; 9]) -> u32 {
    // SAFETY: as above; `elements` is a lent array of 1,536.
    unsafe { wx_list_read(payload.as_ptr(), payload.len(), elements, out) }
}

/// A digest, ready to be called.
pub fn digesting(table: Vec<u8>, input: &'static [u8]) -> Box<dyn FnMut()> {
    Box::new(move || {
        let mut out = [0; 9];
        black_box(digest(&table, black_box(input), &mut out));
        black_box(out);
    })
}

/// What is heard in the input, in the crate's types.
pub fn heard(table: &[u8], input: &[u8]) -> Heard {
    let mut out = [0; 9];
    let refusal = digest(table, input, &mut out);
    assert_eq!(refusal, 0, "our digest refused a workload");
    // The crate tells no digits, and this digester no text.
    let [kind, number, place, len, consumed, ..] = out;
    let (kind, number) = in_its_type(kind, number);
    Heard { kind, number, place: place as usize, len: len as usize, consumed: consumed as usize }
}

/// Our kind and number in the crate's types: MODEM ERROR is its CmeError::Unknown, 100; NA its NotAllowed, 3. The crate numbers no notice and no custom error.
fn in_its_type(kind: u64, number: u64) -> (&'static str, Option<u64>) {
    match kind {
        0 => ("none", None),
        1 => ("ok", None),
        2 => ("prompt", Some(number)),
        3 => ("cme", Some(number)),
        4 => ("cms", Some(number)),
        5 => ("cme", Some(100)),
        6 => ("cme", Some(3)),
        7 => ("error", None),
        8 => ("no carrier", None),
        9 => ("busy", None),
        10 => ("no answer", None),
        11 => ("no dialtone", None),
        12 => ("custom", None),
        13 => ("notice", None),
        _ => ("capacity", None),
    }
}

pub struct Ingress {
    state: State,
    table: Vec<u8>,
    buf: Vec<u8>,
    slot_mem: Vec<u8>,
    queue_mem: Vec<u8>,
}

impl Ingress {
    pub fn new(table: &[u8]) -> Self {
        let mut state = [0; 10];
        // SAFETY: `state` is an array of ten.
        unsafe {
            wx_slot_new(&mut state);
            wx_queue_new(&mut state);
        }
        Self { state, table: table.to_vec(), buf: vec![0; BUFFER], slot_mem: vec![0; SLOT], queue_mem: vec![0; QUEUE * RECORD] }
    }
}

impl Ears for Ingress {
    #[inline]
    fn clear(&mut self) {
        // SAFETY: `state` is an array of ten.
        unsafe { wx_ingress_clear(&mut self.state) }
    }

    #[inline]
    fn write(&mut self, piece: &[u8]) -> usize {
        let mut out = [0; 9];
        // SAFETY: each pointer and length is a slice's own; the lent memories are four different vectors.
        let refusal = unsafe {
            wx_ingress_write(
                &mut self.state,
                piece.as_ptr(),
                piece.len(),
                VERBOSE,
                self.table.as_ptr(),
                self.table.len(),
                self.buf.as_mut_ptr(),
                self.buf.len(),
                self.slot_mem.as_mut_ptr(),
                self.slot_mem.len(),
                self.queue_mem.as_mut_ptr(),
                self.queue_mem.len(),
                &mut out,
            )
        };
        assert_eq!(refusal, 0, "our ingress refused a workload");
        out[0] as usize
    }

    #[inline]
    fn signal(&mut self, payload: &[u8]) {
        let answer = [1, 0, 0, payload.len() as u64, 0, 0, 0, 0, 0];
        // SAFETY: as above.
        let refusal = unsafe { wx_slot_signal(&mut self.state, &answer, payload.as_ptr(), payload.len(), self.slot_mem.as_mut_ptr(), self.slot_mem.len()) };
        assert_eq!(refusal, 0, "our slot refused a signal");
    }

    #[inline]
    fn reset(&mut self) {
        // The number in force would be refused: each reset takes the one after it.
        let serial = (self.state[SERIAL] as u32).wrapping_add(1);
        // SAFETY: as above.
        let refusal = unsafe { wx_slot_reset(&mut self.state, serial, self.slot_mem.as_ptr(), self.slot_mem.len()) };
        assert_eq!(refusal, 0, "our slot refused a reset");
    }

    fn held(&mut self) -> Held {
        let mut out = [0; 9];
        // SAFETY: as above.
        let refusal = unsafe { wx_slot_lookup(&self.state, self.slot_mem.as_ptr(), self.slot_mem.len(), &mut out) };
        assert_eq!(refusal, 0, "our slot refused a look");
        if out[0] == 0 {
            return Held::nothing();
        }
        let (kind, number) = in_its_type(out[1], out[2]);
        // What is held of a numeric error are its digits, of which the crate tells none.
        let len = if matches!(out[1], 3..=5) { 0 } else { out[3] as usize };
        Held { kind, number, payload: self.slot_mem[..len].to_vec() }
    }

    fn waiting(&mut self) -> Vec<u8> {
        assert_eq!(self.state[7], 0, "a workload of the ingress has a notice");
        self.buf[..self.state[0] as usize].to_vec()
    }
}

/// The same with findings, for a stream that comes byte by byte.
pub struct Fed {
    ingress: Ingress,
    findings: Findings,
}

impl Fed {
    pub fn new(table: &[u8]) -> Self {
        Self { ingress: Ingress::new(table), findings: [0; 16] }
    }
}

impl Ears for Fed {
    #[inline]
    fn clear(&mut self) {
        self.ingress.clear();
        self.findings = [0; 16];
    }

    #[inline]
    fn write(&mut self, piece: &[u8]) -> usize {
        let mut out = [0; 9];
        let ours = &mut self.ingress;
        // SAFETY: as above, and `findings` is an array of sixteen.
        let refusal = unsafe {
            wx_feed_write(
                &mut ours.state,
                &mut self.findings,
                piece.as_ptr(),
                piece.len(),
                VERBOSE,
                ours.table.as_ptr(),
                ours.table.len(),
                ours.buf.as_mut_ptr(),
                ours.buf.len(),
                ours.slot_mem.as_mut_ptr(),
                ours.slot_mem.len(),
                ours.queue_mem.as_mut_ptr(),
                ours.queue_mem.len(),
                &mut out,
            )
        };
        assert_eq!(refusal, 0, "our ingress refused a workload");
        out[0] as usize
    }

    #[inline]
    fn signal(&mut self, payload: &[u8]) {
        self.ingress.signal(payload);
    }

    #[inline]
    fn reset(&mut self) {
        self.ingress.reset();
    }

    fn held(&mut self) -> Held {
        self.ingress.held()
    }

    fn waiting(&mut self) -> Vec<u8> {
        self.ingress.waiting()
    }
}

impl Queue for Ingress {
    fn through(&mut self, notice: &[u8]) -> Option<&[u8]> {
        self.write(notice);
        let mut out = [0; 9];
        // SAFETY: as above.
        let refusal = unsafe { wx_queue_take(&mut self.state, self.queue_mem.as_ptr(), self.queue_mem.len(), &mut out) };
        assert_eq!(refusal, 0, "our queue refused a take");
        let (place, len) = (out[2] as usize, out[3] as usize);
        (out[0] == 1).then(|| &self.queue_mem[place..place + len])
    }

    fn lost(&self) -> u64 {
        self.state[QUEUE_LOST]
    }
}
