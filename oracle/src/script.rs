//! An ingress case: the crate's Ingress, ResponseSlot and try_write under a script, and what the harness keeps beside them.
//!
//! The harness's part: refusals 1 and 2; the queue's ring in its memory; the slot's memory; the digits of a numeric error, there and by their length, since
//! the crate doesn't tell them; the lost counts (the crate's log lines
//! of losses, counted); the bytes taken at refusal 5 (the commits that the crate's try_write made, added up); and at refusal 4,
//! where the crate panics by its `assert!`, that the end is put back where it was.

use crate::lines;
use crate::notation::{Hex, Op};
use crate::origin::{caught, Origin, LONGEST};
use crate::queue::{self, RECORD};
use crate::table;
use crate::tokens::{self, Notice, Tokens};
use atat::{reach, AtatIngress, CmeError, ConnectionError, Ingress, IngressError, InternalError, Response, ResponseSlot, UrcChannel};

/// The sizes of slot memory for which there is a ResponseSlot here: its size is a constant of its type.
pub const SLOT_SIZES: [usize; 14] = [0, 1, 2, 3, 4, 5, 8, 16, 32, 64, 128, 256, 1024, 4096];

type Channel = UrcChannel<Notice, 0, 1>;

/// Runs a script; the slot memory's length picks the type.
pub fn run(table: &[u8], buffer: &[u8], slot: &[u8], queue: &[u8], ops: &[Op]) -> (String, Origin) {
    macro_rules! sized {
        ($($n:literal)*) => {
            match slot.len() {
                $($n => run_in::<$n>(table, buffer, slot, queue, ops),)*
                _ => ("unsupported".to_owned(), Origin::Harness),
            }
        };
    }
    sized!(0 1 2 3 4 5 8 16 32 64 128 256 1024 4096)
}

fn run_in<const N: usize>(table: &[u8], buffer: &[u8], slot: &[u8], queue: &[u8], ops: &[Op]) -> (String, Origin) {
    let mut origin = Origin::Crate;
    let (refused, records) = match (buffer.len() > LONGEST, table::read(table)) {
        (true, _) => (Some("refused 1".to_owned()), Vec::new()),
        (false, Err(record)) => (Some(format!("refused 2 {record}")), Vec::new()),
        (false, Ok(records)) => (None, records),
    };
    tokens::lay(records);
    let mut buffer = buffer.to_vec();
    let response = ResponseSlot::<N>::new();
    let channel = Channel::holding(queue::capacity(queue.len()));
    let mut beside = Beside::new(slot, queue);
    let mut said = String::new();
    let end;
    {
        let room = buffer.len();
        let mut ingress = Ingress::new(Tokens::new(), &mut buffer, &response, &channel);
        for op in ops {
            atat::fmt::losses();
            tokens::first_digits();
            let end_before = room - ingress.write_buf().len();
            let part = match op {
                Op::Put(bytes) if bytes.len() <= room - end_before => {
                    ingress.write_buf()[..bytes.len()].copy_from_slice(bytes);
                    refused.clone().map_or_else(|| advance(&mut ingress, bytes.len(), end_before), Ok)
                }
                Op::Put(bytes) => refused.clone().map_or_else(|| advance(&mut ingress, bytes.len(), end_before), Ok),
                Op::Over(n) => refused.clone().map_or_else(|| advance(&mut ingress, *n as usize, end_before), Ok),
                Op::Write(piece) => refused.clone().map_or_else(|| write(&mut ingress, piece), Ok),
                Op::Take => Ok(beside.take(&channel)),
                Op::Clear => {
                    ingress.clear();
                    Ok("done".to_owned())
                }
                Op::Reset => {
                    response.reset();
                    Ok("done".to_owned())
                }
                Op::Okay(bytes) => Ok(beside.signal(reach::signal_response(&response, Ok(bytes)).is_err())),
                Op::Cme(n, _) => Ok(beside.signal(reach::signal_response(&response, Err(InternalError::CmeError(CmeError::from(*n)))).is_err())),
                Op::Busy => Ok(beside.signal(reach::signal_response(&response, Err(InternalError::ConnectionError(ConnectionError::Busy))).is_err())),
                Op::Prompt(n) => Ok(beside.signal(reach::signal_prompt(&response, *n).is_err())),
            };
            match part {
                Ok(part) => {
                    if part.starts_with("refused 1") || part.starts_with("refused 2") {
                        origin = Origin::Harness;
                    }
                    said += &part;
                    said.push(';');
                }
                Err(place) => return (format!("{said}panic {place}"), Origin::Panic),
            }
            beside.look(&response, &channel, &digits_of(op));
        }
        end = room - ingress.write_buf().len();
    }
    if origin == Origin::Crate && tokens::asked_us() {
        origin = Origin::Ours;
    }
    (format!("{said} end {end} buffer {} {}", Hex(&buffer), beside.state()), origin)
}

/// The digits that go with what a call signals first.
fn digits_of(op: &Op) -> Vec<u8> {
    match op {
        Op::Cme(_, Some(digits)) => digits.clone(),
        Op::Cme(n, None) => n.to_string().into_bytes(),
        _ => tokens::first_digits(),
    }
}

/// What the harness keeps beside the crate.
struct Beside {
    slot_memory: Vec<u8>,
    is_signalled: bool,
    /// The digits stored with what is held; none where they are longer than the memory.
    digits: Vec<u8>,
    held: String,
    answers_lost: u32,
    queue_memory: Vec<u8>,
    start: usize,
    count: usize,
    notices_lost: u32,
}

impl Beside {
    fn new(slot: &[u8], queue: &[u8]) -> Self {
        Self {
            slot_memory: slot.to_vec(),
            is_signalled: false,
            digits: Vec::new(),
            held: held(&Response::<0>::default(), &[]),
            answers_lost: 0,
            queue_memory: queue.to_vec(),
            start: 0,
            count: 0,
            notices_lost: 0,
        }
    }

    fn signal(&mut self, lost: bool) -> String {
        self.answers_lost += u32::from(lost);
        "done".to_owned()
    }

    fn take(&mut self, channel: &Channel) -> String {
        match channel.take() {
            None => "nothing".to_owned(),
            Some(notice) => {
                self.start = (self.start + 1) % queue::capacity(self.queue_memory.len());
                self.count -= 1;
                lines::notice(notice.number, &notice.line)
            }
        }
    }

    /// After a call that signalled an answer with these digits, if any: reads the slot where it is signalled, as what a free one holds can't be read, and
    /// writes down the notices that have come.
    fn look<const N: usize>(&mut self, response: &ResponseSlot<N>, channel: &Channel, digits: &[u8]) {
        let (answers, notices) = atat::fmt::losses();
        self.answers_lost += answers;
        self.notices_lost += notices;
        let now = response.try_get();
        if !self.is_signalled {
            self.digits = if digits.len() > self.slot_memory.len() { Vec::new() } else { digits.to_vec() };
        }
        self.is_signalled = now.is_some();
        if let Some(now) = now {
            self.held = held(&now, &self.digits);
            let payload = lines::of_response(&now).payload;
            self.slot_memory[..payload.len()].copy_from_slice(payload);
            self.slot_memory[..self.digits.len()].copy_from_slice(&self.digits);
        }
        for notice in channel.behind(self.count) {
            let at = RECORD * ((self.start + self.count) % queue::capacity(self.queue_memory.len()));
            let record = queue::record(notice.number, &notice.line);
            self.queue_memory[at..at + record.len()].copy_from_slice(&record);
            self.count += 1;
        }
    }

    fn state(&self) -> String {
        format!(
            "slot {} {} {} memory {} queue {} {} {} memory {}",
            if self.is_signalled { "signalled" } else { "free" },
            self.held,
            self.answers_lost,
            Hex(&self.slot_memory),
            self.start,
            self.count,
            self.notices_lost,
            Hex(&self.queue_memory)
        )
    }
}

/// Kind, number and length of what a slot holds: its payload's, or its digits'.
fn held<const N: usize>(response: &Response<N>, digits: &[u8]) -> String {
    let said = lines::of_response(response);
    format!("{} {} {}", said.kind, said.number(), said.payload.len() + digits.len())
}

type Running<'a, const N: usize> = Ingress<'a, Tokens, Notice, N, 0, 1>;

/// Advances by `commit`. At a commit over the room the crate panics with its end raised; the end is put back.
fn advance<const N: usize>(ingress: &mut Running<'_, N>, commit: usize, end: usize) -> Result<String, String> {
    match caught(|| ingress.try_advance(commit)) {
        Ok(Ok(())) => Ok("advanced".to_owned()),
        Ok(Err(e)) => Ok(in_its_number(e).to_owned()),
        Err(place) if place == "ingress.rs" => {
            ingress.clear();
            let back = tokens::quietly(|| ingress.try_advance(end));
            back.map(|()| "refused 4".to_owned()).map_err(|_| place)
        }
        Err(place) => Err(place),
    }
}

/// Writes a piece by the crate's own try_write.
fn write<const N: usize>(ingress: &mut Running<'_, N>, piece: &[u8]) -> Result<String, String> {
    let mut counted = Counted { ingress, taken: 0 };
    match caught(|| counted.try_write(piece)) {
        Ok(Ok(taken)) => Ok(format!("took {taken}")),
        Ok(Err(e)) => Ok(format!("{} took {}", in_its_number(e), counted.taken)),
        Err(place) => Err(place),
    }
}

fn in_its_number(e: IngressError) -> &'static str {
    match e {
        IngressError::UrcChannelFull => "refused 5",
        // The crate never gives it; a line that has this word differs from ours.
        IngressError::ResponseSlotBusy => "busy slot",
    }
}

/// The crate's ingress with its commits added up: try_write is a method that the crate's trait provides, and calls these.
struct Counted<'i, 'a, const N: usize> {
    ingress: &'i mut Running<'a, N>,
    taken: usize,
}

impl<const N: usize> AtatIngress for Counted<'_, '_, N> {
    fn write_buf(&mut self) -> &mut [u8] {
        self.ingress.write_buf()
    }

    fn try_advance(&mut self, commit: usize) -> Result<(), IngressError> {
        self.taken += commit;
        self.ingress.try_advance(commit)
    }

    async fn advance(&mut self, commit: usize) {
        self.ingress.advance(commit).await
    }

    fn clear(&mut self) {
        self.ingress.clear()
    }
}
