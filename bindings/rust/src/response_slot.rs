use crate::digest::{answer, kind, part, parts};
use crate::ffi::{self, State, NUMBERS, SERIAL, SIGNALLED, SLOT_LOST};
use crate::{ConnectionError, DigestResult, InternalError, Refusal, ResetRefusal};

/// What a response slot holds; the cases are atat's, and a payload or an error's digits are a part of the slot's memory.
///
/// Digits that were longer than the slot's memory are left out: they are empty, and the error and its code are there.
#[derive(Debug, Clone, Copy, PartialEq, Eq)]
pub enum Response<'a> {
    /// A success and the bytes before it.
    Ok(&'a [u8]),
    /// A prompt for data.
    Prompt(u8),
    /// The payload was longer than the slot's memory, and isn't there.
    CapacityError,
    /// `ERROR` or `COMMAND NOT SUPPORT`.
    OtherError,
    /// `+CME ERROR: n`.
    CmeError {
        /// The number that was read.
        code: u16,
        /// Its digits as they came, leading zeros included; empty where they were left out.
        digits: &'a [u8],
    },
    /// `+CMS ERROR: n`.
    CmsError {
        /// The number that was read.
        code: u16,
        /// Its digits as they came, leading zeros included; empty where they were left out.
        digits: &'a [u8],
    },
    /// `MODEM ERROR: n`.
    UnknownError {
        /// The digits of `n` as they came, leading zeros included; empty where they were left out.
        digits: &'a [u8],
    },
    /// `NA`.
    NotAllowedError,
    /// A connection failed.
    ConnectionError(ConnectionError),
    /// A custom error of the token table.
    CustomError {
        /// The record's number in the table, from 0.
        record: u8,
        /// The record's text.
        text: &'a [u8],
    },
}

/// One answer, held until it is reset, in memory that the caller lends.
///
/// A signal on a free slot stores the answer. A signal on a signalled slot is lost, and counted. Reading doesn't free the
/// slot; [`reset`](ResponseSlot::reset) and [`reset_next`](ResponseSlot::reset_next) do.
///
/// ```
/// use walumbeex::{DigestResult, Response, ResponseSlot};
/// let mut memory = [0; 16];
/// let mut slot = ResponseSlot::new(&mut memory);
/// assert_eq!(slot.try_get(), Ok(None));
/// slot.signal(&DigestResult::Response(Ok(b"17,99"))).unwrap();
/// slot.signal(&DigestResult::Prompt(b'>')).unwrap();
/// assert_eq!(slot.try_get(), Ok(Some(Response::Ok(b"17,99"))));
/// assert_eq!(slot.lost(), 1);
/// slot.reset_next().unwrap();
/// assert_eq!(slot.try_get(), Ok(None));
/// ```
///
/// # Late answers
///
/// A client gives up, sends the next command, and the late answer fills its slot. So the slot has the serial number of its
/// command: 0 in a new slot, then that of the last [`reset`](ResponseSlot::reset) that wasn't refused. A stored answer bears the
/// number that was in force when it was stored; [`try_get_with_serial`](ResponseSlot::try_get_with_serial) tells it.
///
/// What the number does: it tells apart what was stored before a reset and what was stored after it; and it catches a client
/// that repeats a reset. A second reset with the same command's number is refused, so that it can't free an answer that has
/// arrived since.
///
/// What it can't do: tell which command an answer belongs to, since AT answers carry no serial number. The late answer of command
/// 1 that arrives behind the reset for command 2 is stored, and bears 2:
///
/// ```
/// use walumbeex::{Digester, Ingress, ResetRefusal, Response, NOTICE_RECORD};
///
/// let (mut buf, mut answer, mut waiting) = ([0; 64], [0; 64], [0; NOTICE_RECORD]);
/// let mut ingress = Ingress::new(Digester::default(), &mut buf, &mut answer, &mut waiting).unwrap();
/// ingress.res_slot.reset(1).unwrap();
/// // Command 1 is sent, and no answer comes; then command 2.
/// ingress.res_slot.reset(2).unwrap();
/// ingress.try_write(b"AT+CSQ\r\r\n+CSQ: 17,99\r\n\r\nOK\r\n").unwrap();
/// assert_eq!(ingress.res_slot.try_get_with_serial(), Ok(Some((Response::Ok(b"+CSQ: 17,99"), 2))));
/// // The answer of command 2 meets a signalled slot.
/// ingress.try_write(b"AT\r\r\nOK\r\n").unwrap();
/// assert_eq!(ingress.res_slot.lost(), 1);
/// // A second reset for command 2 frees nothing.
/// assert_eq!(ingress.res_slot.reset(2), Err(ResetRefusal::Repeated { serial: 2 }));
/// assert!(ingress.res_slot.signalled());
/// ```
///
/// What a client can do: wait for the line to be quiet, and hand over all that came, before it resets for the next command. A
/// late answer that arrives by then is freed with that reset. One that arrives later, or of which a part lies unfinished in the
/// buffer, bears the next number.
#[derive(Debug)]
pub struct ResponseSlot<'m> {
    pub(crate) state: State,
    pub(crate) mem: &'m mut [u8],
}

impl<'m> ResponseSlot<'m> {
    /// A free slot, over memory for the payload or the digits. Its serial number is 0.
    #[must_use]
    pub fn new(mem: &'m mut [u8]) -> Self {
        let mut state = [0; NUMBERS];
        ffi::slot_new(&mut state);
        Self { state, mem }
    }

    /// The answer of a signalled slot; `None` of a free one. Refused with 3 where the numbers don't fit the memory.
    pub fn try_get(&self) -> Result<Option<Response<'_>>, Refusal> {
        Ok(self.try_get_with_serial()?.map(|(response, _)| response))
    }

    /// As [`try_get`](ResponseSlot::try_get), and the serial number that the answer bears: the one that was in force when it was
    /// stored.
    ///
    /// ```
    /// use walumbeex::{DigestResult, Response, ResponseSlot};
    /// let mut memory = [0; 16];
    /// let mut slot = ResponseSlot::new(&mut memory);
    /// slot.reset(7).unwrap();
    /// assert_eq!(slot.try_get_with_serial(), Ok(None));
    /// slot.signal(&DigestResult::Response(Ok(b"17,99"))).unwrap();
    /// assert_eq!(slot.try_get_with_serial(), Ok(Some((Response::Ok(b"17,99"), 7))));
    /// ```
    pub fn try_get_with_serial(&self) -> Result<Option<(Response<'_>, u32)>, Refusal> {
        let [signalled, held, number, len, serial, ..] = ffi::slot_lookup(&self.state, self.mem)?;
        // The promise of a look has it at 32 bits.
        let serial = serial as u32;
        if signalled == 0 {
            return Ok(None);
        }
        if held == kind::CAPACITY {
            return Ok(Some((Response::CapacityError, serial)));
        }
        // A slot holds the one or the other, at its memory's front.
        let bytes = part(self.mem, 0, len);
        let response = match answer(held, number, bytes, bytes) {
            DigestResult::Response(Ok(payload)) => Response::Ok(payload),
            DigestResult::Prompt(byte) => Response::Prompt(byte),
            DigestResult::Response(Err(error)) => match error {
                InternalError::Error => Response::OtherError,
                InternalError::CmeError { code, digits } => Response::CmeError { code, digits },
                InternalError::CmsError { code, digits } => Response::CmsError { code, digits },
                InternalError::Unknown { digits } => Response::UnknownError { digits },
                InternalError::NotAllowed => Response::NotAllowedError,
                InternalError::ConnectionError(e) => Response::ConnectionError(e),
                InternalError::Custom { record, text } => Response::CustomError { record, text },
            },
            // No call stores these; only numbers that were put together by hand can say them.
            DigestResult::None | DigestResult::Urc(_) => return Ok(None),
        };
        Ok(Some((response, serial)))
    }

    /// Frees the slot for the command of this serial number, which is in force from then on, and changes nothing else.
    ///
    /// Any number but the one in force is good, a lower one and 0 too. That one is refused with 15, on a free slot as on a
    /// signalled one; before that, 3 where the numbers don't fit the memory. What the number can do against a late answer, and
    /// what it can't, stands [above](ResponseSlot#late-answers).
    ///
    /// ```
    /// use walumbeex::{ResetRefusal, ResponseSlot};
    /// let mut slot = ResponseSlot::new(&mut []);
    /// assert_eq!(slot.reset(0), Err(ResetRefusal::Repeated { serial: 0 }));
    /// assert_eq!(slot.reset(7), Ok(()));
    /// assert_eq!(slot.reset(7), Err(ResetRefusal::Repeated { serial: 7 }));
    /// assert_eq!(slot.reset(0), Ok(()));
    /// ```
    pub fn reset(&mut self, serial: u32) -> Result<(), ResetRefusal> {
        ffi::slot_reset(&mut self.state, serial, self.mem)
    }

    /// [Resets](ResponseSlot::reset) with the serial number after the one in force, and gives it: the counterpart of atat's
    /// `reset`. 4,294,967,295 is followed by 0. Refused with 3 where the numbers don't fit the memory.
    ///
    /// It takes another number each time, so that it can't be seen to be called twice for one command: a client that wants that
    /// caught counts its commands, and calls [`reset`](ResponseSlot::reset).
    ///
    /// ```
    /// use walumbeex::ResponseSlot;
    /// let mut slot = ResponseSlot::new(&mut []);
    /// assert_eq!(slot.reset_next(), Ok(1));
    /// slot.reset(u32::MAX).unwrap();
    /// assert_eq!(slot.reset_next(), Ok(0));
    /// ```
    pub fn reset_next(&mut self) -> Result<u32, Refusal> {
        let serial = self.serial().wrapping_add(1);
        // It isn't the one in force, so that no refusal but 3 can be.
        self.reset(serial).map_err(|_| Refusal::BadState)?;
        Ok(serial)
    }

    /// The serial number in force: 0 in a new slot, then that of the last reset that wasn't refused.
    ///
    /// A number over 4,294,967,295, which only numbers that were put together by hand can have, reads as that.
    #[must_use]
    pub const fn serial(&self) -> u32 {
        let serial = self.state[SERIAL];
        if serial > u32::MAX as u64 {
            return u32::MAX;
        }
        serial as u32
    }

    /// Signals an answer. [`DigestResult::None`] and notices change nothing; on a signalled slot an answer is lost, and
    /// counted. Refused with 3 where the numbers don't fit the memory.
    ///
    /// A payload longer than the memory makes it a [`CapacityError`](Response::CapacityError); digits that are longer are left out.
    ///
    /// ```
    /// use walumbeex::{DigestResult, InternalError, Response, ResponseSlot};
    /// let error = DigestResult::Response(Err(InternalError::CmeError { code: 10, digits: b"0010" }));
    /// let mut memory = [0; 4];
    /// let mut slot = ResponseSlot::new(&mut memory);
    /// slot.signal(&error).unwrap();
    /// assert_eq!(slot.try_get(), Ok(Some(Response::CmeError { code: 10, digits: b"0010" })));
    ///
    /// let mut slot = ResponseSlot::new(&mut memory[..3]);
    /// slot.signal(&error).unwrap();
    /// assert_eq!(slot.try_get(), Ok(Some(Response::CmeError { code: 10, digits: b"" })));
    /// ```
    pub fn signal(&mut self, result: &DigestResult<'_>) -> Result<(), Refusal> {
        let (kind, number, bytes) = parts(result);
        // A signal uses no other number of an answer: the bytes come along.
        ffi::slot_signal(&mut self.state, &[kind, number, 0, 0, 0, 0, 0, 0, 0], bytes, self.mem)
    }

    /// Is an answer held?
    #[must_use]
    pub const fn signalled(&self) -> bool {
        self.state[SIGNALLED] != 0
    }

    /// How many answers were lost; the count stays at 4,294,967,295 once there.
    #[must_use]
    pub const fn lost(&self) -> u64 {
        self.state[SLOT_LOST]
    }
}
