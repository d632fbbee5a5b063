use crate::ffi::{self, Findings, State, END, QUEUE_LOST, START};
use crate::{Digester, MemoryError, NoticeQueue, Refusal, ResponseSlot, LONGEST_INPUT};

/// Bytes from a modem go in; answers come out at [`res_slot`](Ingress::res_slot), notices at
/// [`notices`](Ingress::notices).
///
/// It is the blocking half of atat's `Ingress`. All memory is lent at [`new`](Ingress::new): a buffer of 1 to 4,096
/// bytes, the slot's memory (the longest answer) and the queue's (1,029 bytes a notice, at least one; at most 16 are used).
///
/// ```
/// use walumbeex::{Digester, Ingress, Response, Table, Urc, NOTICE_RECORD};
///
/// let (mut buf, mut answer, mut waiting) = ([0; 256], [0; 128], [0; 4 * NOTICE_RECORD]);
/// let digester = Digester::new(Table::new(b"UR\x07+UUSORD").unwrap());
/// let mut ingress = Ingress::new(digester, &mut buf, &mut answer, &mut waiting).unwrap();
///
/// assert_eq!(ingress.try_write(b"\r\n+UUSORD: 0,4\r\nAT+CSQ\r\r\n+CSQ: 17"), Ok(33));
/// assert_eq!(ingress.notices.take(), Ok(Some(Urc { record: 0, payload: b"+UUSORD: 0,4" })));
/// assert_eq!(ingress.res_slot.try_get(), Ok(None));
///
/// assert_eq!(ingress.try_write(b",99\r\n\r\nOK\r\n"), Ok(11));
/// assert_eq!(ingress.res_slot.try_get(), Ok(Some(Response::Ok(b"+CSQ: 17,99"))));
/// ingress.res_slot.reset_next().unwrap();
/// ```
///
/// # Text behind CONNECT
///
/// With [`Digester::connect`] a `CONNECT` line with text behind it is an answer too, and frees a client that waits. The text is
/// for callers of [`Digester::digest_with_text`]: it is a part of what is digested, here of the buffer, and gone when what is left
/// moves to the front; the slot doesn't hold it.
///
/// ```
/// use walumbeex::{Digester, Ingress, Response, Table, NOTICE_RECORD};
///
/// let (mut buf, mut answer, mut waiting) = ([0; 256], [0; 128], [0; NOTICE_RECORD]);
/// let digester = Digester::connect(Table::empty());
/// let mut ingress = Ingress::new(digester, &mut buf, &mut answer, &mut waiting).unwrap();
/// ingress.try_write(b"ATD1\r\r\nCONNECT 9600\r\n").unwrap();
/// assert_eq!(ingress.res_slot.try_get(), Ok(Some(Response::Ok(b""))));
/// ```
///
/// # A modem in V0
///
/// With [`Digester::numeric`] the answers are codes. A RING comes at [`notices`](Ingress::notices) with the number
/// [`RING`](crate::RING), though there is no table:
///
/// ```
/// use walumbeex::{Digester, Ingress, Response, Urc, NOTICE_RECORD, RING};
///
/// let (mut buf, mut answer, mut waiting) = ([0; 256], [0; 128], [0; NOTICE_RECORD]);
/// let mut ingress = Ingress::new(Digester::numeric(), &mut buf, &mut answer, &mut waiting).unwrap();
/// ingress.try_write(b"2\rAT+CSQ\r+CSQ: 17,99\r\n0\r").unwrap();
/// assert_eq!(ingress.notices.take(), Ok(Some(Urc { record: RING, payload: b"2" })));
/// assert_eq!(ingress.res_slot.try_get(), Ok(Some(Response::Ok(b"+CSQ: 17,99"))));
/// ```
///
/// A CR at the end of what is there ends a code, and an LF that comes later doesn't change that. So a cut between a CR and its
/// LF changes what is heard, and only in an information line that is exactly one digit of the list:
///
/// ```
/// use walumbeex::{Digester, Ingress, Response, NOTICE_RECORD};
///
/// let (mut buf, mut answer, mut waiting) = ([0; 256], [0; 128], [0; NOTICE_RECORD]);
/// let mut ingress = Ingress::new(Digester::numeric(), &mut buf, &mut answer, &mut waiting).unwrap();
/// ingress.try_write(b"0\r\n0\r").unwrap();
/// assert_eq!(ingress.res_slot.try_get(), Ok(Some(Response::Ok(b"0"))));
/// ingress.res_slot.reset_next().unwrap();
///
/// // The same, cut behind the first CR: the line is heard as an Ok, and the code is lost, since no line starts behind a stray LF.
/// ingress.try_write(b"0\r").unwrap();
/// assert_eq!(ingress.res_slot.try_get(), Ok(Some(Response::Ok(b""))));
/// ingress.res_slot.reset_next().unwrap();
/// ingress.try_write(b"\n0\r").unwrap();
/// assert_eq!(ingress.res_slot.try_get(), Ok(None));
/// assert_eq!(ingress.pending(), b"\n0\r");
/// ```
///
/// So where a read ends in a CR, wait a moment for the line to go quiet, and hand it over with what still came.
///
/// # Where a piece is cut
///
/// A `>` or an `@` that nothing but blanks follows is a prompt, as it is for atat, and so is a custom prompt's text. A modem
/// sends such a byte inside a line too, and a piece that ends there is heard as a prompt:
///
/// ```
/// use walumbeex::{Digester, Ingress, Response, NOTICE_RECORD};
///
/// let answer = b"AT+CGDCONT?\r\r\n+CGDCONT: 1,\"IP\",\"me@apn\"\r\n\r\nOK\r\n";
/// let (mut buf, mut slot, mut waiting) = ([0; 256], [0; 128], [0; NOTICE_RECORD]);
/// let mut ingress = Ingress::new(Digester::default(), &mut buf, &mut slot, &mut waiting).unwrap();
/// ingress.try_write(answer).unwrap();
/// assert_eq!(ingress.res_slot.try_get(), Ok(Some(Response::Ok(b"+CGDCONT: 1,\"IP\",\"me@apn\""))));
/// ingress.res_slot.reset_next().unwrap();
///
/// // The same, cut behind the @: a prompt, and then an Ok that has lost its payload.
/// ingress.try_write(&answer[..35]).unwrap();
/// assert_eq!(ingress.res_slot.try_get(), Ok(Some(Response::Prompt(b'@'))));
/// ingress.res_slot.reset_next().unwrap();
/// ingress.try_write(&answer[35..]).unwrap();
/// assert_eq!(ingress.res_slot.try_get(), Ok(Some(Response::Ok(b""))));
/// ```
///
/// So hand over what a read gave, single bytes only where there is no more; where its last byte that is no blank is `>` or
/// `@`, wait a moment for the line to go quiet and hand it over with what still came (`examples/listen.rs` does). An error,
/// too, hangs on the cut: `ERROR` and an `OK` behind it in one piece are an Ok, and byte by byte each is answered when it
/// comes. Two answers hang on nothing that comes behind them: an Ok by the line OK under a table with no custom success, and
/// a notice with no CRLF before its own (docs/WAITING.md).
///
/// # One byte at a time
///
/// A board may hand over single bytes. [`try_write`](Ingress::try_write) digests all that is in the buffer again at each.
/// [`try_feed`](Ingress::try_feed) answers, consumes and leaves the same, and keeps findings beside the buffer, so that each
/// byte is looked at once for the fixed lines: 4,096 bytes of a listing took 4.7 million instructions, and 448 million by
/// `try_write`. For whole answers in one piece `try_write` is the cheaper one.
///
/// ```
/// use walumbeex::{Digester, Ingress, Response, NOTICE_RECORD};
///
/// let (mut buf, mut answer, mut waiting) = ([0; 256], [0; 128], [0; NOTICE_RECORD]);
/// let mut ingress = Ingress::new(Digester::default(), &mut buf, &mut answer, &mut waiting).unwrap();
/// let mut heard = 0;
/// for byte in b"AT+CSQ\r\r\n+CSQ: 17,99\r\n\r\nOK\r\n" {
///     ingress.try_feed(&[*byte]).unwrap();
///     heard += usize::from(ingress.res_slot.signalled());
/// }
/// assert_eq!(heard, 1);
/// assert_eq!(ingress.res_slot.try_get(), Ok(Some(Response::Ok(b"+CSQ: 17,99"))));
/// ```
///
/// Calls with findings and without may be mixed: after one without, and after [`clear`](Ingress::clear), the next with makes
/// them anew from the bytes in the buffer. Where findings spare nothing (all is digested again, as without them) is in
/// include/walumbeex.h under Work: with [`Digester::numeric`], and under a table that isn't empty once a line has ended.
/// `examples/bytes.rs` is a program that is handed one byte at a time.
///
/// # Going on after refusal 5
///
/// 1. [`Refusal::QueueFull`] says how many bytes of the piece were taken. Never offer those again.
/// 2. Take a notice from the queue: that makes room.
/// 3. `try_advance(0)`: it delivers the waiting notice, once, and goes on with what lies behind it.
/// 4. Then write the rest of the piece; on refusal 5, begin again at 2.
/// 5. A write that takes 0 of a piece that isn't empty has found no room. `try_advance(0)`; if that isn't refused and there
///    is still no room, [`clear`](Ingress::clear): nothing in the buffer can be finished by a further byte.
///
/// With findings these are `try_feed` and `try_feed_advance(0)`.
///
/// ```
/// use walumbeex::{Digester, Ingress, Refusal, Table, Urc, NOTICE_RECORD};
///
/// let (mut buf, mut answer, mut waiting) = ([0; 64], [0; 64], [0; NOTICE_RECORD]);
/// let digester = Digester::new(Table::new(b"UR\x04RING").unwrap());
/// let mut ingress = Ingress::new(digester, &mut buf, &mut answer, &mut waiting).unwrap();
///
/// let piece = b"\r\nRING\r\n\r\nRING\r\n";
/// assert_eq!(ingress.try_write(piece), Err(Refusal::QueueFull { taken: 16 }));
/// assert_eq!(ingress.notices.take(), Ok(Some(Urc { record: 0, payload: b"RING" })));
/// assert_eq!(ingress.try_advance(0), Ok(()));
/// assert_eq!(ingress.notices.take(), Ok(Some(Urc { record: 0, payload: b"RING" })));
/// assert_eq!(ingress.notices.take(), Ok(None));
/// ```
#[derive(Debug)]
pub struct Ingress<'a> {
    digester: Digester<'a>,
    buf: &'a mut [u8],
    end: u64,
    // Those of the bytes in the buffer; none where the last call had none.
    findings: Option<Findings>,
    /// Where answers are delivered; what to know of late ones stands [there](ResponseSlot#late-answers).
    pub res_slot: ResponseSlot<'a>,
    /// Where notices are delivered.
    pub notices: NoticeQueue<'a>,
}

impl<'a> Ingress<'a> {
    /// An ingress with nothing in its buffer, a free slot and an empty queue.
    ///
    /// Memory that can never work is an error: a buffer of no bytes or of over 4,096, a queue below one record.
    pub fn new(
        digester: Digester<'a>,
        buf: &'a mut [u8],
        slot_mem: &'a mut [u8],
        queue_mem: &'a mut [u8],
    ) -> Result<Self, MemoryError> {
        if buf.is_empty() || buf.len() > LONGEST_INPUT {
            return Err(MemoryError::Buffer(buf.len()));
        }
        let (res_slot, notices) = (ResponseSlot::new(slot_mem), NoticeQueue::new(queue_mem)?);
        Ok(Self { digester, buf, end: 0, findings: None, res_slot, notices })
    }

    /// An ingress that goes on from ten numbers that [`state`](Ingress::state) gave, over memory that was kept, such as
    /// over a restart. Any ten numbers may be given: where they don't fit the memory, the calls refuse with 3. Nine that were kept
    /// before version 0.5.0 are ten with 0 behind them. A queue that was kept before version 0.6.0 has another form:
    /// [`convert_queue`](crate::convert_queue) comes first. Memory that can never work is an error, as at [`new`](Ingress::new).
    ///
    /// ```
    /// use walumbeex::{Digester, Ingress, NOTICE_RECORD};
    /// let (mut buf, mut answer, mut waiting) = ([0; 64], [0; 64], [0; NOTICE_RECORD]);
    /// let mut ingress = Ingress::new(Digester::default(), &mut buf, &mut answer, &mut waiting).unwrap();
    /// ingress.try_write(b"\r\nO").unwrap();
    /// let kept = ingress.state();
    ///
    /// let mut ingress = Ingress::with_state(Digester::default(), kept, &mut buf, &mut answer, &mut waiting).unwrap();
    /// ingress.try_write(b"K\r\n").unwrap();
    /// assert!(ingress.res_slot.signalled());
    /// ```
    pub fn with_state(
        digester: Digester<'a>,
        state: [u64; 10],
        buf: &'a mut [u8],
        slot_mem: &'a mut [u8],
        queue_mem: &'a mut [u8],
    ) -> Result<Self, MemoryError> {
        let mut ingress = Self::new(digester, buf, slot_mem, queue_mem)?;
        ingress.put_state(state, None);
        Ok(ingress)
    }

    /// The ten numbers of the state: where the bytes in the buffer end; whether the slot is signalled, what it holds, the
    /// answer's number, the length of its payload or digits, the answers lost; the queue's start, its count, the notices lost;
    /// and the slot's serial number.
    #[must_use]
    pub fn state(&self) -> [u64; 10] {
        let mut state: State = self.res_slot.state;
        state[END] = self.end;
        // The queue's own and no more: the serial number behind them is the slot's.
        state[START..=QUEUE_LOST].copy_from_slice(&self.notices.state[START..=QUEUE_LOST]);
        state
    }

    // The slot and the queue keep ten numbers each, of which they use their own. Findings are about the bytes up to the end: a call
    // without them leaves none.
    fn put_state(&mut self, state: State, findings: Option<Findings>) {
        self.end = state[END];
        self.findings = findings;
        self.res_slot.state = state;
        self.notices.state = state;
    }

    /// The room behind the bytes in the buffer. Bytes written here must be committed by
    /// [`try_advance`](Ingress::try_advance).
    ///
    /// ```
    /// # use walumbeex::{Digester, Ingress, NOTICE_RECORD};
    /// # let (mut buf, mut answer, mut waiting) = ([0; 64], [0; 64], [0; NOTICE_RECORD]);
    /// # let mut ingress = Ingress::new(Digester::default(), &mut buf, &mut answer, &mut waiting).unwrap();
    /// ingress.write_buf()[..6].copy_from_slice(b"\r\nOK\r\n");
    /// ingress.try_advance(6).unwrap();
    /// assert!(ingress.res_slot.signalled());
    /// assert_eq!(ingress.write_buf().len(), 64);
    /// ```
    pub fn write_buf(&mut self) -> &mut [u8] {
        self.buf.get_mut(self.end as usize..).unwrap_or_default()
    }

    /// Commits so many bytes of [`write_buf`](Ingress::write_buf), then digests and delivers all that is finished.
    ///
    /// Refused with 2 where the table isn't good, 3 where the state doesn't fit, 4 where the commit is more than the room, and
    /// 5 where a notice meets a full queue.
    pub fn try_advance(&mut self, commit: usize) -> Result<(), Refusal> {
        let mut state = self.state();
        let done = ffi::ingress_advance(&mut state, commit, self.digester, self.buf, self.res_slot.mem, self.notices.mem);
        self.put_state(state, None);
        done
    }

    /// Copies as much of a piece as fits, advances, and goes on until the piece is used up or there is no room: the bytes
    /// taken.
    ///
    /// Refused with 2, 3 and 5 as [`try_advance`](Ingress::try_advance); refusal 5 carries the bytes taken.
    pub fn try_write(&mut self, piece: &[u8]) -> Result<usize, Refusal> {
        let mut state = self.state();
        let done = ffi::ingress_write(&mut state, piece, self.digester, self.buf, self.res_slot.mem, self.notices.mem);
        self.put_state(state, None);
        done
    }

    /// Does what [`try_advance`](Ingress::try_advance) does, with findings: for who commits
    /// [one byte at a time](Ingress#one-byte-at-a-time), or few. It is refused as that is.
    ///
    /// ```
    /// # use walumbeex::{Digester, Ingress, NOTICE_RECORD};
    /// # let (mut buf, mut answer, mut waiting) = ([0; 64], [0; 64], [0; NOTICE_RECORD]);
    /// # let mut ingress = Ingress::new(Digester::default(), &mut buf, &mut answer, &mut waiting).unwrap();
    /// for byte in b"\r\nOK\r\n" {
    ///     ingress.write_buf()[0] = *byte;
    ///     ingress.try_feed_advance(1).unwrap();
    /// }
    /// assert!(ingress.res_slot.signalled());
    /// ```
    pub fn try_feed_advance(&mut self, commit: usize) -> Result<(), Refusal> {
        let mut state = self.state();
        let mut findings = self.findings(&state);
        let (slot_mem, queue_mem) = (&mut *self.res_slot.mem, &mut *self.notices.mem);
        let done = ffi::feed_advance(&mut state, &mut findings, commit, self.digester, self.buf, slot_mem, queue_mem);
        self.put_state(state, Some(findings));
        done
    }

    /// Does what [`try_write`](Ingress::try_write) does, with findings: for who is handed
    /// [one byte at a time](Ingress#one-byte-at-a-time), or few. It is refused as that is.
    ///
    /// ```
    /// # use walumbeex::{Digester, Ingress, Response, NOTICE_RECORD};
    /// # let (mut buf, mut answer, mut waiting) = ([0; 64], [0; 64], [0; NOTICE_RECORD]);
    /// # let mut ingress = Ingress::new(Digester::default(), &mut buf, &mut answer, &mut waiting).unwrap();
    /// // A cut matters as ever: in one piece these two are an Ok.
    /// for byte in b"\r\nERROR\r\n\r\nOK\r\n" {
    ///     ingress.try_feed(&[*byte]).unwrap();
    /// }
    /// assert_eq!(ingress.res_slot.try_get(), Ok(Some(Response::OtherError)));
    /// assert_eq!(ingress.res_slot.lost(), 1);
    /// ```
    pub fn try_feed(&mut self, piece: &[u8]) -> Result<usize, Refusal> {
        let mut state = self.state();
        let mut findings = self.findings(&state);
        let (slot_mem, queue_mem) = (&mut *self.res_slot.mem, &mut *self.notices.mem);
        let done = ffi::feed_write(&mut state, &mut findings, piece, self.digester, self.buf, slot_mem, queue_mem);
        self.put_state(state, Some(findings));
        done
    }

    // Those that are kept, or made anew: none that are of other bytes are ever handed over.
    fn findings(&self, state: &State) -> Findings {
        self.findings.unwrap_or_else(|| ffi::findings_start(state, self.buf))
    }

    /// Drops the bytes in the buffer, and nothing else.
    pub fn clear(&mut self) {
        let mut state = self.state();
        ffi::ingress_clear(&mut state);
        self.put_state(state, None);
    }

    /// The bytes in the buffer that aren't consumed yet.
    #[must_use]
    pub fn pending(&self) -> &[u8] {
        self.buf.get(..self.end as usize).unwrap_or_default()
    }
}
