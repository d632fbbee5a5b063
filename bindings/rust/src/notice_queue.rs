use crate::digest::part;
use crate::ffi::{self, State, COUNT, NUMBERS, QUEUE_LOST};
use crate::{ConvertRefusal, MemoryError, Refusal, Urc};

/// How many bytes of memory one notice takes in a queue.
pub const NOTICE_RECORD: usize = 1029;
/// How many it took before version 0.6.0: what [`convert_queue`] reads.
pub const OLD_NOTICE_RECORD: usize = 132;
/// The longest notice that a queue holds; a longer one is lost, and counted.
pub const LONGEST_NOTICE: usize = 1024;
/// The most notices that a queue holds, however much memory it has.
pub const MOST_NOTICES: usize = 16;

/// Notices in the order in which they came, in memory that the caller lends: the place of atat's `UrcChannel`.
///
/// ```
/// use walumbeex::{NoticeQueue, Refusal, Urc, NOTICE_RECORD};
/// let mut memory = [0; 2 * NOTICE_RECORD];
/// let mut queue = NoticeQueue::new(&mut memory).unwrap();
/// assert_eq!(queue.capacity(), 2);
/// queue.put(0, b"+UUSORD: 0,4").unwrap();
/// queue.put(1, b"RING").unwrap();
/// assert_eq!(queue.put(1, b"RING"), Err(Refusal::QueueFull { taken: 0 }));
/// assert_eq!(queue.take(), Ok(Some(Urc { record: 0, payload: b"+UUSORD: 0,4" })));
/// assert_eq!(queue.take(), Ok(Some(Urc { record: 1, payload: b"RING" })));
/// assert_eq!(queue.take(), Ok(None));
/// ```
#[derive(Debug)]
pub struct NoticeQueue<'m> {
    pub(crate) state: State,
    pub(crate) mem: &'m mut [u8],
}

impl<'m> NoticeQueue<'m> {
    /// An empty queue, over memory of [`NOTICE_RECORD`] bytes a notice.
    ///
    /// Memory below one record is an error: no notice could ever go in, and who takes one to make room after refusal 5 would
    /// go round for ever.
    pub fn new(mem: &'m mut [u8]) -> Result<Self, MemoryError> {
        if mem.len() < NOTICE_RECORD {
            return Err(MemoryError::Queue(mem.len()));
        }
        let mut state = [0; NUMBERS];
        ffi::queue_new(&mut state);
        Ok(Self { state, mem })
    }

    /// Takes the oldest notice; `None` from an empty queue. Refused with 3 where the numbers don't fit the memory or the
    /// record is damaged.
    pub fn take(&mut self) -> Result<Option<Urc<'_>>, Refusal> {
        let [taken, record, place, len, ..] = ffi::queue_take(&mut self.state, self.mem)?;
        if taken == 0 {
            return Ok(None);
        }
        Ok(Some(Urc { record: record as u8, payload: part(self.mem, place, len) }))
    }

    /// Puts a notice in. One of 0 or over 1,024 bytes is lost, and counted. Refused with 5 where the queue is full, and with
    /// 3 where the numbers don't fit the memory.
    pub fn put(&mut self, record: u8, payload: &[u8]) -> Result<(), Refusal> {
        ffi::queue_put(&mut self.state, self.mem, record, payload)
    }

    /// How many notices the memory holds.
    #[must_use]
    pub fn capacity(&self) -> usize {
        ffi::queue_capacity(self.mem.len())
    }

    /// How many notices are waiting: never more than [`capacity`](NoticeQueue::capacity), whatever numbers
    /// [`Ingress::with_state`](crate::Ingress::with_state) was given.
    #[must_use]
    pub fn len(&self) -> usize {
        usize::min(self.state[COUNT] as usize, self.capacity())
    }

    /// Is no notice waiting?
    #[must_use]
    pub fn is_empty(&self) -> bool {
        self.len() == 0
    }

    /// How many notices were lost; the count stays at 4,294,967,295 once there.
    #[must_use]
    pub const fn lost(&self) -> u64 {
        self.state[QUEUE_LOST]
    }
}

/// Makes a queue of this version of one that was kept before version 0.6.0, for a program that restarts: it writes the same
/// notices, in the same order, into other memory.
///
/// `old` are the ten numbers that [`Ingress::state`](crate::Ingress::state) gave (nine of before version 0.5.0 are ten with 0
/// behind them), and `old_mem` is the queue's memory, of the length that it had: [`OLD_NOTICE_RECORD`] bytes a notice. The answer
/// is the same numbers with the queue's start made 0, for [`Ingress::with_state`](crate::Ingress::with_state). The notices stand
/// at the front of `mem`, oldest first; no other byte of it is touched, those behind a notice in its record included.
///
/// ```
/// use walumbeex::{convert_queue, Digester, Ingress, Table, Urc, NOTICE_RECORD, OLD_NOTICE_RECORD};
///
/// // What the program before kept: half a line in the buffer, and two notices in a ring of two, the older in its second place.
/// let (mut buf, mut answer, mut old_waiting) = ([0; 64], [0; 64], [0; 2 * OLD_NOTICE_RECORD]);
/// buf[..5].copy_from_slice(b"\r\n+UU");
/// old_waiting[OLD_NOTICE_RECORD..][..14].copy_from_slice(b"UR\x00\x0A+UUSORD: 1");
/// old_waiting[..14].copy_from_slice(b"UR\x00\x0A+UUSORD: 2");
/// let kept = [5, 0, 1, 0, 0, 0, 1, 2, 0, 7];
///
/// let mut waiting = [0; 3 * NOTICE_RECORD];
/// let state = convert_queue(&kept, &old_waiting, &mut waiting).unwrap();
/// assert_eq!(state, [5, 0, 1, 0, 0, 0, 0, 2, 0, 7]);
///
/// // The program goes on: what waited comes first.
/// let digester = Digester::new(Table::new(b"UR\x07+UUSORD").unwrap());
/// let mut ingress = Ingress::with_state(digester, state, &mut buf, &mut answer, &mut waiting).unwrap();
/// assert_eq!(ingress.notices.take(), Ok(Some(Urc { record: 0, payload: b"+UUSORD: 1" })));
/// ingress.try_write(b"SORD: 3\r\n").unwrap();
/// assert_eq!(ingress.notices.take(), Ok(Some(Urc { record: 0, payload: b"+UUSORD: 2" })));
/// assert_eq!(ingress.notices.take(), Ok(Some(Urc { record: 0, payload: b"+UUSORD: 3" })));
/// assert_eq!(ingress.notices.take(), Ok(None));
/// ```
///
/// Refused with 3 where `old` and `old_mem` are no queue of the old form, for which every notice that is held is looked at; then
/// with 13 where `mem` is too short for them. What to do at each stands at [`ConvertRefusal`]. Where no notice is held, any `mem`
/// is good, also one below the record that an [`Ingress`](crate::Ingress) needs.
///
/// Convert before anything is put into the queue, and once: keep beside the numbers which form the queue is of. The bytes alone
/// don't tell: where the start isn't 0, a call that is given the other form looks for a notice in the midst of one.
pub fn convert_queue(old: &[u64; 10], old_mem: &[u8], mem: &mut [u8]) -> Result<[u64; 10], ConvertRefusal> {
    let mut state: State = *old;
    ffi::queue_convert(old, old_mem, &mut state, mem)?;
    Ok(state)
}
