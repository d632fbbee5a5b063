use crate::{MOST_BRACKETS, MOST_ELEMENTS, NOTICE_RECORD};
use core::fmt;

/// Why a call was refused. Each refusal has a number, and is given exactly when its condition holds; where several hold,
/// the lowest is given.
///
/// All but [`QueueFull`](Refusal::QueueFull) leave every byte and every number as it stood. A reset of the slot has refusals of its
/// own, [`ResetRefusal`], and so have the conversion of a queue, [`ConvertRefusal`], the reading of a list, [`ListRefusal`], and the
/// writing of an answer, [`SayRefusal`].
///
/// ```
/// use walumbeex::Refusal;
/// let r = Refusal::BadTable { record: 3 };
/// assert_eq!(r.number(), 2);
/// assert_eq!(r.to_string(), "refused 2: record 3 of the token table breaks a rule");
/// ```
#[derive(Debug, Clone, Copy, PartialEq, Eq)]
pub enum Refusal {
    /// 1: the input to digest is over 4,096 bytes. (A piece given to `try_write` may be longer; a longer buffer is a
    /// [`MemoryError`](crate::MemoryError).)
    TooLong,
    /// 2: the token table breaks a rule.
    BadTable {
        /// The number of the first faulty record, from 0; 64 for a 65th record.
        record: u8,
    },
    /// 3: numbers that don't fit their memory: the end is past the buffer, the stored length past the slot's memory, the
    /// queue's start or count outside its bounds, or the record to be taken is damaged. Seen only with a state that was
    /// put together by hand ([`Ingress::with_state`](crate::Ingress::with_state)), or with a queue that was kept before version
    /// 0.6.0 and wasn't [converted](crate::convert_queue).
    BadState,
    /// 4: the commit is more than the room in the buffer.
    NoRoom,
    /// 5: a notice of 1 to 1,024 bytes meets a full queue. What came before it is delivered; the notice and what lay with it are
    /// still in the buffer. Take a notice, then `try_advance(0)` or `try_feed_advance(0)`.
    QueueFull {
        /// How many of the bytes offered were taken: never offer them again. For `try_write` and `try_feed` the bytes of the
        /// piece that are consumed or in the buffer, for `try_advance` and `try_feed_advance` the commit, for
        /// `NoticeQueue::put` 0.
        taken: usize,
    },
}

impl Refusal {
    /// The refusal's number, 1 to 5.
    #[must_use]
    pub const fn number(&self) -> u8 {
        match self {
            Self::TooLong => 1,
            Self::BadTable { .. } => 2,
            Self::BadState => 3,
            Self::NoRoom => 4,
            Self::QueueFull { .. } => 5,
        }
    }
}

impl fmt::Display for Refusal {
    fn fmt(&self, f: &mut fmt::Formatter<'_>) -> fmt::Result {
        write!(f, "refused {}: ", self.number())?;
        match self {
            Self::TooLong => f.write_str("the input is over 4,096 bytes"),
            Self::BadTable { record: 64 } => f.write_str("the token table has over 64 records"),
            Self::BadTable { record } => write!(f, "record {record} of the token table breaks a rule"),
            Self::BadState => f.write_str("the numbers of the state don't fit the memory lent"),
            Self::NoRoom => f.write_str("the commit is more than the room in the buffer"),
            Self::QueueFull { taken } => write!(
                f,
                "the notice queue is full ({taken} bytes were taken and must not be offered again; take a notice, then advance by 0)"
            ),
        }
    }
}

impl core::error::Error for Refusal {}

/// Why a [reset](crate::ResponseSlot::reset) was refused. Either leaves every byte and every number as it stood; where both hold,
/// [`BadState`](ResetRefusal::BadState) is given.
///
/// ```
/// use walumbeex::{ResetRefusal, ResponseSlot};
/// let mut slot = ResponseSlot::new(&mut []);
/// slot.reset(7).unwrap();
/// let refusal = slot.reset(7).unwrap_err();
/// assert_eq!(refusal, ResetRefusal::Repeated { serial: 7 });
/// assert_eq!(refusal.number(), 15);
/// assert_eq!(refusal.to_string(), "refused 15: serial number 7 is already in force");
/// ```
#[derive(Debug, Clone, Copy, PartialEq, Eq)]
pub enum ResetRefusal {
    /// 3: the stored length is past the slot's memory, as at [`Refusal::BadState`].
    BadState,
    /// 15: the serial number is the one already in force.
    Repeated {
        /// That number.
        serial: u32,
    },
}

impl ResetRefusal {
    /// The refusal's number, 3 or 15.
    #[must_use]
    pub const fn number(&self) -> u8 {
        match self {
            Self::BadState => Refusal::BadState.number(),
            Self::Repeated { .. } => 15,
        }
    }
}

impl fmt::Display for ResetRefusal {
    fn fmt(&self, f: &mut fmt::Formatter<'_>) -> fmt::Result {
        match self {
            Self::BadState => Refusal::BadState.fmt(f),
            Self::Repeated { serial } => write!(f, "refused {}: serial number {serial} is already in force", self.number()),
        }
    }
}

impl core::error::Error for ResetRefusal {}

/// Why a [conversion](crate::convert_queue) was refused. Either leaves both memories as they stood; where both hold,
/// [`BadState`](ConvertRefusal::BadState) is given.
///
/// ```
/// use walumbeex::{convert_queue, ConvertRefusal, NOTICE_RECORD, OLD_NOTICE_RECORD};
/// let mut old_mem = [0; OLD_NOTICE_RECORD];
/// old_mem[..8].copy_from_slice(b"UR\x00\x04RING");
/// let kept = [0, 0, 1, 0, 0, 0, 0, 1, 0, 0];
/// let refusal = convert_queue(&kept, &old_mem, &mut [0; NOTICE_RECORD - 1]).unwrap_err();
/// assert_eq!(refusal, ConvertRefusal::TooFew { held: 1 });
/// assert_eq!(refusal.number(), 13);
/// assert_eq!(refusal.to_string(), "refused 13: the new memory is too short: the notices held (1) take 1029 bytes");
/// ```
#[derive(Debug, Clone, Copy, PartialEq, Eq)]
pub enum ConvertRefusal {
    /// 3: what was kept is no queue of the old form: its start or count is outside the bounds of its memory, or a notice that it
    /// holds has a wrong mark or length. See whether it was read back as it was kept, and whether it is converted already. Where
    /// its notices can't be had, go on without them: with 0 for its start and count, the state's numbers 6 and 7, it is empty.
    BadState,
    /// 13: the new memory holds fewer notices than the old queue holds. Nothing is lost: lend more, and convert then.
    TooFew {
        /// How many the old queue holds: it takes [`NOTICE_RECORD`](crate::NOTICE_RECORD) bytes for each.
        held: usize,
    },
}

impl ConvertRefusal {
    /// The refusal's number, 3 or 13.
    #[must_use]
    pub const fn number(&self) -> u8 {
        match self {
            Self::BadState => Refusal::BadState.number(),
            Self::TooFew { .. } => 13,
        }
    }
}

impl fmt::Display for ConvertRefusal {
    fn fmt(&self, f: &mut fmt::Formatter<'_>) -> fmt::Result {
        write!(f, "refused {}: ", self.number())?;
        match self {
            Self::BadState => f.write_str("the numbers and the memory that were kept are no queue of the old form"),
            Self::TooFew { held } => {
                write!(f, "the new memory is too short: the notices held ({held}) take {} bytes", held * NOTICE_RECORD)
            }
        }
    }
}

impl core::error::Error for ConvertRefusal {}

/// Why the reading of a [parameter list](crate::List::read) was refused: its leftmost fault, and of two at one place the one with
/// the lowest number. Each has its place in the payload, and leaves the memory as it stood.
///
/// ```
/// use walumbeex::{List, ListRefusal, LIST_MEMORY};
/// let refusal = List::read(b" (0-31,99", &mut [0; LIST_MEMORY]).unwrap_err();
/// assert_eq!(refusal, ListRefusal::Malformed { place: 9 });
/// assert_eq!((refusal.number(), refusal.place()), (6, 9));
/// assert_eq!(refusal.to_string(), "refused 6: no parameter list goes on so at place 9");
/// ```
#[derive(Debug, Clone, Copy, PartialEq, Eq)]
pub enum ListRefusal {
    /// 6: it is no list by the grammar.
    Malformed {
        /// The first byte, or the end, at which the grammar can't go on.
        place: usize,
    },
    /// 7: a bracket stands within [`MOST_BRACKETS`](crate::MOST_BRACKETS) brackets.
    TooDeep {
        /// That bracket's.
        place: usize,
    },
    /// 8: a number is over 4,294,967,295, zeros in front aside.
    TooLarge {
        /// Its first digit's.
        place: usize,
    },
    /// 9: there are over [`MOST_ELEMENTS`](crate::MOST_ELEMENTS) elements.
    TooMany {
        /// That of the first one over.
        place: usize,
    },
}

impl ListRefusal {
    /// The refusal's number, 6 to 9.
    #[must_use]
    pub const fn number(&self) -> u8 {
        match self {
            Self::Malformed { .. } => 6,
            Self::TooDeep { .. } => 7,
            Self::TooLarge { .. } => 8,
            Self::TooMany { .. } => 9,
        }
    }

    /// Its place in the payload.
    #[must_use]
    pub const fn place(&self) -> usize {
        match *self {
            Self::Malformed { place } | Self::TooDeep { place } | Self::TooLarge { place } | Self::TooMany { place } => place,
        }
    }
}

impl fmt::Display for ListRefusal {
    fn fmt(&self, f: &mut fmt::Formatter<'_>) -> fmt::Result {
        write!(f, "refused {}: ", self.number())?;
        match self {
            Self::Malformed { place } => write!(f, "no parameter list goes on so at place {place}"),
            Self::TooDeep { place } => write!(f, "the bracket at place {place} stands within {MOST_BRACKETS} brackets"),
            Self::TooLarge { place } => write!(f, "the number at place {place} is over 4,294,967,295"),
            Self::TooMany { place } => write!(f, "there are over {MOST_ELEMENTS} elements, the first one over at place {place}"),
        }
    }
}

impl core::error::Error for ListRefusal {}

/// Why the [writing of an answer](crate::Saying::write) was refused. Either leaves the output as it stood; where both hold,
/// [`NotReadBack`](SayRefusal::NotReadBack) is given.
///
/// ```
/// use walumbeex::{SayRefusal, Saying, Table};
/// let refusal = Saying::Ok(b"OK").write(Table::empty(), &mut [0; 64]).unwrap_err();
/// assert_eq!(refusal, SayRefusal::NotReadBack);
/// assert_eq!(refusal.number(), 16);
/// assert_eq!(refusal.to_string(), "refused 16: a digest of the bytes would not hear this answer");
/// ```
#[derive(Debug, Clone, Copy, PartialEq, Eq)]
pub enum SayRefusal {
    /// 16: written out, the answer wouldn't be read back so under the table.
    NotReadBack,
    /// 17: the output is shorter than the answer.
    TooShort,
}

impl SayRefusal {
    /// The refusal's number, 16 or 17.
    #[must_use]
    pub const fn number(&self) -> u8 {
        match self {
            Self::NotReadBack => 16,
            Self::TooShort => 17,
        }
    }
}

impl fmt::Display for SayRefusal {
    fn fmt(&self, f: &mut fmt::Formatter<'_>) -> fmt::Result {
        write!(f, "refused {}: ", self.number())?;
        f.write_str(match self {
            Self::NotReadBack => "a digest of the bytes would not hear this answer",
            Self::TooShort => "the output is shorter than the answer",
        })
    }
}

impl core::error::Error for SayRefusal {}
