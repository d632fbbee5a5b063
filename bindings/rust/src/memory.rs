use core::fmt;

/// Memory that can never work, refused where it is lent.
///
/// ```
/// use walumbeex::{Digester, Ingress, MemoryError, NOTICE_RECORD};
///
/// let (mut buf, mut answer, mut waiting) = ([0; 4097], [0; 64], [0; NOTICE_RECORD]);
/// let refused = Ingress::new(Digester::default(), &mut buf, &mut answer, &mut waiting).unwrap_err();
/// assert_eq!(refused, MemoryError::Buffer(4097));
///
/// let refused = Ingress::new(Digester::default(), &mut buf[..64], &mut answer, &mut waiting[1..]).unwrap_err();
/// assert_eq!(refused.to_string(), "a notice queue needs 1,029 bytes or more, and this has 1028");
/// ```
#[derive(Debug, Clone, Copy, PartialEq, Eq)]
pub enum MemoryError {
    /// An ingress' buffer has 1 to 4,096 bytes; this has so many. A longer one is refused by every call, and into none no byte
    /// fits.
    Buffer(usize),
    /// A notice queue's memory has at least one record of 1,029 bytes; this has so many.
    Queue(usize),
}

impl fmt::Display for MemoryError {
    fn fmt(&self, f: &mut fmt::Formatter<'_>) -> fmt::Result {
        match self {
            Self::Buffer(n) => write!(f, "a buffer has 1 to 4,096 bytes, and this has {n}"),
            Self::Queue(n) => write!(f, "a notice queue needs 1,029 bytes or more, and this has {n}"),
        }
    }
}

impl core::error::Error for MemoryError {}
