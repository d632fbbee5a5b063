//! What either side says, in one form, so that the two can be compared.

#[derive(Debug, PartialEq, Eq)]
pub struct Heard {
    pub kind: &'static str,
    pub number: Option<u64>,
    /// The payload's place in the input; 0 for no bytes.
    pub place: usize,
    pub len: usize,
    pub consumed: usize,
}

/// What a slot holds.
#[derive(Debug, PartialEq, Eq)]
pub struct Held {
    pub kind: &'static str,
    pub number: Option<u64>,
    pub payload: Vec<u8>,
}

impl Held {
    /// Of a free slot.
    pub fn nothing() -> Self {
        Self { kind: "nothing", number: None, payload: Vec::new() }
    }
}
