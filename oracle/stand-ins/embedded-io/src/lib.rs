//! Stands for embedded-io as far as atat's error/mod.rs and ingress.rs name it. Nothing of it decides an answer.

#[derive(Debug, Clone, Copy, PartialEq, Eq)]
pub enum ErrorKind {
    Other,
    NotConnected,
    ConnectionReset,
    ConnectionAborted,
    InvalidData,
    TimedOut,
}

pub trait Error: core::error::Error {
    fn kind(&self) -> ErrorKind;
}
