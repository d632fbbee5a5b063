//! Stands for heapless as far as atat's sources name it: a vector and a string that hold at most N items.
//! What counts here is the capacity: `from_slice` fails exactly when there are more than N.

use std::fmt;
use std::ops::Deref;

#[derive(Clone, PartialEq, Eq)]
pub struct Vec<T, const N: usize>(std::vec::Vec<T>);

impl<T, const N: usize> Vec<T, N> {
    pub const fn new() -> Self {
        Self(std::vec::Vec::new())
    }
}

impl<T: Clone, const N: usize> Vec<T, N> {
    pub fn from_slice(other: &[T]) -> Result<Self, ()> {
        if other.len() > N {
            return Err(());
        }
        Ok(Self(other.to_vec()))
    }
}

impl<T, const N: usize> Default for Vec<T, N> {
    fn default() -> Self {
        Self::new()
    }
}

impl<T, const N: usize> Deref for Vec<T, N> {
    type Target = [T];

    fn deref(&self) -> &[T] {
        &self.0
    }
}

impl<T: fmt::Debug, const N: usize> fmt::Debug for Vec<T, N> {
    fn fmt(&self, f: &mut fmt::Formatter<'_>) -> fmt::Result {
        self.0.fmt(f)
    }
}

/// Only named by traits.rs, for commands, which the oracle doesn't run.
pub struct String<const N: usize>(std::string::String);

impl<const N: usize> String<N> {
    pub fn as_bytes(&self) -> &[u8] {
        self.0.as_bytes()
    }
}

impl<const N: usize> TryFrom<&str> for String<N> {
    type Error = ();

    fn try_from(s: &str) -> Result<Self, ()> {
        if s.len() > N {
            return Err(());
        }
        Ok(Self(s.to_owned()))
    }
}
