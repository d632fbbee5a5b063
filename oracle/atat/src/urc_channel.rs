//! Stands for the crate's urc_channel, which is embassy-sync's publish-subscribe channel: one publisher, and one subscriber that
//! has read what was taken. A notice that finds `capacity` others waiting is handed back. The capacity is a number given to
//! `holding`, so that one type serves every queue; the two constants are only named.

use std::cell::RefCell;
use std::collections::VecDeque;

pub struct UrcChannel<Urc, const CAPACITY: usize, const SUBSCRIBERS: usize>(pub(crate) Waiting<Urc, CAPACITY, SUBSCRIBERS>);

pub struct Waiting<Urc, const CAPACITY: usize, const SUBSCRIBERS: usize> {
    held: RefCell<VecDeque<Urc>>,
    capacity: usize,
}

pub struct UrcPublisher<'a, Urc, const CAPACITY: usize, const SUBSCRIBERS: usize>(&'a Waiting<Urc, CAPACITY, SUBSCRIBERS>);

impl<Urc: Clone, const CAPACITY: usize, const SUBSCRIBERS: usize> UrcChannel<Urc, CAPACITY, SUBSCRIBERS> {
    pub fn holding(capacity: usize) -> Self {
        Self(Waiting { held: RefCell::new(VecDeque::new()), capacity })
    }

    /// The subscriber's next message.
    pub fn take(&self) -> Option<Urc> {
        self.0.held.borrow_mut().pop_front()
    }

    /// What waits behind the first `n`, oldest first.
    pub fn behind(&self, n: usize) -> Vec<Urc> {
        self.0.held.borrow().iter().skip(n).cloned().collect()
    }
}

impl<Urc, const CAPACITY: usize, const SUBSCRIBERS: usize> Waiting<Urc, CAPACITY, SUBSCRIBERS> {
    pub fn publisher(&self) -> Result<UrcPublisher<'_, Urc, CAPACITY, SUBSCRIBERS>, ()> {
        Ok(UrcPublisher(self))
    }
}

impl<Urc, const CAPACITY: usize, const SUBSCRIBERS: usize> UrcPublisher<'_, Urc, CAPACITY, SUBSCRIBERS> {
    pub fn free_capacity(&self) -> usize {
        self.0.capacity - self.0.held.borrow().len()
    }

    pub fn try_publish(&self, urc: Urc) -> Result<(), Urc> {
        if self.free_capacity() == 0 {
            return Err(urc);
        }
        self.0.held.borrow_mut().push_back(urc);
        Ok(())
    }

    /// Only named by the asynchronous `advance`, which the oracle doesn't run.
    pub async fn publish(&self, _urc: Urc) {
        std::future::pending().await
    }
}
