//! Stands for embassy-sync as far as atat's response_slot.rs names it: a mutex that is tried and never waited for,
//! and a signal that is a flag. One thread uses them, so cells do.

pub mod blocking_mutex {
    pub mod raw {
        pub struct CriticalSectionRawMutex;
    }
}

pub mod mutex {
    use std::cell::{RefCell, RefMut};
    use std::marker::PhantomData;
    use std::ops::{Deref, DerefMut};

    pub struct Mutex<M, T>(RefCell<T>, PhantomData<M>);

    #[derive(Debug)]
    pub struct TryLockError;

    pub struct MutexGuard<'a, M, T>(RefMut<'a, T>, PhantomData<M>);

    impl<M, T> Mutex<M, T> {
        pub const fn new(value: T) -> Self {
            Self(RefCell::new(value), PhantomData)
        }

        pub fn try_lock(&self) -> Result<MutexGuard<'_, M, T>, TryLockError> {
            match self.0.try_borrow_mut() {
                Ok(held) => Ok(MutexGuard(held, PhantomData)),
                Err(_) => Err(TryLockError),
            }
        }
    }

    impl<M, T> Deref for MutexGuard<'_, M, T> {
        type Target = T;

        fn deref(&self) -> &T {
            &self.0
        }
    }

    impl<M, T> DerefMut for MutexGuard<'_, M, T> {
        fn deref_mut(&mut self) -> &mut T {
            &mut self.0
        }
    }
}

pub mod signal {
    use std::cell::RefCell;
    use std::marker::PhantomData;

    pub struct Signal<M, T>(RefCell<Option<T>>, PhantomData<M>);

    impl<M, T> Signal<M, T> {
        pub const fn new() -> Self {
            Self(RefCell::new(None), PhantomData)
        }

        pub fn signal(&self, value: T) {
            *self.0.borrow_mut() = Some(value);
        }

        pub fn reset(&self) {
            *self.0.borrow_mut() = None;
        }

        pub fn signaled(&self) -> bool {
            self.0.borrow().is_some()
        }

        /// Only named by the asynchronous `get`, which the oracle doesn't run.
        pub async fn wait(&self) -> T {
            std::future::pending().await
        }
    }
}
