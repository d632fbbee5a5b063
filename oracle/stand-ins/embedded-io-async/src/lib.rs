//! Stands for embedded-io-async: the one trait that the asynchronous `read_from` names, which the oracle doesn't run.
#![allow(async_fn_in_trait)]

pub trait Read {
    type Error: embedded_io::Error;

    async fn read(&mut self, buf: &mut [u8]) -> Result<usize, Self::Error>;
}
