//! atat 0.25.0 as far as the oracle runs it. The modules that `modules.rs` lists are the crate's own files, unchanged, from the
//! folder that ATAT_SRC names; `fmt` and `urc_channel` are stand-ins, and so are the crates heapless, embassy-sync,
//! embedded-io and embedded-io-async. No feature is on, `string_errors` among them.
#![allow(async_fn_in_trait, unexpected_cfgs)]

// First, so that the modules below see its macros.
#[macro_use]
pub mod fmt;
pub mod urc_channel;

include!(concat!(env!("OUT_DIR"), "/modules.rs"));

pub use digest::{AtDigester, DigestResult, Digester, Parser};
pub use error::{CmeError, CmsError, ConnectionError, Error, InternalError};
pub use ingress::{AtatIngress, Error as IngressError, Ingress};
pub use response::Response;
pub use response_slot::ResponseSlot;
pub use traits::AtatUrc;
pub use urc_channel::UrcChannel;

/// The slot's two signals are open to the crate's own modules only, and the scripts call them.
pub mod reach {
    use crate::response_slot::{ResponseSlot, SlotInUseError};
    use crate::InternalError;

    pub fn signal_prompt<const N: usize>(slot: &ResponseSlot<N>, prompt: u8) -> Result<(), SlotInUseError> {
        slot.signal_prompt(prompt)
    }

    pub fn signal_response<const N: usize>(slot: &ResponseSlot<N>, response: Result<&[u8], InternalError>) -> Result<(), SlotInUseError> {
        slot.signal_response(response)
    }
}
