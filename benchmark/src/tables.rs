//! The tables of notices: for the crate a Parser that tries one text after another, for ours a token table of `UR` records.

use atat::digest::parser::{try_urc, urc_helper};
use atat::digest::ParseError;
use atat::Parser;

macro_rules! notices {
    ($(#[$doc:meta])* $name:ident: $($text:literal)*) => {
        $(#[$doc])*
        pub struct $name;

        impl $name {
            #[allow(dead_code)]
            pub const TEXTS: &'static [&'static str] = &[$($text),*];
        }

        impl Parser for $name {
            #[allow(unused_variables)]
            fn parse(buf: &[u8]) -> Result<(&[u8], usize), ParseError> {
                $(
                    if let Some(said) = try_urc(urc_helper($text), buf) {
                        return said;
                    }
                )*
                Err(ParseError::NoMatch)
            }
        }
    };
}

notices! {
    /// No notices.
    Empty:
}

notices! {
    /// One.
    One: "+UUSORD"
}

notices! {
    /// As many as a busy gateway's modem has; the one that comes is the last.
    Many:
    "+CREG" "+CGREG" "+CEREG" "+CRING" "RING" "+CLIP" "+CCWA" "+CSSI" "+CSSU" "+CUSD" "+CMTI" "+CMT" "+CDS" "+CDSI" "+CBM" "+CBMI"
    "+CIEV" "+CTZV" "+CTZE" "+CGEV" "+CALA" "+CPIN" "+CFUN" "+CCIOTOPTI" "+CEDRXP" "+CSCON" "+UUSIMSTAT" "+UUPSDA" "+UUPSDD" "+UUPING"
    "+UUPINGER" "+UUHTTPCR" "+UUFTPCR" "+UUSMTPCR" "+UUMQTTC" "+UULOC" "+UULOCIND" "+UULOCIPIND" "+UUGIND" "+UUSTS" "+UCALLSTAT"
    "+UMWI" "+UDTMFD" "+ULGASP" "+UUDNSRN" "+UUPSMR" "+UUFWINSTALL" "+UULWM2MSTAT" "+UUDPPUBLISH" "+UUSECCL" "+UUSOLI" "+UUSOCL"
    "+UUSOCO" "+UUSORF" "+UUSOSTAT" "+UUSORD"
}

/// A table of records: mark (a custom prompt's with its byte), length, text.
pub fn records(mark: &str, texts: &[&str]) -> Vec<u8> {
    let mut table = Vec::new();
    for text in texts {
        table.extend_from_slice(mark.as_bytes());
        table.push(text.len() as u8);
        table.extend_from_slice(text.as_bytes());
    }
    table
}
