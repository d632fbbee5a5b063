//! The reader of parameter lists: its payloads, and how they are counted. The Rust has no such reader, so that ours stands alone.

use crate::shapes::{joined, over_and_over};
use std::hint::black_box;

/// A payload that can be had at any length up to its own.
pub struct Payload {
    pub name: &'static str,
    /// Its greater length in bytes, which two divides: as long as it has at most 256 elements, and at most 4,096.
    pub len: usize,
    /// The refusal's number, 0 for none: the same at half the length.
    pub refusal: u32,
    input: fn(usize) -> Vec<u8>,
}

impl Payload {
    /// Half the length and the length.
    pub fn lens(&self) -> [usize; 2] {
        [self.len / 2, self.len]
    }

    /// What is answered, in a word or two.
    pub fn answer(&self) -> String {
        match self.refusal {
            0 => "accepted".to_owned(),
            n => format!("refused {n}"),
        }
    }
}

/// A short answer, which is counted as it is.
pub const SHORT: &[u8] = b" (0-31,99),(0-7,99)";
pub const SHORT_NAME: &str = "` (0-31,99),(0-7,99)`";

const fn accepted(name: &'static str, len: usize, input: fn(usize) -> Vec<u8>) -> Payload {
    Payload { name, len, refusal: 0, input }
}

const fn refused(name: &'static str, refusal: u32, input: fn(usize) -> Vec<u8>) -> Payload {
    Payload { name, len: 4096, refusal, input }
}

/// An answer as a modem sends it; what each part of the grammar takes, over and over, an empty place at its end; what is one long element; what is refused.
pub const PAYLOADS: [Payload; 20] = [
    accepted("an answer to +COPS=?", 1024, operators),
    accepted("`,` over and over", 254, |len| over_and_over(b",", len)),
    accepted("`7,` over and over", 508, |len| over_and_over(b"7,", len)),
    accepted("`4294967295,` over and over", 2794, |len| over_and_over(b"4294967295,", len)),
    accepted("`0-31,` over and over", 1270, |len| over_and_over(b"0-31,", len)),
    accepted("`\"\",` over and over", 762, |len| over_and_over(b"\"\",", len)),
    accepted("`\"abcdefghijkl\",` over and over", 3810, |len| over_and_over(b"\"abcdefghijkl\",", len)),
    accepted("`\"\\22\\5c\\0D\\0A\",` over and over", 3810, |len| over_and_over(b"\"\\22\\5c\\0D\\0A\",", len)),
    accepted("`(),` over and over", 378, |len| over_and_over(b"(),", len)),
    accepted("`((((7)))),` over and over", 500, |len| over_and_over(b"((((7)))),", len)),
    accepted("`(1,2,(3,4,(5,6,(7,8)))),` over and over", 480, |len| over_and_over(b"(1,2,(3,4,(5,6,(7,8)))),", len)),
    accepted("15 spaces and a comma over and over", 4064, |len| over_and_over(b"               ,", len)),
    accepted("one string", 4096, |len| joined(&[b"\"", &over_and_over(b"abcdefghijklmnopqrstuvwxyz", len - 2), b"\""])),
    accepted("one string of escapes", 4096, |len| joined(&[b"\"", &over_and_over(b"a", (len - 2) % 3), &b"\\5C".repeat((len - 2) / 3), b"\""])),
    accepted("one number, zeros in front", 4096, |len| joined(&[&over_and_over(b"0", len - 1), b"7"])),
    accepted("spaces", 4096, |len| over_and_over(b" ", len)),
    refused("commas", 9, |len| over_and_over(b",", len)),
    refused("opening brackets", 7, |len| over_and_over(b"(", len)),
    refused("digits", 8, |len| over_and_over(b"9", len)),
    refused("one string, its end missing", 6, |len| joined(&[b"\"", &over_and_over(b"abcdefghijklmnopqrstuvwxyz", len - 1)])),
];

/// Three countries' operators, as phones show them: long name, short name, digits.
const OPERATORS: [(&str, &str, &str); 9] = [
    ("Telekom.de", "TMO D", "26201"),
    ("Vodafone.de", "Voda DE", "26202"),
    ("o2 - de", "o2 - de", "26203"),
    ("A1", "A1", "23201"),
    ("Magenta-T", "Magenta", "23203"),
    ("3 AT", "3 AT", "23205"),
    ("Swisscom", "Swisscom", "22801"),
    ("Sunrise", "Sunrise", "22802"),
    ("Salt", "Salt", "22803"),
];

/// The answer to +COPS=? behind its colon, of so many bytes: operators, each by LTE, NB-IoT, UTRAN and GSM as far as there is room, then the modes and formats. The
/// first name is as much longer as is needed.
fn operators(len: usize) -> Vec<u8> {
    let end = ",,(0-4),(0-2)";
    let mut room = len - end.len();
    let mut found = String::new();
    for access in [7, 9, 2, 0] {
        for (n, (long, short, digits)) in OPERATORS.iter().enumerate() {
            let status = if found.is_empty() { 2 } else { 1 + 2 * (n % 2) };
            let operator = format!("({status},\"{long}\",\"{short}\",\"{digits}\",{access})");
            let operator = if found.is_empty() { format!(" {operator}") } else { format!(",{operator}") };
            if operator.len() <= room {
                room -= operator.len();
                found += &operator;
            }
        }
    }
    (found.replacen(".de", &format!("{}.de", "e".repeat(room)), 1) + end).into_bytes()
}

/// Reads each payload at each length between the marks, and prints its name, `list` and the length. It is read once before, to see that it is answered as its row
/// says, so that no call between the marks is the first. `paged` and `marked` as for the numeric digester.
pub fn count(read: fn(&[u8], &mut [u64; 1536], &mut [u64; 9]) -> u32, paged: fn(&[u8]) -> &'static [u8], marked: fn(&mut dyn FnMut())) -> Result<(), String> {
    let mut elements = [0; 1536];
    let mut count = |name: &str, payload: &[u8], refusal: u32| {
        let (payload, mut out) = (paged(payload), [0; 9]);
        let answer = read(payload, &mut elements, &mut out);
        if answer != refusal {
            return Err(format!("{name} of {} bytes as a parameter list is answered with {answer} at {}, and not with {refusal}", payload.len(), out[0]));
        }
        println!("{name}\tlist\t{}", payload.len());
        marked(&mut || {
            black_box(read(black_box(payload), &mut elements, &mut out));
        });
        black_box((&elements, out));
        Ok(())
    };
    count(SHORT_NAME, SHORT, 0)?;
    for payload in PAYLOADS {
        for len in payload.lens() {
            count(payload.name, &(payload.input)(len), payload.refusal)?;
        }
    }
    Ok(())
}

#[cfg(test)]
mod tests {
    use super::*;

    #[test]
    fn a_payload_is_of_the_length_that_is_asked_for() {
        for payload in PAYLOADS {
            for len in payload.lens() {
                assert_eq!((payload.input)(len).len(), len, "{}", payload.name);
            }
            assert_eq!(payload.len % 2, 0, "{}", payload.name);
        }
    }

    #[test]
    fn an_answer_has_its_operators() {
        let answer = String::from_utf8(operators(1024)).unwrap();
        assert!(answer.starts_with(" (2,\"Telekom"), "{answer}");
        assert!(answer.ends_with(",0),,(0-4),(0-2)"), "{answer}");
        assert_eq!(answer.matches("\",\"").count(), 2 * answer.matches(",\"2").count(), "{answer}");
        assert!(answer.matches(",\"2").count() > 24, "{answer}");
    }
}
