//! What is measured: inputs under a table, and streams through an ingress.

use growth::shapes::{joined, lines, over_and_over, OK, SHAPES};

/// The table of a workload, on both sides.
#[derive(Clone, Copy, PartialEq, Eq)]
pub enum Table {
    Empty,
    /// One notice.
    One,
    /// 56 notices.
    Many,
    /// One custom error: a `CE` record, and on the Rust side a function.
    CustomError,
}

#[derive(Clone, Copy, PartialEq, Eq)]
pub enum Way {
    /// One call of the digester.
    Digest,
    /// An exchange through an ingress, in pieces of so many bytes.
    Pieces(usize),
    /// The input as an Ok's payload, signalled to the slot alone, which is then freed.
    Signal,
}

pub struct Workload {
    pub group: &'static str,
    pub name: &'static str,
    pub table: Table,
    pub way: Way,
    pub input: Vec<u8>,
    /// So many instructions, a hundred thousand million, that they are counted once and its answers compared in that same call.
    pub is_vast: bool,
}

pub const LONG: usize = 4096;
const ANSWER: &[u8] = b"\r\n+CSQ: 17,99\r\n\r\nOK\r\n";
const EXCHANGE: &[u8] = b"AT+CSQ\r\r\n+CSQ: 17,99\r\n\r\nOK\r\n";
const NOTICE: &[u8] = b"\r\n+UUSORD: 0,4\r\n";
const VAST: &str = "listing of 4,096 bytes, byte by byte";

/// The workloads, in the order of the table.
pub fn all() -> Vec<Workload> {
    let mut all = Vec::new();
    let mut add = |group, name, table, way, input: Vec<u8>| all.push(Workload { group, name, table, way, input, is_vast: name == VAST });
    let digest = Way::Digest;
    let empty = Table::Empty;

    let group = "answers";
    add(group, "typical answer", empty, digest, ANSWER.to_vec());
    add(group, "typical answer, last byte missing", empty, digest, ANSWER[..ANSWER.len() - 1].to_vec());
    add(group, "typical answer, table of 56", Table::Many, digest, ANSWER.to_vec());
    add(group, "typical answer, last byte missing, table of 56", Table::Many, digest, ANSWER[..ANSWER.len() - 1].to_vec());
    add(group, "OK alone", empty, digest, OK.to_vec());
    add(group, "prompt >", empty, digest, b"\r\n> ".to_vec());

    let group = "errors";
    let mut error = |name, table, line: &[u8]| add(group, name, table, digest, joined(&[b"\r\n", line, b"\r\n"]));
    error("+CME ERROR: 10", empty, b"+CME ERROR: 10");
    error("+CMS ERROR: 500", empty, b"+CMS ERROR: 500");
    error("MODEM ERROR: 7", empty, b"MODEM ERROR: 7");
    error("ERROR", empty, b"ERROR");
    error("COMMAND NOT SUPPORT", empty, b"COMMAND NOT SUPPORT");
    error("NO CARRIER", empty, b"NO CARRIER");
    error("BUSY", empty, b"BUSY");
    error("NO ANSWER", empty, b"NO ANSWER");
    error("NO DIALTONE", empty, b"NO DIALTONE");
    error("NA", empty, b"NA");
    error("BUSY, then ERROR", empty, b"BUSY\r\n\r\nERROR");
    error("custom error", Table::CustomError, b"SIM BUSY");

    let group = "notices";
    add(group, "notice, table of 1", Table::One, digest, NOTICE.to_vec());
    add(group, "notice, table of 56", Table::Many, digest, NOTICE.to_vec());

    for shape in SHAPES {
        add("4,096 bytes", shape.name, empty, digest, (shape.input)(LONG));
    }

    let group = "ingress";
    add(group, "typical exchange, one piece", empty, Way::Pieces(usize::MAX), EXCHANGE.to_vec());
    add(group, "typical exchange, byte by byte", empty, Way::Pieces(1), EXCHANGE.to_vec());
    add(group, "typical exchange, table of 56, one piece", Table::Many, Way::Pieces(usize::MAX), EXCHANGE.to_vec());
    add(group, "typical exchange, table of 56, byte by byte", Table::Many, Way::Pieces(1), EXCHANGE.to_vec());
    add(group, "listing of 4,096 bytes, pieces of 64", empty, Way::Pieces(64), lines(OK, LONG));
    add(group, "listing of 1,024 bytes, byte by byte", empty, Way::Pieces(1), lines(OK, 1024));
    add(group, VAST, empty, Way::Pieces(1), lines(OK, LONG));
    add(group, "CRLFs, 256 bytes, byte by byte", empty, Way::Pieces(1), over_and_over(b"\r\n", 256));
    add(group, "slot alone: signal, reset", empty, Way::Signal, b"+CSQ: 17,99".to_vec());
    all
}

#[cfg(test)]
mod tests {
    use super::*;

    #[test]
    fn the_long_ones_are_of_their_length() {
        for w in all().iter().filter(|w| w.group == "4,096 bytes" || w.name.starts_with("listing of 4,096")) {
            assert_eq!(w.input.len(), LONG, "{}", w.name);
        }
    }
}
