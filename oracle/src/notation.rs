//! What `generate` writes of the notation that the program `compare` reads: two fields are a digest case, five an ingress case, and a mode's word may stand
//! before them; bytes are plain hex.

use std::fmt;

/// The longest line, without its end.
pub const LONGEST_LINE: usize = 65_535;
/// The longest line of a case, so that a mode's word fits before it.
pub const LONGEST_CASE: usize = LONGEST_LINE - "connect ".len();

/// Which CONNECT lines the digester is to hear: the bare one of document 01 alone, or those with text too (R-3). The crate has the first only.
#[derive(Clone, Copy, Debug, PartialEq, Eq, PartialOrd, Ord)]
pub enum Mode {
    Verbose,
    Connect,
}

/// What a line asks for: a case, in a mode.
#[derive(Clone, Debug, PartialEq, Eq)]
pub struct Asked {
    pub mode: Mode,
    pub case: Case,
}

#[derive(Clone, Debug, PartialEq, Eq)]
pub enum Case {
    Digest { table: Vec<u8>, input: Vec<u8> },
    Ingress { table: Vec<u8>, buffer: Vec<u8>, slot: Vec<u8>, queue: Vec<u8>, ops: Vec<Op> },
}

#[derive(Clone, Debug, PartialEq, Eq)]
pub enum Op {
    Write(Vec<u8>),
    Put(Vec<u8>),
    Over(u32),
    Clear,
    Reset,
    Take,
    Okay(Vec<u8>),
    Prompt(u8),
    /// A CME code, and its digits where they aren't its own in decimal.
    Cme(u16, Option<Vec<u8>>),
    Busy,
}

/// Is the line one that is skipped?
pub fn is_idle(line: &[u8]) -> bool {
    line.starts_with(b"#") || line.iter().all(|b| b" \t\r".contains(b))
}

/// What a line asks for, or nothing for a line that doesn't read.
pub fn read(line: &[u8]) -> Option<Asked> {
    if line.len() > LONGEST_LINE {
        return None;
    }
    let fields: Vec<&[u8]> = line.split(|&b| b == b' ').collect();
    match &fields[..] {
        [b"connect", fields @ ..] => Some(Asked { mode: Mode::Connect, case: read_case(fields)? }),
        [b"verbose", fields @ ..] | fields => Some(Asked { mode: Mode::Verbose, case: read_case(fields)? }),
    }
}

fn read_case(fields: &[&[u8]]) -> Option<Case> {
    match *fields {
        [table, input] => Some(Case::Digest { table: bytes(table)?, input: bytes(input)? }),
        [table, buffer, slot, queue, ops] => {
            Some(Case::Ingress { table: bytes(table)?, buffer: bytes(buffer)?, slot: bytes(slot)?, queue: bytes(queue)?, ops: read_ops(ops)? })
        }
        _ => None,
    }
}

fn read_ops(field: &[u8]) -> Option<Vec<Op>> {
    if field == b"-" {
        return Some(Vec::new());
    }
    field.split(|&b| b == b';').map(read_op).collect()
}

fn read_op(op: &[u8]) -> Option<Op> {
    let (&letter, rest) = op.split_first()?;
    match letter {
        b'W' => Some(Op::Write(bytes(rest)?)),
        b'A' => Some(Op::Put(bytes(rest)?)),
        b'O' => Some(Op::Okay(bytes(rest)?)),
        b'M' => Some(Op::Over(number(rest, u32::MAX)?)),
        b'P' => Some(Op::Prompt(number(rest, 255)? as u8)),
        b'E' => read_code(rest),
        b'C' if rest.is_empty() => Some(Op::Clear),
        b'R' if rest.is_empty() => Some(Op::Reset),
        b'T' if rest.is_empty() => Some(Op::Take),
        b'B' if rest.is_empty() => Some(Op::Busy),
        _ => None,
    }
}

/// A CME code, and behind a comma its digits.
fn read_code(field: &[u8]) -> Option<Op> {
    let mut parts = field.splitn(2, |&b| b == b',');
    let code = number(parts.next()?, 65_535)? as u16;
    match parts.next() {
        None => Some(Op::Cme(code, None)),
        Some(digits) => Some(Op::Cme(code, Some(bytes(digits)?))),
    }
}

/// Hex in either case, two digits a byte; `-` for no bytes.
fn bytes(field: &[u8]) -> Option<Vec<u8>> {
    if field == b"-" {
        return Some(Vec::new());
    }
    if field.is_empty() || field.len() % 2 == 1 {
        return None;
    }
    field.chunks(2).map(|pair| Some(digit(pair[0])? * 16 + digit(pair[1])?)).collect()
}

fn digit(b: u8) -> Option<u8> {
    (b as char).to_digit(16).map(|d| d as u8)
}

fn number(field: &[u8], most: u32) -> Option<u32> {
    if field.is_empty() {
        return None;
    }
    let mut n: u64 = 0;
    for &b in field {
        if !b.is_ascii_digit() {
            return None;
        }
        n = n * 10 + u64::from(b - b'0');
        if n > u64::from(most) {
            return None;
        }
    }
    Some(n as u32)
}

/// Bytes in upper-case hex, `-` for none.
pub struct Hex<'a>(pub &'a [u8]);

impl fmt::Display for Hex<'_> {
    fn fmt(&self, f: &mut fmt::Formatter<'_>) -> fmt::Result {
        if self.0.is_empty() {
            return f.write_str("-");
        }
        let mut said = String::with_capacity(2 * self.0.len());
        for &b in self.0 {
            for d in [b >> 4, b & 15] {
                said.push(b"0123456789ABCDEF"[usize::from(d)] as char);
            }
        }
        f.write_str(&said)
    }
}

impl fmt::Display for Op {
    fn fmt(&self, f: &mut fmt::Formatter<'_>) -> fmt::Result {
        match self {
            Op::Write(b) => write!(f, "W{}", Hex(b)),
            Op::Put(b) => write!(f, "A{}", Hex(b)),
            Op::Over(n) => write!(f, "M{n}"),
            Op::Clear => f.write_str("C"),
            Op::Reset => f.write_str("R"),
            Op::Take => f.write_str("T"),
            Op::Okay(b) => write!(f, "O{}", Hex(b)),
            Op::Prompt(n) => write!(f, "P{n}"),
            Op::Cme(n, None) => write!(f, "E{n}"),
            Op::Cme(n, Some(digits)) => write!(f, "E{n},{}", Hex(digits)),
            Op::Busy => f.write_str("B"),
        }
    }
}

impl fmt::Display for Asked {
    fn fmt(&self, f: &mut fmt::Formatter<'_>) -> fmt::Result {
        match self.mode {
            Mode::Verbose => write!(f, "{}", self.case),
            Mode::Connect => write!(f, "connect {}", self.case),
        }
    }
}

impl fmt::Display for Case {
    fn fmt(&self, f: &mut fmt::Formatter<'_>) -> fmt::Result {
        match self {
            Case::Digest { table, input } => write!(f, "{} {}", Hex(table), Hex(input)),
            Case::Ingress { table, buffer, slot, queue, ops } => {
                write!(f, "{} {} {} {} ", Hex(table), Hex(buffer), Hex(slot), Hex(queue))?;
                if ops.is_empty() {
                    return f.write_str("-");
                }
                for (i, op) in ops.iter().enumerate() {
                    write!(f, "{}{op}", if i == 0 { "" } else { ";" })?;
                }
                Ok(())
            }
        }
    }
}
