//! Exhaustive lists: every sequence of a small alphabet up to a length, under one table.

use super::tables::{self, Table};
use crate::notation::{Case, Op};
use crate::queue::RECORD;

/// Records, tokens, and the most tokens in a row.
type List = (&'static [(&'static [u8], &'static [u8])], &'static [&'static [u8]], u32);

const INPUTS: [List; 14] = [
    (&[], &[b"\r", b"\n", b" ", b">", b"x"], 7),
    (&[], &[b"\r\n", b"OK", b"ERROR", b" ", b"x", b"\r", b"\n"], 5),
    (&[], &[b"\r\n", b"+CME ERROR:", b"+CMS ERROR:", b"MODEM ERROR:", b"7", b" ", b"\n", b"\t"], 5),
    (&[], &[b"\r", b"\n", b"O", b"K"], 7),
    (&[], &[b"\r\n", b"NA", b">", b"@", b" ", b"OK\r\n"], 5),
    (&[], &[b"\r\n", b"NO CARRIER", b"BUSY", b"NO ANSWER", b"NO DIALTONE", b"COMMAND NOT SUPPORT", b"CONNECT", b"ERROR"], 4),
    (&[], &[b"\r\n+CME ERROR:", b"0", b"6553", b"5", b"6", b"\r\n", b"\n"], 5),
    (&[(b"UR", b"A")], &[b"\r", b"\n", b"A", b":", b">"], 7),
    (&[(b"UR", b"A"), (b"UR", b"AB")], &[b"\r", b"\n", b"A", b"B", b":"], 6),
    (&[(b"UR", b"AA")], &[b"\r", b"\n", b"A", b":", b" "], 6),
    (&[(b"UR", b"OK"), (b"CE", b"OK"), (b"UR", b"x")], &[b"\r\n", b"OK", b":", b"x", b"\r", b"\n"], 5),
    (&[(b"CS", b"S"), (b"CE", b"E"), (b"CP", b"P"), (b"UR", b"U")], &[b"\r\n", b"S", b"E", b"P", b"U", b":"], 5),
    (&[(b"CE", b"A"), (b"UR", b"A"), (b"UR", b"A"), (b"CP", b"A"), (b"CS", b"A")], &[b"\r\n", b"A", b":", b" "], 6),
    (&[(b"UR", b"+U"), (b"CP", b">>")], &[b"\r\n", b"+U", b":", b"OK", b"> ", b"+CME ERROR: 1"], 5),
];

/// CONNECT and what may stand behind it. Lists of their own, so that the order of those above is what it was.
const CONNECTS: [List; 3] = [
    (&[], &[b"\r\nCONNECT", b" ", b"\r\n", b"\r", b"9", b"OK\r\n"], 5),
    (&[], &[b"\r\nCONNECT ", b"\r", b"\n", b">", b"x"], 5),
    (&[(b"UR", b"CONNECT"), (b"CE", b"CONNECT 9")], &[b"\r\n", b"CONNECT", b" ", b"9", b":"], 5),
];

const SCRIPT_TABLE: &[(&[u8], &[u8])] = &[(b"UR", b"A")];
const SCRIPT_OPS: [&[u8]; 7] = [b"W\r\nA\r\n", b"Wx", b"A\r\nOK\r\n", b"T", b"M", b"R", b"W\r\nyy\r\nOK\r\n\r\nA:z\r\n> "];
const MOST_OPS: u32 = 5;
/// Small enough that room, slot and queue all run out: lengths of buffer, slot memory and queue memory.
const MEMORIES: [[usize; 3]; 2] = [[7, 1, RECORD], [24, 2, 2 * RECORD]];

fn sequences(letters: u64, most: u32) -> u64 {
    (0..=most).map(|len| letters.pow(len)).sum()
}

/// The k-th sequence of letter numbers, shorter ones first.
fn sequence(letters: u64, mut k: u64) -> Vec<usize> {
    let mut len = 0;
    while k >= letters.pow(len) {
        k -= letters.pow(len);
        len += 1;
    }
    let mut said = Vec::new();
    for _ in 0..len {
        said.push((k % letters) as usize);
        k /= letters;
    }
    said
}

fn all_of(lists: &[List]) -> u64 {
    lists.iter().map(|(_, tokens, most)| sequences(tokens.len() as u64, *most)).sum()
}

pub fn inputs() -> u64 {
    all_of(&INPUTS)
}

pub fn connects() -> u64 {
    all_of(&CONNECTS)
}

/// The k-th input of the lists.
pub fn input(k: u64) -> Case {
    of_lists(&INPUTS, k)
}

/// The k-th input with CONNECT.
pub fn connect(k: u64) -> Case {
    of_lists(&CONNECTS, k)
}

fn of_lists(lists: &[List], mut k: u64) -> Case {
    for &(records, tokens, most) in lists {
        let here = sequences(tokens.len() as u64, most);
        if k < here {
            let input = sequence(tokens.len() as u64, k).iter().flat_map(|&t| tokens[t]).copied().collect();
            let Table { bytes: table, .. } = tables::of(records);
            return Case::Digest { table, input };
        }
        k -= here;
    }
    unreachable!("there are fewer than that")
}

pub fn scripts() -> u64 {
    MEMORIES.len() as u64 * sequences(SCRIPT_OPS.len() as u64, MOST_OPS)
}

/// The k-th script.
pub fn script(k: u64) -> Case {
    let [buffer, slot, queue] = MEMORIES[(k % MEMORIES.len() as u64) as usize];
    let ops = sequence(SCRIPT_OPS.len() as u64, k / MEMORIES.len() as u64).iter().map(|&o| op(SCRIPT_OPS[o])).collect();
    Case::Ingress { table: tables::of(SCRIPT_TABLE).bytes, buffer: vec![b'.'; buffer], slot: vec![b'.'; slot], queue: vec![b'.'; queue], ops }
}

fn op(said: &[u8]) -> Op {
    match said[0] {
        b'W' => Op::Write(said[1..].to_vec()),
        b'A' => Op::Put(said[1..].to_vec()),
        b'T' => Op::Take,
        b'R' => Op::Reset,
        _ => Op::Over(0),
    }
}
