//! Random ingress scripts: a stream of what modems say, cut at random places into writes and advances, with takes, resets, clears and
//! signals between them, over memories that run out.

use super::chance::Chance;
use super::digests;
use super::tables::{self, Table};
use super::varied;
use crate::notation::{Case, Op, LONGEST_CASE};
use crate::queue::{LONGEST_NOTICE, MOST_RECORDS, RECORD};

const BUFFERS: [usize; 28] = [0, 1, 2, 5, 6, 8, 12, 16, 20, 24, 32, 40, 48, 48, 64, 64, 64, 100, 128, 128, 140, 200, 256, 300, 1100, 1100, 1100, 4096];
const SLOTS: [usize; 18] = [0, 1, 2, 2, 3, 4, 4, 5, 5, 8, 8, 16, 16, 32, 32, 64, 64, 128];
/// Payloads of notices by their bytes, rising, about which something turns or did: the most before R-9, the length's high byte, a scan's notice, the most.
const NOTICES: [usize; 5] = [128, 256, 900, LONGEST_NOTICE, LONGEST_NOTICE];

pub fn script(chance: &mut Chance) -> Case {
    let mut table = match chance.below(150) {
        0 => tables::faulty(chance),
        1..30 => tables::good(chance),
        _ => tables::with_notices(chance),
    };
    let slot = sized(chance, &SLOTS, &[256, 1024, 4096]);
    let buffer = sized(chance, &BUFFERS, &[512, 1024, 4095, 4096, 4097]);
    let queue = queue(chance);
    // A custom error longer than the slot's memory makes the crate panic, a listed difference: few scripts have one, so that the others go on.
    without_long_errors(&mut table, slot);
    if chance.once_in(80) && slot < 32 {
        tables::record(&mut table, b"CE", 0, &vec![b'E'; slot + 1]);
    }
    let filler = chance.one_of(b"\0.\xFF\r");
    let mut before = vec![filler; buffer];
    if chance.once_in(4) {
        let said = stream(chance, &table, buffer, slot);
        let len = said.len().min(buffer);
        before[..len].copy_from_slice(&said[..len]);
    }
    let ops = ops(chance, &table, buffer, slot);
    let (slot, queue) = (vec![chance.one_of(b"\0.\xFF"); slot], vec![chance.one_of(b"\0.\xFF"); queue]);
    within_a_line(Case::Ingress { table: table.bytes, buffer: before, slot, queue, ops })
}

/// The script without those of its last calls that make its line too long to be read.
fn within_a_line(mut case: Case) -> Case {
    while case.to_string().len() > LONGEST_CASE {
        let Case::Ingress { ops, .. } = &mut case else { break };
        ops.pop().expect("the memories alone fit into a line");
    }
    case
}

/// A usual size, or, once in fifty, a rare one.
fn sized(chance: &mut Chance, usual: &[usize], rare: &[usize]) -> usize {
    if chance.once_in(50) {
        chance.one_of(rare)
    } else {
        chance.one_of(usual)
    }
}

/// The bytes of a queue's memory, by whole records, one less or one more. Each byte is two digits of the line: most have one record or none.
fn queue(chance: &mut Chance) -> usize {
    let records = match chance.below(50) {
        0 => chance.one_of(&[4, MOST_RECORDS, MOST_RECORDS + 1]),
        1..10 => 0,
        10..38 => 1,
        38..46 => 2,
        _ => 3,
    };
    let bytes = records * RECORD;
    match chance.below(10) {
        0 => bytes.saturating_sub(1),
        1 => bytes + 1,
        _ => bytes,
    }
}

/// Makes notices of the custom errors that are longer than the slot's memory.
fn without_long_errors(table: &mut Table, slot: usize) {
    let mut at = 0;
    while at + 2 < table.bytes.len() {
        let head = if table.bytes[at..].starts_with(b"CP") { 3 } else { 2 };
        let Some(&len) = table.bytes.get(at + head) else { return };
        if table.bytes[at..].starts_with(b"CE") && usize::from(len) > slot {
            table.bytes[at..at + 2].copy_from_slice(b"UR");
        }
        at += head + 1 + usize::from(len);
    }
}

/// A notice about as long as one of `NOTICES` that a buffer of so many bytes holds, or nearly; at least the first must be.
fn notice(chance: &mut Chance, table: &Table, buffer: usize) -> Vec<u8> {
    let text = &table.texts[chance.up_to(table.texts.len() - 1)];
    let about = chance.one_of(&NOTICES[..NOTICES.partition_point(|&len| len <= buffer)]);
    let len = chance.within(about - 1, about + 1) - text.len() - 1;
    [b"\r\n", &text[..], b":", &varied(len), b"\r\n"].concat()
}

/// What comes from the modem, some of it at the limits of slot and queue.
fn stream(chance: &mut Chance, table: &Table, buffer: usize, slot: usize) -> Vec<u8> {
    let mut said = Vec::new();
    for _ in 0..chance.within(1, 9) {
        match chance.below(12) {
            0 => {
                let len = chance.within(slot.saturating_sub(1), slot + 1).min(300);
                said.extend([b"\r\n", &vec![b'p'; len][..], b"\r\nOK\r\n"].concat());
            }
            1 if !table.texts.is_empty() && buffer >= NOTICES[0] => said.extend(notice(chance, table, buffer)),
            // A large buffer is filled, or nearly.
            2 if buffer >= 512 => said.extend(vec![b'x'; buffer - chance.up_to(30)]),
            2 => said.extend_from_slice(b"\r\nOK\r\n"),
            3..7 if !table.texts.is_empty() => {
                let text = &table.texts[chance.up_to(table.texts.len() - 1)];
                let behind: &[u8] = chance.pick(&[b"\r\n", b": 1\r\n", b":\r\n"]);
                said.extend([b"\r\n", &text[..], behind].concat());
            }
            // Few buffers have room for the longest notices: there they come more often.
            7..9 if !table.texts.is_empty() && buffer >= LONGEST_NOTICE => said.extend(notice(chance, table, buffer)),
            11 => said.extend(digests::connect_line(chance)),
            _ => said.extend(digests::piece(chance, table)),
        }
    }
    said
}

fn ops(chance: &mut Chance, table: &Table, buffer: usize, slot: usize) -> Vec<Op> {
    let said = stream(chance, table, buffer, slot);
    // How a script is cut: byte by byte, small pieces, large ones, all at once. Where a long notice may come, pieces that bring it in few calls.
    let most = if buffer < LONGEST_NOTICE { chance.one_of(&[1, 3, 8, 8, 20, 20, 60, 400]) } else { chance.one_of(&[20, 60, 400, 400, 2000, 6000]) };
    let is_patient = chance.once_in(3);
    let mut ops = Vec::new();
    let mut rest = &said[..];
    while !rest.is_empty() && ops.len() < 60 {
        let len = chance.within(1, most).min(rest.len());
        let (piece, behind) = rest.split_at(len);
        let is_write = chance.below(8) < 6 || len > buffer.min(16);
        ops.push(if is_write { Op::Write(piece.to_vec()) } else { Op::Put(piece.to_vec()) });
        rest = behind;
        if is_patient && chance.once_in(2) {
            ops.extend([Op::Take, Op::Over(0), Op::Reset]);
        }
        while chance.once_in(3) {
            ops.push(other(chance, slot));
        }
    }
    ops
}

fn other(chance: &mut Chance, slot: usize) -> Op {
    match chance.below(40) {
        0..12 => Op::Take,
        12..22 => Op::Reset,
        22..28 => Op::Over(0),
        28 => Op::Over(chance.up_to(6) as u32),
        29 => Op::Over(chance.one_of(&[7, 300, 4096, 4097, u32::MAX])),
        30..32 => Op::Clear,
        32..34 => Op::Write(Vec::new()),
        34 => Op::Put(Vec::new()),
        35..37 => Op::Okay(vec![b'k'; chance.within(slot.saturating_sub(1), slot + 1).min(300)]),
        37 => Op::Prompt(chance.byte()),
        38 => {
            let (code, digits) = chance.one_of(&[(0, Some("0000")), (3, Some("003")), (100, None), (65_535, None)]);
            Op::Cme(code, digits.map(|digits| digits.as_bytes().to_vec()))
        }
        _ => Op::Busy,
    }
}
