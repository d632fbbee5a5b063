//! Token tables of every kind.

use super::chance::Chance;

/// A table's bytes, and its texts to make inputs of.
#[derive(Clone, Default)]
pub struct Table {
    pub bytes: Vec<u8>,
    pub texts: Vec<Vec<u8>>,
}

const MARKS: [&[u8]; 4] = [b"UR", b"CS", b"CE", b"CP"];

/// Texts that get in each other's way and in that of the fixed lines.
const TEXTS: [&[u8]; 27] = [
    b"+UUSORD",
    b"+UUSO",
    b"+CREG",
    b"RING",
    b"A",
    b"AB",
    b"ABA",
    b"AA",
    b"B",
    b"OK",
    b"ERROR",
    b"CONNECT",
    b"BUSY",
    b"NA",
    b"N",
    b"+CME ERROR",
    b"+CME ERROR: 5",
    b"+CMS ERROR",
    b"MODEM ERROR",
    b"+CSQ",
    b">",
    b"@",
    b"> >",
    b":",
    b"a:b",
    b"SEND OK AND MORE UP TO 31 BYTES",
    b"SEND OK AND MORE, 32 BYTES IN IT",
];

pub fn record(table: &mut Table, mark: &[u8], prompt: u8, text: &[u8]) {
    table.bytes.extend_from_slice(mark);
    if mark == b"CP" {
        table.bytes.push(prompt);
    }
    table.bytes.push(text.len() as u8);
    table.bytes.extend_from_slice(text);
    table.texts.push(text.to_vec());
}

/// A table of records with one mark each, for the exhaustive lists and the limits.
pub fn of(records: &[(&[u8], &[u8])]) -> Table {
    let mut table = Table::default();
    for (mark, text) in records {
        record(&mut table, mark, b'?', text);
    }
    table
}

fn text(chance: &mut Chance) -> Vec<u8> {
    if !chance.once_in(5) {
        return chance.pick(&TEXTS).to_vec();
    }
    let len = chance.one_of(&[1, 1, 2, 2, 3, 5, 8, 31, 32]);
    let mut text: Vec<u8> = (0..len).map(|_| 0x20 + chance.below(95) as u8).collect();
    for end in [0, len - 1] {
        if text[end] == b' ' {
            text[end] = b'~';
        }
    }
    text
}

fn any(chance: &mut Chance, table: &mut Table, mark: &[u8]) {
    let prompt = if chance.once_in(2) { b'>' } else { chance.byte() };
    let text = text(chance);
    record(table, mark, prompt, &text);
}

/// A good table.
pub fn good(chance: &mut Chance) -> Table {
    let mut table = Table::default();
    match chance.below(32) {
        0..8 => {}
        8..16 => any(chance, &mut table, b"UR"),
        16..20 => (0..chance.within(2, 5)).for_each(|_| any(chance, &mut table, b"UR")),
        20..24 => {
            let mark = chance.pick(&MARKS);
            (0..chance.within(1, 3)).for_each(|_| any(chance, &mut table, mark));
        }
        24..30 => (0..chance.within(2, 6)).for_each(|_| {
            let mark = chance.pick(&MARKS);
            any(chance, &mut table, mark);
        }),
        30 => {
            let text = text(chance);
            for _ in 0..chance.within(2, 4) {
                let mark = chance.pick(&MARKS);
                record(&mut table, mark, chance.byte(), &text);
            }
        }
        _ => full(chance, &mut table),
    }
    table
}

/// 63 or 64 short records.
fn full(chance: &mut Chance, table: &mut Table) {
    for _ in 0..chance.within(63, 64) {
        let text: Vec<u8> = (0..chance.within(1, 3)).map(|_| chance.one_of(b"ABCO")).collect();
        let mark = if chance.once_in(2) { b"UR" } else { chance.pick(&MARKS) };
        record(table, mark, chance.byte(), &text);
    }
}

/// One or two records whose text is a CONNECT line, or a part of one.
pub fn with_connect(chance: &mut Chance) -> Table {
    let mut table = Table::default();
    for _ in 0..chance.within(1, 2) {
        let text = chance.pick(&[&b"CONNECT"[..], b"CONNECT", b"CONNECT 9600", b"CONN", b"9600", b"CONNECT >"]);
        let mark = chance.pick(&MARKS);
        record(&mut table, mark, chance.byte(), text);
    }
    table
}

/// A table with notices, for scripts.
pub fn with_notices(chance: &mut Chance) -> Table {
    let mut table = Table::default();
    for _ in 0..chance.within(1, 3) {
        any(chance, &mut table, b"UR");
    }
    if chance.once_in(6) {
        let mark = chance.pick(&MARKS);
        any(chance, &mut table, mark);
    }
    table
}

/// A table that most likely breaks a rule; the answer to it is the harness's.
pub fn faulty(chance: &mut Chance) -> Table {
    let mut table = good(chance);
    match chance.below(6) {
        0 => drop(table.bytes.pop()),
        1 => table.bytes.extend_from_slice(b"UX\x01A"),
        2 => record(&mut table, b"UR", 0, b""),
        3 => record(&mut table, b"CE", 0, &[b'A'; 33]),
        4 => record(&mut table, b"CS", 0, b" A"),
        _ => (0..65).for_each(|_| record(&mut table, b"UR", 0, b"A")),
    }
    table
}
