//! Random digest inputs: what modems say, whole, cut and damaged; bytes of small alphabets; long ones; and the limits.

use super::chance::Chance;
use super::tables::{self, Table};
use crate::notation::Case;

const PIECES: [&[u8]; 49] = [
    b"\r\nOK\r\n",
    b"\r\nOK\r\n",
    b"\r\nERROR\r\n",
    b"\r\nCONNECT\r\n",
    b"\r\nCONNECT 9600\r\n",
    b"\r\nNO CARRIER\r\n",
    b"\r\nBUSY\r\n",
    b"\r\nNO ANSWER\r\n",
    b"\r\nNO DIALTONE\r\n",
    b"\r\nNO DIAL TONE\r\n",
    b"\r\nCOMMAND NOT SUPPORT\r\n",
    b"\r\nNA\r\n",
    b"NA\r\n",
    b"OK\r\n",
    b"ERROR\r\n",
    b"OK",
    b"\r\nok\r\n",
    b"\nOK\n",
    b"\r\nRING\r\n",
    b"\r\n+CSQ: 17,99\r\n",
    b"+CSQ: 17,99\r\n",
    b"AT+CSQ\r\r\n",
    b"AT\r",
    b"AT+CMGS=5\r\r\n> ",
    b"\r\n> ",
    b"> ",
    b">",
    b"@",
    b"\r\n@",
    b"a>b",
    b" ",
    b"   ",
    b"\r\n",
    b"\r\n\r\n",
    b"\r",
    b"\n",
    b"\t",
    b"\x0C",
    b"\x0B",
    b"\0",
    b"\xFF\x80",
    b":",
    b"abc",
    b"payload, with \"quotes\" and spaces",
    b"\r\n+CME ERROR: SIM not inserted\r\n",
    b"\r\n+CME ERROR:",
    b"\r\n+CMS ERROR:",
    b"\r\nMODEM ERROR:",
    b"\r\n+CME ERROR: 3\r\n",
];

const HEADS: [&[u8]; 5] = [b"\r\n+CME ERROR:", b"\r\n+CMS ERROR:", b"\r\nMODEM ERROR:", b"\n+CME ERROR:", b"\r\n+cme error:"];
const BLANKS: [&[u8]; 9] = [b"", b" ", b" ", b"  ", b"\t", b"\r\n", b"\n\r\t ", b"\x0C", b"\xA0"];
const ENDS: [&[u8]; 8] = [b"\r\n", b"\r\n", b"\r\n", b"\n", b"\r", b"", b" \r\n", b"x\r\n"];
const CODES: [u64; 16] = [0, 3, 7, 10, 100, 255, 256, 500, 512, 9999, 10000, 65_534, 65_535, 65_536, 65_537, 99_999];

/// A numeric error, or something near one.
fn numeric(chance: &mut Chance) -> Vec<u8> {
    let code = if chance.once_in(2) { chance.one_of(&CODES) } else { chance.below(70_000) };
    let zeros = if chance.once_in(3) { chance.up_to(6) } else { 0 };
    let digits = [vec![b'0'; zeros], code.to_string().into_bytes()].concat();
    let digits = if chance.once_in(30) { [&digits[..], &digits, &digits, &digits].concat() } else { digits };
    [chance.pick(&HEADS), chance.pick(&BLANKS), &digits, chance.pick(&ENDS)].concat()
}

/// A table's text as a line, or something near one.
fn of_table(chance: &mut Chance, table: &Table) -> Vec<u8> {
    let text = &table.texts[chance.up_to(table.texts.len() - 1)];
    let front: &[u8] = chance.pick(&[b"\r\n", b"\r\n", b"\r\n", b"\r\n", b"\n", b"\r", b""]);
    let behind: &[u8] = chance.pick(&[
        b"\r\n",
        b"\r\n",
        b"\r\n",
        b"\r\n",
        b": 0,4\r\n",
        b": 0,4\r\n",
        b": 0,4\r\n",
        b":\r\n",
        b":",
        b"",
        b"\r",
        b"\n",
        b" \r\n",
        b": >",
        b": 1\n",
        b"x\r\n",
    ]);
    let kept = if chance.once_in(6) { chance.up_to(text.len()) } else { text.len() };
    [front, &text[..kept], behind].concat()
}

const CONNECTS: [&[u8]; 12] = [
    b"\r\nCONNECT ",
    b"\r\nCONNECT ",
    b"\r\nCONNECT ",
    b"\r\nCONNECT",
    b"\r\nCONNECT",
    b"CONNECT ",
    b"\nCONNECT ",
    b"\r\nCONNECT\t",
    b"\r\nCONNECTED ",
    b"\r\nCONNEC ",
    b"\r\nconnect ",
    b"\r\n CONNECT ",
];
const CONNECT_TEXTS: [&[u8]; 14] = [b"", b"", b"9600", b"9600", b" 9600 ", b"115200/V42BIS", b"a\rb", b"a\nb", b"\r", b">", b"@", b":", b"CONNECT", b"ERROR"];

/// A CONNECT line, or something near one.
pub fn connect_line(chance: &mut Chance) -> Vec<u8> {
    [chance.pick(&CONNECTS), chance.pick(&CONNECT_TEXTS), chance.pick(&ENDS)].concat()
}

/// One thing that a modem may say under the table.
pub fn piece(chance: &mut Chance, table: &Table) -> Vec<u8> {
    match chance.below(8) {
        0..3 if !table.texts.is_empty() => of_table(chance, table),
        3 => numeric(chance),
        _ => chance.pick(&PIECES).to_vec(),
    }
}

fn pieces(chance: &mut Chance, table: &Table) -> Vec<u8> {
    let count = chance.within(1, 6);
    (0..count).flat_map(|_| piece(chance, table)).collect()
}

/// Small damage: a byte changed, left out, put in, a part said twice, the end cut off.
fn damage(chance: &mut Chance, input: &mut Vec<u8>) {
    if input.is_empty() {
        return;
    }
    let at = chance.up_to(input.len() - 1);
    let byte = if chance.once_in(4) { chance.byte() } else { chance.one_of(b"\r\n >@:OK0N\t") };
    match chance.below(6) {
        0 => input[at] = byte,
        1 => drop(input.remove(at)),
        2 => input.insert(at, byte),
        3 => input.truncate(at),
        4 => {
            let end = chance.within(at, input.len());
            let part = input[at..end].to_vec();
            input.splice(at..at, part);
        }
        _ => drop(input.drain(..at)),
    }
}

/// Bytes of a small alphabet.
fn soup(chance: &mut Chance) -> Vec<u8> {
    let letters: Vec<u8> = (0..chance.within(1, 6)).map(|_| chance.one_of(b"\r\n\r\n >@OK:NAE5+\t\x0C\x0Bx")).collect();
    let len = chance.up_to(24);
    (0..len).map(|_| chance.one_of(&letters)).collect()
}

/// A length at a limit, or any up to 4,096; now and then one over it.
fn length(chance: &mut Chance) -> usize {
    let limit = chance.one_of(&[128, 256, 512, 1024, 2048, 4096, 4096]);
    match chance.below(32) {
        0 => 4097,
        1..16 => chance.within(limit - 3, limit),
        _ => chance.within(1, 4096),
    }
}

/// Much of one thing, with pieces in front and behind, brought to a length.
fn long(chance: &mut Chance, table: &Table) -> Vec<u8> {
    let len = length(chance);
    let filler: &[u8] = match chance.below(64) {
        // The crate's cost at these is quadratic: few of them, so that a million cases take minutes.
        0 => b"\r\n",
        1 => b"\r\n+CSQ: 17,99\r\n",
        2..24 => b"0",
        24..32 => b" ",
        32..48 => b"x",
        _ => b"some text, and more of it: 1,2\n",
    };
    let len = if filler == b"\r\n" { len.min(600) } else { len };
    let head = match filler {
        b"0" => [chance.pick(&HEADS), b" "].concat(),
        _ => pieces(chance, table),
    };
    let tail = match filler {
        b"0" => [&chance.one_of(&CODES).to_string().into_bytes()[..], chance.pick(&ENDS)].concat(),
        _ => piece(chance, table),
    };
    let fill = len.saturating_sub(head.len() + tail.len());
    let mut input: Vec<u8> = head;
    input.extend(filler.iter().cycle().take(fill));
    input.extend(tail);
    input.truncate(len);
    input
}

/// Pieces behind many spaces or an echo, cut at any place: the retry and rule 1.
fn behind_echo(chance: &mut Chance, table: &Table) -> Vec<u8> {
    let mut input = vec![b' '; chance.up_to(3)];
    input.extend_from_slice(chance.pick(&[b"AT+X=\"", b"x", b"\r", b"", b"\r\nx", b"\r\n\r\n\r\n", b"\n", b"\r\ngarbage\r\n"]));
    input.extend(pieces(chance, table));
    let keep = chance.up_to(input.len());
    if chance.once_in(2) {
        input.truncate(keep);
    }
    input
}

/// CONNECT lines between other things, half of them cut or damaged.
pub fn connect(chance: &mut Chance) -> Case {
    let table = match chance.below(4) {
        0 => Table::default(),
        1 => tables::with_connect(chance),
        _ => tables::good(chance),
    };
    let count = chance.within(1, 4);
    let mut input: Vec<u8> = (0..count).flat_map(|_| if chance.once_in(2) { connect_line(chance) } else { piece(chance, &table) }).collect();
    input.extend(connect_line(chance));
    if chance.once_in(3) {
        input.extend(piece(chance, &table));
    }
    if chance.once_in(2) {
        damage(chance, &mut input);
    }
    Case::Digest { table: table.bytes, input }
}

pub fn input(chance: &mut Chance) -> Case {
    let table = if chance.once_in(200) { tables::faulty(chance) } else { tables::good(chance) };
    let input = match chance.below(100) {
        0..35 => pieces(chance, &table),
        35..70 => {
            let mut input = pieces(chance, &table);
            (0..chance.within(1, 4)).for_each(|_| damage(chance, &mut input));
            input
        }
        70..80 => soup(chance),
        80..97 => behind_echo(chance, &table),
        _ => long(chance, &table),
    };
    Case::Digest { table: table.bytes, input }
}
