//! The limits, one by one: every kind, every byte where a byte decides, every length at which an answer turns. They are the front of the
//! fixed list, and every run beside the crate begins with them.

use super::tables::{self, Table};
use super::varied;
use crate::notation::{Case, Op};
use crate::queue::{self, LONGEST_NOTICE, MOST_RECORDS, RECORD};
use crate::script::SLOT_SIZES;

/// A record's bytes before R-9: a memory that is too short for one now. Scripts without a notice have it, so that they are what they were, and short.
const OLD_RECORD: usize = 132;
/// A buffer with room for a notice a little longer than the longest that is kept, and not for two.
const WIDE: usize = 1100;

const HEADS: [&[u8]; 3] = [b"\r\n+CME ERROR:", b"\r\n+CMS ERROR:", b"\r\nMODEM ERROR:"];
const LINES: [&[u8]; 12] = [
    b"OK",
    b"CONNECT",
    b"ERROR",
    b"COMMAND NOT SUPPORT",
    b"NO CARRIER",
    b"BUSY",
    b"NO ANSWER",
    b"NO DIALTONE",
    b"NA",
    b"+CME ERROR: 3",
    b"+CMS ERROR: 500",
    b"MODEM ERROR: 7",
];
const LONGER: &[u8] = b"\r\nCONNECT 9600\r\n";
const CODES: [&[u8]; 18] = [
    b"",
    b"0",
    b"3",
    b"100",
    b"255",
    b"256",
    b"511",
    b"512",
    b"9999",
    b"10000",
    b"65534",
    b"65535",
    b"65536",
    b"99999",
    b"100000",
    b"065535",
    b"00000000000000000000007",
    b"18446744073709551619",
];

/// All of them.
pub fn limits() -> Vec<Case> {
    let mut all = List(Vec::new());
    all.known();
    all.fixed_lines();
    all.numeric_errors();
    all.prompts();
    all.bytes();
    all.notices();
    all.order();
    all.records();
    all.long_inputs();
    all.kinds_in_the_slot();
    all.slot_sizes();
    all.digit_sizes();
    all.queue_sizes();
    all.long_notices();
    all.rooms();
    all.going_on();
    all.connects();
    all.connects_far_on();
    all.connects_in_pieces();
    all.0
}

fn line(text: &[u8]) -> Vec<u8> {
    [b"\r\n", text, b"\r\n"].concat()
}

fn write(bytes: &[u8]) -> Op {
    Op::Write(bytes.to_vec())
}

/// The line of a notice `+U` whose payload has so many bytes, at least two.
fn notice(len: usize) -> Vec<u8> {
    line(&[b"+U:", &varied(len)[..]].concat()[..len])
}

/// Payloads of notices by their bytes, where something turns or did: the most before R-9, the length's high byte, a scan's notice, the most.
fn lengths() -> impl Iterator<Item = usize> {
    (126..=130).chain(255..=257).chain([900]).chain(LONGEST_NOTICE - 2..=LONGEST_NOTICE + 2)
}

/// The bytes of a queue's memory: a record's where the notice comes in what is said, else too few for one.
fn queue_for(notice: &[u8], said: &[u8]) -> usize {
    let comes = said.windows(notice.len()).any(|w| w == notice);
    if comes {
        RECORD
    } else {
        OLD_RECORD
    }
}

struct List(Vec<Case>);

impl List {
    fn digest(&mut self, table: &Table, input: &[u8]) {
        self.0.push(Case::Digest { table: table.bytes.clone(), input: input.to_vec() });
    }

    /// A script over memories of these lengths.
    fn script(&mut self, table: &Table, buffer: usize, slot: usize, queue: usize, ops: &[Op]) {
        self.0.push(Case::Ingress {
            table: table.bytes.clone(),
            buffer: vec![b'.'; buffer],
            slot: vec![b'.'; slot],
            queue: vec![b'.'; queue],
            ops: ops.to_vec(),
        });
    }

    /// Document 01's known examples.
    fn known(&mut self) {
        let (empty, notices) = (Table::default(), tables::of(&[(b"UR", b"+UUSORD")]));
        let examples: [&[u8]; 12] = [
            b"",
            b"   ",
            b"\r\nOK\r\n",
            b"\r\nERROR\r\n\r\nOK\r\n",
            b"\r\n+CME ERROR: 65535\r\n",
            b"\r\n+CME ERROR: 65536\r\n",
            b"\r\n+CMS ERROR:\t7\n",
            b">\r\n",
            b"\r\na>b\r\n>",
            b"x\r\n\r\nNA\r\n",
            b"\r\nok\r\n",
            b"\r\nBUSY\r\n\r\nERROR\r\n",
        ];
        examples.iter().for_each(|input| self.digest(&empty, input));
        let under: [&[u8]; 3] = [b"\r\nRING\r\n\r\n+UUSORD: 0,4\r\n", b"\r\n+UUSO", b"\r\n+UUSORD: >"];
        under.iter().for_each(|input| self.digest(&notices, input));
    }

    /// Each line whole, cut at every place, with other line ends, in small letters, with something before and behind.
    fn fixed_lines(&mut self) {
        let empty = Table::default();
        for text in LINES {
            let whole = line(text);
            for cut in 1..=whole.len() {
                self.digest(&empty, &whole[..cut]);
            }
            for front in [&b"\n"[..], b"\r", b"", b" \r\n", b"x\r\n", b"AT\r\r\n", b"\r\n\r\n", b"\r\nx\r\n"] {
                self.digest(&empty, &[front, text, b"\r\n"].concat());
            }
            for behind in [&b"\n"[..], b"\r", b" \r\n", b"\r\n\r\n", b"\r\nx", b"x\r\n"] {
                self.digest(&empty, &[b"\r\n", text, behind].concat());
            }
            self.digest(&empty, &whole.to_ascii_lowercase());
        }
    }

    fn numeric_errors(&mut self) {
        let empty = Table::default();
        for head in HEADS {
            for code in CODES {
                for end in [&b"\r\n"[..], b"\n", b"\r", b""] {
                    self.digest(&empty, &[head, b" ", code, end].concat());
                }
            }
            for blanks in [&b""[..], b"  ", b"\t", b"\r\n", b"\n", b" \t\r\n "] {
                self.digest(&empty, &[head, blanks, b"41\r\n"].concat());
            }
            // Only the head's first occurrence counts, but the retry finds it anew.
            self.digest(&empty, &[head, b"x\r\n", head, b"5\r\n"].concat());
            self.digest(&empty, &[head, b" 70000\r\n", head, b"5\r\n"].concat());
            self.digest(&empty, &[b"x", head, b"5\r\n"].concat());
        }
    }

    /// Prompts by what follows them, and the shortest inputs on which the retry decides.
    fn prompts(&mut self) {
        let empty = Table::default();
        for prompt in [b'>', b'@'] {
            for b in 0..=255 {
                self.digest(&empty, &[prompt, b]);
            }
        }
        let tokens: [&[u8]; 5] = [b">", b"@", b"\r\n", b"x", b" "];
        for a in tokens {
            for b in tokens {
                for c in tokens {
                    self.digest(&empty, &[b"\r\n", a, b, c].concat());
                }
            }
        }
    }

    /// Every byte, wherever one byte decides.
    fn bytes(&mut self) {
        let empty = Table::default();
        for b in 0..=255 {
            self.digest(&empty, &[&[b][..], b"\r\nOK\r\n"].concat());
            self.digest(&empty, &[b"\r\n", &[b, b'x', b][..], b"\r\nOK\r\n"].concat());
            self.digest(&empty, &[b"\r\n+CME ERROR:", &[b][..], b"9\r\n"].concat());
            self.digest(&empty, &[b"\r\n+CMS ERROR: 9", &[b][..], b"\n"].concat());
        }
    }

    fn notices(&mut self) {
        let one = tables::of(&[(b"UR", b"+UUSORD")]);
        for whole in [&b"\r\n+UUSORD: 0,4\r\n"[..], b"\r\n+UUSORD\r\n", b"\n+UUSORD:\r\n", b"\r\nx\r\n+UUSORD: >\r\n"] {
            for cut in 1..=whole.len() {
                self.digest(&one, &whole[..cut]);
            }
        }
        for b in 0..=255 {
            self.digest(&one, &[b"\r\n+UUSORD", &[b][..], b"\r\n"].concat());
        }
        for len in [1, 31, 32] {
            let text = vec![b'u'; len];
            let table = tables::of(&[(b"UR", &text)]);
            self.digest(&table, &line(&text));
            self.digest(&table, &line(&text[1..]));
            self.digest(&table, &line(&[&text[..], b"u"].concat()));
        }
        for len in lengths().chain([300]) {
            self.digest(&one, &line(&[b"+UUSORD:", &vec![b'n'; len - 8][..]].concat()));
        }
    }

    /// Every two items after one another, under a table that has all four marks: which is found first.
    fn order(&mut self) {
        let mut table = tables::of(&[(b"UR", b"+U"), (b"CS", b"SENT"), (b"CE", b"FAIL")]);
        tables::record(&mut table, b"CP", 1, b"=>");
        let mut items: Vec<Vec<u8>> = LINES.iter().map(|text| line(text)).collect();
        items.extend([line(b"+U: 1"), line(b"SENT"), line(b"FAIL"), b"\r\n=> ".to_vec(), b"\r\n> ".to_vec(), b"\r\n@".to_vec()]);
        for a in &items {
            for b in &items {
                self.digest(&table, &[&a[..], b].concat());
            }
        }
    }

    fn records(&mut self) {
        let mut full = Table::default();
        for n in 0..64u8 {
            tables::record(&mut full, [b"UR", b"CS", b"CE", b"CP"][usize::from(n % 4)], n, &[b'a' + n / 26, b'a' + n % 26]);
        }
        let texts = full.texts.clone();
        for text in &texts {
            self.digest(&full, &line(text));
            self.digest(&full, text);
        }
        let equal = tables::of(&[(b"UR", b"A"), (b"UR", b"A"), (b"CE", b"B"), (b"CE", b"B"), (b"CS", b"C"), (b"CS", b"C")]);
        for text in [b"A", b"B", b"C"] {
            self.digest(&equal, &line(text));
        }
        for prompt in [0, 1, b'>', 127, 128, 255] {
            let mut table = Table::default();
            tables::record(&mut table, b"CP", prompt, b"go");
            self.digest(&table, b"\r\ngo \r\n");
            self.digest(&table, b"go\x0C");
        }
        for b in 0x21..=0x7E {
            let table = tables::of(&[(b"UR", &[b][..]), (b"CE", &[b, b][..])]);
            self.digest(&table, &line(&[b]));
            self.digest(&table, &line(&[b, b]));
        }
    }

    /// Inputs of 4,095 and 4,096 bytes, what counts at their very end.
    fn long_inputs(&mut self) {
        let empty = Table::default();
        let one = tables::of(&[(b"UR", b"+U")]);
        for len in [4095, 4096] {
            self.digest(&empty, &vec![b' '; len]);
            for end in [&b"\r\nOK\r\n"[..], b"\r\nOK\r", b"> \r\n", b"\r\n+CME ERROR: 65535\r\n"] {
                let mut input = vec![b'x'; len - end.len()];
                input.extend_from_slice(end);
                self.digest(&empty, &input);
            }
            let head = b"\r\n+CMS ERROR:";
            self.digest(&empty, &[&head[..], &vec![b'0'; len - head.len() - 3], b"7\r\n"].concat());
            self.digest(&one, &[b"\r\n+U:", &vec![b'n'; len - 7][..], b"\r\n"].concat());
        }
        self.digest(&empty, &b"\r\n".repeat(2048));
        self.digest(&empty, &b"\r\n+CSQ: 17,99\r\n".repeat(273)[..4090]);
    }

    /// Each kind through the ingress into the slot: free, signalled, reset.
    fn kinds_in_the_slot(&mut self) {
        let mut table = tables::of(&[(b"UR", b"+U"), (b"CS", b"SENT"), (b"CE", b"FAIL"), (b"CE", b"EIGHTLONG")]);
        tables::record(&mut table, b"CP", 255, b"=>");
        let mut items: Vec<Vec<u8>> = LINES.iter().map(|text| line(text)).collect();
        items.extend([
            line(b"+U: 1"),
            line(b"SENT"),
            line(b"FAIL"),
            b"=> ".to_vec(),
            b"> ".to_vec(),
            b"@".to_vec(),
            line(b"EIGHTLONG"),
            b"\r\npay\r\nOK\r\n".to_vec(),
        ]);
        for (i, item) in items.iter().enumerate() {
            let next = &items[(i + 1) % items.len()];
            self.script(&table, 40, 16, queue_for(b"+U", item), &[write(item)]);
            self.script(&table, 40, 16, queue_for(b"+U", item), &[write(item), Op::Reset]);
            let queue = queue_for(b"+U", &[&item[..], next].concat());
            self.script(&table, 40, 16, queue, &[write(item), write(next), Op::Take, Op::Reset, write(next)]);
            self.script(&table, 40, 2, 0, &[write(item), Op::Busy, Op::Reset, Op::Cme(100, None), Op::Prompt(64)]);
        }
    }

    /// Payloads one under, at and one over the slot's memory.
    fn slot_sizes(&mut self) {
        let empty = Table::default();
        for size in SLOT_SIZES {
            for len in size.saturating_sub(1)..=size + 1 {
                self.script(&empty, 0, size, 0, &[Op::Okay(vec![b'k'; len])]);
                if len + 8 <= 300 {
                    let said = [b"\r\n", &vec![b'p'; len][..], b"\r\nOK\r\n"].concat();
                    self.script(&empty, 300, size, 0, &[write(&said), Op::Reset, write(&said)]);
                }
                if (1..=32).contains(&len) {
                    let text = vec![b'E'; len];
                    self.script(&tables::of(&[(b"CE", &text)]), 40, size, 0, &[write(&line(&text)), Op::Reset]);
                }
            }
        }
    }

    /// Digits one under, at and one over the slot's memory, handed in and heard; over what an Ok left there, and on a signalled slot.
    fn digit_sizes(&mut self) {
        let empty = Table::default();
        for size in SLOT_SIZES {
            for len in size.saturating_sub(1)..=size + 1 {
                let digits = vec![b'0'; len];
                self.script(&empty, 0, size, 0, &[Op::Cme(0, Some(digits.clone())), Op::Cme(1, None), Op::Reset, Op::Okay(b"ok".to_vec())]);
                if !(1..=200).contains(&len) {
                    continue;
                }
                for head in [&b"\r\n+CME ERROR: "[..], b"\r\n+CMS ERROR:", b"\r\nMODEM ERROR:\t"] {
                    let said = [head, &digits, b"\r\n"].concat();
                    self.script(&empty, 300, size, 0, &[Op::Okay(b"pay".to_vec()), write(&said), Op::Reset, write(&said), Op::Reset]);
                }
            }
        }
    }

    /// Queues of every capacity, filled, refused, taken from and filled again round the ring.
    fn queue_sizes(&mut self) {
        let one = tables::of(&[(b"CS", b"S"), (b"UR", b"+U")]);
        let (few, most) = (3 * RECORD, MOST_RECORDS * RECORD);
        for queue in [0, OLD_RECORD, RECORD - 1, RECORD, RECORD + 1, 2 * RECORD - 1, 2 * RECORD, few, most - 1, most, most + RECORD] {
            let capacity = queue::capacity(queue);
            let mut ops: Vec<Op> = (0..capacity + 1).map(|n| write(&line(format!("+U: {n}").as_bytes()))).collect();
            ops.extend([Op::Take, Op::Over(0), write(&line(b"+U")), Op::Take, Op::Take, Op::Clear, write(&line(b"+U: last"))]);
            // A long memory has tens of thousands of digits in its line, and the front of the script says little that the whole doesn't.
            if queue <= few {
                self.script(&one, 20, 0, queue, &ops);
            }
            ops.extend((0..capacity + 1).map(|_| Op::Take));
            self.script(&one, 20, 0, queue, &ops);
            self.script(&one, 200, 0, queue, &[write(&line(b"+U: x").repeat(capacity + 1)), Op::Take, Op::Over(0)]);
        }
    }

    /// Notices of 2 bytes to two over the most: kept, refused and lost; a short one over what a long one left; several in a buffer; in pieces, and in buffers
    /// that a line just fits or doesn't; blanks that make a line longer than its payload.
    fn long_notices(&mut self) {
        let one = tables::of(&[(b"CS", b"S"), (b"UR", b"+U")]);
        for len in [2, 3].into_iter().chain(lengths()) {
            let said = write(&notice(len));
            let buffer = if len < 200 { 200 } else { WIDE };
            self.script(&one, buffer, 0, RECORD, &[said.clone(), said.clone(), Op::Take, Op::Over(0), Op::Take, write(&notice(2))]);
            self.script(&one, buffer, 0, 0, &[said]);
        }
        let many: Vec<u8> = [LONGEST_NOTICE, LONGEST_NOTICE + 1, 900, 256].into_iter().flat_map(notice).collect();
        for piece in [many.len(), 300, 64] {
            let mut ops: Vec<Op> = many.chunks(piece).map(write).collect();
            ops.extend([Op::Take, Op::Over(0), write(&notice(3)), Op::Take, Op::Take, Op::Take]);
            self.script(&one, 4096, 0, 2 * RECORD, &ops);
        }
        for len in [LONGEST_NOTICE, LONGEST_NOTICE + 1] {
            let said = notice(len);
            for buffer in [said.len() - 1, said.len()] {
                self.script(&one, buffer, 0, RECORD, &[write(&said), Op::Over(0), Op::Take]);
            }
            let blanks = [&said[..said.len() - 2], b" \t \r\n"].concat();
            self.script(&one, WIDE, 0, RECORD, &[Op::Put(blanks), Op::Take]);
        }
        let bytes: Vec<Op> = notice(LONGEST_NOTICE).iter().map(|&b| Op::Write(vec![b])).collect();
        self.script(&one, WIDE, 0, RECORD, &bytes);
    }

    /// Buffers of every small length; commits at the room, one under and one over.
    fn rooms(&mut self) {
        let one = tables::of(&[(b"UR", b"A")]);
        for buffer in 0..=9 {
            for said in [&b"\r\nOK\r\n"[..], b"\r\nA\r\n\r\nA\r\n", b"xyz> ", b"      \r\n"] {
                let queue = queue_for(b"A", said);
                self.script(&one, buffer, 4, queue, &[write(said)]);
                let bytes: Vec<Op> = said.iter().map(|&b| Op::Write(vec![b])).collect();
                self.script(&one, buffer, 4, queue, &bytes);
                self.script(&one, buffer, 4, queue, &[Op::Put(said.to_vec()), Op::Over(1), write(b"\n")]);
            }
            for commit in [buffer.saturating_sub(1), buffer, buffer + 1] {
                self.script(&one, buffer, 4, OLD_RECORD, &[Op::Over(commit as u32), Op::Over(1)]);
            }
            self.script(&one, buffer, 4, OLD_RECORD, &[write(b"q"), Op::Over(u32::MAX), Op::Clear, Op::Over(0), write(b"")]);
        }
        self.script(&one, 4096, 4, 0, &[write(&[b'x'; 4097]), Op::Over(1), Op::Over(0), Op::Clear, Op::Over(0)]);
        self.script(&one, 4096, 4096, RECORD, &[write(&[&b"\r\n"[..], &[b'x'; 4088], b"\r\nOK\r\n"].concat()), write(&line(b"A")), Op::Take]);
    }

    /// Refusal 5 in the midst of a piece, and the ways on after it.
    fn going_on(&mut self) {
        let one = tables::of(&[(b"UR", b"A")]);
        let two = [line(b"A"), line(b"A: 2"), line(b"OK")].concat();
        let ways: [&[Op]; 8] = [
            &[],
            &[Op::Take, Op::Over(0)],
            &[Op::Take, Op::Write(b"x".to_vec())],
            &[Op::Take, Op::Write(b"".to_vec())],
            &[Op::Take, Op::Over(0), Op::Take, Op::Over(0)],
            &[Op::Over(0), Op::Take, Op::Over(0)],
            &[Op::Clear, Op::Take, Op::Over(0)],
            &[Op::Reset, Op::Take, Op::Write(b"\r\nOK\r\n".to_vec())],
        ];
        for way in ways {
            for buffer in [5, 8, 11, 12, 20, 40] {
                let ops = [&[write(&two)], way].concat();
                self.script(&one, buffer, 4, RECORD, &ops);
            }
            self.script(&one, 5, 4, 0, &[&[write(&line(b"A"))], way].concat());
        }
    }

    /// CONNECT with text (R-3), which the crate doesn't hear: every byte behind the word and at the line's end, each byte another, left out or said twice, cuts, records
    /// of such texts, and every item before and behind. Where no longer line stands, R-3's mode must say the same.
    fn connects(&mut self) {
        let empty = Table::default();
        for b in 0..=255 {
            self.digest(&empty, &[b"\r\nCONNECT", &[b][..], b"9600\r\n"].concat());
            self.digest(&empty, &[b"\r\nCONNECT 9600", &[b][..], b"\n"].concat());
        }
        for at in 0..LONGER.len() {
            let (front, behind) = (&LONGER[..at], &LONGER[at + 1..]);
            self.digest(&empty, &[front, b"x", behind].concat());
            self.digest(&empty, &[front, behind].concat());
            self.digest(&empty, &[front, &LONGER[at..at + 1], &LONGER[at..]].concat());
            for before in [&b""[..], b"\r\nERROR\r\n", b"\r\nCONNECT\r\n"] {
                self.digest(&empty, &[before, &LONGER[..=at]].concat());
            }
        }
        for mark in [b"UR", b"CS", b"CE", b"CP"] {
            for text in [&b"CONNECT"[..], b"CONNECT 9600", b"9600"] {
                let table = tables::of(&[(mark, text)]);
                for input in [LONGER, b"\r\nCONNECT\r\n", b"\r\nCONNECT 9600", b"\r\nCONNECT\t9600\r\n"] {
                    self.digest(&table, input);
                }
            }
        }
        let mut table = tables::of(&[(b"UR", b"+U"), (b"CS", b"SENT"), (b"CE", b"FAIL")]);
        tables::record(&mut table, b"CP", 1, b"=>");
        let mut items: Vec<Vec<u8>> = LINES.iter().map(|text| line(text)).collect();
        items.extend([line(b"+U: 1"), line(b"SENT"), line(b"FAIL"), b"\r\n=> ".to_vec(), b"\r\n> ".to_vec(), b"\r\n@".to_vec()]);
        for item in &items {
            for near in [LONGER, b"\r\nCONNECT\t9600\r\n", b"\r\nCONNECT 9600"] {
                self.digest(&table, &[&item[..], near].concat());
                self.digest(&table, &[near, &item[..]].concat());
            }
        }
    }

    /// A bare line, a longer one and one that isn't ended, behind as many bytes as bring it to each place of a block of 64, and at the end of 4,096.
    fn connects_far_on(&mut self) {
        let empty = Table::default();
        for said in [b"\r\nCONNECT\r\n", LONGER, b"\r\nBUSY\r\nCONNECT 96"] {
            for len in (40..=130).chain([4094 - said.len()]) {
                self.digest(&empty, &[b"\r\n", &vec![b'x'; len][..], said].concat());
            }
        }
        self.digest(&empty, &[b"\r\nCONNECT ", &[b'9'; 4086][..]].concat());
    }

    /// CONNECT through the ingress: cut at every place, byte by byte, in buffers that are too short for it, committed bit by bit, behind a notice that has to wait.
    fn connects_in_pieces(&mut self) {
        let one = tables::of(&[(b"UR", b"A")]);
        for said in [&b"\r\nab\r\nCONNECT\r\n"[..], b"\r\nab\r\nCONNECT 96\r\n"] {
            for cut in 0..said.len() {
                self.script(&one, 32, 4, OLD_RECORD, &[write(&said[..cut]), write(&said[cut..]), Op::Reset, write(&line(b"BUSY"))]);
            }
            let bytes: Vec<Op> = said.iter().map(|&b| Op::Put(vec![b])).collect();
            self.script(&one, 32, 4, OLD_RECORD, &bytes);
        }
        for buffer in 8..=18 {
            for said in [b"\r\nCONNECT\r\n", LONGER] {
                self.script(&one, buffer, 4, OLD_RECORD, &[write(said), Op::Over(0), Op::Clear, write(&line(b"OK"))]);
            }
        }
        for held in 1..=LONGER.len() {
            let left = [Op::Put(line(b"OK")), Op::Reset, write(&LONGER[..held]), Op::Over(1), Op::Clear, Op::Over(3)];
            self.script(&one, LONGER.len(), 4, OLD_RECORD, &left);
            let ops = vec![Op::Over(1); held];
            self.0.push(Case::Ingress { table: one.bytes.clone(), buffer: LONGER.to_vec(), slot: vec![b'.'; 4], queue: vec![b'.'; OLD_RECORD], ops });
        }
        for said in [b"\r\nCONNECT\r\n", LONGER, b"\r\nCONNECT 96"] {
            for way in [&[][..], &[Op::Over(0)], &[Op::Take, Op::Over(0)], &[Op::Take, Op::Write(b"\r\n".to_vec())]] {
                let held = [line(b"A"), line(b"A: 2"), said.to_vec()].concat();
                self.script(&one, 40, 4, RECORD, &[&[write(&held)], way].concat());
            }
        }
    }
}
