//! Random streams of what a modem sends, and tables for them.

use walumbeex::{Digester, Table};

/// A small generator (splitmix64).
pub struct Random(pub u64);

impl Random {
    pub fn next(&mut self) -> u64 {
        self.0 = self.0.wrapping_add(0x9E37_79B9_7F4A_7C15);
        let mut z = self.0;
        z = (z ^ (z >> 30)).wrapping_mul(0xBF58_476D_1CE4_E5B9);
        z = (z ^ (z >> 27)).wrapping_mul(0x94D0_49BB_1331_11EB);
        z ^ (z >> 31)
    }

    pub fn below(&mut self, n: usize) -> usize {
        (self.next() % n as u64) as usize
    }

    pub fn one_of<'a>(&mut self, from: &[&'a [u8]]) -> &'a [u8] {
        from[self.below(from.len())]
    }

    /// A digester, over the table where it takes one, and what is said to it.
    pub fn digester<'t>(&mut self, table: Table<'t>) -> (Digester<'t>, &'static [&'static [u8]]) {
        match self.below(3) {
            0 => (Digester::new(table), &ITEMS),
            1 => (Digester::connect(table), &ITEMS),
            _ => (Digester::numeric(), &V0_ITEMS),
        }
    }

    /// Up to 29 items, among them a few random bytes and notices of a hundred bytes and more; in a `long` stream there are more of
    /// these, and they are about as long as the longest that a queue holds.
    pub fn stream(&mut self, items: &[&[u8]], long: bool) -> Vec<u8> {
        let mut bytes = Vec::new();
        for _ in 0..self.below(30) {
            match self.below(if long { 6 } else { 12 }) {
                0 => bytes.extend((0..self.below(6)).map(|_| self.next() as u8)),
                1 => {
                    bytes.extend_from_slice(b"\r\n+UUSORD: ");
                    bytes.resize(bytes.len() + if long { 990 } else { 110 } + self.below(50), b'x');
                    bytes.extend_from_slice(b"\r\n");
                }
                _ => bytes.extend_from_slice(self.one_of(items)),
            }
        }
        bytes
    }
}

pub const TABLES: [&[u8]; 4] =
    [b"", b"UR\x07+UUSORD", b"UR\x04RINGUR\x07+UUSORDCS\x05READYCE\x05FAULTCP$\x05SEND:", b"CE\x02+CUR\x02+CUR\x05+CREG"];

const ITEMS: [&[u8]; 35] = [
    b"\r\nOK\r\n",
    b"\r\nERROR\r\n",
    b"\r\n+CSQ: 17,99\r\n",
    b"\r\n+CME ERROR: 10\r\n",
    b"\r\n+CMS ERROR:\t65535\n",
    b"\r\n+CME ERROR: 65536\r\n",
    b"\r\n+CMS ERROR: 0000000000000000000500\r\n",
    b"\r\nMODEM ERROR: 1\r\n",
    b"\r\nMODEM ERROR:0000000000000007\n",
    b"\r\nNO CARRIER\r\n",
    b"\r\nBUSY\r\n",
    b"\r\nNO ANSWER\r\n",
    b"\r\nNO DIALTONE\r\n",
    b"\r\nNA\r\n",
    b"\r\nCONNECT\r\n",
    b"\r\nCONNECT 9600\r\n",
    b"\r\nCONNECT  a\rb\nc \r\n",
    b"\r\nCONNECT ",
    b"\r\nCOMMAND NOT SUPPORT\r\n",
    b"\r\n> ",
    b"\r\n@",
    b">",
    b"AT+CSQ\r\r\n",
    b"\r\nRING\r\n",
    b"\r\n+UUSORD: 0,4\r\n",
    b"\n+UUSORD\r\n",
    b"\r\n+UUSORD:",
    b"\r\nREADY\r\n",
    b"\r\nFAULT\r\n",
    b"\r\nSEND:",
    b"\r\n+CREG: 1\r\n",
    b"\r\n+C\r\n",
    b"\r\n",
    b" ",
    b"a",
];

/// What a modem in V0 sends, and what it doesn't.
const V0_ITEMS: [&[u8]; 22] = [
    b"0\r",
    b"1\r",
    b"2\r",
    b"3\r",
    b"4\r",
    b"5\r",
    b"6\r",
    b"7\r",
    b"8\r",
    b"10\r",
    b"0\r\n",
    b"2\r\n",
    b"+CSQ: 17,99\r\n",
    b"AT+CSQ\r",
    b"\r\nOK\r\n",
    b"\r\n",
    b"\r",
    b"\n",
    b" ",
    b"0",
    b"2",
    b"a",
];
