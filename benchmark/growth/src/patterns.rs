//! A hundred patterns: short texts over and over, put together from pieces that the rules care about by a generator with a fixed seed, so that they are the
//! same in every run.

use std::collections::HashSet;
use std::fmt;

const PATTERNS: usize = 100;
const LONG: usize = 4096;
const SEED: u64 = 0x5eed_0001;

/// What a text is made of besides CRLF, which is a third of its pieces.
const PIECES: [&[u8]; 30] = [
    b"\r",
    b"\n",
    b" ",
    b"\t",
    b">",
    b"@",
    b"\r\n> ",
    b"OK",
    b"CONNECT",
    b"+CME ERROR:",
    b"+CMS ERROR:",
    b"MODEM ERROR:",
    b"7",
    b"70000",
    b"ERROR",
    b"COMMAND NOT SUPPORT",
    b"NO CARRIER",
    b"BUSY",
    b"NO ANSWER",
    b"NO DIALTONE",
    b"NA",
    b"+UUSORD",
    b"+UUSORD:",
    b"RING",
    b"SEND OK",
    b"SIM BUSY",
    b"login:",
    b":",
    b"+CSQ: 17,99",
    b"abc",
];

/// The records of the table under which every other pattern is digested: mark, a custom prompt's with its byte, and text.
pub const RECORDS: [(&str, &str); 5] = [("UR", "RING"), ("UR", "+UUSORD"), ("CS", "SEND OK"), ("CE", "SIM BUSY"), ("CP:", "login:")];

pub struct Pattern {
    /// Over and over.
    text: Vec<u8>,
    /// Over and over in the second half; where it is empty, `text` is.
    second: Vec<u8>,
    /// Once, at the end; often empty.
    tail: Vec<u8>,
    /// Under the table of `RECORDS`, or under the empty one.
    pub has_table: bool,
}

impl Pattern {
    /// So many bytes of it: whole texts, and before them as many letters as are left over, at least one. So two lengths begin and end alike, and the same rule
    /// answers them.
    pub fn input(&self, len: usize) -> Vec<u8> {
        let second = self.second.repeat((len / 2).checked_div(self.second.len()).unwrap_or(0));
        let rest = len - second.len() - self.tail.len();
        let first = self.text.repeat((rest - 1) / self.text.len());
        [vec![b'a'; rest - first.len()], first, second, self.tail.clone()].concat()
    }
}

impl fmt::Display for Pattern {
    fn fmt(&self, f: &mut fmt::Formatter) -> fmt::Result {
        write!(f, "`{}` over and over", escaped(&self.text))?;
        if !self.second.is_empty() {
            write!(f, ", from the half on `{}`", escaped(&self.second))?;
        }
        if !self.tail.is_empty() {
            write!(f, ", then `{}`", escaped(&self.tail))?;
        }
        Ok(())
    }
}

/// A text as a page can show it: a space is escaped, too, but for one between two letters or signs.
fn escaped(text: &[u8]) -> String {
    let is_shown = |i: usize| text.get(i).is_some_and(u8::is_ascii_graphic);
    let escaped_at = |i: usize| match text[i] {
        b' ' if i == 0 || !is_shown(i - 1) || !is_shown(i + 1) => "\\x20".to_owned(),
        byte => byte.escape_ascii().to_string(),
    };
    (0..text.len()).map(escaped_at).collect()
}

/// The patterns, of which no two give the same bytes behind a front of letters and a few texts.
pub fn all() -> Vec<Pattern> {
    let mut dice = Dice(SEED);
    let (mut all, mut seen) = (Vec::new(), HashSet::new());
    while all.len() < PATTERNS {
        let text = dice.text(6);
        let second = if dice.below(4) == 0 { dice.text(6) } else { Vec::new() };
        let tail = if dice.below(2) == 0 { dice.text(3) } else { Vec::new() };
        let pattern = Pattern { text, second, tail, has_table: all.len() % 2 == 1 };
        if seen.insert(pattern.input(LONG)[LONG / 4..].to_vec()) {
            all.push(pattern);
        }
    }
    all
}

/// A generator by xorshift.
struct Dice(u64);

impl Dice {
    fn below(&mut self, n: usize) -> usize {
        self.0 ^= self.0 << 13;
        self.0 ^= self.0 >> 7;
        self.0 ^= self.0 << 17;
        (self.0 % n as u64) as usize
    }

    /// A text of one piece to so many.
    fn text(&mut self, most: usize) -> Vec<u8> {
        let pieces = 1 + self.below(most);
        (0..pieces).flat_map(|_| if self.below(3) == 0 { b"\r\n" } else { PIECES[self.below(PIECES.len())] }).copied().collect()
    }
}

#[cfg(test)]
mod tests {
    use super::*;

    #[test]
    fn there_are_a_hundred_and_no_two_are_the_same() {
        let all = all();
        assert_eq!(all.len(), 100);
        for len in [LONG / 2, LONG] {
            assert_eq!(all.iter().map(|p| p.input(len)[len / 4..].to_vec()).collect::<HashSet<_>>().len(), 100, "as {len} bytes");
        }
        assert_eq!(all.iter().map(Pattern::to_string).collect::<HashSet<_>>().len(), 100, "as they are printed");
        assert_eq!(all.iter().filter(|p| p.has_table).count(), 50);
    }

    #[test]
    fn two_lengths_of_a_pattern_begin_and_end_alike() {
        let texts = |input: &[u8]| input.iter().skip_while(|&&b| b == b'a').take(512).copied().collect::<Vec<_>>();
        for p in all() {
            let (half, whole) = (p.input(LONG / 2), p.input(LONG));
            assert_eq!((half.len(), whole.len()), (LONG / 2, LONG), "{p}");
            assert_eq!((half[0], whole[0]), (b'a', b'a'), "{p}");
            assert_eq!(texts(&half), texts(&whole), "{p}");
            assert_eq!(half[LONG / 2 - 512..], whole[LONG - 512..], "{p}");
        }
    }
}
