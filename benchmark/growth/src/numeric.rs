//! The numeric digester, of a modem in V0: its inputs, at any length, and how they are counted. The Rust hears nothing of them, so that ours stands alone.

use crate::shapes::{joined, letters, over_and_over, Shape};
use std::hint::black_box;

/// The lengths, in bytes: that of a short answer, and the two that show how work grows.
pub const LENS: [usize; 3] = [64, crate::LENS[0], crate::LENS[1]];

/// An answer with its echo; and what a walk from line to line, a look back for the last lone CR or a trim may find dear.
pub const SHAPES: [Shape; 12] = [
    Shape { name: "echo, many lines, `0\\r`", input: |len| lines(b"AT+CSQ\r", b"0\r", len) },
    Shape { name: "many lines, `2\\r`", input: |len| lines(b"", b"2\r", len) },
    Shape { name: "many lines, no code", input: |len| lines(b"", b"", len) },
    Shape { name: "one long line, `0\\r`", input: |len| joined(&[&letters(len - 4), b"\r\n0\r"]) },
    Shape { name: "no CR", input: letters },
    Shape { name: "spaces, CRLF, `0\\r`", input: |len| joined(&[&vec![b' '; len - 4], b"\r\n0\r"]) },
    Shape { name: "CRs", input: |len| vec![b'\r'; len] },
    Shape { name: "CRs, `0\\r`", input: |len| joined(&[&vec![b'\r'; len - 2], b"0\r"]) },
    Shape { name: "CRLFs", input: |len| over_and_over(b"\r\n", len) },
    Shape { name: "CRLFs, `0\\r`", input: |len| joined(&[&over_and_over(b"\r\n", len - 2), b"0\r"]) },
    // Whole texts behind a letter or two: one that was cut would be a code.
    Shape { name: "`0\\r\\n` over and over", input: |len| joined(&[&letters(len % 3), &b"0\r\n".repeat(len / 3)]) },
    Shape { name: "`5\\r` over and over", input: |len| over_and_over(b"5\r", len) },
];

/// `front`, lines of information, then `end`, `len` bytes in all: the first line is as much longer as is needed.
fn lines(front: &[u8], end: &[u8], len: usize) -> Vec<u8> {
    let line = b"+CSQ: 17,99\r\n";
    let room = len - front.len() - end.len();
    let (n, over) = (room / line.len(), room % line.len());
    joined(&[front, b"+CSQ: ", &vec![b'1'; over], &line[6..], &over_and_over(line, (n - 1) * line.len()), end])
}

/// Runs each shape at each length between the marks, and prints its name, `numeric` and the length. Answers of two kinds say nothing of how work grows, so they
/// are compared, and no call between the marks is the first.
///
/// `digest` is our call by the numeric digester, `paged` puts an input to the front of a page, `marked` sets the marks: what is measured calls them, and nothing
/// of this is compiled together with it.
pub fn count(digest: fn(&[u8], &mut [u64; 9]) -> u32, paged: fn(&[u8]) -> &'static [u8], marked: fn(&mut dyn FnMut())) -> Result<(), String> {
    for Shape { name, input } in SHAPES {
        let answers = LENS.map(|len| {
            let input = paged(&input(len));
            let mut out = [0; 9];
            assert_eq!(digest(input, &mut out), 0, "our numeric digest refused {name}");
            let [kind, number, ..] = out;
            println!("{name}\tnumeric\t{len}");
            marked(&mut || {
                let mut out = [0; 9];
                black_box(digest(black_box(input), &mut out));
                black_box(out);
            });
            (kind, number)
        });
        if answers.iter().any(|answer| *answer != answers[0]) {
            return Err(format!("the numeric digester's answers to {name} are of two kinds\n  at {LENS:?} bytes: {answers:?}"));
        }
    }
    Ok(())
}

#[cfg(test)]
mod tests {
    use super::*;

    #[test]
    fn a_shape_is_of_the_length_that_is_asked_for() {
        for shape in SHAPES {
            for len in LENS {
                assert_eq!((shape.input)(len).len(), len, "{}", shape.name);
            }
        }
    }
}
