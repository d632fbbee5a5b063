//! The long inputs, at any length.

/// The line OK, with its CRLFs.
pub const OK: &[u8] = b"\r\nOK\r\n";

/// A text over and over, as many bytes as are asked for; the last may be cut.
pub fn over_and_over(text: &[u8], len: usize) -> Vec<u8> {
    text.iter().copied().cycle().take(len).collect()
}

pub fn joined(parts: &[&[u8]]) -> Vec<u8> {
    parts.concat()
}

/// Lines of an answer, then `end`, `len` bytes in all: the first line is as much longer as is needed.
pub fn lines(end: &[u8], len: usize) -> Vec<u8> {
    let line = b"\r\n+CSQ: 17,99\r\n";
    let room = len - end.len();
    let (n, over) = (room / line.len(), room % line.len());
    let first = joined(&[b"\r\n+CSQ: ", &vec![b'1'; over], &line[8..]]);
    joined(&[&first, &over_and_over(line, (n - 1) * line.len()), end])
}

pub fn letters(len: usize) -> Vec<u8> {
    over_and_over(b"abcdefghijklmnopqrstuvwxyz", len)
}

/// An input that can be had at any length.
pub struct Shape {
    pub name: &'static str,
    /// The input of so many bytes, at least 64.
    pub input: fn(usize) -> Vec<u8>,
}

/// The long inputs: workloads at 4,096 bytes, and at several lengths what shows how work grows.
pub const SHAPES: [Shape; 10] = [
    Shape { name: "one long line, OK", input: |len| joined(&[b"\r\n", &letters(len - 10), b"\r\n", OK]) },
    Shape { name: "one long line, no CRLF before it, OK", input: |len| joined(&[&letters(len - 6), OK]) },
    Shape { name: "many lines, OK", input: |len| lines(OK, len) },
    Shape { name: "many lines, OK not yet ended", input: |len| lines(&OK[..5], len) },
    Shape { name: "no CR", input: letters },
    Shape { name: "spaces", input: |len| vec![b' '; len] },
    Shape { name: "CRLFs", input: |len| over_and_over(b"\r\n", len) },
    Shape { name: "CRLF NO CRLF over and over", input: |len| over_and_over(b"\r\nNO\r\n", len) },
    Shape { name: "CRLF +CME ERROR over and over", input: |len| over_and_over(b"\r\n+CME ERROR", len) },
    Shape { name: "CRLF +CME ERROR: over and over", input: |len| over_and_over(b"\r\n+CME ERROR:", len) },
];

#[cfg(test)]
mod tests {
    use super::*;

    #[test]
    fn a_shape_is_of_the_length_that_is_asked_for() {
        for shape in SHAPES {
            for len in [64, 512, 1024, 2048, 4096] {
                assert_eq!((shape.input)(len).len(), len, "{}", shape.name);
            }
        }
    }
}
