//! The longer CONNECT line, which R-3's mode hears and the crate doesn't: it is where equality with the crate ends.

const HEAD: &[u8] = b"\r\nCONNECT ";

/// Does one stand in the input: CRLF, CONNECT, a space, and a CRLF at or behind that space's end? What is behind a later head is behind the first.
pub fn stands_in(input: &[u8]) -> bool {
    let first = input.windows(HEAD.len()).position(|w| w == HEAD);
    first.is_some_and(|at| input[at + HEAD.len()..].windows(2).any(|w| w == b"\r\n"))
}
