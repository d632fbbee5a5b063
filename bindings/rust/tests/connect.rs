//! `CONNECT` with text behind it (R-3): what either digester hears of it, where the text stands, and that it frees a client.

use walumbeex::{DigestResult, Digester, Ingress, InternalError, Refusal, Response, Table, LONGEST_INPUT, NOTICE_RECORD};

fn ok(payload: &[u8]) -> DigestResult<'_> {
    DigestResult::Response(Ok(payload))
}

/// Inputs with a longer line that is heard: what stands before it, the text's place and the text, the bytes consumed; and what the
/// plain digester hears.
#[test]
fn a_longer_line_is_heard_by_connect_alone() {
    let (none, error) = (DigestResult::None, DigestResult::Response(Err(InternalError::Error)));
    for (input, payload, place, text, consumed, plain) in [
        (&b"\r\nCONNECT 9600\r\n"[..], &b""[..], 10, &b"9600"[..], 16, (none, 0)),
        // An echo before it: the place is that in the input.
        (b"ATD1\r\r\nCONNECT 9600\r\n", b"", 15, b"9600", 21, (none, 5)),
        // As it came: blanks, a lone CR, a lone LF.
        (b"\r\nCONNECT  9600 \r\n", b"", 10, b" 9600 ", 18, (none, 0)),
        (b"\r\nCONNECT a\rb\nc\r\r\n", b"", 10, b"a\rb\nc\r", 18, (none, 0)),
        // No text at all: as of a bare line.
        (b"\r\nCONNECT \r\n", b"", 0, b"", 12, (none, 0)),
        // The first of either form.
        (b"\r\nCONNECT 1\r\nCONNECT\r\n", b"", 10, b"1", 13, (ok(b"CONNECT 1"), 22)),
        (b"\r\nCONNECT 9600\r\n\r\nCONNECT\r\n", b"", 10, b"9600", 16, (ok(b"CONNECT 9600"), 27)),
        // A success before any error.
        (b"\r\nERROR\r\n\r\nCONNECT 1\r\n", b"ERROR", 19, b"1", 22, (error, 9)),
    ] {
        let digester = Digester::connect(Table::empty());
        assert_eq!(digester.digest_with_text(input), Ok((ok(payload), text, consumed)), "{}", input.escape_ascii());
        assert_eq!(digester.digest(input), Ok((ok(payload), consumed)), "{}", input.escape_ascii());
        // The text is the input's own bytes, and its line's CRLF is what else is consumed.
        let (_, part, _) = digester.digest_with_text(input).unwrap();
        assert_eq!(part.as_ptr_range(), input[place..place + text.len()].as_ptr_range(), "{}", input.escape_ascii());
        assert!(text.is_empty() || place + text.len() + 2 == consumed, "{}", input.escape_ascii());

        let digester = Digester::new(Table::empty());
        assert_eq!(digester.digest(input), Ok(plain), "{}", input.escape_ascii());
        assert_eq!(digester.digest_with_text(input), Ok((plain.0, &b""[..], plain.1)), "{}", input.escape_ascii());
    }
}

/// No longer line, none that is finished, or one that a success of a higher rank takes into its payload.
#[test]
fn either_digester_hears_the_same_of_the_rest() {
    let table = Table::new(b"UR\x07+UUSORDCS\x05READY").unwrap();
    for (input, result, consumed) in [
        (&b"\r\nCONNECT\r\n"[..], ok(b""), 11),
        (b"\r\nCONNECT\r\n\r\nCONNECT 9600\r\n", ok(b""), 11),
        (b"\r\nCONNECT 9600\r\n\r\nOK\r\n", ok(b"CONNECT 9600"), 22),
        (b"\r\nOK\r\n\r\nCONNECT 9600\r\n", ok(b""), 6),
        (b"\r\nCONNECT 1\r\n\r\nREADY\r\n", ok(b"CONNECT 1"), 22),
        (b"\r\nCONNECT\t9600\r\n", DigestResult::None, 0),
        (b"\r\nCONNECT9600\r\n", DigestResult::None, 0),
        (b"\r\nconnect 9600\r\n", DigestResult::None, 0),
        (b"\r\nCONNECT 9600\r", DigestResult::None, 0),
        (b"\r\nCONNECT 9600\n", DigestResult::None, 0),
        (b"\r\nCONNECT >", DigestResult::Prompt(b'>'), 11),
    ] {
        for digester in [Digester::new(table), Digester::connect(table)] {
            assert_eq!(digester.digest_with_text(input), Ok((result, &b""[..], consumed)), "{}", input.escape_ascii());
        }
    }
}

#[test]
fn no_new_refusal() {
    let long = [b'a'; LONGEST_INPUT + 1];
    let digester = Digester::connect(Table::empty());
    assert_eq!(digester.digest_with_text(&long[1..]), Ok((DigestResult::None, &b""[..], 0)));
    assert_eq!(digester.digest_with_text(&long), Err(Refusal::TooLong));
    // The longest text.
    let line = [&b"\r\nCONNECT "[..], &long[13..], b"\r\n"].concat();
    assert_eq!(line.len(), LONGEST_INPUT);
    assert_eq!(digester.digest_with_text(&line), Ok((ok(b""), &long[13..], LONGEST_INPUT)));
}

/// The client is freed by the digester that hears the line, in whatever pieces it comes; the text goes nowhere.
#[test]
fn a_longer_line_frees_a_client() {
    let line = b"ATD1\r\r\nCONNECT 9600\r\n";
    let table = Table::new(b"UR\x07+UUSORD").unwrap();
    for size in 1..=line.len() {
        for (digester, heard, left) in
            [(Digester::connect(table), Some(Response::Ok(b"")), &b""[..]), (Digester::new(table), None, &line[5..])]
        {
            let (mut buf, mut slot_mem, mut queue_mem) = ([0; 64], [b'z'; 8], [0; NOTICE_RECORD]);
            let mut ingress = Ingress::new(digester, &mut buf, &mut slot_mem, &mut queue_mem).unwrap();
            for piece in line.chunks(size) {
                assert!(!ingress.res_slot.signalled(), "pieces of {size}");
                assert_eq!(ingress.try_write(piece), Ok(piece.len()));
            }
            assert_eq!(ingress.res_slot.try_get(), Ok(heard), "pieces of {size}");
            assert_eq!(ingress.pending(), left, "pieces of {size}");

            // The same by the buffer and a commit, from numbers that were kept.
            ingress.res_slot.reset_next().unwrap();
            ingress.clear();
            let kept = ingress.state();
            let mut ingress = Ingress::with_state(digester, kept, &mut buf, &mut slot_mem, &mut queue_mem).unwrap();
            for piece in line.chunks(size) {
                assert!(!ingress.res_slot.signalled(), "pieces of {size}");
                ingress.write_buf()[..piece.len()].copy_from_slice(piece);
                assert_eq!(ingress.try_advance(piece.len()), Ok(()));
            }
            assert_eq!(ingress.res_slot.try_get(), Ok(heard), "pieces of {size}");
            assert_eq!(ingress.pending(), left, "pieces of {size}");
            assert_eq!(slot_mem, [b'z'; 8], "pieces of {size}");
        }
    }
}
