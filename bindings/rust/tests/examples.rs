//! Every known example of the rules, and what the program atread prints for its example.

use walumbeex::{ConnectionError, DigestResult, Digester, InternalError, Table, TableBuilder, Urc};

fn ok(payload: &[u8]) -> DigestResult<'_> {
    DigestResult::Response(Ok(payload))
}

fn err(error: InternalError<'_>) -> DigestResult<'_> {
    DigestResult::Response(Err(error))
}

/// No input here has text behind CONNECT: either digester hears the same, and tells no text.
fn heard<'a>(table: Table<'_>, input: &'a [u8]) -> (DigestResult<'a>, usize) {
    let (result, consumed) = Digester::new(table).digest(input).expect("a good table and a short input aren't refused");
    assert_eq!(Digester::connect(table).digest_with_text(input), Ok((result, &b""[..], consumed)), "{}", input.escape_ascii());
    (result, consumed)
}

fn error(input: &[u8]) -> InternalError<'_> {
    match heard(Table::empty(), input) {
        (DigestResult::Response(Err(error)), _) => error,
        other => panic!("{} is no error: {other:?}", input.escape_ascii()),
    }
}

#[test]
fn known_examples_of_the_empty_table() {
    let cases: [(&[u8], DigestResult, usize); 16] = [
        (b"", DigestResult::None, 0),
        (b"   ", DigestResult::None, 3),
        (b"\r\nOK\r\n", ok(b""), 6),
        (b"\r\nERROR\r\n\r\nOK\r\n", ok(b"ERROR"), 15),
        (b"\r\n+CME ERROR: 65535\r\n", err(InternalError::CmeError { code: 65535, digits: b"65535" }), 21),
        (b"\r\n+CME ERROR: 65536\r\n", DigestResult::None, 0),
        (b"\r\n+CMS ERROR:\t7\n", err(InternalError::CmsError { code: 7, digits: b"7" }), 16),
        (b"\r\n+CME ERROR: 0010\r\n", err(InternalError::CmeError { code: 10, digits: b"0010" }), 20),
        (b"x\r\n+CME ERROR: 99999\r\n\r\n+CME ERROR: 0010\r\n", err(InternalError::CmeError { code: 10, digits: b"0010" }), 42),
        (b"\r\nMODEM ERROR:007\n", err(InternalError::Unknown { digits: b"007" }), 18),
        (b"\r\n+CMS ERROR:\r\n \t 00\r\n", err(InternalError::CmsError { code: 0, digits: b"00" }), 22),
        (b">\r\n", DigestResult::None, 1),
        (b"\r\na>b\r\n>", DigestResult::Prompt(b'>'), 8),
        (b"x\r\n\r\nNA\r\n", err(InternalError::NotAllowed), 9),
        (b"\r\nok\r\n", DigestResult::None, 0),
        (b"\r\nBUSY\r\n\r\nERROR\r\n", err(InternalError::Error), 17),
    ];
    for (input, result, consumed) in cases {
        assert_eq!(heard(Table::empty(), input), (result, consumed), "{}", input.escape_ascii());
    }
}

/// The digits are the input's own bytes, at the place where they stand.
#[test]
fn digits_are_a_part_of_the_callers_input() {
    for (input, place, len) in [
        (&b"\r\n+CME ERROR: 65535\r\n"[..], 14, 5),
        (b"\r\n+CMS ERROR:\t7\n", 14, 1),
        (b"\r\n+CME ERROR: 0010\r\n", 14, 4),
        (b"x\r\n+CME ERROR: 99999\r\n\r\n+CME ERROR: 0010\r\n", 36, 4),
        (b"\r\nMODEM ERROR:007\n", 14, 3),
        (b"\r\n+CMS ERROR:\r\n \t 00\r\n", 18, 2),
    ] {
        let (InternalError::CmeError { digits, .. } | InternalError::CmsError { digits, .. } | InternalError::Unknown { digits }) =
            error(input)
        else {
            panic!("{} is no numeric error", input.escape_ascii())
        };
        assert_eq!(digits.as_ptr_range(), input[place..place + len].as_ptr_range(), "{}", input.escape_ascii());
    }
}

#[test]
fn a_numeric_error_in_words_has_its_digits() {
    for (input, words) in [
        (&b"\r\n+CME ERROR: 0010\r\n"[..], "GSM Equipment related error 0010"),
        (b"\r\n+CMS ERROR: 500\r\n", "GSM Network related error 500"),
        (b"\r\nMODEM ERROR:007\n", "Modem error 007"),
    ] {
        assert_eq!(error(input).to_string(), words);
    }
    // With no digits it has its code.
    for (error, words) in [
        (InternalError::CmeError { code: 10, digits: b"" }, "GSM Equipment related error 10"),
        (InternalError::CmsError { code: 500, digits: b"" }, "GSM Network related error 500"),
        (InternalError::Unknown { digits: b"" }, "Modem error"),
    ] {
        assert_eq!(error.to_string(), words);
    }
}

#[test]
fn known_examples_with_a_notice() {
    let table = Table::new(b"UR\x07+UUSORD").unwrap();
    let cases: [(&[u8], DigestResult, usize); 3] = [
        (b"\r\nRING\r\n\r\n+UUSORD: 0,4\r\n", DigestResult::Urc(Urc { record: 0, payload: b"+UUSORD: 0,4" }), 24),
        (b"\r\n+UUSO", DigestResult::None, 0),
        (b"\r\n+UUSORD: >", DigestResult::Prompt(b'>'), 12),
    ];
    for (input, result, consumed) in cases {
        assert_eq!(heard(table, input), (result, consumed), "{}", input.escape_ascii());
    }
}

#[test]
fn the_example_of_atread() {
    let capture = b"AT+CSQ\r\r\n+CSQ: 17,99\r\n\r\nOK\r\n\r\n> ";
    let first = heard(Table::empty(), capture);
    assert_eq!(first, (ok(b"+CSQ: 17,99"), 28));
    assert_eq!(heard(Table::empty(), &capture[28..]), (DigestResult::Prompt(62), 4));
    assert_eq!(capture.len(), 32);
}

/// A line of each kind, whose case and number must come through the boundary as they are.
#[test]
fn every_kind() {
    let mut memory = [0; 64];
    let mut builder = TableBuilder::new(&mut memory);
    builder.urc(b"RING").unwrap();
    builder.custom_success(b"SHUT OK").unwrap();
    builder.custom_error(b"FAULT").unwrap();
    builder.custom_prompt(b'$', b"SEND:").unwrap();
    let table = builder.finish();
    let connection = |e| err(InternalError::ConnectionError(e));
    let cases: [(&[u8], DigestResult); 16] = [
        (b"\r\nRING\r\n", DigestResult::Urc(Urc { record: 0, payload: b"RING" })),
        (b"\r\nx\r\nSHUT OK\r\n", ok(b"x")),
        (b"\r\nx\r\nOK\r\n", ok(b"x")),
        (b"\r\nCONNECT\r\n", ok(b"")),
        (b"\r\nSEND:", DigestResult::Prompt(b'$')),
        (b"\r\n@", DigestResult::Prompt(b'@')),
        (b"\r\nFAULT\r\n", err(InternalError::Custom { record: 2, text: b"FAULT" })),
        (b"\r\n+CME ERROR: 0010\r\n", err(InternalError::CmeError { code: 10, digits: b"0010" })),
        (b"\r\n+CMS ERROR: 500\r\n", err(InternalError::CmsError { code: 500, digits: b"500" })),
        (b"\r\nMODEM ERROR: 3\r\n", err(InternalError::Unknown { digits: b"3" })),
        (b"\r\nCOMMAND NOT SUPPORT\r\n", err(InternalError::Error)),
        (b"\r\nNO CARRIER\r\n", connection(ConnectionError::NoCarrier)),
        (b"\r\nBUSY\r\n", connection(ConnectionError::Busy)),
        (b"\r\nNO ANSWER\r\n", connection(ConnectionError::NoAnswer)),
        (b"\r\nNO DIALTONE\r\n", connection(ConnectionError::NoDialtone)),
        (b"\r\nnothing", DigestResult::None),
    ];
    for (input, result) in cases {
        let consumed = if result == DigestResult::None { 0 } else { input.len() };
        assert_eq!(heard(table, input), (result, consumed), "{}", input.escape_ascii());
    }
}
