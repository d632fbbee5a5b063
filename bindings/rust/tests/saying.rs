//! Answers written for a bench (R-12): their bytes, which are read back, the refusals, and what of the output stays.

mod streams;

use std::error::Error;
use streams::{Random, TABLES};
use walumbeex::{
    ConnectionError, DigestResult, Digester, Ingress, InternalError, Response, SayRefusal, Saying, Table, Urc, LONGEST_INPUT,
    NOTICE_RECORD,
};

/// What stands in the output before a call.
const WAS: u8 = b'.';

/// Writes an answer into an output of a length, of which what the answer doesn't take stays.
fn write(answer: Saying<'_>, table: Table<'_>, len: usize) -> Result<Vec<u8>, SayRefusal> {
    let mut output = vec![WAS; len];
    let said = answer.write(table, &mut output).map(<[u8]>::to_vec);
    let written = said.as_ref().map_or(&[][..], |bytes| bytes);
    assert!(output.starts_with(written) && output[written.len()..].iter().all(|b| *b == WAS), "{answer:?}");
    said
}

/// The bytes by R-12's words, whether they would be read back or not.
fn bytes(answer: Saying<'_>) -> Vec<u8> {
    let line = |text: &[u8]| [b"\r\n", text, b"\r\n"].concat();
    match answer {
        Saying::Ok(b"") => line(b"OK"),
        Saying::Ok(payload) => [line(payload), line(b"OK")].concat(),
        Saying::Prompt(byte) => vec![b'\r', b'\n', byte, b' '],
        Saying::CmeError(code) => line(format!("+CME ERROR: {code}").as_bytes()),
        Saying::CmsError(code) => line(format!("+CMS ERROR: {code}").as_bytes()),
        Saying::Error => line(b"ERROR"),
        Saying::NoCarrier => line(b"NO CARRIER"),
        Saying::Busy => line(b"BUSY"),
        Saying::NoAnswer => line(b"NO ANSWER"),
        Saying::NoDialtone => line(b"NO DIALTONE"),
        Saying::Urc(Urc { payload, .. }) => line(payload),
    }
}

/// Is it heard in the bytes, and are they consumed whole? A code's digits are those that were written.
fn is_heard(answer: Saying<'_>, table: Table<'_>, bytes: &[u8]) -> bool {
    let digits = match answer {
        Saying::CmeError(code) | Saying::CmsError(code) => code.to_string(),
        _ => String::new(),
    };
    let digits = digits.as_bytes();
    let error = |error| DigestResult::Response(Err(error));
    let connection = |how| error(InternalError::ConnectionError(how));
    let expected = match answer {
        Saying::Ok(payload) => DigestResult::Response(Ok(payload)),
        Saying::Prompt(byte) => DigestResult::Prompt(byte),
        Saying::CmeError(code) => error(InternalError::CmeError { code, digits }),
        Saying::CmsError(code) => error(InternalError::CmsError { code, digits }),
        Saying::Error => error(InternalError::Error),
        Saying::NoCarrier => connection(ConnectionError::NoCarrier),
        Saying::Busy => connection(ConnectionError::Busy),
        Saying::NoAnswer => connection(ConnectionError::NoAnswer),
        Saying::NoDialtone => connection(ConnectionError::NoDialtone),
        Saying::Urc(urc) => DigestResult::Urc(urc),
    };
    Digester::new(table).digest(bytes) == Ok((expected, bytes.len()))
}

/// Written exactly where it would be heard; then in an output of its length and no shorter one.
fn says(answer: Saying<'_>, table: Table<'_>) -> bool {
    let expected = bytes(answer);
    if !is_heard(answer, table, &expected) {
        for len in [0, LONGEST_INPUT] {
            assert_eq!(write(answer, table, len), Err(SayRefusal::NotReadBack), "{answer:?}");
        }
        return false;
    }
    for len in [expected.len(), LONGEST_INPUT] {
        assert_eq!(write(answer, table, len).as_ref(), Ok(&expected), "{answer:?}");
    }
    for len in [expected.len() - 1, 0] {
        assert_eq!(write(answer, table, len), Err(SayRefusal::TooShort), "{answer:?}");
    }
    true
}

fn table(bytes: &[u8]) -> Table<'_> {
    Table::new(bytes).unwrap()
}

fn urc(record: u8, payload: &[u8]) -> Saying<'_> {
    Saying::Urc(Urc { record, payload })
}

#[test]
fn the_runs_of_the_request() {
    let a = table(b"UR\x02+A");
    for (table, answer) in [
        (Table::empty(), Saying::Ok(b"OK")),
        (Table::empty(), Saying::Ok(b"a\r\nOK")),
        (Table::empty(), Saying::Ok(b" x")),
        (a, Saying::Ok(b"+A: 1")),
        (table(b"UR\x02+AUR\x02+A"), urc(1, b"+A")),
        (a, urc(0, b"+A 1")),
        (a, urc(0, b"+A: 1\r\nx")),
        (a, urc(255, b"+A")),
        (table(b"CS\x05ERROR"), Saying::Error),
        (table(b"CPx\x0210"), Saying::CmeError(10)),
        (table(b"CPx\x01Y"), Saying::Busy),
        (table(b"CP!\x01>"), Saying::Prompt(b'>')),
        (table(b"UR\x03> x"), Saying::Prompt(b'>')),
    ] {
        assert!(!says(answer, table), "{answer:?}");
    }
    for (table, answer, expected) in [
        (a, urc(0, b"+A:"), &b"\r\n+A:\r\n"[..]),
        (table(b"CP#\x01#"), Saying::Prompt(b'#'), b"\r\n# "),
        (table(b"CE\x02OK"), Saying::Ok(b""), b"\r\nOK\r\n"),
        (Table::empty(), Saying::Ok(b"a\r\nb"), b"\r\na\r\nb\r\n\r\nOK\r\n"),
        (Table::empty(), Saying::CmeError(10), b"\r\n+CME ERROR: 10\r\n"),
        (Table::empty(), Saying::NoDialtone, b"\r\nNO DIALTONE\r\n"),
    ] {
        assert!(says(answer, table), "{answer:?}");
        assert_eq!(write(answer, table, 64).unwrap(), expected);
    }
}

/// The closed form: what can be written over the empty table.
#[test]
fn over_the_empty_table() {
    let empty = Table::empty();
    for code in 0..=u16::MAX {
        assert!(says(Saying::CmeError(code), empty) && says(Saying::CmsError(code), empty), "{code}");
    }
    for answer in [Saying::Error, Saying::NoCarrier, Saying::Busy, Saying::NoAnswer, Saying::NoDialtone, Saying::Ok(b"")] {
        assert!(says(answer, empty), "{answer:?}");
    }
    let prompts: Vec<u8> = (0..=u8::MAX).filter(|byte| says(Saying::Prompt(*byte), empty)).collect();
    assert_eq!(prompts, b">@");
    assert!(!says(urc(0, b"RING"), empty));
    for byte in 0..=u8::MAX {
        let is_blank = b" \t\n\x0C\r".contains(&byte);
        for payload in [&[byte][..], &[byte, b'x'], &[b'x', byte]] {
            assert_eq!(says(Saying::Ok(payload), empty), !is_blank, "{}", payload.escape_ascii());
        }
    }
    let long = vec![b'a'; 70_000];
    for (len, is_written) in [(4085, true), (4086, true), (4087, false), (4096, false), (4097, false), (70_000, false)] {
        assert_eq!(says(Saying::Ok(&long[..len]), empty), is_written, "{len}");
    }
}

#[test]
fn the_longest_notice() {
    let mut line = vec![b'1'; 4093];
    line[..3].copy_from_slice(b"+A:");
    assert!(says(urc(0, &line[..4092]), table(b"UR\x02+A")));
    assert!(!says(urc(0, &line), table(b"UR\x02+A")));
}

#[test]
fn random_answers_are_written_exactly_where_they_are_read_back() {
    const TEXTS: [&[u8]; 16] = [
        b"", b"OK", b"\r\n", b" ", b"a", b"+UUSORD", b"RING", b": 0,4", b":", b"READY", b"FAULT", b"SEND:", b"+C", b"+CREG",
        b">", b"ERROR",
    ];
    let mut random = Random(12);
    let (mut written, mut refused) = (0, 0);
    for _ in 0..20_000 {
        let table = table(TABLES[random.below(TABLES.len())]);
        let payload = match random.below(8) {
            // what a modem sends, OK lines among it
            0 => {
                let (_, items) = random.digester(table);
                random.stream(items, false).trim_ascii().to_vec()
            }
            _ => (0..1 + random.below(3)).flat_map(|_| random.one_of(&TEXTS).to_vec()).collect(),
        };
        let answer = match random.below(12) {
            0..=3 => Saying::Ok(&payload),
            4..=7 => urc(random.below(4) as u8, &payload),
            8 => Saying::Prompt([b'>', b'@', b'$', random.next() as u8][random.below(4)]),
            9 => Saying::CmeError(random.next() as u16),
            10 => Saying::CmsError(random.below(1000) as u16),
            _ => [Saying::Error, Saying::NoCarrier, Saying::Busy, Saying::NoAnswer, Saying::NoDialtone][random.below(5)],
        };
        *(if says(answer, table) { &mut written } else { &mut refused }) += 1;
    }
    assert!(written > 5000 && refused > 5000, "{written} written, {refused} refused");
}

/// A bench: what is written is handed to an ingress, answer by answer.
#[test]
fn an_ingress_hears_what_is_written() {
    let table = table(b"UR\x05+CREG");
    let (mut buf, mut mem, mut queue_mem) = ([0; 256], [0; 64], [0; NOTICE_RECORD]);
    let mut ingress = Ingress::new(Digester::new(table), &mut buf, &mut mem, &mut queue_mem).unwrap();
    let mut output = [0; 64];
    ingress.try_write(urc(0, b"+CREG: 1").write(table, &mut output).unwrap()).unwrap();
    assert_eq!(ingress.notices.take().unwrap().unwrap(), Urc { record: 0, payload: b"+CREG: 1" });
    for (answer, expected) in [
        (Saying::Ok(b"+CSQ: 17,99"), Response::Ok(b"+CSQ: 17,99")),
        (Saying::Error, Response::OtherError),
        (Saying::CmsError(500), Response::CmsError { code: 500, digits: b"500" }),
        (Saying::Prompt(b'>'), Response::Prompt(b'>')),
    ] {
        ingress.try_write(answer.write(table, &mut output).unwrap()).unwrap();
        assert_eq!(ingress.res_slot.try_get(), Ok(Some(expected)));
        ingress.res_slot.reset_next().unwrap();
    }
}

#[test]
fn the_refusals_have_their_numbers_and_words() {
    let refusals = [SayRefusal::NotReadBack, SayRefusal::TooShort];
    assert_eq!(refusals.map(|r| r.number()), [16, 17]);
    let words = refusals.map(|r| (&r as &dyn Error).to_string());
    assert_eq!(words[0], "refused 16: a digest of the bytes would not hear this answer");
    assert_eq!(words[1], "refused 17: the output is shorter than the answer");
}
