//! A modem left in V0 (R-1): its codes, what stands before them, and a conversation with it through an ingress.

use walumbeex::{
    ConnectionError, DigestResult, Digester, Ingress, InternalError, Refusal, Response, Urc, LONGEST_INPUT, NOTICE_RECORD, RING,
};

const RUNG: DigestResult<'static> = DigestResult::Urc(Urc { record: RING, payload: b"2" });

fn ok(payload: &[u8]) -> DigestResult<'_> {
    DigestResult::Response(Ok(payload))
}

fn err(error: InternalError<'_>) -> DigestResult<'_> {
    DigestResult::Response(Err(error))
}

/// What is heard; no text ever.
fn heard(input: &[u8]) -> (DigestResult<'_>, usize) {
    let (result, text, consumed) = Digester::numeric().digest_with_text(input).expect("a short input isn't refused");
    assert_eq!(text, b"", "{}", input.escape_ascii());
    assert_eq!(Digester::numeric().digest(input), Ok((result, consumed)), "{}", input.escape_ascii());
    (result, consumed)
}

#[test]
fn each_code() {
    let connection = |e| err(InternalError::ConnectionError(e));
    for (input, result) in [
        (b"0\r", ok(b"")),
        (b"1\r", ok(b"")),
        (b"2\r", RUNG),
        (b"3\r", connection(ConnectionError::NoCarrier)),
        (b"4\r", err(InternalError::Error)),
        (b"5\r", DigestResult::None),
        (b"6\r", connection(ConnectionError::NoDialtone)),
        (b"7\r", connection(ConnectionError::Busy)),
        (b"8\r", connection(ConnectionError::NoAnswer)),
        (b"9\r", DigestResult::None),
    ] {
        let consumed = if result == DigestResult::None { 0 } else { 2 };
        assert_eq!(heard(input), (result, consumed), "{}", input.escape_ascii());
    }
}

/// The vectors of R-1, and what else it names.
#[test]
fn known_examples() {
    for (input, result, consumed) in [
        (&b"0\r"[..], ok(b""), 2),
        (b"0\r\n", DigestResult::None, 0),
        (b"0\r\n0\r", ok(b"0"), 5),
        (b"+CSQ: 17,99\r\n0\r", ok(b"+CSQ: 17,99"), 15),
        (b"AT+CSQ\r+CSQ: 17,99\r\n0\r", ok(b"+CSQ: 17,99"), 22),
        (b"0\r\r\n", ok(b""), 2),
        (b"2\r\n2\r", RUNG, 5),
        (b"4\r", err(InternalError::Error), 2),
        (b"x\r\r\n0\r", ok(b""), 6),
        // What stood before a RING goes with it, and what stands before an error isn't told.
        (b"+CSQ: 1\r\n2\r0\r", RUNG, 11),
        (b"+CSQ: 1\r\n4\r", err(InternalError::Error), 11),
        // The leftmost.
        (b"4\r0\r", err(InternalError::Error), 2),
        // A payload of two lines, trimmed, behind the last of two lone CRs.
        (b"a\rb\r \t\x0c\n+X: 1\r\n+X: 2 \r\n1\r", ok(b"+X: 1\r\n+X: 2"), 25),
        // No code; and nothing is skipped at the front.
        (b"", DigestResult::None, 0),
        (b"   ", DigestResult::None, 0),
        (b"0", DigestResult::None, 0),
        (b"10\r", DigestResult::None, 0),
        (b" 0\r", DigestResult::None, 0),
        (b"\n0\r", DigestResult::None, 0),
        (b"0 \r", DigestResult::None, 0),
        // What the others hear.
        (b"\r\nOK\r\n", DigestResult::None, 0),
        (b"\r\n+CME ERROR: 10\r\n", DigestResult::None, 0),
        (b"\r\n> ", DigestResult::None, 0),
    ] {
        assert_eq!(heard(input), (result, consumed), "{}", input.escape_ascii());
    }
}

/// A payload is the input's own bytes, a RING's the digit of the code and not one that stands before it.
#[test]
fn a_payload_is_a_part_of_the_callers_input() {
    for (input, place, len) in [(&b"AT+CSQ\r+CSQ: 17,99\r\n0\r"[..], 7, 11), (b"0\r\n0\r", 0, 1), (b"2\r\n2\r", 3, 1)] {
        let (DigestResult::Response(Ok(payload)) | DigestResult::Urc(Urc { payload, .. }), _) = heard(input) else {
            panic!("{} has no payload", input.escape_ascii())
        };
        assert_eq!(payload.as_ptr_range(), input[place..place + len].as_ptr_range(), "{}", input.escape_ascii());
    }
}

/// R-1 by position, slow and plain: the least line start that holds a code, and what that is.
fn plain(input: &[u8]) -> (DigestResult<'_>, usize) {
    let lone = |i: usize| input.get(i) == Some(&b'\r') && input.get(i + 1) != Some(&b'\n');
    let starts = |i: usize| i == 0 || lone(i - 1) || input[..i].ends_with(b"\r\n");
    let Some(code) = (0..input.len()).find(|&i| starts(i) && b"01234678".contains(&input[i]) && lone(i + 1)) else {
        return (DigestResult::None, 0);
    };
    let from = (0..code).rev().find(|&i| lone(i)).map_or(0, |i| i + 1);
    let is_blank = |b: &u8| b" \t\n\x0c\r".contains(b);
    let first = (from..code).find(|&i| !is_blank(&input[i])).unwrap_or(code);
    let end = (first..code).rev().find(|&i| !is_blank(&input[i])).map_or(first, |i| i + 1);
    let result = match input[code] {
        b'2' => DigestResult::Urc(Urc { record: RING, payload: &input[code..=code] }),
        b'3' => err(InternalError::ConnectionError(ConnectionError::NoCarrier)),
        b'4' => err(InternalError::Error),
        b'6' => err(InternalError::ConnectionError(ConnectionError::NoDialtone)),
        b'7' => err(InternalError::ConnectionError(ConnectionError::Busy)),
        b'8' => err(InternalError::ConnectionError(ConnectionError::NoAnswer)),
        _ => ok(&input[first..end]),
    };
    (result, code + 2)
}

/// Every input of up to six of these bytes: a code with a payload and one without, no code, the ends of lines, a blank and a letter.
#[test]
fn every_short_input_is_heard_as_the_plain_form_says() {
    let bytes = b"025\r\n x";
    let (mut inputs, mut codes) = (vec![Vec::new()], 0);
    for _ in 0..=6 {
        for input in &inputs {
            let said = plain(input);
            assert_eq!(heard(input), said, "{}", input.escape_ascii());
            codes += usize::from(said.1 > 0);
        }
        inputs = inputs.iter().flat_map(|input| bytes.iter().map(|&b| [&input[..], &[b]].concat())).collect();
    }
    assert!(codes > 5_000, "too few codes: {codes}");
}

#[test]
fn no_table_and_no_new_refusal() {
    let long = [b'\r'; LONGEST_INPUT + 1];
    assert_eq!(heard(&long[1..]), (DigestResult::None, 0));
    assert_eq!(Digester::numeric().digest(&long), Err(Refusal::TooLong));
    // The longest payload.
    let answer = [&[b'a'; LONGEST_INPUT - 4][..], b"\r\n0\r"].concat();
    assert_eq!(heard(&answer), (ok(&answer[..LONGEST_INPUT - 4]), LONGEST_INPUT));
    assert_ne!(Digester::numeric(), Digester::default());
}

/// What the modem sends on each command, its echo and RINGs in between, and what it answers.
const EXCHANGES: [(&[u8], Response<'static>); 6] = [
    (b"AT\r0\r", Response::Ok(b"")),
    (b"AT+CSQ\r+CSQ: 17,99\r\n0\r", Response::Ok(b"+CSQ: 17,99")),
    (b"2\rAT+X\r2\r4\r", Response::OtherError),
    (b"ATD1\r3\r", Response::ConnectionError(ConnectionError::NoCarrier)),
    (b"2\r2\rAT+CGMR\r1.0\r\nb2\r\n0\r", Response::Ok(b"1.0\r\nb2")),
    (b"ATA\r1\r", Response::Ok(b"")),
];

/// Writes a piece, all of it; how often a RING met the full queue, from which one is then taken.
fn written(ingress: &mut Ingress<'_>, piece: &[u8]) -> usize {
    let mut full = 0;
    let mut said = ingress.try_write(piece);
    while let Err(refusal) = said {
        assert_eq!(refusal, Refusal::QueueFull { taken: if full == 0 { piece.len() } else { 0 } });
        assert_eq!(ingress.notices.take(), Ok(Some(Urc { record: RING, payload: b"2" })));
        full += 1;
        said = ingress.try_advance(0).map(|()| piece.len());
    }
    assert_eq!(said, Ok(piece.len()));
    full
}

/// The conversation through an ingress with a queue for one notice, each exchange in the pieces that `cut` makes of it.
fn converse<'a>(cut: impl Fn(&'a [u8]) -> Vec<&'a [u8]>, what: &str) {
    let (mut buf, mut slot_mem, mut queue_mem) = ([0; 64], [0; 16], [0; NOTICE_RECORD]);
    let mut ingress = Ingress::new(Digester::numeric(), &mut buf, &mut slot_mem, &mut queue_mem).unwrap();
    let mut full = 0;
    for (bytes, answer) in EXCHANGES {
        assert_eq!(ingress.res_slot.try_get(), Ok(None), "{what}");
        full += cut(bytes).into_iter().map(|piece| written(&mut ingress, piece)).sum::<usize>();
        assert_eq!(ingress.res_slot.try_get(), Ok(Some(answer)), "{what}, {}", bytes.escape_ascii());
        assert_eq!(ingress.pending(), b"", "{what}, {}", bytes.escape_ascii());
        ingress.res_slot.reset_next().unwrap();
    }
    // Of four RINGs the first finds room.
    assert_eq!((full, ingress.notices.len()), (3, 1), "{what}");
    assert_eq!((ingress.res_slot.lost(), ingress.notices.lost()), (0, 0), "{what}");
}

#[test]
fn a_conversation_is_heard_the_same_wherever_it_is_cut() {
    let longest = EXCHANGES.map(|(bytes, _)| bytes.len()).into_iter().max().unwrap();
    for at in 0..=longest {
        converse(
            |bytes| {
                let (first, second) = bytes.split_at(at.min(bytes.len()));
                vec![first, second]
            },
            &format!("cut at {at}"),
        );
    }
    for size in 1..=longest {
        converse(|bytes| bytes.chunks(size).collect(), &format!("pieces of {size}"));
    }
}

/// Only in a line that is exactly one listed digit a cut between its CR and its LF changes what is heard.
#[test]
fn a_cut_between_cr_and_lf() {
    for (pieces, answer, left) in [
        (&[&b"0\r\n"[..]][..], None, &b"0\r\n"[..]),
        (&[b"0\r", b"\n"], Some(Response::Ok(b"")), b"\n"),
        (&[b"0\r\n0\r"], Some(Response::Ok(b"0")), b""),
        (&[b"0\r", b"\n0\r"], Some(Response::Ok(b"")), b"\n0\r"),
        // What is left of it goes with the next code, and not into its payload.
        (&[b"0\r", b"\n0\r", b"7\r"], Some(Response::Ok(b"")), b""),
        (&[b"5\r", b"\n0\r"], Some(Response::Ok(b"5")), b""),
        (&[b"10\r", b"\n0\r"], Some(Response::Ok(b"10")), b""),
        (&[b"0\r\n0", b"\r"], Some(Response::Ok(b"0")), b""),
    ] {
        let (mut buf, mut slot_mem, mut queue_mem) = ([0; 64], [0; 16], [0; NOTICE_RECORD]);
        let mut ingress = Ingress::new(Digester::numeric(), &mut buf, &mut slot_mem, &mut queue_mem).unwrap();
        for piece in pieces {
            assert_eq!(ingress.try_write(piece), Ok(piece.len()));
        }
        assert_eq!(ingress.res_slot.try_get(), Ok(answer), "{pieces:?}");
        assert_eq!(ingress.pending(), left, "{pieces:?}");
    }
}

/// By the buffer and a commit, from numbers that were kept; a payload that the slot's memory doesn't hold.
#[test]
fn an_ingress_goes_on_from_its_numbers() {
    let (mut buf, mut slot_mem, mut queue_mem) = ([0; 32], [b'z'; 4], [0; NOTICE_RECORD]);
    let mut ingress = Ingress::new(Digester::numeric(), &mut buf, &mut slot_mem, &mut queue_mem).unwrap();
    assert_eq!(ingress.try_write(b"2\rAT+CSQ\r+CSQ: 1"), Ok(16));
    let kept = ingress.state();
    let mut ingress = Ingress::with_state(Digester::numeric(), kept, &mut buf, &mut slot_mem, &mut queue_mem).unwrap();
    ingress.write_buf()[..4].copy_from_slice(b"\r\n0\r");
    assert_eq!(ingress.try_advance(19), Err(Refusal::NoRoom));
    assert_eq!(ingress.try_advance(4), Ok(()));
    assert_eq!(ingress.res_slot.try_get(), Ok(Some(Response::CapacityError)));
    assert_eq!(ingress.notices.take(), Ok(Some(Urc { record: RING, payload: b"2" })));
    assert_eq!(ingress.pending(), b"");
    assert_eq!(slot_mem, [b'z'; 4]);
}
