//! Random bytes, in random pieces, through the ingress: after each call its answer, its buffer, slot and queue are what
//! digesting by hand makes of them.

mod streams;

use std::collections::VecDeque;
use streams::{Random, TABLES};
use walumbeex::{
    DigestResult, Digester, Ingress, InternalError, Refusal, ResetRefusal, Response, Table, LONGEST_NOTICE, NOTICE_RECORD, RING,
};

/// What an ingress does, said with a digester and the standard library's types.
struct Hand<'t> {
    digester: Digester<'t>,
    size: usize,
    slot_size: usize,
    queue_size: usize,
    buf: Vec<u8>,
    slot: Option<(String, u32)>,
    slot_lost: u64,
    serial: u32,
    queue: VecDeque<(u8, Vec<u8>)>,
    queue_lost: u64,
    texts: u64,
}

/// What a slot of so many bytes holds of an error's digits: all or none.
fn held(digits: &[u8], slot_size: usize) -> &[u8] {
    if digits.len() > slot_size {
        return b"";
    }
    digits
}

/// How a slot of so many bytes reads after an answer.
fn reading(result: DigestResult<'_>, slot_size: usize) -> String {
    let response = match result {
        DigestResult::Response(Ok(p)) if p.len() > slot_size => Response::CapacityError,
        DigestResult::Response(Ok(p)) => Response::Ok(p),
        DigestResult::Prompt(b) => Response::Prompt(b),
        DigestResult::Response(Err(e)) => match e {
            InternalError::Error => Response::OtherError,
            InternalError::CmeError { code, digits } => Response::CmeError { code, digits: held(digits, slot_size) },
            InternalError::CmsError { code, digits } => Response::CmsError { code, digits: held(digits, slot_size) },
            InternalError::Unknown { digits } => Response::UnknownError { digits: held(digits, slot_size) },
            InternalError::NotAllowed => Response::NotAllowedError,
            InternalError::ConnectionError(e) => Response::ConnectionError(e),
            InternalError::Custom { text, .. } if text.len() > slot_size => Response::CapacityError,
            InternalError::Custom { record, text } => Response::CustomError { record, text },
        },
        DigestResult::None | DigestResult::Urc(_) => unreachable!(),
    };
    format!("{response:?}")
}

/// Is it the text of the longer CONNECT line that these bytes end in? The line's CRLF is the first behind `CONNECT` and its space.
fn is_text(text: &[u8], consumed: &[u8]) -> bool {
    let line = [b"\r\nCONNECT ", text, b"\r\n"].concat();
    let crlf = line[10..].windows(2).position(|two| two == b"\r\n");
    consumed.ends_with(&line) && crlf == Some(text.len())
}

impl Hand<'_> {
    fn advance(&mut self, bytes: &[u8]) -> Result<(), Refusal> {
        self.buf.extend_from_slice(bytes);
        loop {
            let (result, text, consumed) = self.digester.digest_with_text(&self.buf)?;
            if !text.is_empty() {
                self.texts += 1;
                assert!(is_text(text, &self.buf[..consumed]) && matches!(result, DigestResult::Response(Ok(_))), "{result:?}");
            }
            match result {
                DigestResult::None => {}
                DigestResult::Urc(urc) => {
                    if urc.payload.is_empty() || urc.payload.len() > LONGEST_NOTICE {
                        self.queue_lost += 1;
                    } else if self.queue.len() == self.queue_size {
                        return Err(Refusal::QueueFull { taken: bytes.len() });
                    } else {
                        self.queue.push_back((urc.record, urc.payload.to_vec()));
                    }
                }
                _ if self.slot.is_some() => self.slot_lost += 1,
                _ => self.slot = Some((reading(result, self.slot_size), self.serial)),
            }
            self.buf.drain(..consumed);
            if consumed == 0 || self.buf.is_empty() {
                return Ok(());
            }
        }
    }

    fn write(&mut self, piece: &[u8]) -> Result<usize, Refusal> {
        let mut taken = 0;
        while taken < piece.len() && self.buf.len() < self.size {
            let n = usize::min(piece.len() - taken, self.size - self.buf.len());
            let done = self.advance(&piece[taken..taken + n]);
            taken += n;
            done.map_err(|_| Refusal::QueueFull { taken })?;
        }
        Ok(taken)
    }

    fn reset(&mut self, serial: u32) -> Result<(), ResetRefusal> {
        if serial == self.serial {
            return Err(ResetRefusal::Repeated { serial });
        }
        (self.slot, self.serial) = (None, serial);
        Ok(())
    }
}

/// What was met on the way, so that the test can say that it tried something.
#[derive(Default, Debug)]
struct Met {
    calls: u64,
    answers: u64,
    digits: u64,
    digits_left_out: u64,
    answers_lost: u64,
    texts: u64,
    rings: u64,
    notices: u64,
    notices_lost: u64,
    long_notices: u64,
    full: u64,
    no_room: u64,
    cleared: u64,
    resets: u64,
    repeated: u64,
}

impl Met {
    fn read(&mut self, response: Response<'_>) {
        self.answers += 1;
        match response {
            Response::CmeError { digits: [], .. }
            | Response::CmsError { digits: [], .. }
            | Response::UnknownError { digits: [] } => {
                self.digits_left_out += 1;
            }
            Response::CmeError { .. } | Response::CmsError { .. } | Response::UnknownError { .. } => self.digits += 1,
            _ => {}
        }
    }
}

fn run(seed: u64, met: &mut Met) {
    let mut r = Random(seed);
    let table = Table::new(r.one_of(&TABLES)).unwrap();
    let (digester, items) = r.digester(table);
    // Now and then a buffer for the longest notices, of which there are more then, in longer pieces.
    let long = r.below(4) == 0;
    let size = if long { 1024 + r.below(1000) } else { 1 + r.below(300) };
    let (slot_size, queue_size) = (r.below(40), 1 + r.below(3));
    let mut memory = (vec![0; size], vec![0; slot_size], vec![0; queue_size * NOTICE_RECORD + r.below(NOTICE_RECORD)]);
    let mut ingress = Ingress::new(digester, &mut memory.0, &mut memory.1, &mut memory.2).unwrap();
    let mut hand = Hand {
        digester,
        size,
        slot_size,
        queue_size,
        buf: Vec::new(),
        slot: None,
        slot_lost: 0,
        serial: 0,
        queue: VecDeque::new(),
        queue_lost: 0,
        texts: 0,
    };

    let bytes = r.stream(items, long);
    let mut rest = &bytes[..];
    let mut turns = 0;
    while !rest.is_empty() && turns < 500 {
        turns += 1;
        met.calls += 1;
        let longest = if long { 400 } else { 7 };
        let piece = &rest[..usize::min(rest.len(), 1 + r.below(if turns % 5 == 0 { 60 } else { longest }))];
        match r.below(8) {
            // By the buffer and a commit; what doesn't fit comes later.
            0..=2 => {
                let room = ingress.write_buf();
                let n = usize::min(piece.len(), room.len());
                room[..n].copy_from_slice(&piece[..n]);
                let said = ingress.try_advance(n);
                met.full += u64::from(said.is_err());
                assert_eq!(said, hand.advance(&piece[..n]), "seed {seed}");
                rest = &rest[n..];
            }
            3..=5 => {
                let said = ingress.try_write(piece);
                assert_eq!(said, hand.write(piece), "seed {seed}");
                let taken = match said {
                    Ok(taken) => taken,
                    Err(Refusal::QueueFull { taken }) => {
                        met.full += 1;
                        taken
                    }
                    Err(other) => panic!("seed {seed}: {other}"),
                };
                met.no_room += u64::from(taken < piece.len());
                rest = &rest[taken..];
            }
            6 => match ingress.notices.take().unwrap() {
                None => assert_eq!(hand.queue.pop_front(), None, "seed {seed}"),
                Some(urc) => {
                    met.notices += 1;
                    met.long_notices += u64::from(urc.payload.len() > 900);
                    met.rings += u64::from(urc.record == RING);
                    assert_eq!(hand.queue.pop_front(), Some((urc.record, urc.payload.to_vec())), "seed {seed}");
                }
            },
            // Now and then, and where no room is left.
            _ if r.below(20) == 0 || hand.buf.len() == size => {
                met.cleared += 1;
                ingress.clear();
                hand.buf.clear();
            }
            _ => {
                if let Some(response) = ingress.res_slot.try_get().unwrap() {
                    met.read(response);
                }
                // Now and then a number out of four, which may be the one in force.
                let serial = if r.below(3) == 0 { r.below(4) as u32 } else { hand.serial + 1 };
                let said = ingress.res_slot.reset(serial);
                met.resets += u64::from(said.is_ok());
                met.repeated += u64::from(said.is_err());
                assert_eq!(said, hand.reset(serial), "seed {seed}");
            }
        }
        assert_eq!(ingress.pending(), hand.buf, "seed {seed}");
        assert_eq!(ingress.write_buf().len(), size - hand.buf.len(), "seed {seed}");
        let held = ingress.res_slot.try_get_with_serial().unwrap().map(|(response, serial)| (format!("{response:?}"), serial));
        assert_eq!(held, hand.slot, "seed {seed}");
        assert_eq!(ingress.res_slot.lost(), hand.slot_lost, "seed {seed}");
        assert_eq!(ingress.res_slot.serial(), hand.serial, "seed {seed}");
        assert_eq!(ingress.state()[9], u64::from(hand.serial), "seed {seed}");
        assert_eq!(ingress.notices.len(), hand.queue.len(), "seed {seed}");
        assert_eq!(ingress.notices.lost(), hand.queue_lost, "seed {seed}");
    }
    assert!(hand.texts == 0 || digester == Digester::connect(table), "seed {seed}");
    met.texts += hand.texts;
    met.answers_lost += hand.slot_lost;
    met.notices_lost += hand.queue_lost;
}

#[test]
fn pieces_through_the_ingress_are_what_digesting_by_hand_makes_of_them() {
    let fresh = std::time::UNIX_EPOCH.elapsed().map_or(0, |t| t.as_nanos() as u64);
    let mut met = Met::default();
    for n in 0..3000 {
        run(n, &mut met);
        run(fresh.wrapping_add(n), &mut met);
    }
    println!("fresh seeds from {fresh}: {met:?}");
    let answers = [met.answers, met.digits, met.digits_left_out, met.answers_lost, met.texts, met.resets, met.repeated];
    let notices = [met.notices, met.long_notices, met.rings, met.notices_lost, met.full];
    let all = [&answers[..], &notices, &[met.no_room, met.cleared]].concat();
    assert!(all.iter().all(|&n| n > 100), "too few of something: {met:?}");
}

/// Is the last byte, blanks aside, a `>` or an `@`?
fn ends_as_a_prompt(bytes: &[u8]) -> bool {
    bytes.iter().rev().find(|b| !b" \t\r\n".contains(b)).is_some_and(|b| b">@".contains(b))
}

/// Answers that end in OK, notices between them and an error at the end are heard as digesting the whole capture hears them, if
/// no cut lies where the last byte before it, blanks aside, is `>` or `@`. (An error before an OK would hang on the cut too:
/// digested whole, the OK wins.)
#[test]
fn a_capture_is_heard_the_same_wherever_it_is_cut_but_behind_a_prompt_byte() {
    let capture = b"AT+CSQ\r\r\n+CSQ: 17,99\r\n\r\nOK\r\n\r\n+UUSORD: 0,4\r\nAT+CGDCONT?\r\r\n+CGDCONT: 1,\"IP\",\"me@apn\"\r\n\r\nOK\r\n\r\n+UUSORD\r\n\r\n<a>\r\n <b> c\r\nOK\r\nATD1\r\r\nNO CARRIER\r\n";
    let digester = Digester::new(Table::new(TABLES[1]).unwrap());
    let mut whole = Vec::new();
    let mut rest = &capture[..];
    while !rest.is_empty() {
        let (result, consumed) = digester.digest(rest).unwrap();
        assert!(consumed > 0);
        match result {
            DigestResult::Urc(urc) => whole.push(format!("{urc:?}")),
            DigestResult::None => {}
            _ => whole.push(reading(result, 64)),
        }
        rest = &rest[consumed..];
    }
    assert_eq!(whole.len(), 6, "{whole:?}");

    let no_prompt = |mut end: usize| {
        while ends_as_a_prompt(&capture[..usize::min(end, capture.len())]) {
            end += 1;
        }
        usize::min(end, capture.len())
    };
    let mut r = Random(7);
    let mut cuts = vec![false; capture.len() + 1];
    for round in 0..500 {
        let heard = in_pieces(digester, capture, |from| {
            // Short enough that no piece ends two items: the slot holds one answer.
            let end = no_prompt(from + if round == 0 { 1 } else { 1 + r.below(5) });
            cuts[end] = true;
            end
        });
        assert_eq!(heard, whole, "round {round}");
    }
    let missed = (1..=capture.len()).filter(|&at| cuts[at] == ends_as_a_prompt(&capture[..at]));
    assert_eq!(missed.collect::<Vec<_>>(), [], "every other cut was tried");

    // Behind the @ it is a prompt, and the answer's payload is gone.
    let at = capture.iter().position(|&b| b == b'@').unwrap() + 1;
    let heard = in_pieces(digester, capture, |from| if from < at { usize::min(from + 5, at) } else { no_prompt(from + 5) });
    assert_eq!(heard[2..4], [format!("{:?}", Response::Prompt(b'@')), format!("{:?}", Response::Ok(b""))]);
    assert_eq!((&heard[..2], &heard[4..]), (&whole[..2], &whole[3..]));
}

/// What an ingress hears of a capture whose pieces end where `next` says, given where they begin.
fn in_pieces(digester: Digester<'_>, capture: &[u8], mut next: impl FnMut(usize) -> usize) -> Vec<String> {
    let (mut buf, mut slot_mem, mut queue_mem) = ([0; 128], [0; 64], [0; NOTICE_RECORD]);
    let mut ingress = Ingress::new(digester, &mut buf, &mut slot_mem, &mut queue_mem).unwrap();
    let mut heard = Vec::new();
    let mut from = 0;
    while from < capture.len() {
        let end = next(from);
        assert_eq!(ingress.try_write(&capture[from..end]), Ok(end - from));
        from = end;
        if let Some(urc) = ingress.notices.take().unwrap() {
            heard.push(format!("{urc:?}"));
        }
        if let Some(response) = ingress.res_slot.try_get().unwrap() {
            heard.push(format!("{response:?}"));
            ingress.res_slot.reset_next().unwrap();
        }
    }
    assert_eq!((ingress.res_slot.lost(), ingress.pending()), (0, &b""[..]));
    heard
}
