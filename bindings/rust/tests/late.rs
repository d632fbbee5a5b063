//! Late answers: the slot's serial number, which resets it refuses with 15, what it tells and what it can't.

use std::error::Error;
use walumbeex::{DigestResult, Digester, Ingress, Refusal, ResetRefusal, Response, ResponseSlot, Table, Urc, NOTICE_RECORD};

/// Where the serial number stands in a state, behind the queue's numbers.
const SERIAL: usize = 9;

const SIGNAL_QUALITY: &[u8] = b"AT+CSQ\r\r\n+CSQ: 17,99\r\n\r\nOK\r\n";
const PLAIN: &[u8] = b"AT\r\r\nOK\r\n";

fn ring() -> Digester<'static> {
    Digester::new(Table::new(b"UR\x04RING").unwrap())
}

fn repeated(serial: u32) -> Result<(), ResetRefusal> {
    Err(ResetRefusal::Repeated { serial })
}

/// AT answers carry no serial number: the late answer of command 1 is stored under command 2's, and command 2's is lost.
#[test]
fn a_late_answer_bears_the_number_of_the_next_command() {
    let (mut buf, mut slot_mem, mut queue_mem) = ([0; 64], [0; 16], [0; NOTICE_RECORD]);
    let mut ingress = Ingress::new(ring(), &mut buf, &mut slot_mem, &mut queue_mem).unwrap();
    ingress.res_slot.reset(1).unwrap();
    assert_eq!(ingress.res_slot.try_get_with_serial(), Ok(None));
    ingress.res_slot.reset(2).unwrap();
    ingress.try_write(SIGNAL_QUALITY).unwrap();
    let late = Ok(Some((Response::Ok(b"+CSQ: 17,99"), 2)));
    assert_eq!(ingress.res_slot.try_get_with_serial(), late);
    ingress.try_write(PLAIN).unwrap();
    assert_eq!(ingress.res_slot.try_get_with_serial(), late);
    assert_eq!(ingress.res_slot.lost(), 1);
}

/// What a client can do: it waits for the line to be quiet, and resets then.
#[test]
fn a_late_answer_that_arrives_before_the_reset_is_freed_with_it() {
    let (mut buf, mut slot_mem, mut queue_mem) = ([0; 64], [0; 16], [0; NOTICE_RECORD]);
    let mut ingress = Ingress::new(ring(), &mut buf, &mut slot_mem, &mut queue_mem).unwrap();
    ingress.res_slot.reset(1).unwrap();
    ingress.try_write(SIGNAL_QUALITY).unwrap();
    assert_eq!(ingress.res_slot.try_get_with_serial(), Ok(Some((Response::Ok(b"+CSQ: 17,99"), 1))));
    ingress.res_slot.reset(2).unwrap();
    assert_eq!(ingress.res_slot.try_get_with_serial(), Ok(None));
    ingress.try_write(PLAIN).unwrap();
    assert_eq!(ingress.res_slot.try_get_with_serial(), Ok(Some((Response::Ok(b""), 2))));
    assert_eq!(ingress.res_slot.lost(), 0);
}

/// A reset frees the slot and not the buffer: half an answer there, or one behind a notice that waits for room, comes after it.
#[test]
fn what_lies_in_the_buffer_bears_the_next_number() {
    let (mut buf, mut slot_mem, mut queue_mem) = ([0; 64], [0; 16], [0; NOTICE_RECORD]);
    let mut ingress = Ingress::new(ring(), &mut buf, &mut slot_mem, &mut queue_mem).unwrap();
    ingress.res_slot.reset(1).unwrap();
    ingress.try_write(&SIGNAL_QUALITY[..20]).unwrap();
    ingress.res_slot.reset(2).unwrap();
    ingress.try_write(&SIGNAL_QUALITY[20..]).unwrap();
    assert_eq!(ingress.res_slot.try_get_with_serial(), Ok(Some((Response::Ok(b"+CSQ: 17,99"), 2))));

    ingress.res_slot.reset(3).unwrap();
    let piece = b"\r\nRING\r\n\r\nRING\r\n\r\nOK\r\n";
    assert_eq!(ingress.try_write(piece), Err(Refusal::QueueFull { taken: piece.len() }));
    ingress.res_slot.reset(4).unwrap();
    assert_eq!(ingress.notices.take(), Ok(Some(Urc { record: 0, payload: b"RING" })));
    assert_eq!(ingress.try_advance(0), Ok(()));
    assert_eq!(ingress.res_slot.try_get_with_serial(), Ok(Some((Response::Ok(b""), 4))));
}

/// Every number and byte stays, on a free slot and on a signalled one.
#[test]
fn fifteen_the_number_already_in_force() {
    for serial in [0, 1, 7, u32::MAX - 1, u32::MAX] {
        for signalled in [false, true] {
            let (mut buf, mut slot_mem, mut queue_mem) = ([0; 64], *b"abcdefgh", [0; NOTICE_RECORD]);
            let mut ingress = Ingress::new(ring(), &mut buf, &mut slot_mem, &mut queue_mem).unwrap();
            // A new slot has 0; to have it once more takes another between.
            for next in [9, serial] {
                ingress.res_slot.reset(next).unwrap();
            }
            ingress.try_write(b"\r\nRING\r\n\r\n+CME ERROR: 0010\r\n").unwrap();
            if !signalled {
                ingress.res_slot.reset(9).unwrap();
                ingress.res_slot.reset(serial).unwrap();
            }
            ingress.try_write(b"\r\nhalf").unwrap();
            let (before, held) = (ingress.state(), format!("{:?}", ingress.res_slot.try_get_with_serial()));
            assert_eq!(ingress.res_slot.signalled(), signalled);
            for _ in 0..2 {
                assert_eq!(ingress.res_slot.reset(serial), repeated(serial));
                assert_eq!(ingress.state(), before, "{serial}");
            }
            assert_eq!(before[SERIAL], u64::from(serial));
            assert_eq!(format!("{:?}", ingress.res_slot.try_get_with_serial()), held, "{serial}");
            assert_eq!(ingress.pending(), b"\r\nhalf");
            assert_eq!(slot_mem, *b"0010efgh", "{serial}");
            assert_eq!(&queue_mem[..9], b"UX\x00\x00\x04RING", "{serial}");
        }
    }
}

#[test]
fn a_new_slot_refuses_0() {
    let mut slot_mem = *b"abcd";
    let mut slot = ResponseSlot::new(&mut slot_mem);
    assert_eq!((slot.serial(), slot.reset(0)), (0, repeated(0)));
    slot.signal(&DigestResult::Response(Ok(b"xyz"))).unwrap();
    assert_eq!(slot.reset(0), repeated(0));
    assert_eq!(slot.try_get_with_serial(), Ok(Some((Response::Ok(b"xyz"), 0))));
    assert_eq!(slot_mem, *b"xyzd");
}

/// A client that repeats its reset would free the answer that has arrived since.
#[test]
fn a_second_reset_for_the_same_command_frees_nothing() {
    let (mut buf, mut slot_mem, mut queue_mem) = ([0; 64], [0; 16], [0; NOTICE_RECORD]);
    let mut ingress = Ingress::new(ring(), &mut buf, &mut slot_mem, &mut queue_mem).unwrap();
    ingress.res_slot.reset(1).unwrap();
    ingress.try_write(SIGNAL_QUALITY).unwrap();
    assert_eq!(ingress.res_slot.reset(1), repeated(1));
    assert_eq!(ingress.res_slot.try_get_with_serial(), Ok(Some((Response::Ok(b"+CSQ: 17,99"), 1))));
}

/// A lower number, 0 behind another, and one that was in force before the last.
#[test]
fn any_other_number_is_taken() {
    let mut slot_mem = [0; 8];
    let mut slot = ResponseSlot::new(&mut slot_mem);
    for serial in [1, 7, 3, 0, u32::MAX, u32::MAX - 1, 1 << 31, u32::MAX, 0, 1] {
        assert_eq!((slot.reset(serial), slot.serial()), (Ok(()), serial));
        assert_eq!((slot.reset(serial), slot.serial()), (repeated(serial), serial));
        slot.signal(&DigestResult::Response(Ok(b"xyz"))).unwrap();
        assert_eq!(slot.try_get_with_serial(), Ok(Some((Response::Ok(b"xyz"), serial))));
    }
    assert_eq!(slot.lost(), 0);
}

#[test]
fn three_before_fifteen() {
    for signalled in [0, 1] {
        let state = [0, signalled, 1, 0, 5, 0, 0, 0, 0, 7];
        let (mut buf, mut slot_mem, mut queue_mem) = ([0; 8], *b"abcd", [0; NOTICE_RECORD]);
        let mut ingress = Ingress::with_state(ring(), state, &mut buf, &mut slot_mem, &mut queue_mem).unwrap();
        for serial in [7, 8, 0] {
            assert_eq!(ingress.res_slot.reset(serial), Err(ResetRefusal::BadState));
        }
        assert_eq!(ingress.res_slot.reset_next(), Err(Refusal::BadState));
        assert_eq!(ingress.res_slot.try_get_with_serial(), Err(Refusal::BadState));
        assert_eq!((ingress.state(), ingress.res_slot.serial()), (state, 7));
        assert_eq!(slot_mem, *b"abcd");
    }
}

#[test]
fn the_next_number_after_the_last_is_0() {
    let mut slot = ResponseSlot::new(&mut []);
    assert_eq!((slot.reset_next(), slot.serial()), (Ok(1), 1));
    assert_eq!((slot.reset_next(), slot.serial()), (Ok(2), 2));
    slot.reset(u32::MAX - 1).unwrap();
    for serial in [u32::MAX, 0, 1] {
        assert_eq!(slot.reset_next(), Ok(serial));
        assert_eq!((slot.reset(serial), slot.serial()), (repeated(serial), serial));
    }
}

/// The number tells what was stored before a reset from what was stored after it, of every answer.
#[test]
fn an_answer_bears_the_number_in_force_when_it_was_stored() {
    let (mut buf, mut slot_mem, mut queue_mem) = ([0; 64], [0; 4], [0; NOTICE_RECORD]);
    let mut ingress = Ingress::new(ring(), &mut buf, &mut slot_mem, &mut queue_mem).unwrap();
    for (piece, response) in [
        (&b"\r\nOK\r\n"[..], Response::Ok(b"")),
        (b"\r\n1234\r\nOK\r\n", Response::Ok(b"1234")),
        (b"\r\n12345\r\nOK\r\n", Response::CapacityError),
        (b"\r\n> ", Response::Prompt(b'>')),
        (b"\r\n+CMS ERROR: 0500\r\n", Response::CmsError { code: 500, digits: b"0500" }),
        (b"\r\n+CMS ERROR: 00500\r\n", Response::CmsError { code: 500, digits: b"" }),
    ] {
        let before = ingress.res_slot.serial();
        ingress.try_write(piece).unwrap();
        assert_eq!(ingress.res_slot.try_get_with_serial(), Ok(Some((response, before))), "{}", piece.escape_ascii());
        assert_eq!(ingress.res_slot.try_get(), Ok(Some(response)), "{}", piece.escape_ascii());
        // The look changes nothing, and what comes now is lost.
        ingress.try_write(b"\r\nERROR\r\n").unwrap();
        assert_eq!(ingress.res_slot.try_get_with_serial(), Ok(Some((response, before))), "{}", piece.escape_ascii());
        let next = ingress.res_slot.reset_next().unwrap();
        assert_eq!((next, ingress.res_slot.serial()), (before + 1, before + 1));
        assert_eq!((ingress.res_slot.try_get_with_serial(), ingress.res_slot.try_get()), (Ok(None), Ok(None)));
    }
    assert_eq!(ingress.res_slot.lost(), 6);
}

/// No call but a reset changes it, also where one is refused, and none takes it from the queue's numbers.
#[test]
fn the_number_stands_still() {
    let (mut buf, mut slot_mem, mut queue_mem) = ([0; 32], [0; 16], [0; NOTICE_RECORD]);
    let mut ingress = Ingress::new(ring(), &mut buf, &mut slot_mem, &mut queue_mem).unwrap();
    // Twice, so that what the queue kept of the first round would show in the second.
    for serial in [7, 3] {
        let check = |ingress: &Ingress<'_>, what: &str| {
            assert_eq!((ingress.res_slot.serial(), ingress.state()[SERIAL]), (serial, u64::from(serial)), "{what}");
        };
        ingress.res_slot.reset(serial).unwrap();
        check(&ingress, "a reset");
        assert_eq!(ingress.notices.take(), Ok(None));
        check(&ingress, "a take from an empty queue");
        ingress.try_write(b"\r\nRING\r\n").unwrap();
        check(&ingress, "a write");
        assert_eq!(ingress.try_write(b"\r\nRING\r\n"), Err(Refusal::QueueFull { taken: 8 }));
        check(&ingress, "a write that is refused");
        assert_eq!(ingress.try_advance(0), Err(Refusal::QueueFull { taken: 0 }));
        assert_eq!(ingress.try_advance(33), Err(Refusal::NoRoom));
        check(&ingress, "an advance that is refused");
        assert_eq!(ingress.notices.take(), Ok(Some(Urc { record: 0, payload: b"RING" })));
        check(&ingress, "a take");
        assert_eq!(ingress.try_advance(0), Ok(()));
        check(&ingress, "an advance");
        assert_eq!(ingress.notices.put(0, b"RING"), Err(Refusal::QueueFull { taken: 0 }));
        ingress.notices.take().unwrap();
        ingress.notices.put(0, b"").unwrap();
        check(&ingress, "a put");
        ingress.res_slot.signal(&DigestResult::None).unwrap();
        ingress.res_slot.signal(&DigestResult::Prompt(b'>')).unwrap();
        ingress.res_slot.signal(&DigestResult::Response(Ok(b"lost"))).unwrap();
        check(&ingress, "a signal");
        ingress.try_write(b"half").unwrap();
        ingress.clear();
        check(&ingress, "a clear");
        assert_eq!(ingress.res_slot.try_get_with_serial(), Ok(Some((Response::Prompt(b'>'), serial))));
    }
}

/// Over a restart: the number in force, and what the answer bears.
#[test]
fn the_number_is_kept_in_the_state() {
    let (mut buf, mut slot_mem, mut queue_mem) = ([0; 64], [0; 16], [0; NOTICE_RECORD]);
    let mut ingress = Ingress::new(ring(), &mut buf, &mut slot_mem, &mut queue_mem).unwrap();
    assert_eq!(ingress.state(), [0, 0, 1, 0, 0, 0, 0, 0, 0, 0]);
    ingress.res_slot.reset(8).unwrap();
    ingress.try_write(b"\r\nRING\r\n\r\n+CME ERROR: 0010\r\n\r\nhal").unwrap();
    let kept = ingress.state();
    assert_eq!(kept, [5, 1, 3, 10, 4, 0, 0, 1, 0, 8]);

    let mut ingress = Ingress::with_state(ring(), kept, &mut buf, &mut slot_mem, &mut queue_mem).unwrap();
    assert_eq!(ingress.state(), kept);
    let error = Response::CmeError { code: 10, digits: b"0010" };
    assert_eq!(ingress.res_slot.try_get_with_serial(), Ok(Some((error, 8))));
    assert_eq!((ingress.res_slot.serial(), ingress.res_slot.reset(8)), (8, repeated(8)));
    assert_eq!(ingress.res_slot.reset_next(), Ok(9));
    // The slot's is the one that counts: the queue has kept 8.
    assert_eq!(ingress.notices.take(), Ok(Some(Urc { record: 0, payload: b"RING" })));
    assert_eq!(ingress.state(), [5, 0, 3, 10, 4, 0, 0, 0, 0, 9]);
}

/// Such a number reads as 4,294,967,295, and stays as it stood until a reset gives another.
#[test]
fn a_number_over_32_bits() {
    for over in [1 << 32, (1 << 32) + 6, (1 << 33) - 1, (1 << 33) - 2, u64::MAX - 1, u64::MAX] {
        for next in [Some(0), Some(6), Some(u32::MAX - 1), None] {
            let state = [0, 0, 1, 0, 0, 0, 0, 0, 0, over];
            let (mut buf, mut slot_mem, mut queue_mem) = ([0; 64], [0; 16], [0; NOTICE_RECORD]);
            let mut ingress = Ingress::with_state(ring(), state, &mut buf, &mut slot_mem, &mut queue_mem).unwrap();
            assert_eq!((ingress.res_slot.serial(), ingress.res_slot.reset(u32::MAX)), (u32::MAX, repeated(u32::MAX)));
            assert_eq!(ingress.state(), state);
            ingress.try_write(b"\r\nRING\r\n\r\nOK\r\n").unwrap();
            ingress.try_advance(0).unwrap();
            ingress.res_slot.signal(&DigestResult::Prompt(b'>')).unwrap();
            ingress.clear();
            assert_eq!(ingress.res_slot.try_get_with_serial(), Ok(Some((Response::Ok(b""), u32::MAX))));
            assert_eq!(ingress.res_slot.reset(u32::MAX), repeated(u32::MAX));
            assert_eq!(ingress.state(), [0, 1, 1, 0, 0, 1, 0, 1, 0, over]);
            let serial = match next {
                Some(serial) => ingress.res_slot.reset(serial).map(|()| serial).unwrap(),
                None => ingress.res_slot.reset_next().unwrap(),
            };
            assert_eq!(serial, next.unwrap_or(0));
            assert_eq!(ingress.state(), [0, 0, 1, 0, 0, 1, 0, 1, 0, u64::from(serial)]);
        }
    }
}

#[test]
fn a_resets_refusals_have_their_number_and_words() {
    for (refusal, number, words) in [
        (ResetRefusal::BadState, 3, "refused 3: the numbers of the state don't fit the memory lent"),
        (ResetRefusal::Repeated { serial: 7 }, 15, "refused 15: serial number 7 is already in force"),
        (ResetRefusal::Repeated { serial: u32::MAX }, 15, "refused 15: serial number 4294967295 is already in force"),
    ] {
        let error: &dyn Error = &refusal;
        assert_eq!((refusal.number(), error.to_string().as_str()), (number, words));
    }
    assert_eq!(ResetRefusal::BadState.to_string(), Refusal::BadState.to_string());
}
