//! Refusals 1 to 5: exactly when, what they carry, and what they leave. A conversion's 13 is in convert.rs, a reset's 15 in
//! late.rs.

use walumbeex::{
    DigestResult, Digester, Ingress, MemoryError, NoticeQueue, Refusal, Response, ResponseSlot, Table, TableBuilder, TableError,
    Urc, LONGEST_INPUT, LONGEST_NOTICE, MOST_RECORDS, NOTICE_RECORD,
};

fn ring() -> Digester<'static> {
    Digester::new(Table::new(b"UR\x04RING").unwrap())
}

fn bad() -> Digester<'static> {
    Digester::unchecked(b"UR\x04RINGUR\x00")
}

/// Else a buffer would be refused by every call, or the way on after refusal 5 or a full buffer go round for ever.
#[test]
fn memory_that_can_never_work_is_refused_where_it_is_lent() {
    let new = |buf: usize, queue: usize| {
        let (mut buf, mut queue_mem) = (vec![0; buf], vec![0; queue]);
        Ingress::new(ring(), &mut buf, &mut [], &mut queue_mem).map(|_| ())
    };
    assert_eq!(new(LONGEST_INPUT, NOTICE_RECORD), Ok(()));
    assert_eq!(new(1, NOTICE_RECORD), Ok(()));
    assert_eq!(new(LONGEST_INPUT + 1, NOTICE_RECORD), Err(MemoryError::Buffer(4097)));
    assert_eq!(new(0, NOTICE_RECORD), Err(MemoryError::Buffer(0)));
    assert_eq!(new(1, NOTICE_RECORD - 1), Err(MemoryError::Queue(1028)));
    assert_eq!(new(0, 0), Err(MemoryError::Buffer(0)));
    assert_eq!(NoticeQueue::new(&mut [0; 1028]).unwrap_err(), MemoryError::Queue(1028));
    assert_eq!(NoticeQueue::new(&mut [0; 1029]).unwrap().capacity(), 1);
    let kept = Ingress::with_state(ring(), [0; 10], &mut [0; 8], &mut [], &mut []).map(|_| ());
    assert_eq!(kept, Err(MemoryError::Queue(0)));
}

#[test]
fn one_an_input_over_4096_bytes() {
    let long = [b'a'; LONGEST_INPUT + 1];
    let digester = Digester::default();
    assert_eq!(digester.digest(&long[1..]), Ok((DigestResult::None, 0)));
    assert_eq!(digester.digest(&long), Err(Refusal::TooLong));
    // The lowest number is given.
    assert_eq!(bad().digest(&long), Err(Refusal::TooLong));

    // A piece may be longer than a buffer.
    let piece: Vec<u8> = b"\r\n+CSQ: 17,99\r\n\r\nOK\r\n".repeat(300);
    let (mut buf, mut slot_mem, mut queue_mem) = ([0; LONGEST_INPUT], [0; LONGEST_INPUT], [0; NOTICE_RECORD]);
    let mut ingress = Ingress::new(digester, &mut buf, &mut slot_mem, &mut queue_mem).unwrap();
    assert!(piece.len() > LONGEST_INPUT);
    assert_eq!(ingress.try_write(&piece), Ok(piece.len()));
    assert_eq!(ingress.res_slot.try_get(), Ok(Some(Response::Ok(b"+CSQ: 17,99"))));
    assert_eq!(ingress.res_slot.lost(), 299);
}

#[test]
fn two_a_faulty_table_with_the_record() {
    assert_eq!(bad().digest(b"\r\nOK\r\n"), Err(Refusal::BadTable { record: 1 }));
    for (table, record) in [
        (&b"XX\x04RING"[..], 0),
        (b"UR\x04RIN", 0),
        (b"UR\x04RINGU", 1),
        (b"UR\x04RINGUR\x05 RING", 1),
        (b"UR\x04RINGCP>\x00", 1),
    ] {
        assert_eq!(Table::new(table), Err(Refusal::BadTable { record }), "{}", table.escape_ascii());
    }
    let mut many = b"UR\x01a".repeat(MOST_RECORDS);
    assert_eq!(Table::new(&many).unwrap().records(), 64);
    many.extend_from_slice(b"UR\x01a");
    let refusal = Table::new(&many).unwrap_err();
    assert_eq!(refusal, Refusal::BadTable { record: 64 });
    assert_eq!(refusal.to_string(), "refused 2: the token table has over 64 records");

    let (mut buf, mut queue_mem) = (*b"\r\nOK\r\n", [0; NOTICE_RECORD]);
    let mut ingress = Ingress::new(bad(), &mut buf, &mut [], &mut queue_mem).unwrap();
    assert_eq!(ingress.try_advance(6), Err(Refusal::BadTable { record: 1 }));
    assert_eq!(ingress.try_write(b"x"), Err(Refusal::BadTable { record: 1 }));
    assert_eq!(ingress.write_buf(), b"\r\nOK\r\n");
}

#[test]
fn three_numbers_that_dont_fit() {
    let new = [0, 0, 1, 0, 0, 0, 0, 0, 0, 0];
    // The end is past the buffer; a stored length past the slot's memory; the queue's start; its count.
    for (place, number) in [(0, 9), (4, 5), (6, 2), (7, 3)] {
        let mut state = new;
        state[place] = number;
        let (mut buf, mut slot_mem, mut queue_mem) = ([7; 8], [8; 4], [9; 2 * NOTICE_RECORD]);
        let mut ingress = Ingress::with_state(ring(), state, &mut buf, &mut slot_mem, &mut queue_mem).unwrap();
        assert_eq!(ingress.try_advance(0), Err(Refusal::BadState), "number {place}");
        assert_eq!(ingress.try_write(b"\r\nOK\r\n"), Err(Refusal::BadState), "number {place}");
        assert_eq!(ingress.res_slot.try_get().is_err(), place == 4);
        assert_eq!(ingress.res_slot.reset(7).is_err(), place == 4);
        assert_eq!(ingress.res_slot.reset_next().is_err(), place == 4);
        assert_eq!(ingress.res_slot.signal(&DigestResult::Prompt(b'>')).is_err(), place == 4);
        assert_eq!(ingress.notices.take().is_err(), place >= 6);
        assert_eq!(ingress.notices.put(0, b"x").is_err(), place >= 6);
        assert!(ingress.notices.len() <= ingress.notices.capacity(), "number {place}");
        if place == 0 {
            assert_eq!((ingress.write_buf().len(), ingress.pending().len()), (0, 0));
            ingress.clear();
            assert_eq!(ingress.try_advance(0), Ok(()));
        } else {
            assert_eq!(ingress.state()[place], number);
            assert_eq!(buf, [7; 8]);
        }
    }
    // The record to be taken, of 4 bytes, has a wrong mark (that of the old form too) or a wrong length; another damaged record is
    // no matter. At 3 is the length's high byte.
    for (damage, byte, refused) in [
        (0, b'u', true),
        (1, b'R', true),
        (4, 0, true),
        (4, 255, false),
        (3, 3, false),
        (3, 4, true),
        (NOTICE_RECORD, b'u', false),
        (NOTICE_RECORD + 3, 255, false),
    ] {
        let mut queue_mem = [0; 2 * NOTICE_RECORD];
        let mut queue = NoticeQueue::new(&mut queue_mem).unwrap();
        queue.put(0, b"RING").unwrap();
        queue.put(0, b"RING").unwrap();
        queue_mem[damage] = byte;
        let (mut buf, mut slot_mem) = ([0; 8], [0; 4]);
        let state = [0, 0, 1, 0, 0, 0, 0, 2, 0, 0];
        let mut ingress = Ingress::with_state(ring(), state, &mut buf, &mut slot_mem, &mut queue_mem).unwrap();
        let taken = ingress.notices.take();
        assert_eq!(taken == Err(Refusal::BadState), refused, "byte {damage} made {byte}: {taken:?}");
        assert_eq!(ingress.notices.len(), if refused { 2 } else { 1 });
    }
}

#[test]
fn four_a_commit_over_the_room() {
    let (mut buf, mut slot_mem, mut queue_mem) = ([0; 8], [0; 8], [0; NOTICE_RECORD]);
    let mut ingress = Ingress::new(ring(), &mut buf, &mut slot_mem, &mut queue_mem).unwrap();
    assert_eq!(ingress.try_write(b"abc"), Ok(3));
    for commit in [6, 7, usize::MAX] {
        assert_eq!(ingress.try_advance(commit), Err(Refusal::NoRoom));
    }
    assert_eq!(ingress.pending(), b"abc");
    assert_eq!(ingress.try_advance(5), Ok(()));
    assert_eq!(ingress.write_buf(), b"");
    // No room: a write takes nothing, and says so.
    assert_eq!(ingress.try_write(b"d"), Ok(0));
    ingress.clear();
    assert_eq!(ingress.write_buf().len(), 8);
}

#[test]
fn five_a_notice_meets_a_full_queue() {
    let (mut buf, mut slot_mem, mut queue_mem) = ([0; 12], [0; 8], [0; NOTICE_RECORD]);
    let mut ingress = Ingress::new(ring(), &mut buf, &mut slot_mem, &mut queue_mem).unwrap();
    // The buffer has room for 12: the first copy brings a notice and a half, the second the rest of it and more.
    let piece = b"\r\nRING\r\n\r\nRING\r\n\r\nOK\r\n";
    let refusal = ingress.try_write(piece).unwrap_err();
    let Refusal::QueueFull { taken } = refusal else { panic!("{refusal}") };
    assert_eq!(taken, 20);
    assert_eq!(ingress.pending(), &piece[8..20]);
    assert!(!ingress.res_slot.signalled());
    assert_eq!(refusal.number(), 5);
    assert!(refusal.to_string().starts_with("refused 5: the notice queue is full (20 bytes were taken"));
    // The same again: nothing moves.
    assert_eq!(ingress.try_advance(0), Err(Refusal::QueueFull { taken: 0 }));
    assert_eq!(ingress.try_write(&piece[taken..]), Ok(0));

    let urc = Urc { record: 0, payload: b"RING" };
    assert_eq!(ingress.notices.take(), Ok(Some(urc)));
    assert_eq!(ingress.try_advance(0), Ok(()));
    assert_eq!(ingress.try_write(&piece[taken..]), Ok(2));
    assert_eq!(ingress.notices.take(), Ok(Some(urc)));
    assert_eq!(ingress.notices.take(), Ok(None));
    assert_eq!(ingress.res_slot.try_get(), Ok(Some(Response::Ok(b""))));
    assert_eq!(ingress.pending(), b"");

    // Through try_advance the commit is what was taken.
    ingress.notices.put(0, b"RING").unwrap();
    ingress.write_buf()[..8].copy_from_slice(b"\r\nRING\r\n");
    assert_eq!(ingress.try_advance(8), Err(Refusal::QueueFull { taken: 8 }));
    assert_eq!(ingress.pending(), b"\r\nRING\r\n");
}

#[test]
fn a_notice_that_no_queue_holds_is_lost() {
    let mut queue_mem = [0; NOTICE_RECORD];
    let mut queue = NoticeQueue::new(&mut queue_mem).unwrap();
    queue.put(0, &[b'a'; LONGEST_NOTICE]).unwrap();
    // Lost also where the queue is full.
    queue.put(0, &[b'a'; LONGEST_NOTICE + 1]).unwrap();
    queue.put(0, b"").unwrap();
    assert_eq!((queue.len(), queue.lost(), queue.capacity()), (1, 2, 1));
    assert_eq!(queue.take().unwrap().unwrap().payload, &[b'a'; 1024]);
    assert!(queue.is_empty());
    assert_eq!(NoticeQueue::new(&mut vec![0; 17 * NOTICE_RECORD]).unwrap().capacity(), 16);
}

/// The mark, the table number, the length in two bytes, high byte first, the payload; no other byte changes.
#[test]
fn a_record_in_the_queues_memory() {
    for (len, head) in [
        (1, b"UX\x07\x00\x01"),
        (128, b"UX\x07\x00\x80"),
        (129, b"UX\x07\x00\x81"),
        (255, b"UX\x07\x00\xFF"),
        (256, b"UX\x07\x01\x00"),
        (900, b"UX\x07\x03\x84"),
        (1024, b"UX\x07\x04\x00"),
    ] {
        let payload = vec![b'p'; len];
        let mut queue_mem = [b'm'; 2 * NOTICE_RECORD];
        let mut expected = queue_mem;
        for record in expected.chunks_mut(NOTICE_RECORD) {
            record[..5].copy_from_slice(head);
            record[5..][..len].copy_from_slice(&payload);
        }
        let mut queue = NoticeQueue::new(&mut queue_mem).unwrap();
        queue.put(7, &payload).unwrap();
        queue.put(7, &payload).unwrap();
        for _ in 0..2 {
            assert_eq!(queue.take(), Ok(Some(Urc { record: 7, payload: &payload })), "{len} bytes");
        }
        assert_eq!(queue.take(), Ok(None));
        assert_eq!(queue.lost(), 0);
        assert_eq!(queue_mem, expected, "{len} bytes");
    }
}

/// As long as a notice can be, through an ingress: the digest hears the line, and the queue decides.
#[test]
fn an_ingress_delivers_a_notice_of_1024_bytes() {
    for (len, delivered) in [(128, true), (129, true), (900, true), (1024, true), (1025, false)] {
        let line = [&b"RING:"[..], &vec![b'x'; len - 5]].concat();
        let (mut buf, mut slot_mem, mut queue_mem) = ([0; 2048], [0; 8], [0; NOTICE_RECORD]);
        let mut ingress = Ingress::new(ring(), &mut buf, &mut slot_mem, &mut queue_mem).unwrap();
        let piece = [b"\r\n", &line[..], b"\r\n"].concat();
        assert_eq!(ingress.try_write(&piece), Ok(piece.len()));
        assert_eq!((ingress.notices.len(), ingress.notices.lost()), if delivered { (1, 0) } else { (0, 1) }, "{len} bytes");
        assert_eq!(ingress.notices.take(), Ok(delivered.then_some(Urc { record: 0, payload: &line })), "{len} bytes");
        assert_eq!(ingress.pending(), b"");
    }
}

#[test]
fn a_slot_too_small_reads_capacity_error() {
    let mut slot_mem = [b'z'; 4];
    let mut slot = ResponseSlot::new(&mut slot_mem);
    slot.signal(&DigestResult::Response(Ok(b"12345"))).unwrap();
    assert_eq!(slot.try_get(), Ok(Some(Response::CapacityError)));
    slot.reset_next().unwrap();
    slot.signal(&DigestResult::None).unwrap();
    slot.signal(&DigestResult::Urc(Urc { record: 0, payload: b"RING" })).unwrap();
    assert_eq!((slot.signalled(), slot.lost()), (false, 0));
    slot.signal(&DigestResult::Response(Ok(b"1234"))).unwrap();
    assert_eq!(slot.try_get(), Ok(Some(Response::Ok(b"1234"))));
}

/// Digits that are longer than the memory make no CapacityError: the error and its code are held without them.
#[test]
fn a_slot_too_small_leaves_the_digits_out() {
    use walumbeex::InternalError as E;
    let error = |e| DigestResult::Response(Err(e));
    for (size, held, memory) in [(3, &b""[..], *b"abcdef"), (4, b"0010", *b"0010ef"), (6, b"0010", *b"0010ef")] {
        let mut slot_mem = *b"abcdef";
        let mut slot = ResponseSlot::new(&mut slot_mem[..size]);
        slot.signal(&error(E::CmeError { code: 10, digits: b"0010" })).unwrap();
        // Lost: nothing but the count moves.
        slot.signal(&error(E::CmsError { code: 7, digits: b"07" })).unwrap();
        assert_eq!(slot.try_get(), Ok(Some(Response::CmeError { code: 10, digits: held })), "{size} bytes");
        assert_eq!(slot.lost(), 1);
        assert_eq!(slot_mem, memory, "{size} bytes");
    }
    for (answer, held) in [
        (E::CmsError { code: 500, digits: b"0500" }, Response::CmsError { code: 500, digits: b"" }),
        (E::Unknown { digits: b"0007" }, Response::UnknownError { digits: b"" }),
    ] {
        let mut slot_mem = [b'z'; 3];
        let mut slot = ResponseSlot::new(&mut slot_mem);
        slot.signal(&error(answer)).unwrap();
        assert_eq!(slot.try_get(), Ok(Some(held)));
    }
}

#[test]
fn an_ingress_hands_the_digits_on() {
    for (piece, response, memory) in [
        (&b"\r\n+CME ERROR: 0010\r\n"[..], Response::CmeError { code: 10, digits: b"0010" }, *b"0010ef"),
        (b"\r\n+CMS ERROR: 0000500\r\n", Response::CmsError { code: 500, digits: b"" }, *b"abcdef"),
        (b"\r\nMODEM ERROR:007\n", Response::UnknownError { digits: b"007" }, *b"007def"),
        (b"\r\nMODEM ERROR: 0000007\n", Response::UnknownError { digits: b"" }, *b"abcdef"),
    ] {
        let (mut buf, mut slot_mem, mut queue_mem) = ([0; 64], *b"abcdef", [0; NOTICE_RECORD]);
        let mut ingress = Ingress::new(ring(), &mut buf, &mut slot_mem, &mut queue_mem).unwrap();
        assert_eq!(ingress.try_write(piece), Ok(piece.len()));
        assert_eq!(ingress.res_slot.try_get(), Ok(Some(response)));
        assert_eq!(slot_mem, memory, "{}", piece.escape_ascii());
    }
}

#[test]
fn a_slot_reads_each_answer_as_it_was_signalled() {
    use walumbeex::{ConnectionError as C, InternalError as E};
    let error = |e| DigestResult::Response(Err(e));
    for (result, response) in [
        (DigestResult::Response(Ok(b"12")), Response::Ok(b"12")),
        (DigestResult::Prompt(b'$'), Response::Prompt(b'$')),
        (error(E::Error), Response::OtherError),
        (error(E::CmeError { code: 65535, digits: b"65535" }), Response::CmeError { code: 65535, digits: b"65535" }),
        (error(E::CmsError { code: 7, digits: b"007" }), Response::CmsError { code: 7, digits: b"007" }),
        (error(E::Unknown { digits: b"00" }), Response::UnknownError { digits: b"00" }),
        (error(E::NotAllowed), Response::NotAllowedError),
        (error(E::ConnectionError(C::NoCarrier)), Response::ConnectionError(C::NoCarrier)),
        (error(E::ConnectionError(C::NoDialtone)), Response::ConnectionError(C::NoDialtone)),
        (error(E::ConnectionError(C::Busy)), Response::ConnectionError(C::Busy)),
        (error(E::ConnectionError(C::NoAnswer)), Response::ConnectionError(C::NoAnswer)),
        (error(E::Custom { record: 63, text: b"FAULT" }), Response::CustomError { record: 63, text: b"FAULT" }),
    ] {
        let mut slot_mem = [0; 8];
        let mut slot = ResponseSlot::new(&mut slot_mem);
        slot.signal(&result).unwrap();
        assert_eq!(slot.try_get(), Ok(Some(response)));
    }
}

#[test]
fn the_builder_refuses_what_the_table_would() {
    let mut memory = [0; 20];
    let mut builder = TableBuilder::new(&mut memory);
    assert_eq!(builder.urc(b""), Err(TableError::TextLength(0)));
    assert_eq!(builder.urc(&[b'a'; 33]), Err(TableError::TextLength(33)));
    assert_eq!(builder.urc(b"a "), Err(TableError::TextByte(1)));
    assert_eq!(builder.urc(b"a\x7fb"), Err(TableError::TextByte(1)));
    assert_eq!(builder.custom_prompt(0xFF, b"a b"), Ok(0));
    assert_eq!(builder.urc(b"0123456789"), Ok(1));
    assert_eq!(builder.urc(b"a"), Err(TableError::MemoryFull(4)));
    let table = builder.finish();
    assert_eq!(table.as_bytes(), b"CP\xFF\x03a bUR\x0A0123456789");
    assert_eq!(Table::new(table.as_bytes()), Ok(table));

    let mut memory = [0; 300];
    let mut builder = TableBuilder::new(&mut memory);
    for number in 0..64 {
        assert_eq!(builder.custom_error(b"a"), Ok(number));
    }
    assert_eq!(builder.custom_error(b"a"), Err(TableError::TooManyRecords));
}
