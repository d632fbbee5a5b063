//! Calls with findings beside those without, on the same streams: after each both say the same and hold the same, however the
//! stream is cut and whatever calls come in between.

mod streams;

use streams::{Random, TABLES};
use walumbeex::{Digester, Ingress, Refusal, Response, Table, LONGEST_INPUT, NOTICE_RECORD};

/// What was met on the way, so that the test can say that it tried something.
#[derive(Default, Debug)]
struct Met {
    fed: u64,
    mixed: u64,
    answers: u64,
    notices: u64,
    full: u64,
    no_room: u64,
    cleared: u64,
}

/// Buffer, slot's memory and queue's, of which no byte is 0.
fn memory(sizes: [usize; 3]) -> [Vec<u8>; 3] {
    sizes.map(|size| vec![b'm'; size])
}

/// A stream through two ingresses, by calls without findings and by such with them, among which there are some without.
fn run(seed: u64, met: &mut Met) {
    let mut r = Random(seed);
    let table = Table::new(r.one_of(&TABLES)).unwrap();
    let (digester, items) = r.digester(table);
    let long = r.below(8) == 0;
    let size = if long { 1024 + r.below(1000) } else { 1 + r.below(300) };
    let sizes = [size, r.below(40), NOTICE_RECORD * (1 + r.below(2))];
    let ([mut buf, mut slot, mut queue], [mut fed_buf, mut fed_slot, mut fed_queue]) = (memory(sizes), memory(sizes));
    let mut plain = Ingress::new(digester, &mut buf, &mut slot, &mut queue).unwrap();
    let mut fed = Ingress::new(digester, &mut fed_buf, &mut fed_slot, &mut fed_queue).unwrap();

    let bytes = r.stream(items, long);
    let longest = if long { 100 } else { [1, 7][r.below(2)] };
    let (mut rest, mut turns) = (&bytes[..], 0);
    while !rest.is_empty() && turns < 2000 {
        turns += 1;
        let piece = &rest[..usize::min(rest.len(), 1 + r.below(longest))];
        match r.below(16) {
            0..=5 => {
                met.fed += 1;
                let said = plain.try_write(piece);
                assert_eq!(fed.try_feed(piece), said, "seed {seed}");
                let taken = match said {
                    Ok(taken) | Err(Refusal::QueueFull { taken }) => taken,
                    Err(other) => panic!("seed {seed}: {other}"),
                };
                met.full += u64::from(said.is_err());
                met.no_room += u64::from(taken < piece.len());
                rest = &rest[taken..];
            }
            6..=8 => {
                met.fed += 1;
                let n = usize::min(piece.len(), plain.write_buf().len());
                plain.write_buf()[..n].copy_from_slice(&piece[..n]);
                fed.write_buf()[..n].copy_from_slice(&piece[..n]);
                let said = plain.try_advance(n);
                assert_eq!(fed.try_feed_advance(n), said, "seed {seed}");
                met.full += u64::from(said.is_err());
                rest = &rest[n..];
            }
            // Without findings: the next call that has them makes them anew.
            9 => {
                met.mixed += 1;
                assert_eq!(fed.try_advance(0), plain.try_advance(0), "seed {seed}");
            }
            10 => {
                met.mixed += 1;
                let said = plain.try_write(piece);
                assert_eq!(fed.try_write(piece), said, "seed {seed}");
                if let Ok(taken) | Err(Refusal::QueueFull { taken }) = said {
                    rest = &rest[taken..];
                }
            }
            // Seldom, so that the queue is full now and then.
            11 if r.below(3) == 0 => {
                let notice = plain.notices.take();
                met.notices += u64::from(notice != Ok(None));
                assert_eq!(fed.notices.take(), notice, "seed {seed}");
            }
            12 if r.below(20) == 0 || plain.write_buf().is_empty() => {
                met.cleared += 1;
                plain.clear();
                fed.clear();
            }
            _ => {
                met.answers += u64::from(plain.res_slot.signalled());
                assert_eq!(fed.res_slot.reset_next(), plain.res_slot.reset_next(), "seed {seed}");
            }
        }
        assert_eq!(fed.state(), plain.state(), "seed {seed}");
        assert_eq!(fed.pending(), plain.pending(), "seed {seed}");
        assert_eq!(fed.res_slot.try_get_with_serial(), plain.res_slot.try_get_with_serial(), "seed {seed}");
    }
    assert!(fed_buf == buf && fed_slot == slot && fed_queue == queue, "seed {seed}: the memories differ");
}

#[test]
fn with_findings_is_what_it_is_without() {
    let fresh = std::time::UNIX_EPOCH.elapsed().map_or(0, |t| t.as_nanos() as u64);
    let mut met = Met::default();
    for n in 0..1500 {
        run(n, &mut met);
        run(fresh.wrapping_add(n), &mut met);
    }
    println!("fresh seeds from {fresh}: {met:?}");
    let all = [met.fed, met.mixed, met.answers, met.notices, met.full, met.no_room, met.cleared];
    assert!(all.iter().all(|&n| n > 100), "too few of something: {met:?}");
}

/// A listing that fills the longest buffer, and an answer behind what nothing finishes.
#[test]
fn a_listing_byte_by_byte() {
    let mut listing = b"AT+CPBR=1,99\r".to_vec();
    while listing.len() < LONGEST_INPUT - 40 {
        listing.extend_from_slice(b"\r\n+CPBR: 1,\"0123456789\",129,\"a\"");
    }
    listing.extend_from_slice(b"\r\n\r\nOK\r\n");
    let [mut buf, mut slot, mut queue] = memory([LONGEST_INPUT, LONGEST_INPUT, NOTICE_RECORD]);
    let mut ingress = Ingress::new(Digester::default(), &mut buf, &mut slot, &mut queue).unwrap();
    for (n, byte) in listing.iter().enumerate() {
        assert!(!ingress.res_slot.signalled(), "at byte {n}");
        assert_eq!(ingress.try_feed(&[*byte]), Ok(1));
    }
    let lines = &listing[15..listing.len() - 8];
    assert!(ingress.res_slot.try_get() == Ok(Some(Response::Ok(lines))), "the lines are the payload");
    assert_eq!(ingress.pending(), b"");

    for _ in 0..LONGEST_INPUT {
        assert_eq!(ingress.try_feed(b"a"), Ok(1));
    }
    assert_eq!(ingress.try_feed(b"a"), Ok(0));
    ingress.clear();
    ingress.res_slot.reset_next().unwrap();
    for byte in b"\r\nBUSY\r\n" {
        assert_eq!(ingress.try_feed(&[*byte]), Ok(1));
    }
    assert!(ingress.res_slot.signalled());
}

/// A state that was kept has no findings beside it: they are made anew, also where numbers don't fit.
#[test]
fn a_state_that_was_kept() {
    let digester = Digester::new(Table::new(TABLES[1]).unwrap());
    for held in [&b""[..], b"\r\nBUS", b"\r\n+CME ERROR: 1", b"x\r\n\r\n+CME ERROR: 70000\r\n\r\nBUS", b"\r\n+UUSORD: 1\r"] {
        for damage in [None, Some((0, 65)), Some((0, u64::MAX)), Some((4, 17)), Some((6, 1)), Some((7, 2))] {
            let sizes = [64, 16, NOTICE_RECORD];
            let ([mut buf, mut slot, mut queue], [mut fed_buf, mut fed_slot, mut fed_queue]) = (memory(sizes), memory(sizes));
            buf[..held.len()].copy_from_slice(held);
            fed_buf[..held.len()].copy_from_slice(held);
            let mut kept = [held.len() as u64, 0, 1, 0, 0, 0, 0, 0, 0, 7];
            if let Some((place, number)) = damage {
                kept[place] = number;
            }
            let mut plain = Ingress::with_state(digester, kept, &mut buf, &mut slot, &mut queue).unwrap();
            let mut fed = Ingress::with_state(digester, kept, &mut fed_buf, &mut fed_slot, &mut fed_queue).unwrap();
            for byte in b"Y\n0\r\n+UUSORD: 2\r\n\r\nOK\r\n" {
                assert_eq!(fed.try_feed(&[*byte]), plain.try_write(&[*byte]));
                assert_eq!(fed.try_feed_advance(0), plain.try_advance(0));
                assert_eq!(fed.try_feed(b""), plain.try_write(b""));
                assert_eq!(fed.try_feed_advance(65), plain.try_advance(65));
                assert_eq!(fed.state(), plain.state());
                assert_eq!(fed.pending(), plain.pending());
            }
            assert_eq!(fed_buf, buf);
            assert_eq!((fed_slot, fed_queue), (slot, queue));
        }
    }
}

/// A table that isn't good is refused as without findings, and what is there stays.
#[test]
fn a_faulty_table() {
    let [mut buf, mut slot, mut queue] = memory([64, 16, NOTICE_RECORD]);
    let mut ingress = Ingress::new(Digester::unchecked(b"UR\x04RINGUR\x00"), &mut buf, &mut slot, &mut queue).unwrap();
    assert_eq!(ingress.try_feed(b"x"), Err(Refusal::BadTable { record: 1 }));
    assert_eq!(ingress.try_feed_advance(1), Err(Refusal::BadTable { record: 1 }));
    assert_eq!(ingress.pending(), b"");
}
