//! Queues that were kept in the form of before version 0.6.0: what a conversion writes and leaves, which it refuses with 3
//! and 13, and a program that goes on with one.

use std::error::Error;
use walumbeex::{
    convert_queue, ConvertRefusal, Digester, Ingress, NoticeQueue, Refusal, Response, Table, Urc, MOST_NOTICES, NOTICE_RECORD,
    OLD_NOTICE_RECORD, RING,
};

/// The places of the queue's numbers in a state.
const START: usize = 6;
const COUNT: usize = 7;
const LOST: usize = 8;

const BAD_STATE: ConvertRefusal = ConvertRefusal::BadState;

fn too_few(held: usize) -> ConvertRefusal {
    ConvertRefusal::TooFew { held }
}

/// A record of the old form, laid into the ring's place.
fn lay(old_mem: &mut [u8], place: usize, number: u8, payload: &[u8]) {
    let record = &mut old_mem[place * OLD_NOTICE_RECORD..];
    record[..4].copy_from_slice(&[b'U', b'R', number, payload.len() as u8]);
    record[4..][..payload.len()].copy_from_slice(payload);
}

/// An old memory of so many bytes, with a ring of three whose oldest record lies in its last place.
fn ring_of_three(len: usize) -> Vec<u8> {
    let mut old_mem = vec![b'o'; len];
    lay(&mut old_mem, 2, 0, b"+UUSORD: 1");
    lay(&mut old_mem, 0, RING, b"2");
    lay(&mut old_mem, 1, 63, b"+UUSORD: 3");
    old_mem
}

/// Numbers of which no two are alike, with this start, count and lost count.
fn kept(start: u64, count: u64, lost: u64) -> [u64; 10] {
    [70, 71, 72, 73, 74, 75, start, count, lost, 79]
}

/// A conversion that says so: at a refusal the new memory stays, else the other numbers do; the old memory can't change.
fn says(old: [u64; 10], old_mem: &[u8], len: usize, said: Result<(), ConvertRefusal>, what: &str) -> Vec<u8> {
    let mut mem = vec![b'n'; len];
    let state = convert_queue(&old, old_mem, &mut mem);
    let mut expected = old;
    expected[START] = 0;
    assert_eq!(state, said.map(|()| expected), "{what}");
    if said.is_err() {
        assert_eq!(mem, vec![b'n'; len], "{what}");
    }
    mem
}

#[test]
fn a_restart() {
    let (mut buf, mut slot_mem, mut queue_mem) = ([0; 64], [0; 16], [b'n'; 4 * NOTICE_RECORD + 9]);
    buf[..7].copy_from_slice(b"\r\n+UUSO");
    slot_mem[..4].copy_from_slice(b"0010");
    let old_mem = ring_of_three(3 * OLD_NOTICE_RECORD + 7);
    let state = convert_queue(&[7, 1, 3, 10, 4, 9, 2, 3, 5, 8], &old_mem, &mut queue_mem).unwrap();
    assert_eq!(state, [7, 1, 3, 10, 4, 9, 0, 3, 5, 8]);
    let mut expected = [b'n'; 4 * NOTICE_RECORD + 9];
    expected[..15].copy_from_slice(b"UX\x00\x00\x0A+UUSORD: 1");
    expected[1029..][..6].copy_from_slice(b"UX\xFF\x00\x012");
    expected[2058..][..15].copy_from_slice(b"UX\x3F\x00\x0A+UUSORD: 3");
    assert_eq!(queue_mem, expected);

    // The answer that was held is held, what waited comes in order, and the notice of which half had come goes behind it.
    let digester = Digester::new(Table::new(b"UR\x07+UUSORD").unwrap());
    let mut ingress = Ingress::with_state(digester, state, &mut buf, &mut slot_mem, &mut queue_mem).unwrap();
    let error = Response::CmeError { code: 10, digits: b"0010" };
    assert_eq!(ingress.res_slot.try_get_with_serial(), Ok(Some((error, 8))));
    assert_eq!((ingress.notices.len(), ingress.notices.lost(), ingress.res_slot.lost()), (3, 5, 9));
    assert_eq!(ingress.notices.take(), Ok(Some(Urc { record: 0, payload: b"+UUSORD: 1" })));
    ingress.res_slot.reset(9).unwrap();
    assert_eq!(ingress.try_write(b"RD: 4\r\n\r\nOK\r\n"), Ok(13));
    for (record, payload) in [(RING, &b"2"[..]), (63, b"+UUSORD: 3"), (0, b"+UUSORD: 4")] {
        assert_eq!(ingress.notices.take(), Ok(Some(Urc { record, payload })));
    }
    assert_eq!(ingress.notices.take(), Ok(None));
    assert_eq!(ingress.res_slot.try_get_with_serial(), Ok(Some((Response::Ok(b""), 9))));
    assert_eq!((ingress.pending(), ingress.notices.lost()), (&b""[..], 5));
}

/// The ring goes round its first sixteen places, however long the old memory is.
#[test]
fn sixteen_notices() {
    let (mut old_mem, mut expected) = (vec![b'o'; 17 * OLD_NOTICE_RECORD], vec![b'n'; 16 * NOTICE_RECORD]);
    for i in 0..16 {
        let (number, payload) = (if i == 15 { RING } else { i as u8 }, vec![b'a' + i as u8; 8 * (i + 1)]);
        lay(&mut old_mem, (15 + i) % 16, number, &payload);
        let record = &mut expected[i * NOTICE_RECORD..];
        record[..5].copy_from_slice(&[b'U', b'X', number, 0, payload.len() as u8]);
        record[5..][..payload.len()].copy_from_slice(&payload);
    }
    assert_eq!(says(kept(15, 16, 0), &old_mem, 16 * NOTICE_RECORD, Ok(()), "sixteen"), expected);
    expected.resize(20 * NOTICE_RECORD + 1, b'n');
    assert_eq!(says(kept(15, 16, 0), &old_mem, 20 * NOTICE_RECORD + 1, Ok(()), "sixteen, in more memory"), expected);
    says(kept(15, 16, 0), &old_mem, 16 * NOTICE_RECORD - 1, Err(too_few(16)), "sixteen, in less memory");
    says(kept(16, 0, 0), &old_mem, 0, Err(BAD_STATE), "a start in the seventeenth place");
    says(kept(0, 17, 0), &old_mem, 17 * NOTICE_RECORD, Err(BAD_STATE), "a count of seventeen");
}

/// Any new memory is good then, and no record is looked at.
#[test]
fn an_old_queue_that_holds_nothing() {
    for (old_len, starts) in [(0, 1), (131, 1), (132, 1), (263, 1), (264, 2), (16 * 132, 16), (17 * 132, 16)] {
        for start in 0..20 {
            let said = if start < starts { Ok(()) } else { Err(BAD_STATE) };
            for len in [0, 1, 1028, 1029] {
                let mem = says(kept(start, 0, 3), &vec![b'?'; old_len], len, said, &format!("{old_len} bytes, start {start}"));
                assert_eq!(mem, vec![b'n'; len]);
            }
        }
    }
}

#[test]
fn thirteen_exactly_where_the_new_memory_holds_fewer() {
    let old_mem = ring_of_three(3 * OLD_NOTICE_RECORD);
    for count in 1..=3 {
        let enough = count * NOTICE_RECORD;
        for len in [0, 1, 131, 132, 396, 1028, 1029, 1030, 2057, 2058, 3086, 3087, 3088, 5000] {
            let said = if len < enough { Err(too_few(count)) } else { Ok(()) };
            says(kept(2, count as u64, 0), &old_mem, len, said, &format!("{count} records into {len} bytes"));
        }
    }
}

/// Start and count by the old memory, before 13, and as they stand: none is cut to fewer bits.
#[test]
fn three_a_start_or_count_outside_its_bounds() {
    let over = 1 << 32;
    for len in [0, 3 * NOTICE_RECORD, 17 * NOTICE_RECORD] {
        let old_mem = ring_of_three(3 * OLD_NOTICE_RECORD);
        for start in [3, 4, 16, over, over + 1, u64::MAX] {
            says(kept(start, 1, 0), &old_mem, len, Err(BAD_STATE), &format!("start {start}"));
            says(kept(start, 0, 0), &old_mem, len, Err(BAD_STATE), &format!("start {start}, none held"));
        }
        for count in [4, 16, 17, over, over + 1, u64::MAX] {
            says(kept(0, count, 0), &old_mem, len, Err(BAD_STATE), &format!("count {count}"));
        }
        // One byte fewer is one record fewer.
        says(kept(2, 1, 0), &old_mem[1..], len, Err(BAD_STATE), "a start behind the memory");
        says(kept(1, 3, 0), &old_mem[1..], len, Err(BAD_STATE), "a count over the memory");
        for short in [0, 1, 131] {
            says(kept(0, 1, 0), &old_mem[..short], len, Err(BAD_STATE), "a count over no memory");
            says(kept(1, 0, 0), &old_mem[..short], len, Err(BAD_STATE), "a start in no memory");
        }
    }
}

/// Of every record that is held, the last too; and of no other. Before 13.
#[test]
fn three_a_held_record_that_is_damaged() {
    for place in 0..3 {
        for (at, byte, good) in [
            (0, b'u', false),
            (0, b'X', false),
            (1, b'X', false),
            (1, b'r', false),
            (2, 0, true),
            (2, 200, true),
            (3, 0, false),
            (3, 1, true),
            (3, 128, true),
            (3, 129, false),
            (3, 255, false),
        ] {
            for (start, count) in (0..3).flat_map(|start| (0..=3).map(move |count| (start, count))) {
                let mut old_mem = ring_of_three(3 * OLD_NOTICE_RECORD);
                old_mem[place * OLD_NOTICE_RECORD + at] = byte;
                let held = (0..count).any(|i| (start + i) % 3 == place);
                let what = format!("byte {at} of record {place} made {byte}, start {start}, count {count}");
                let old = kept(start as u64, count as u64, 0);
                let said = if held && !good { Err(BAD_STATE) } else { Ok(()) };
                says(old, &old_mem, count * NOTICE_RECORD, said, &what);
                if count > 0 {
                    says(old, &old_mem, count * NOTICE_RECORD - 1, said.and(Err(too_few(count))), &what);
                }
            }
        }
    }
}

/// The count goes along; over 32 bits it reads as 4,294,967,295, which it reads as already, and so stays as it stood.
#[test]
fn the_lost_count_goes_along() {
    let most = u64::from(u32::MAX);
    for lost in [0, 1, most - 1, most, most + 1, u64::MAX] {
        let mem = says(kept(1, 1, lost), &ring_of_three(396), NOTICE_RECORD, Ok(()), &format!("{lost} lost"));
        assert_eq!(&mem[..16], b"UX\x3F\x00\x0A+UUSORD: 3n");
    }
}

/// A queue of the other form, at its start: neither is taken for the other.
#[test]
fn the_two_forms_are_told_apart_at_start_0() {
    let mut old_mem = ring_of_three(2 * NOTICE_RECORD);
    let old = [0, 0, 1, 0, 0, 0, 0, 2, 0, 0];
    let (mut buf, mut queue_mem) = ([0; 8], vec![0; 2 * NOTICE_RECORD]);
    let state = convert_queue(&old, &old_mem, &mut queue_mem).unwrap();
    assert_eq!(convert_queue(&state, &queue_mem, &mut [0; 4 * NOTICE_RECORD]), Err(BAD_STATE));
    let mut ingress = Ingress::with_state(Digester::default(), old, &mut buf, &mut [], &mut old_mem).unwrap();
    assert_eq!(ingress.notices.take(), Err(Refusal::BadState));
    assert_eq!(ingress.notices.len(), 2);
}

#[test]
fn a_conversions_refusals_have_their_number_and_words() {
    for (refusal, number, words) in [
        (BAD_STATE, 3, "refused 3: the numbers and the memory that were kept are no queue of the old form"),
        (too_few(1), 13, "refused 13: the new memory is too short: the notices held (1) take 1029 bytes"),
        (too_few(16), 13, "refused 13: the new memory is too short: the notices held (16) take 16464 bytes"),
    ] {
        let error: &dyn Error = &refusal;
        assert_eq!((refusal.number(), error.to_string().as_str()), (number, words));
    }
}

/// A small generator (xorshift64).
struct Random(u64);

impl Random {
    fn next(&mut self) -> u64 {
        self.0 ^= self.0 << 13;
        self.0 ^= self.0 >> 7;
        self.0 ^= self.0 << 17;
        self.0
    }

    fn below(&mut self, n: usize) -> usize {
        (self.next() % n as u64) as usize
    }
}

/// A conversion, said with the standard library's types and the change request's numbers: the records that the old queue holds,
/// in order, each then written into its place.
fn by_hand(old: &[u64; 10], old_mem: &[u8], mem: &mut [u8]) -> Result<[u64; 10], ConvertRefusal> {
    let places: Vec<&[u8]> = old_mem.chunks_exact(132).take(16).collect();
    let (start, count) = (old[6], old[7]);
    if start >= u64::max(places.len() as u64, 1) || count > places.len() as u64 {
        return Err(BAD_STATE);
    }
    let held: Vec<&[u8]> = places.iter().copied().cycle().skip(start as usize).take(count as usize).collect();
    if held.iter().any(|record| !record.starts_with(b"UR") || !(1..=128).contains(&record[3])) {
        return Err(BAD_STATE);
    }
    if usize::min(mem.len() / 1029, 16) < held.len() {
        return Err(too_few(held.len()));
    }
    for (record, room) in held.iter().zip(mem.chunks_exact_mut(1029)) {
        let payload = &record[4..][..record[3].into()];
        let new = [&[b'U', b'X', record[2], 0, record[3]], payload].concat();
        room[..new.len()].copy_from_slice(&new);
    }
    let mut state = *old;
    state[6] = 0;
    Ok(state)
}

/// What was met on the way, so that the test can say that it tried something.
#[derive(Default, Debug)]
struct Met {
    good: u64,
    empty: u64,
    wrapped: u64,
    bad_state: u64,
    too_few: u64,
}

fn run(r: &mut Random, met: &mut Met) {
    let seed = r.0;
    let old_len = r.below(18) * OLD_NOTICE_RECORD + r.below(OLD_NOTICE_RECORD);
    let mut old_mem: Vec<u8> = (0..old_len).map(|_| r.next() as u8).collect();
    for record in old_mem.chunks_exact_mut(OLD_NOTICE_RECORD) {
        record[..2].copy_from_slice(b"UR");
        record[3] = [1, 1 + r.below(128) as u8, 128][r.below(3)];
    }
    // Now and then a byte of a head that is another.
    let capacity = usize::min(old_mem.len() / OLD_NOTICE_RECORD, MOST_NOTICES);
    if capacity > 0 && r.below(3) == 0 {
        let at = r.below(capacity) * OLD_NOTICE_RECORD + r.below(4);
        old_mem[at] = [0, b'X', 129, 255, r.next() as u8][r.below(5)];
    }
    let mut old = [(); 10].map(|()| r.next() >> r.below(64));
    let spare = usize::from(r.below(8) == 0);
    (old[START], old[COUNT]) = (r.below(usize::max(capacity, 1) + spare) as u64, r.below(capacity + 1 + spare) as u64);

    let len = usize::min(r.below(18), r.below(19)) * NOTICE_RECORD + [0, r.below(NOTICE_RECORD), NOTICE_RECORD - 1][r.below(3)];
    let len = if r.below(3) == 0 { len } else { old[COUNT] as usize * NOTICE_RECORD + r.below(2) };
    let mut mem: Vec<u8> = (0..len).map(|_| r.next() as u8).collect();
    let (mut expected, as_read) = (mem.clone(), old_mem.clone());
    let said = convert_queue(&old, &old_mem, &mut mem);
    assert_eq!(said, by_hand(&old, &old_mem, &mut expected), "seed {seed}");
    assert!(mem == expected && old_mem == as_read, "seed {seed}: {said:?}");
    match said {
        Err(ConvertRefusal::BadState) => met.bad_state += 1,
        Err(ConvertRefusal::TooFew { .. }) => met.too_few += 1,
        Ok(_) if old[COUNT] == 0 => met.empty += 1,
        Ok(state) => {
            met.good += 1;
            met.wrapped += u64::from((old[START] + old[COUNT]) as usize > capacity);
            taken_in_order(state, mem, &old, &old_mem, capacity, seed);
        }
    }
}

/// The queue's own take gives what the old one held, oldest first, and then nothing.
fn taken_in_order(mut state: [u64; 10], mut mem: Vec<u8>, old: &[u64; 10], old_mem: &[u8], capacity: usize, seed: u64) {
    let (mut buf, mut slot_mem) = ([0; 8], [0; 8]);
    // What isn't the queue's is any number here.
    state[..6].fill(0);
    let mut ingress = Ingress::with_state(Digester::default(), state, &mut buf, &mut slot_mem, &mut mem).unwrap();
    for i in 0..old[COUNT] as usize {
        let record = &old_mem[(old[START] as usize + i) % capacity * OLD_NOTICE_RECORD..];
        let urc = Urc { record: record[2], payload: &record[4..][..record[3].into()] };
        assert_eq!(ingress.notices.take(), Ok(Some(urc)), "seed {seed}, notice {i}");
    }
    assert_eq!(ingress.notices.take(), Ok(None), "seed {seed}");
    assert_eq!(ingress.notices.lost(), old[LOST], "seed {seed}");
}

#[test]
fn old_queues_are_converted_as_by_hand() {
    let fresh = std::time::UNIX_EPOCH.elapsed().map_or(1, |t| t.as_nanos() as u64) | 1;
    let mut met = Met::default();
    for seed in [0x2545_F491_4F6C_DD1D, fresh] {
        let mut r = Random(seed);
        for _ in 0..3000 {
            run(&mut r, &mut met);
        }
    }
    println!("a fresh seed {fresh}: {met:?}");
    let all = [met.good, met.empty, met.wrapped, met.bad_state, met.too_few];
    assert!(all.iter().all(|&n| n > 100), "too few of something: {met:?}");
}

/// A queue that was converted is like one that was filled by this version.
#[test]
fn a_converted_queue_is_one_that_was_filled() {
    let old_mem = ring_of_three(3 * OLD_NOTICE_RECORD);
    let mut filled = [b'n'; 3 * NOTICE_RECORD];
    let mut queue = NoticeQueue::new(&mut filled).unwrap();
    for (record, payload) in [(0, &b"+UUSORD: 1"[..]), (RING, b"2"), (63, b"+UUSORD: 3")] {
        queue.put(record, payload).unwrap();
    }
    assert_eq!(says(kept(2, 3, 0), &old_mem, 3 * NOTICE_RECORD, Ok(()), "three"), filled);
}
