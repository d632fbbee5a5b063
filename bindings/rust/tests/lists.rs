//! Parameter lists (R-4): the elements and how to walk them, the refusals and their places, what of the lent memory stays, and that
//! a text is the payload's.

use std::error::Error;
use walumbeex::{Element, ElementKind, List, ListRefusal, LIST_MEMORY, MOST_BRACKETS, MOST_ELEMENTS};

use ElementKind::{Empty, Number, Range, String as Quoted};
const BRACKET: ElementKind = ElementKind::List;

/// What stands in the memory before a call.
const WAS: u64 = 77;

/// Place, end, kind, depth, and the two numbers of a range or a number.
type Told = (usize, usize, ElementKind, usize, Option<(u32, u32)>);

fn told(e: Element<'_, '_>) -> Told {
    let range = e.range().map(|r| r.into_inner());
    assert_eq!(e.value(), range.filter(|_| e.kind() == Number).map(|(low, _)| low), "{e:?}");
    (e.place(), e.end(), e.kind(), e.depth(), range)
}

/// Reads a list. What the elements don't take of the memory stays.
fn elements(payload: &[u8]) -> Vec<Told> {
    let mut memory = [WAS; LIST_MEMORY];
    let list = List::read(payload, &mut memory).unwrap_or_else(|refusal| panic!("{}: {refusal}", payload.escape_ascii()));
    let elements: Vec<_> = list.iter().map(told).collect();
    assert_eq!(list.iter().len(), elements.len());
    assert!(memory[6 * elements.len()..].iter().all(|n| *n == WAS), "{}", payload.escape_ascii());
    elements
}

/// Reads what is refused. All of the memory stays.
fn refusal(payload: &[u8]) -> ListRefusal {
    let mut memory = [WAS; LIST_MEMORY];
    let refusal = List::read(payload, &mut memory).expect_err("an accepted list");
    assert_eq!(memory, [WAS; LIST_MEMORY], "{}", payload.escape_ascii());
    refusal
}

#[test]
fn the_runs_of_the_request() {
    let one = |n: u32| Some((n, n));
    for (payload, expected) in [
        (
            &b" (0-31,99),(0-7,99)"[..],
            &[
                (1, 10, BRACKET, 0, None),
                (2, 6, Range, 1, Some((0, 31))),
                (7, 9, Number, 1, one(99)),
                (11, 19, BRACKET, 0, None),
                (12, 15, Range, 1, Some((0, 7))),
                (16, 18, Number, 1, one(99)),
            ][..],
        ),
        (
            b"((((1))))",
            &[
                (0, 9, BRACKET, 0, None),
                (1, 8, BRACKET, 1, None),
                (2, 7, BRACKET, 2, None),
                (3, 6, BRACKET, 3, None),
                (4, 5, Number, MOST_BRACKETS, one(1)),
            ],
        ),
        (b"4294967295", &[(0, 10, Number, 0, one(u32::MAX))]),
        (b"0004294967295", &[(0, 13, Number, 0, one(u32::MAX))]),
        (b"2-1", &[(0, 3, Range, 0, Some((2, 1)))]),
        // Empty places.
        (b"", &[(0, 0, Empty, 0, None)]),
        (b"  ", &[(2, 2, Empty, 0, None)]),
        (b"()", &[(0, 2, BRACKET, 0, None), (1, 1, Empty, 1, None)]),
        (b"1,, ,", &[(0, 1, Number, 0, one(1)), (2, 2, Empty, 0, None), (4, 4, Empty, 0, None), (5, 5, Empty, 0, None)]),
        // Strings, with the grammar's signs and escapes in them.
        (br#""""#, &[(0, 2, Quoted, 0, None)]),
        (br#"("(,) -", "a\22\5c")"#, &[(0, 20, BRACKET, 0, None), (1, 8, Quoted, 1, None), (10, 19, Quoted, 1, None)]),
    ] {
        assert_eq!(elements(payload), expected, "{}", payload.escape_ascii());
    }
    let all: Vec<_> = (0..MOST_ELEMENTS).map(|n| (n, n, Empty, 0, None)).collect();
    assert_eq!(elements(&[b','; MOST_ELEMENTS - 1]), all);
}

#[test]
fn the_refusals_of_the_request() {
    use ListRefusal::{Malformed, TooDeep, TooLarge, TooMany};
    let many = |behind: &[u8]| [&[b','; 256][..], behind].concat();
    for (payload, expected) in [
        (b"1-".to_vec(), Malformed { place: 2 }),
        (b"1-2-3".to_vec(), Malformed { place: 3 }),
        (b"\"a".to_vec(), Malformed { place: 2 }),
        (b"\"\\2".to_vec(), Malformed { place: 3 }),
        (b"(1".to_vec(), Malformed { place: 2 }),
        (b"1)".to_vec(), Malformed { place: 1 }),
        (b"-1".to_vec(), Malformed { place: 0 }),
        (b"0x1F".to_vec(), Malformed { place: 1 }),
        (b"IP".to_vec(), Malformed { place: 0 }),
        (b"\"\x80\"".to_vec(), Malformed { place: 1 }),
        (b"1 ,2".to_vec(), Malformed { place: 1 }),
        (b"(((((1)))))".to_vec(), TooDeep { place: 4 }),
        (b"4294967296".to_vec(), TooLarge { place: 0 }),
        (b"1-99999999999".to_vec(), TooLarge { place: 2 }),
        // The leftmost.
        (b"99999999999x".to_vec(), TooLarge { place: 0 }),
        // At element 257 its form, its depth and its number come before the count.
        (many(b""), TooMany { place: 256 }),
        (many(&[b','; 3840]), TooMany { place: 256 }),
        (many(b"(1)"), TooMany { place: 256 }),
        (many(b"x"), Malformed { place: 256 }),
        (many(b"99999999999"), TooLarge { place: 256 }),
        ([&b"(((("[..], &[b','; 252], b"("].concat(), TooDeep { place: 256 }),
        ([&b"("[..], &[b','; 255]].concat(), Malformed { place: 256 }),
    ] {
        assert_eq!(refusal(&payload), expected, "{}", payload.escape_ascii());
    }
}

#[test]
fn a_refusal_has_its_number_its_place_and_words() {
    for (payload, number, place, words) in [
        (&b"(1"[..], 6, 2, "refused 6: no parameter list goes on so at place 2"),
        (b"(((((1)))))", 7, 4, "refused 7: the bracket at place 4 stands within 4 brackets"),
        (b"1-4294967296", 8, 2, "refused 8: the number at place 2 is over 4,294,967,295"),
        (&[b','; 256], 9, 256, "refused 9: there are over 256 elements, the first one over at place 256"),
    ] {
        let refusal = refusal(payload);
        assert_eq!((refusal.number(), refusal.place()), (number, place));
        let error: Box<dyn Error> = refusal.into();
        assert_eq!(error.to_string(), words);
    }
}

/// Spaces, zeros in front of a number, and a string, each longer than any input of a digest.
#[test]
fn a_payload_of_any_length() {
    let long = |front: &[u8], byte: u8, end: &[u8]| [front, &vec![byte; 100_000], end].concat();
    assert_eq!(elements(&long(b"", b' ', b"")), [(100_000, 100_000, Empty, 0, None)]);
    assert_eq!(elements(&long(b"", b'0', b"7")), [(0, 100_001, Number, 0, Some((7, 7)))]);
    assert_eq!(elements(&long(b"\"", b'a', b"\"")), [(0, 100_002, Quoted, 0, None)]);
    assert_eq!(refusal(&long(b"\"", b'a', b"")), ListRefusal::Malformed { place: 100_001 });
    assert_eq!(refusal(&long(b"", b'(', b"")), ListRefusal::TooDeep { place: 4 });
}

/// A text is the payload's own bytes, and is there when the list and its memory are not.
#[test]
fn a_text_outlives_the_list() {
    let payload = br#" (1,"IP"), "a\22b",7-9,"#.to_vec();
    let (texts, strings): (Vec<_>, Vec<_>) = {
        let mut memory = [WAS; LIST_MEMORY];
        let list = List::read(&payload, &mut memory).unwrap();
        for e in &list {
            assert_eq!(e.text().as_ptr_range(), payload[e.place()..e.end()].as_ptr_range(), "{e:?}");
        }
        list.iter().map(|e| (e.text(), e.string())).unzip()
    };
    let expected: [&[u8]; 6] = [br#"(1,"IP")"#, b"1", br#""IP""#, br#""a\22b""#, b"7-9", b""];
    assert_eq!(texts, expected);
    assert_eq!(strings, [None, None, Some(&b"IP"[..]), Some(br"a\22b"), None, None]);
}

/// One memory for one payload after the other; a shorter list leaves what it doesn't take.
#[test]
fn a_memory_is_lent_again() {
    let mut memory = [WAS; LIST_MEMORY];
    let three: Vec<_> = List::read(b"1,2,3", &mut memory).unwrap().iter().filter_map(|e| e.value()).collect();
    assert_eq!(three, [1, 2, 3]);
    assert!(List::read(b"1,2,", &mut memory).is_ok_and(|list| list.iter().len() == 3));
    assert!(List::read(b"1,2,x", &mut memory).is_err());
    let list = List::read(b"(9)", &mut memory).unwrap();
    assert_eq!(list.iter().map(told).collect::<Vec<_>>(), [(0, 3, BRACKET, 0, None), (1, 2, Number, 1, Some((9, 9)))]);
    assert_eq!(memory[12..18], [4, 4, 0, 0, 0, 0]);
    assert_eq!(memory[18..], [WAS; LIST_MEMORY - 18]);
}

/// The members of each list are its own, and the walk ends at its bracket.
#[test]
fn members() {
    let mut memory = [0; LIST_MEMORY];
    let list = List::read(b"1,(2,(3,()),4),(5),6", &mut memory).unwrap();
    let texts = |members: walumbeex::Members<'_, '_>| -> Vec<String> {
        members.map(|e| String::from_utf8_lossy(e.text()).into_owned()).collect()
    };
    assert_eq!(texts(list.members()), ["1", "(2,(3,()),4)", "(5)", "6"]);
    let second = list.members().nth(1).unwrap();
    assert_eq!(texts(second.members()), ["2", "(3,())", "4"]);
    let third = second.members().nth(1).unwrap();
    assert_eq!(texts(third.members()), ["3", "()"]);
    assert_eq!(texts(third.members().nth(1).unwrap().members()), [""]);
    // What is no list has none, and what has come to its end stays there.
    assert!(list.iter().filter(|e| e.kind() != BRACKET).all(|e| e.members().next().is_none()));
    let mut members = list.members().nth(2).unwrap().members();
    assert!(members.next().is_some() && members.next().is_none() && members.next().is_none());
    assert_eq!(
        format!("{:?}", list.members().nth(2).unwrap()),
        "Element { place: 15, end: 18, kind: List, depth: 0, text: \"(5)\" }"
    );
}

/// A small generator (splitmix64).
struct Random(u64);

impl Random {
    fn below(&mut self, n: usize) -> usize {
        self.0 = self.0.wrapping_add(0x9E37_79B9_7F4A_7C15);
        let mut z = self.0;
        z = (z ^ (z >> 30)).wrapping_mul(0xBF58_476D_1CE4_E5B9);
        z = (z ^ (z >> 27)).wrapping_mul(0x94D0_49BB_1331_11EB);
        ((z ^ (z >> 31)) % n as u64) as usize
    }
}

/// An element as it was drawn, with its members.
#[derive(Debug, PartialEq)]
struct Drawn {
    told: Told,
    members: Vec<Drawn>,
}

/// Draws a list of 1 to 9 elements within so many brackets and writes it behind the payload.
fn draw(random: &mut Random, depth: usize, payload: &mut Vec<u8>) -> Vec<Drawn> {
    let mut list = Vec::new();
    for n in 0..1 + random.below(9) {
        if n > 0 {
            payload.push(b',');
        }
        payload.extend_from_slice(&b"   "[..random.below(4)]);
        let place = payload.len();
        let number = |random: &mut Random, payload: &mut Vec<u8>| {
            let n = [0, 7, 31, 255, 65_536, u32::MAX - 1, u32::MAX][random.below(7)];
            payload.extend_from_slice(&b"00000"[..random.below(6)]);
            payload.extend_from_slice(n.to_string().as_bytes());
            n
        };
        let (kind, range, members) = match random.below(if depth < MOST_BRACKETS { 6 } else { 4 }) {
            0 => (Empty, None, Vec::new()),
            1 => {
                let n = number(random, payload);
                (Number, Some((n, n)), Vec::new())
            }
            2 => {
                let low = number(random, payload);
                payload.push(b'-');
                (Range, Some((low, number(random, payload))), Vec::new())
            }
            3 => {
                payload.push(b'"');
                for _ in 0..random.below(6) {
                    payload.extend_from_slice([&b"a"[..], b"(", b")", b",", b"-", b" ", b"~", b"\\22", b"\\fF"][random.below(9)]);
                }
                payload.push(b'"');
                (Quoted, None, Vec::new())
            }
            _ => {
                payload.push(b'(');
                let members = draw(random, depth + 1, payload);
                payload.push(b')');
                (BRACKET, None, members)
            }
        };
        list.push(Drawn { told: (place, payload.len(), kind, depth, range), members });
    }
    list
}

/// All of them, a list before its members.
fn flat(list: &[Drawn]) -> Vec<Told> {
    list.iter().flat_map(|drawn| [vec![drawn.told], flat(&drawn.members)].concat()).collect()
}

fn walked(members: walumbeex::Members<'_, '_>) -> Vec<Drawn> {
    members.map(|e| Drawn { told: told(e), members: walked(e.members()) }).collect()
}

/// What was drawn is what is read, in order and walked from list to list, or it has too many elements.
#[test]
fn lists_that_were_drawn() {
    let mut random = Random(4);
    let (mut read, mut refused) = (0, 0);
    for _ in 0..5000 {
        let mut payload = Vec::new();
        let drawn = draw(&mut random, 0, &mut payload);
        let expected = flat(&drawn);
        let mut memory = [WAS; LIST_MEMORY];
        match List::read(&payload, &mut memory) {
            Ok(list) => {
                assert_eq!(list.iter().map(told).collect::<Vec<_>>(), expected, "{}", payload.escape_ascii());
                assert_eq!(walked(list.members()), drawn, "{}", payload.escape_ascii());
                read += 1;
            }
            Err(refusal) => {
                let (place, ..) = expected[MOST_ELEMENTS];
                assert_eq!(refusal, ListRefusal::TooMany { place }, "{}", payload.escape_ascii());
                refused += 1;
            }
        }
    }
    println!("{read} lists were read, and {refused} refused");
    assert!(read > 1000 && refused > 100);
}
