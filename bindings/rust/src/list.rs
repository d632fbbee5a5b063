use core::fmt;
use core::iter::FusedIterator;
use core::ops::RangeInclusive;

use crate::{ffi, ListRefusal};

/// The most elements that a parameter list has, lists and empty places among them.
pub const MOST_ELEMENTS: usize = 256;
/// The most brackets that an element stands within.
pub const MOST_BRACKETS: usize = 4;
/// How many numbers of memory a [`List`] is read into: six for each of [`MOST_ELEMENTS`].
pub const LIST_MEMORY: usize = ELEMENT * MOST_ELEMENTS;

/// The numbers of an element, and their places.
const ELEMENT: usize = 6;
const PLACE: usize = 0;
const END: usize = 1;
const KIND: usize = 2;
const DEPTH: usize = 3;
const LOW: usize = 4;
const HIGH: usize = 5;

/// A parameter list: what stands behind the colon of an answer or a notice, read into its elements. atat has no such reader.
///
/// A test command is answered with lists in brackets, ranges, quoted strings and empty places:
///
/// ```
/// use walumbeex::{DigestResult, Digester, List, LIST_MEMORY};
///
/// let (heard, _) = Digester::default().digest(b"\r\n+CSQ: (0-31,99),(0-7,99)\r\n\r\nOK\r\n").unwrap();
/// let DigestResult::Response(Ok(answer)) = heard else { panic!("{heard:?}") };
/// let payload = answer.strip_prefix(b"+CSQ:").unwrap();
///
/// let mut memory = [0; LIST_MEMORY];
/// let list = List::read(payload, &mut memory).unwrap();
/// let rssi = list.members().next().unwrap();
/// assert_eq!(rssi.text(), b"(0-31,99)");
/// let has = |n| rssi.members().filter_map(|e| e.range()).any(|r| r.contains(&n));
/// assert!(has(17) && has(99) && !has(32));
/// ```
///
/// What is accepted is exactly this grammar; `docs/LISTS.md` has real answers, and what is refused and why:
///
/// ```text
/// list    = element *( "," element )
/// element = *SP ( "" / number [ "-" number ] / string / "(" list ")" )
/// number  = 1*DIGIT
/// string  = DQUOTE *( char / "\" HEX HEX ) DQUOTE      char = 0x20 to 0x7E without DQUOTE and "\"
/// ```
///
/// The limits are [`MOST_ELEMENTS`], [`MOST_BRACKETS`], and 4,294,967,295 for a number. An empty place is an element too: `()` is
/// a list with one empty member, and the empty payload has one element, which is empty.
///
/// # Two ways to walk
///
/// [`iter`](List::iter) has every element in the order in which they stand, a list before its members, each with its
/// [`depth`](Element::depth):
///
/// ```
/// use walumbeex::{ElementKind as Kind, List, LIST_MEMORY};
/// let mut memory = [0; LIST_MEMORY];
/// let list = List::read(b" (0-31,99),()", &mut memory).unwrap();
/// let elements: Vec<_> = list.iter().map(|e| (e.place(), e.depth(), e.kind())).collect();
/// assert_eq!(elements, [(1, 0, Kind::List), (2, 1, Kind::Range), (7, 1, Kind::Number), (11, 0, Kind::List), (12, 1, Kind::Empty)]);
/// ```
///
/// [`members`](List::members) has those that stand within no bracket, and of a list [`Element::members`] its own:
///
/// ```
/// use walumbeex::{ElementKind, List, LIST_MEMORY};
/// let answer = br#" (2,"Telekom.de","","26201",7),(1,"o2 - de",,"26203"),,(0-4),(0-2)"#;
/// let mut memory = [0; LIST_MEMORY];
/// let list = List::read(answer, &mut memory).unwrap();
///
/// // In an answer to +COPS=? the operators stand before an empty place, the supported modes and formats behind it.
/// let mut operators = Vec::new();
/// for operator in list.members().take_while(|e| e.kind() == ElementKind::List) {
///     let mut fields = operator.members();
///     let status = fields.next().and_then(|e| e.value());
///     let name = fields.next().and_then(|e| e.string());
///     operators.push((status, name));
/// }
/// assert_eq!(operators, [(Some(2), Some(&b"Telekom.de"[..])), (Some(1), Some(b"o2 - de"))]);
/// ```
///
/// # Memory
///
/// The elements are numbers in memory that the caller lends, [`LIST_MEMORY`] of them, 12 KB: none is too short. What they don't
/// take of it stays as it was; where the payload is refused, all of it does. A list borrows it for as long as it is looked at, and
/// then it can be lent again. The texts are parts of the payload, and need neither the list nor its memory:
///
/// ```
/// use walumbeex::{List, ListRefusal, LIST_MEMORY};
/// fn first_string(payload: &[u8]) -> Result<Option<&[u8]>, ListRefusal> {
///     let mut memory = [0; LIST_MEMORY];
///     let list = List::read(payload, &mut memory)?;
///     let string = list.iter().find_map(|e| e.string());
///     Ok(string)
/// }
/// assert_eq!(first_string(b" 1,\"IP\",\"apn\""), Ok(Some(&b"IP"[..])));
/// assert_eq!(first_string(b" 1,\"IP"), Err(ListRefusal::Malformed { place: 6 }));
/// ```
///
/// But they do need the payload:
///
/// ```compile_fail,E0597
/// # use walumbeex::{List, LIST_MEMORY};
/// let mut memory = [0; LIST_MEMORY];
/// let text = {
///     let payload = b" 1".to_vec();
///     List::read(&payload, &mut memory).unwrap().iter().next().unwrap().text()
/// };
/// assert_eq!(text, b"1");
/// ```
#[derive(Clone, Copy)]
pub struct List<'p, 'm> {
    payload: &'p [u8],
    /// Those of the elements, and no others.
    numbers: &'m [u64],
}

impl<'p, 'm> List<'p, 'm> {
    /// Reads a payload, of any length.
    ///
    /// Refused with 6 where the grammar can't go on, with 7 at a bracket within [`MOST_BRACKETS`] brackets, with 8 at a number over
    /// 4,294,967,295 and with 9 at the first element over [`MOST_ELEMENTS`]: the leftmost of these, and of two at one place the
    /// lowest. How much stack that takes is in include/walumbeex.h.
    ///
    /// ```
    /// use walumbeex::{List, ListRefusal, LIST_MEMORY};
    /// let mut memory = [0; LIST_MEMORY];
    /// let refusal = List::read(b" (0-31,99", &mut memory).unwrap_err();
    /// assert_eq!(refusal, ListRefusal::Malformed { place: 9 });
    /// assert_eq!((refusal.number(), refusal.place()), (6, 9));
    /// assert_eq!(List::read(b"1-99999999999", &mut memory).unwrap_err(), ListRefusal::TooLarge { place: 2 });
    /// assert_eq!(memory, [0; LIST_MEMORY]);
    /// ```
    pub fn read(payload: &'p [u8], memory: &'m mut [u64; LIST_MEMORY]) -> Result<Self, ListRefusal> {
        let count = ffi::list_read(payload, memory)?;
        // The promise has it at MOST_ELEMENTS or below.
        Ok(Self { payload, numbers: memory.get(..ELEMENT * count).unwrap_or_default() })
    }

    /// Every element, in the order in which they stand, a list before its members.
    #[must_use]
    pub const fn iter(&self) -> Elements<'p, 'm> {
        Elements { payload: self.payload, numbers: self.numbers }
    }

    /// The elements that stand within no bracket, of which there is at least one.
    #[must_use]
    pub const fn members(&self) -> Members<'p, 'm> {
        Members { elements: self.iter(), depth: 0 }
    }
}

impl fmt::Debug for List<'_, '_> {
    fn fmt(&self, f: &mut fmt::Formatter<'_>) -> fmt::Result {
        self.iter().fmt(f)
    }
}

impl<'p, 'm> IntoIterator for List<'p, 'm> {
    type Item = Element<'p, 'm>;
    type IntoIter = Elements<'p, 'm>;

    fn into_iter(self) -> Self::IntoIter {
        self.iter()
    }
}

impl<'p, 'm> IntoIterator for &List<'p, 'm> {
    type Item = Element<'p, 'm>;
    type IntoIter = Elements<'p, 'm>;

    fn into_iter(self) -> Self::IntoIter {
        self.iter()
    }
}

/// What an [`Element`] is.
#[derive(Debug, Clone, Copy, PartialEq, Eq)]
pub enum ElementKind {
    /// An empty place: nothing stands before the comma, the closing bracket or the end.
    Empty,
    /// A number, such as `99`.
    Number,
    /// A range, such as `0-31`: one element.
    Range,
    /// A string in quotes, such as `"IP"`.
    String,
    /// A list in brackets, such as `(0-31,99)`. Its members are elements of their own, behind it.
    List,
}

/// An element of a [`List`].
///
/// ```
/// use walumbeex::{ElementKind, List, LIST_MEMORY};
/// let mut memory = [0; LIST_MEMORY];
/// let list = List::read(br#"007, 0-31,"a\22",,(1)"#, &mut memory).unwrap();
/// let [number, range, string, empty, bracket] = [0, 1, 2, 3, 4].map(|n| list.members().nth(n).unwrap());
///
/// assert_eq!((number.kind(), number.value(), number.text()), (ElementKind::Number, Some(7), &b"007"[..]));
/// assert_eq!((range.kind(), range.value(), range.range()), (ElementKind::Range, None, Some(0..=31)));
/// assert_eq!((range.place(), range.end()), (5, 9));
/// assert_eq!((string.kind(), string.string()), (ElementKind::String, Some(&br"a\22"[..])));
/// assert_eq!((empty.kind(), empty.text()), (ElementKind::Empty, &b""[..]));
/// assert_eq!((bracket.kind(), bracket.members().next().unwrap().value()), (ElementKind::List, Some(1)));
/// ```
#[derive(Clone, Copy)]
pub struct Element<'p, 'm> {
    payload: &'p [u8],
    numbers: &'m [u64; ELEMENT],
    /// Those of the elements behind it.
    behind: &'m [u64],
}

impl<'p, 'm> Element<'p, 'm> {
    /// What it is.
    #[must_use]
    pub const fn kind(&self) -> ElementKind {
        match self.numbers[KIND] {
            1 => ElementKind::Number,
            2 => ElementKind::Range,
            3 => ElementKind::String,
            4 => ElementKind::List,
            _ => ElementKind::Empty,
        }
    }

    /// Within how many brackets it stands, 0 to [`MOST_BRACKETS`].
    #[must_use]
    pub const fn depth(&self) -> usize {
        self.numbers[DEPTH] as usize
    }

    /// The place of its first byte in the payload, behind its spaces; of an empty one that of the byte that ends it, or the end.
    #[must_use]
    pub const fn place(&self) -> usize {
        self.numbers[PLACE] as usize
    }

    /// One past the place of its last byte; of an empty one its [`place`](Element::place).
    #[must_use]
    pub const fn end(&self) -> usize {
        self.numbers[END] as usize
    }

    /// Its bytes in the payload, as they came: of a string with its quotes, of a list with its brackets.
    #[must_use]
    pub fn text(&self) -> &'p [u8] {
        // The promise has it within the payload.
        self.payload.get(self.place()..self.end()).unwrap_or_default()
    }

    /// The value of a number, zeros in front aside; `None` of anything else, a range too.
    #[must_use]
    pub fn value(&self) -> Option<u32> {
        // Over 4,294,967,295 it would have been refused.
        (self.kind() == ElementKind::Number).then_some(self.numbers[LOW] as u32)
    }

    /// The two numbers of a range; of a number its value, twice; `None` of anything else. `2-1` is a range as the grammar has it,
    /// and here an empty one.
    #[must_use]
    pub fn range(&self) -> Option<RangeInclusive<u32>> {
        let has = matches!(self.kind(), ElementKind::Number | ElementKind::Range);
        has.then_some(self.numbers[LOW] as u32..=self.numbers[HIGH] as u32)
    }

    /// What stands between the quotes of a string, its escapes (`\22`) as they came; `None` of anything else.
    #[must_use]
    pub fn string(&self) -> Option<&'p [u8]> {
        match self.text() {
            [b'"', inside @ .., b'"'] => Some(inside),
            _ => None,
        }
    }

    /// The members of a list, without those of the lists among them; none of anything else.
    #[must_use]
    pub fn members(&self) -> Members<'p, 'm> {
        let behind = Elements { payload: self.payload, numbers: self.behind };
        let within = behind.take_while(|e| e.depth() > self.depth()).count();
        let numbers = self.behind.get(..ELEMENT * within).unwrap_or_default();
        Members { elements: Elements { payload: self.payload, numbers }, depth: self.depth() + 1 }
    }
}

impl fmt::Debug for Element<'_, '_> {
    fn fmt(&self, f: &mut fmt::Formatter<'_>) -> fmt::Result {
        f.debug_struct("Element")
            .field("place", &self.place())
            .field("end", &self.end())
            .field("kind", &self.kind())
            .field("depth", &self.depth())
            .field("text", &format_args!("\"{}\"", self.text().escape_ascii()))
            .finish()
    }
}

/// Every element of a [`List`], in the order in which they stand: [`List::iter`].
#[derive(Clone)]
pub struct Elements<'p, 'm> {
    payload: &'p [u8],
    numbers: &'m [u64],
}

impl<'p, 'm> Iterator for Elements<'p, 'm> {
    type Item = Element<'p, 'm>;

    fn next(&mut self) -> Option<Self::Item> {
        let (numbers, behind) = self.numbers.split_first_chunk()?;
        self.numbers = behind;
        Some(Element { payload: self.payload, numbers, behind })
    }

    fn size_hint(&self) -> (usize, Option<usize>) {
        let left = self.numbers.len() / ELEMENT;
        (left, Some(left))
    }
}

impl ExactSizeIterator for Elements<'_, '_> {}
impl FusedIterator for Elements<'_, '_> {}

impl fmt::Debug for Elements<'_, '_> {
    fn fmt(&self, f: &mut fmt::Formatter<'_>) -> fmt::Result {
        f.debug_list().entries(self.clone()).finish()
    }
}

/// The members of a list, without those of the lists among them: [`List::members`], [`Element::members`].
#[derive(Clone)]
pub struct Members<'p, 'm> {
    /// All that stand within it.
    elements: Elements<'p, 'm>,
    depth: usize,
}

impl<'p, 'm> Iterator for Members<'p, 'm> {
    type Item = Element<'p, 'm>;

    fn next(&mut self) -> Option<Self::Item> {
        self.elements.find(|e| e.depth() == self.depth)
    }
}

impl FusedIterator for Members<'_, '_> {}

impl fmt::Debug for Members<'_, '_> {
    fn fmt(&self, f: &mut fmt::Formatter<'_>) -> fmt::Result {
        f.debug_list().entries(self.clone()).finish()
    }
}
