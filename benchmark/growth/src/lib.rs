//! How our work grows: the inputs that show it, at a length and at twice that, and what is made of the instructions counted on them. What else stands alone on our
//! side is here too: the numeric digester, notices through the queue, and parameter lists.
//!
//! It is a crate of its own so that nothing of it is compiled together with the calls that are measured: as a part of their crate it made the Rust's figures
//! with the table of 56 greater by 14 per cent, and left ours as they were.

pub mod lists;
pub mod notices;
pub mod numeric;
pub mod patterns;
pub mod shapes;

use patterns::{Pattern, RECORDS};
use shapes::SHAPES;
use std::collections::HashMap;
use std::fmt::Write;

/// A length and twice that, in bytes: of a digest, and of a stream byte by byte.
pub const LENS: [usize; 2] = [2048, 4096];

/// So many times the work is what a digest, the reading of a list, or a listing byte by byte may take for twice the input.
const LIMIT: f64 = 2.2;
/// The listings among the shapes: lines, in which no byte but the last may finish anything.
const LISTINGS: [&str; 2] = ["many lines, OK", "many lines, OK not yet ended"];
/// How many of the patterns are shown.
const SHOWN: usize = 10;

/// A number with its thousands apart.
pub fn thousands(n: f64) -> String {
    let digits = format!("{n:.0}");
    let mut out = String::new();
    for (i, c) in digits.chars().enumerate() {
        if i > 0 && (digits.len() - i) % 3 == 0 {
            out.push(',');
        }
        out.push(c);
    }
    out
}

/// Instructions at a length and at twice that.
#[derive(Clone, Copy)]
struct Grown {
    lens: [usize; 2],
    once: f64,
    twice: f64,
}

impl Grown {
    fn ratio(self) -> f64 {
        self.twice / self.once
    }

    /// Is it over the limit? What takes no more instructions than it has bytes is not, whatever the ratio: so little work is decided by the last few bytes, which
    /// are searched one by one.
    fn is_excess(self) -> bool {
        self.twice > self.lens[1] as f64 && self.ratio() > LIMIT
    }

    /// The cells of a table.
    fn cells(self) -> String {
        format!("{} | {} | {:.2}", thousands(self.once), thousands(self.twice), self.ratio())
    }
}

/// What was counted.
pub struct Growth {
    /// Of each shape its name, its digests and its streams.
    shapes: Vec<(&'static str, Grown, Grown)>,
    patterns: Vec<(Pattern, Grown)>,
    /// By the numeric digester, of each shape its name, a digest of a short answer's length, and the two.
    numeric: Vec<(&'static str, f64, Grown)>,
    /// Through the queue, of each notice its payload's length, what became of it, and the instructions.
    notices: Vec<(usize, &'static str, f64)>,
    /// The reading of a short list, and of each payload its name, what is answered, and the two.
    short: f64,
    lists: Vec<(&'static str, String, Grown)>,
}

impl Growth {
    /// Reads lines of four parts by tabs: the name of a shape or pattern, `digest`, `stream`, `numeric` or `list`, its length in bytes, the instructions; of a
    /// notice what became of it, and `queue`.
    pub fn read(counts: &str) -> Result<Self, String> {
        let mut counted: HashMap<(&str, &str, &str), f64> = HashMap::new();
        for line in counts.lines() {
            let [name, way, len, n] = line.split('\t').collect::<Vec<_>>()[..] else {
                return Err(format!("not a line of growth: {line}"));
            };
            counted.insert((name, way, len), n.parse().map_err(|_| format!("not a count: {line}"))?);
        }
        let get = |name: &str, way: &str, len: usize| {
            let n = counted.get(&(name, way, len.to_string().as_str())).copied();
            n.ok_or_else(|| format!("not counted: {name}, {way} of {len} bytes"))
        };
        let grown = |name: &str, way: &str, lens: [usize; 2]| {
            let [once, twice] = lens.map(|len| get(name, way, len));
            Ok::<_, String>(Grown { lens, once: once?, twice: twice? })
        };
        let shapes = SHAPES.iter().map(|s| Ok((s.name, grown(s.name, "digest", LENS)?, grown(s.name, "stream", LENS)?)));
        let patterns = patterns::all().into_iter().map(|p| grown(&p.to_string(), "digest", LENS).map(|g| (p, g)));
        let numeric = numeric::SHAPES.iter().map(|s| Ok((s.name, get(s.name, "numeric", numeric::LENS[0])?, grown(s.name, "numeric", LENS)?)));
        let notices = notices::LENS.iter().map(|&len| {
            let counted = [notices::TAKEN, notices::LOST].into_iter().find_map(|fate| Some((len, fate, get(fate, "queue", len).ok()?)));
            counted.ok_or_else(|| format!("not counted: a notice of {len} bytes through the queue"))
        });
        let lists = lists::PAYLOADS.iter().map(|p| Ok((p.name, p.answer(), grown(p.name, "list", p.lens())?)));
        Ok(Self {
            shapes: shapes.collect::<Result<_, String>>()?,
            patterns: patterns.collect::<Result<_, String>>()?,
            numeric: numeric.collect::<Result<_, String>>()?,
            notices: notices.collect::<Result<_, String>>()?,
            short: get(lists::SHORT_NAME, "list", lists::SHORT.len())?,
            lists: lists.collect::<Result<_, String>>()?,
        })
    }

    /// An error that names each shape and each pattern whose digest is over the limit, each listing whose stream is, and each payload whose reading as a list is.
    pub fn judge(&self) -> Result<(), String> {
        let shapes = self.shapes.iter().map(|&(name, digest, _)| (name.to_owned(), digest));
        let listings = self.shapes.iter().filter(|(name, ..)| LISTINGS.contains(name)).map(|&(name, _, stream)| (format!("{name}, byte by byte"), stream));
        let numeric = self.numeric.iter().map(|&(name, _, digest)| (format!("{name}, by the numeric digester"), digest));
        let lists = self.lists.iter().map(|(name, _, list)| (format!("{name}, as a parameter list"), *list));
        let all = shapes.chain(listings).chain(self.patterns.iter().map(|(p, digest)| (p.to_string(), *digest))).chain(numeric).chain(lists);
        let mut excess = String::new();
        for (name, g) in all.filter(|(_, g)| g.is_excess()) {
            let [once, twice, len, double] = [g.once, g.twice, g.lens[0] as f64, g.lens[1] as f64].map(thousands);
            let _ = write!(excess, "\n  {name}: {once} instructions at {len} bytes, {twice} at {double}, {:.2} times", g.ratio());
        }
        if excess.is_empty() {
            return Ok(());
        }
        Err(format!("twice the input takes more than {LIMIT} times the work{excess}"))
    }

    /// A section of the page.
    pub fn section(&self) -> String {
        let [once, twice] = LENS.map(|len| thousands(len as f64));
        let mut out = format!(
            "\n## How work grows\n\nInstructions of ours at a length and at twice that. `./bench` fails where a digest of {twice} bytes takes more than {LIMIT} times \
             what one of {once} takes, and so with the two listings (many lines) byte by byte.\n\n\
             | Shape | Digest, {once} bytes | {twice} bytes | Ratio | Byte by byte, {once} bytes | {twice} bytes | Ratio |\n\
             |---|--:|--:|--:|--:|--:|--:|\n"
        );
        for (name, digest, stream) in &self.shapes {
            let _ = writeln!(out, "| {name} | {} | {} |", digest.cells(), stream.cells());
        }

        let mut patterns: Vec<_> = self.patterns.iter().collect();
        patterns.sort_by(|(_, a), (_, b)| b.ratio().total_cmp(&a.ratio()));
        let (dearest, greatest) = patterns[0];
        let records: Vec<String> = RECORDS.iter().map(|(mark, text)| format!("`{mark} {text}`")).collect();
        let _ = write!(
            out,
            "\nThe digests of {} patterns that benchmark/growth/src/patterns.rs makes, every other one under a table of {} ({}): the median ratio is {:.2}, \
             the greatest {:.2}, of {dearest}. The {SHOWN} greatest:\n\n| Pattern | Table | Digest, {once} bytes | {twice} bytes | Ratio |\n|---|---|--:|--:|--:|\n",
            patterns.len(),
            records.len(),
            records.join(", "),
            patterns[patterns.len() / 2].1.ratio(),
            greatest.ratio(),
        );
        for (pattern, g) in &patterns[..SHOWN] {
            let table = if pattern.has_table { format!("of {}", records.len()) } else { "empty".to_owned() };
            let _ = writeln!(out, "| {pattern} | {table} | {} |", g.cells());
        }
        out + &self.numeric_section() + &self.notices_section() + &self.lists_section()
    }

    /// The numeric digester has no Rust beside it, so that all its rows stand here.
    fn numeric_section(&self) -> String {
        let [short, once, twice] = numeric::LENS.map(|len| thousands(len as f64));
        let mut out = format!(
            "\n## The numeric digester\n\nInstructions of ours for a modem in V0, of which the Rust hears nothing; the limit is the same.\n\n\
             | Shape | Digest, {short} bytes | {once} bytes | {twice} bytes | Ratio |\n|---|--:|--:|--:|--:|\n"
        );
        for (name, short, g) in &self.numeric {
            let _ = writeln!(out, "| {name} | {} | {} |", thousands(*short), g.cells());
        }
        out
    }

    /// The queue has no Rust beside it either.
    fn notices_section(&self) -> String {
        let mut out = String::from(
            "\n## Notices through the queue, ours alone\n\nInstructions of ours to write a notice in one piece, under a table of 1, and to take it from the queue.\n\n\
             | Payload | What became of it | Instructions |\n|---|---|--:|\n",
        );
        for &(len, fate, n) in &self.notices {
            let _ = writeln!(out, "| {len} bytes | {fate} | {} |", thousands(n));
        }
        out
    }

    /// Nor has the reader of parameter lists.
    fn lists_section(&self) -> String {
        let mut out = format!(
            "\n## Parameter lists, ours alone\n\nInstructions of ours to read a payload; the limit is the same. The short answer {}, {} bytes, takes {}.\n\n\
             | Payload | Answer | Bytes | Instructions | Bytes | Instructions | Ratio |\n|---|---|--:|--:|--:|--:|--:|\n",
            lists::SHORT_NAME,
            lists::SHORT.len(),
            thousands(self.short)
        );
        for (name, answer, g) in &self.lists {
            let [len, double] = g.lens.map(|len| thousands(len as f64));
            let _ = writeln!(out, "| {name} | {answer} | {len} | {} | {double} | {} | {:.2} |", thousands(g.once), thousands(g.twice), g.ratio());
        }
        out
    }
}

#[cfg(test)]
mod tests {
    use super::*;

    #[test]
    fn over_the_limit_is_more_than_it_and_more_than_an_instruction_a_byte() {
        let excess = |once, twice| Grown { lens: LENS, once, twice }.is_excess();
        assert!(excess(10_000.0, 22_001.0));
        assert!(!excess(10_000.0, 22_000.0));
        assert!(!excess(300.0, 4_096.0));
        assert!(excess(300.0, 4_097.0));
    }

    #[test]
    fn the_listings_are_among_the_shapes() {
        assert!(LISTINGS.iter().all(|name| SHAPES.iter().any(|shape| shape.name == *name)));
    }
}
