//! The proved digester and ingress beside those of atat 0.25.0, on the same inputs, in one program.
//!
//! `count` runs each workload once between the two marks that icount.c looks for, ours and then the Rust's, and prints its name, and `count vast` the vast
//! one; `count growth` does so with ours alone, at a length and at twice that, and with notices through our queue and parameter lists, and `judge` fails where
//! a digest, a listing byte by byte or a list grew too fast; `time` prints median nanoseconds; `report` makes the page and the drawing of all. Before any workload
//! is measured the two sides' answers to it are compared; of the vast one, what the counted calls answer.

mod heard;
mod measure;
mod ours;
mod report;
mod sides;
mod tables;
mod theirs;
mod workloads;

use atat::{AtDigester, Digester, Parser};
use growth::{patterns, shapes::SHAPES, Growth};
use measure::Pair;
use sides::Ears;
use std::hint::black_box;
use std::process::ExitCode;
use tables::{records, Empty, Many, One};
use workloads::{Table, Way, Workload};

/// The sizes on both sides: the ingress's buffer, the slot's memory, the notices that the queue holds.
const BUFFER: usize = 4096;
const SLOT: usize = 4096;
const QUEUE: usize = 16;

/// An input at the front of a page, so that where it lies is the same in every run.
#[repr(align(4096))]
struct Page([u8; workloads::LONG]);

fn paged(input: &[u8]) -> &'static [u8] {
    let page = Box::leak(Box::new(Page([0; workloads::LONG])));
    page.0[..input.len()].copy_from_slice(input);
    &page.0[..input.len()]
}

/// Both sides of a workload, or how their answers differ.
fn pair(w: &Workload) -> Result<Pair, String> {
    match w.table {
        Table::Empty => pair_under::<Empty>(w, Vec::new(), AtDigester::new()),
        Table::One => pair_under::<One>(w, records("UR", One::TEXTS), AtDigester::new()),
        Table::Many => pair_under::<Many>(w, records("UR", Many::TEXTS), AtDigester::new()),
        Table::CustomError => pair_under::<Empty>(w, records("CE", &["SIM BUSY"]), AtDigester::new().with_custom_error(theirs::sim_busy)),
    }
}

fn pair_under<P: Parser + 'static>(w: &Workload, table: Vec<u8>, mut digester: AtDigester<P>) -> Result<Pair, String> {
    let input = paged(&w.input);
    match w.way {
        Way::Digest => {
            same(w, ours::heard(&table, input), theirs::heard(&mut digester, input))?;
            Ok(Pair {
                ours: ours::digesting(table, input),
                theirs: Box::new(move || {
                    black_box(digester.digest(black_box(input)));
                }),
            })
        }
        // For longer pieces the calls without findings are the cheaper ones.
        Way::Pieces(1) => exchange_pair(w, ours::Fed::new(&table), theirs::Ingress::<P>::new(), input, 1),
        Way::Pieces(n) => exchange_pair(w, ours::Ingress::new(&table), theirs::Ingress::<P>::new(), input, n),
        Way::Signal => {
            let mut ours = ours::Ingress::new(&table);
            let mut theirs = theirs::Ingress::<P>::new();
            ours.signal(input);
            theirs.signal(input);
            same(w, ours.held(), theirs.held())?;
            ours.reset();
            theirs.reset();
            Ok(Pair {
                ours: Box::new(move || sides::signalled(&mut ours, black_box(input))),
                theirs: Box::new(move || sides::signalled(&mut theirs, black_box(input))),
            })
        }
    }
}

fn exchange_pair<O, T>(w: &Workload, mut ours: O, mut theirs: T, input: &'static [u8], n: usize) -> Result<Pair, String>
where
    O: Ears + 'static,
    T: Ears + 'static,
{
    same(w, sides::outcome(&mut ours, input, n), sides::outcome(&mut theirs, input, n))?;
    Ok(Pair { ours: sides::exchanging(ours, input, n), theirs: sides::exchanging(theirs, input, n) })
}

fn same<T: PartialEq + std::fmt::Debug>(w: &Workload, ours: T, theirs: T) -> Result<(), String> {
    if ours == theirs {
        return Ok(());
    }
    Err(format!("the answers to \"{}\" differ\n  ours: {ours:?}\n  the Rust's: {theirs:?}", w.name))
}

/// The vast workload: each side runs it once, between the marks, and what came of it is compared.
fn count_vast(w: &Workload) -> Result<(), String> {
    let Way::Pieces(n @ 1) = w.way else { return Err(format!("\"{}\" is no exchange byte by byte", w.name)) };
    let input = paged(&w.input);
    let mut ours = ours::Fed::new(&[]);
    let mut theirs = theirs::Ingress::<Empty>::new();
    let (mut ours_said, mut theirs_said) = (None, None);
    println!("{}\tours", w.name);
    measure::marked(&mut || ours_said = Some(sides::outcome(&mut ours, black_box(input), n)));
    println!("{}\tthe Rust", w.name);
    measure::marked(&mut || theirs_said = Some(sides::outcome(&mut theirs, black_box(input), n)));
    same(w, ours_said, theirs_said)
}

/// How our work grows: runs each shape and each pattern at a length and at twice that between the marks, and prints its name, the way and the length. So with the
/// numeric digester's, with notices through the queue, and with parameter lists.
fn count_growth() -> Result<(), String> {
    for shape in SHAPES {
        count_digests(shape.name, &[], shape.input)?;
        for len in growth::LENS {
            let input = paged(&(shape.input)(len));
            let mut ours = ours::Fed::new(&[]);
            let (taken, ..) = sides::outcome(&mut ours, input, 1);
            assert_eq!(taken, len, "our ingress has no room for \"{}\"", shape.name);
            println!("{}\tstream\t{len}", shape.name);
            measure::marked(&mut *sides::exchanging(ours, input, 1));
        }
    }
    let table: Vec<u8> = patterns::RECORDS.iter().flat_map(|(mark, text)| records(mark, &[text])).collect();
    for pattern in patterns::all() {
        count_digests(&pattern.to_string(), if pattern.has_table { &table } else { &[] }, |len| pattern.input(len))?;
    }
    growth::numeric::count(ours::digest_numeric, paged, measure::marked)?;
    growth::notices::count(&mut ours::Ingress::new(&records("UR", One::TEXTS)), paged, measure::marked)?;
    growth::lists::count(ours::list_read, paged, measure::marked)
}

/// Two digests that are answered by different rules say nothing of how work grows: their answers are compared. So no call between the marks is the first, which
/// may have names to look up.
fn count_digests(name: &str, table: &[u8], input: impl Fn(usize) -> Vec<u8>) -> Result<(), String> {
    let [once, twice] = growth::LENS.map(|len| {
        let input = paged(&input(len));
        let heard = ours::heard(table, input);
        println!("{name}\tdigest\t{len}");
        measure::marked(&mut *ours::digesting(table.to_vec(), input));
        (heard.kind, heard.number)
    });
    if once != twice {
        return Err(format!("the answers to {name} are of two kinds\n  at a length: {once:?}\n  at twice that: {twice:?}"));
    }
    Ok(())
}

fn run(words: &[&str]) -> Result<(), String> {
    match words {
        ["count"] => {
            let nothing = &mut || ();
            println!("an empty call\tours");
            measure::marked(nothing);
            for w in workloads::all().iter().filter(|w| !w.is_vast) {
                let mut pair = pair(w)?;
                println!("{}\tours", w.name);
                measure::marked(&mut *pair.ours);
                println!("{}\tthe Rust", w.name);
                measure::marked(&mut *pair.theirs);
            }
            Ok(())
        }
        ["count", "growth"] => count_growth(),
        ["count", "vast"] => workloads::all().iter().filter(|w| w.is_vast).try_for_each(count_vast),
        ["time"] => {
            for w in workloads::all() {
                let (ours, theirs, samples) = measure::times(&mut pair(&w)?);
                println!("{}\t{ours:.1}\t{theirs:.1}\t{samples}", w.name);
            }
            Ok(())
        }
        ["judge", growth] => Growth::read(&report::read(growth)?)?.judge(),
        ["report", counts, growth, times, about, folder] => report::write(counts, growth, times, about, folder),
        _ => Err("usage: benchmark count [growth | vast] | judge GROWTH | time | report COUNTS GROWTH TIMES ABOUT FOLDER".to_owned()),
    }
}

fn main() -> ExitCode {
    let words: Vec<String> = std::env::args().skip(1).collect();
    match run(&words.iter().map(String::as_str).collect::<Vec<_>>()) {
        Ok(()) => ExitCode::SUCCESS,
        Err(what) => {
            eprintln!("benchmark: {what}");
            ExitCode::FAILURE
        }
    }
}
