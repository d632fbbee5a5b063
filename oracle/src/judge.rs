//! Compares our answers with the crate's, line by line, counts them, and shrinks the cases in which they differ. Each case is asked of our program twice, plain and in
//! R-3's mode; the crate's one answer is held against both, against the mode's only where no digest met a longer CONNECT line.

use crate::generate;
use crate::lines;
use crate::notation::{Asked, Case, Mode, Op};
use crate::origin::Origin;
use crate::queue::RECORD;
use crate::script::SLOT_SIZES;
use crate::table::{self, Mark};
use crate::{oracle, tokens};
use std::collections::BTreeMap;
use std::fs::{self, File};
use std::io::{self, BufWriter, Write};
use std::path::{Path, PathBuf};
use std::process::{Command, Stdio};

/// The cases of one run of our program: it is started anew for each such batch.
const BATCH: usize = 20_000;
/// Kinds of difference that are shrunk and printed.
const MOST_SHOWN: usize = 20;
const MOST_ROUNDS: usize = 60;
const MOST_TRIED: usize = 600;

/// How our answer is got.
pub struct Ours {
    pub command: Vec<String>,
    /// A folder for the cases and answers of a batch.
    pub work: PathBuf,
}

/// The answers to a case.
struct Said {
    /// Ours, plain and in R-3's mode.
    verbose: String,
    connect: String,
    /// The crate's, and who decided it.
    theirs: String,
    origin: Origin,
    /// Did a digest of the crate's meet a longer CONNECT line? Then its answer says nothing about the mode.
    met_longer: bool,
}

impl Said {
    /// Ours in a mode, where there is something to compare it with.
    fn ours(&self, mode: Mode) -> Option<&str> {
        match mode {
            Mode::Verbose => Some(&self.verbose),
            Mode::Connect => (!self.met_longer).then_some(&self.connect),
        }
    }
}

impl Ours {
    /// Our answers to the cases, and the crate's, worked out while our program runs.
    fn both(&self, cases: &[Case]) -> io::Result<Vec<Said>> {
        let (asked, said) = (self.work.join("cases"), self.work.join("ours"));
        let mut out = BufWriter::new(File::create(&asked)?);
        for case in cases {
            writeln!(out, "{}\n{}", in_mode(Mode::Verbose, case), in_mode(Mode::Connect, case))?;
        }
        out.flush()?;
        let mut child =
            Command::new(&self.command[0]).args(&self.command[1..]).stdin(File::open(&asked)?).stdout(File::create(&said)?).stderr(Stdio::inherit()).spawn()?;
        let theirs: Vec<(String, Origin, bool)> = cases.iter().map(of_the_crate).collect();
        let status = child.wait()?;
        let ours = String::from_utf8_lossy(&fs::read(&said)?).into_owned();
        let ours: Vec<&str> = ours.lines().collect();
        if !status.success() || ours.len() != 2 * cases.len() {
            let mode = if ours.len() % 2 == 0 { Mode::Verbose } else { Mode::Connect };
            let stopped = cases.get(ours.len() / 2).map_or(String::new(), |case| format!("; the line behind the last answer: {}", in_mode(mode, case)));
            return Err(io::Error::other(format!("our program ended with {status} and {} answers to {} lines{stopped}", ours.len(), 2 * cases.len())));
        }
        let of =
            |(ours, (theirs, origin, met_longer)): (&[&str], _)| Said { verbose: ours[0].to_owned(), connect: ours[1].to_owned(), theirs, origin, met_longer };
        Ok(ours.chunks(2).zip(theirs).map(of).collect())
    }
}

fn of_the_crate(case: &Case) -> (String, Origin, bool) {
    let (said, origin) = oracle::answer_case(case);
    (said, origin, tokens::met_longer())
}

fn in_mode(mode: Mode, case: &Case) -> Asked {
    Asked { mode, case: case.clone() }
}

/// How two lines compare.
enum Verdict {
    Same,
    /// A difference that docs/DIFFERENCES.md may list, by its name there.
    Named(&'static str),
    /// Any other, by what differs.
    Other(String),
}

/// Our line with its kind and number turned into the crate's type, and the name of the difference that was turned, if one was.
fn turned(ours: &str, is_digest: bool) -> (String, Option<&'static str>) {
    let at = if is_digest { Some(0) } else { ours.rfind(" slot ").map(|at| at + 6).and_then(|at| ours[at..].find(' ').map(|n| at + n + 1)) };
    let Some(at) = at else { return (ours.to_owned(), None) };
    let mut words = ours[at..].splitn(3, ' ');
    let (Some(kind), Some(number), Some(rest)) = (words.next(), words.next(), words.next()) else {
        return (ours.to_owned(), None);
    };
    let name = match kind {
        "unknown" => Some("modem-error"),
        "notallowed" => Some("not-allowed"),
        _ => None,
    };
    match lines::in_its_type(kind, number) {
        Some((kind, number)) => (format!("{}{kind} {number} {rest}", &ours[..at]), name),
        None => (ours.to_owned(), None),
    }
}

/// Our line without the slot's serial number, which the crate hasn't: it stands before the slot's memory. None where it isn't there.
fn without_serial(ours: &str) -> Option<String> {
    let at = ours.rfind(" serial ")?;
    let (number, rest) = ours[at + 8..].split_once(' ')?;
    (number.parse::<u32>().is_ok() && rest.starts_with("memory ")).then(|| format!("{} {rest}", &ours[..at]))
}

fn judge(case: &Case, ours: &str, theirs: &str) -> Verdict {
    let is_digest = matches!(case, Case::Digest { .. });
    let (ours, _) = turned(ours, is_digest);
    let Some(ours) = (if is_digest { Some(ours) } else { without_serial(&ours) }) else {
        return Verdict::Other("ingress: a last state of ours without the slot's serial number".to_owned());
    };
    if ours == theirs {
        return Verdict::Same;
    }
    if let (Some(before), true) = (theirs.strip_suffix("panic response.rs"), has_long_error(case)) {
        if ours.starts_with(before) {
            return Verdict::Named("long-custom-error");
        }
    }
    Verdict::Other(match case {
        Case::Digest { .. } => in_words(&ours, theirs),
        Case::Ingress { ops, .. } => in_calls(&ours, theirs, ops),
    })
}

/// Has the table a custom error that is longer than the slot's memory?
fn has_long_error(case: &Case) -> bool {
    match case {
        Case::Ingress { table, slot, .. } => table::read(table).is_ok_and(|records| records.iter().any(|r| r.mark == Mark::Error && r.text.len() > slot.len())),
        Case::Digest { .. } => false,
    }
}

/// The first word in which two lines differ, with both words where these are kinds. Behind the five that every answer has, a word names the two numbers behind it.
fn in_words(ours: &str, theirs: &str) -> String {
    let (us, them): (Vec<&str>, Vec<&str>) = (ours.split(' ').collect(), theirs.split(' ').collect());
    let differs = (0..us.len().max(them.len())).find(|&at| us.get(at) != them.get(at)).unwrap_or(0);
    match ["kind", "number", "place", "length", "consumed"].get(differs) {
        Some(&"kind") => format!("digest: ours {}, the Rust {}", us[0], them[0]),
        Some(name) => format!("digest: the {name} of {}", us[0]),
        None => {
            let word = 5 + (differs - 5) / 3 * 3;
            format!("digest: the {} of {}", us.get(word).or(them.get(word)).unwrap_or(&"end"), us[0])
        }
    }
}

/// The first call whose answers differ, else the first part of the last state.
fn in_calls(ours: &str, theirs: &str, ops: &[Op]) -> String {
    let (mut us, mut them) = (ours.split(';'), theirs.split(';'));
    for op in ops {
        let letter = &op.to_string()[..1];
        match (us.next(), them.next()) {
            (a, b) if a == b => {}
            (a, b) => return format!("ingress: {letter} answers {} here, {} in the Rust", in_short(a), in_short(b)),
        }
    }
    let names = [
        "",
        "",
        "end",
        "",
        "buffer",
        "",
        "slot",
        "slot's kind",
        "slot's number",
        "slot's length",
        "answers lost",
        "",
        "slot's memory",
        "",
        "queue's start",
        "queue's count",
        "notices lost",
        "",
        "queue's memory",
    ];
    let differs = us.next().unwrap_or("").split(' ').zip(them.next().unwrap_or("").split(' ')).position(|(a, b)| a != b);
    match differs {
        Some(at) => format!("ingress: the {}", names.get(at).unwrap_or(&"line's length")),
        None => "ingress: the line's length".to_owned(),
    }
}

/// An answer without its numbers, but for a refusal's.
fn in_short(answer: Option<&str>) -> String {
    let words: Vec<&str> = answer.unwrap_or("nothing more").split(' ').collect();
    match words[..] {
        ["refused", number, ..] => format!("refused {number}"),
        ["panic", place] => format!("panic {place}"),
        [first, ..] => first.to_owned(),
        [] => String::new(),
    }
}

/// The smallest case so far of a kind of difference.
struct Found {
    count: u64,
    case: Case,
    ours: String,
    theirs: String,
}

/// The lines that were compared in one mode.
#[derive(Default)]
struct Compared {
    /// Digests, scripts.
    lines: [u64; 2],
    /// Digest answers by our kind; calls of scripts by what they answered.
    kinds: BTreeMap<String, u64>,
    calls: BTreeMap<String, u64>,
    /// Lines by who decided them.
    origins: BTreeMap<char, [u64; 2]>,
}

impl Compared {
    fn add(&mut self, case: &Case, ours: &str, theirs: &str, origin: Origin) {
        let which = which(case);
        self.lines[which] += 1;
        self.origins.entry(origin.letter()).or_default()[which] += 1;
        match case {
            Case::Digest { .. } => *self.kinds.entry(in_short(Some(ours))).or_default() += 1,
            Case::Ingress { .. } => calls(theirs).for_each(|call| *self.calls.entry(in_short(Some(call))).or_default() += 1),
        }
    }

    fn by(&self, letter: char) -> [u64; 2] {
        self.origins.get(&letter).copied().unwrap_or_default()
    }

    fn print(&self) {
        let (ours, harness, panics) = (self.by('o'), self.by('h'), self.by('p'));
        println!("  digest lines: {} compared, and {} that the harness refuses (no evidence about the Rust)", self.lines[0] - harness[0], harness[0]);
        println!("    of those compared, a CS, CE or CP function (ours on both sides) matched in {}", ours[0]);
        println!("    by kind: {}", in_row(&self.kinds));
        println!("  ingress lines: {} compared, and {} with a call that the harness refuses", self.lines[1] - harness[1], harness[1]);
        println!("    of those compared, a CS, CE or CP function matched in {}, and the Rust panicked in {}", ours[1], panics[1]);
        println!("    calls by answer: {}", in_row(&self.calls));
    }
}

/// 0 for a digest, 1 for a script.
fn which(case: &Case) -> usize {
    usize::from(matches!(case, Case::Ingress { .. }))
}

/// The calls' answers of a script's line.
fn calls(said: &str) -> impl Iterator<Item = &str> {
    said.split(';').filter(|call| !call.starts_with(' '))
}

#[derive(Default)]
struct Tally {
    verbose: Compared,
    connect: Compared,
    /// Cases in which the Rust met a longer CONNECT line, so that the mode's answer has nothing to be compared with.
    longer: [u64; 2],
    named: BTreeMap<&'static str, u64>,
    /// By mode and by what differs.
    others: BTreeMap<(Mode, String), Found>,
}

impl Tally {
    fn add_all(&mut self, cases: &[Case], ours: &Ours) -> io::Result<()> {
        for (case, said) in cases.iter().zip(ours.both(cases)?) {
            self.longer[which(case)] += u64::from(said.met_longer);
            for mode in [Mode::Verbose, Mode::Connect] {
                if let Some(ours) = said.ours(mode) {
                    self.add(mode, case, ours, &said.theirs, said.origin);
                }
            }
        }
        Ok(())
    }

    fn add(&mut self, mode: Mode, case: &Case, ours: &str, theirs: &str, origin: Origin) {
        match mode {
            Mode::Verbose => &mut self.verbose,
            Mode::Connect => &mut self.connect,
        }
        .add(case, ours, theirs, origin);
        if let (_, Some(name)) = turned(ours, matches!(case, Case::Digest { .. })) {
            *self.named.entry(name).or_default() += 1;
        }
        if matches!(case, Case::Ingress { .. }) {
            calls(theirs).filter(|&call| call == "refused 4").for_each(|_| *self.named.entry("commit-over-room").or_default() += 1);
        }
        match judge(case, ours, theirs) {
            Verdict::Same => {}
            Verdict::Named(name) => *self.named.entry(name).or_default() += 1,
            Verdict::Other(what) => {
                let first = || Found { count: 0, case: case.clone(), ours: ours.to_owned(), theirs: theirs.to_owned() };
                let found = self.others.entry((mode, what)).or_insert_with(first);
                found.count += 1;
                if size(case) < size(&found.case) {
                    (found.case, found.ours, found.theirs) = (case.clone(), ours.to_owned(), theirs.to_owned());
                }
            }
        }
    }

    /// Prints the counts, and whether every difference is one of `listed`.
    fn close(&self, listed: &[String]) -> bool {
        println!("plain:");
        self.verbose.print();
        let [digests, scripts] = self.longer;
        println!(
            "the same cases in the mode connect, but for {digests} digests and {scripts} scripts that met a longer CONNECT line, which the Rust doesn't know:"
        );
        self.connect.print();
        let mut is_good = true;
        for (name, count) in &self.named {
            let is_listed = listed.iter().any(|l| l == name);
            is_good &= is_listed;
            println!("difference {name}: {count} times, {}", if is_listed { "listed" } else { "NOT LISTED" });
        }
        println!("other differences: {}", self.others.values().map(|f| f.count).sum::<u64>());
        is_good && self.others.is_empty()
    }
}

fn in_row(counts: &BTreeMap<String, u64>) -> String {
    counts.iter().map(|(word, count)| format!("{word} {count}")).collect::<Vec<_>>().join(", ")
}

fn size(case: &Case) -> usize {
    case.to_string().len()
}

/// The names that a document lists: a table's rows whose first cell is a name in backquotes.
pub fn listed(document: &Path) -> io::Result<Vec<String>> {
    let text = fs::read_to_string(document)?;
    let names = text.lines().filter_map(|line| line.strip_prefix("| `")?.split_once("` |")).map(|(name, _)| name.to_owned());
    Ok(names.collect())
}

/// Runs the limits and cases 0 to n of the seed through both, and prints the counts and the differences. Answers whether all differences are
/// listed.
pub fn run(n: u64, seed: u64, listed: &[String], ours: &Ours) -> io::Result<bool> {
    fs::create_dir_all(&ours.work)?;
    let (cme, cms) = lines::folded();
    println!("of 65536 codes the Rust's types fold {cme} CME and {cms} CMS");
    let limits = generate::limits();
    println!("{} cases at the limits, then {n} of seed {seed}", limits.len());
    let mut tally = Tally::default();
    tally.add_all(&limits, ours)?;
    for from in (0..n).step_by(BATCH) {
        let cases: Vec<Case> = (from..n.min(from + BATCH as u64)).map(|i| generate::case(seed, i)).collect();
        tally.add_all(&cases, ours)?;
    }
    let is_good = tally.close(listed);
    for ((mode, what), found) in tally.others.iter().take(MOST_SHOWN) {
        let (asked, us, them) = shrink(*mode, what, found, ours)?;
        println!("difference, {} times: {what}\n  case:     {asked}\n  ours:     {us}\n  the Rust: {them}", found.count);
    }
    if tally.others.len() > MOST_SHOWN {
        println!("and {} further kinds of difference", tally.others.len() - MOST_SHOWN);
    }
    Ok(is_good)
}

/// The smallest case that still differs in the same way and mode, reached by leaving parts out.
fn shrink(mode: Mode, what: &str, found: &Found, ours: &Ours) -> io::Result<(Asked, String, String)> {
    let mut best = (found.case.clone(), found.ours.clone(), found.theirs.clone());
    for _ in 0..MOST_ROUNDS {
        let mut tried = smaller(&best.0);
        tried.truncate(MOST_TRIED);
        let said = ours.both(&tried)?;
        let compared = tried.into_iter().zip(said).filter_map(|(case, said)| Some((case, said.ours(mode)?.to_owned(), said.theirs)));
        let still = compared.filter(|(case, us, them)| matches!(judge(case, us, them), Verdict::Other(w) if w == what));
        match still.min_by_key(|(case, ..)| size(case)) {
            Some(less) if size(&less.0) < size(&best.0) => best = less,
            _ => break,
        }
    }
    Ok((in_mode(mode, &best.0), best.1, best.2))
}

/// Lists with a run left out: halves first, single ones last.
fn without_a_run<T: Clone>(all: &[T]) -> Vec<Vec<T>> {
    let mut said = Vec::new();
    let mut run = all.len().div_ceil(2);
    while run > 0 {
        for from in (0..all.len()).step_by(run) {
            said.push([&all[..from], &all[(from + run).min(all.len())..]].concat());
        }
        run /= 2;
    }
    said
}

fn without_a_record(bytes: &[u8]) -> Vec<Vec<u8>> {
    let Ok(records) = table::read(bytes) else { return Vec::new() };
    let mut said = Vec::new();
    let mut at = 0;
    for record in records {
        let end = at + 3 + record.text.len() + usize::from(matches!(record.mark, Mark::Prompt(_)));
        said.push([&bytes[..at], &bytes[end..]].concat());
        at = end;
    }
    said
}

/// Cases with something left out.
fn smaller(case: &Case) -> Vec<Case> {
    match case {
        Case::Digest { table, input } => {
            let inputs = without_a_run(input).into_iter().map(|input| (table.clone(), input));
            let tables = without_a_record(table).into_iter().map(|table| (table, input.clone()));
            tables.chain(inputs).map(|(table, input)| Case::Digest { table, input }).collect()
        }
        Case::Ingress { table, buffer, slot, queue, ops } => {
            let with = |table: &[u8], buffer: &[u8], slot: &[u8], queue: &[u8], ops: Vec<Op>| Case::Ingress {
                table: table.to_vec(),
                buffer: buffer.to_vec(),
                slot: slot.to_vec(),
                queue: queue.to_vec(),
                ops,
            };
            let mut said: Vec<Case> = without_a_run(ops).into_iter().map(|ops| with(table, buffer, slot, queue, ops)).collect();
            said.extend(without_a_record(table).iter().map(|table| with(table, buffer, slot, queue, ops.clone())));
            let lengths = [buffer.len() / 2, buffer.len().saturating_sub(8), buffer.len().saturating_sub(1)];
            said.extend(lengths.iter().map(|&len| with(table, &buffer[..len], slot, queue, ops.clone())));
            said.extend(SLOT_SIZES.iter().filter(|&&len| len < slot.len()).map(|&len| with(table, buffer, &slot[..len], queue, ops.clone())));
            said.extend([queue.len() / 2, queue.len().saturating_sub(RECORD)].iter().map(|&len| with(table, buffer, slot, &queue[..len], ops.clone())));
            for (i, op) in ops.iter().enumerate() {
                let (Op::Write(bytes) | Op::Put(bytes) | Op::Okay(bytes)) = op else { continue };
                for less in without_a_run(bytes) {
                    let mut ops = ops.clone();
                    ops[i] = match op {
                        Op::Write(_) => Op::Write(less),
                        Op::Put(_) => Op::Put(less),
                        _ => Op::Okay(less),
                    };
                    said.push(with(table, buffer, slot, queue, ops));
                }
            }
            said
        }
    }
}
