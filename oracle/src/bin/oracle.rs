//! Reads cases on standard input and prints what the crate says, one line each.

use oracle::{lines, notation, oracle as asked};
use std::io::{self, BufRead, BufWriter, Write};
use std::process::ExitCode;
use std::{env, fs, thread};

const USAGE: &str = "usage: oracle [ORIGINS] < CASES
       oracle --codes
Prints the crate's answer to each case, a line each. Into the file ORIGINS goes a letter a line for who decided it: c the crate, o the crate and
a CS, CE or CP function (ours on both sides), h the harness, p a panic of the crate's. --codes: how many CME and CMS codes the crate's types fold.";

/// The retry of the crate's digest is deep; this has room for it in any build.
const STACK: usize = 256 << 20;

fn main() -> ExitCode {
    let arguments: Vec<String> = env::args().skip(1).collect();
    let done = match &arguments[..] {
        [] => thread::Builder::new().stack_size(STACK).spawn(|| run(None)),
        [word] if word == "--codes" => {
            let (cme, cms) = lines::folded();
            println!("of 65536 codes the crate's types fold {cme} CME and {cms} CMS");
            return ExitCode::SUCCESS;
        }
        [word] if word.starts_with('-') => return usage(&format!("no option {word}")),
        [path] => {
            let path = path.clone();
            thread::Builder::new().stack_size(STACK).spawn(move || run(Some(path)))
        }
        _ => return usage("too many arguments"),
    };
    match done.expect("a thread can be started").join() {
        Ok(Ok(())) => ExitCode::SUCCESS,
        Ok(Err(e)) => {
            eprintln!("oracle: {e}");
            ExitCode::FAILURE
        }
        Err(_) => {
            eprintln!("oracle: a panic outside the crate");
            ExitCode::FAILURE
        }
    }
}

fn usage(fault: &str) -> ExitCode {
    eprintln!("oracle: {fault}\n{USAGE}");
    ExitCode::from(2)
}

fn run(origins: Option<String>) -> io::Result<()> {
    let mut out = BufWriter::new(io::stdout().lock());
    let mut letters = String::new();
    for line in io::stdin().lock().split(b'\n') {
        let line = line?;
        if notation::is_idle(&line) {
            continue;
        }
        let (said, origin) = asked::answer(&line);
        writeln!(out, "{said}")?;
        letters.push(origin.letter());
        letters.push('\n');
    }
    out.flush()?;
    origins.map_or(Ok(()), |path| fs::write(path, letters))
}
