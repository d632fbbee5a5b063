//! Runs generated cases through our program and the crate, and compares every line.

use oracle::judge::{self, Ours};
use std::path::{Path, PathBuf};
use std::process::ExitCode;
use std::{env, io, thread};

const USAGE: &str = "usage: judge N SEED NAMES WORK COMMAND...
Compares our answers to the limits and to N cases of the seed with the Rust's. NAMES is the document that lists the intended differences by name, WORK a folder for
files, COMMAND our program, which reads cases on standard input. Ends with 0 where every difference is listed, 1 where one isn't, 2 on wrong usage.";

/// The retry of the crate's digest is deep; this has room for it in any build.
const STACK: usize = 256 << 20;

fn main() -> ExitCode {
    let arguments: Vec<String> = env::args().skip(1).collect();
    let [n, seed, names, work, command @ ..] = &arguments[..] else { return usage("too few arguments") };
    let (Ok(n), Ok(seed)) = (n.parse::<u64>(), seed.parse::<u64>()) else { return usage("N and SEED are numbers") };
    if command.is_empty() {
        return usage("no command");
    }
    let (names, ours) = (names.clone(), Ours { command: command.to_vec(), work: PathBuf::from(work) });
    let judged = thread::Builder::new().stack_size(STACK).spawn(move || -> io::Result<bool> { judge::run(n, seed, &judge::listed(Path::new(&names))?, &ours) });
    match judged.expect("a thread can be started").join() {
        Ok(Ok(true)) => ExitCode::SUCCESS,
        Ok(Ok(false)) => ExitCode::FAILURE,
        Ok(Err(e)) => {
            eprintln!("judge: {e}");
            ExitCode::FAILURE
        }
        Err(_) => {
            eprintln!("judge: a panic outside the crate");
            ExitCode::FAILURE
        }
    }
}

fn usage(fault: &str) -> ExitCode {
    eprintln!("judge: {fault}\n{USAGE}");
    ExitCode::from(2)
}
