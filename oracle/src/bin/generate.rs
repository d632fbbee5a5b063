//! Prints cases for `oracle` and `compare`, from a seed.

use oracle::generate;
use std::env;
use std::io::{self, BufWriter, ErrorKind, Write};
use std::process::ExitCode;

const USAGE: &str = "usage: generate N SEED
       generate limits
Prints N cases, always the same ones for a seed. Of each ten, four are the next of the exhaustive lists (every sequence of small alphabets up to a
length, in an order that the seed chooses; random ones once these are used up), one is an input with CONNECT and four are other random or damaged digest
inputs, and one is an ingress script (of those with CONNECT and of the scripts every second is from an exhaustive list too). `limits` prints the cases at
the limits, which every comparison begins with.";

fn main() -> ExitCode {
    let arguments: Vec<String> = env::args().skip(1).collect();
    let words: Vec<&str> = arguments.iter().map(String::as_str).collect();
    let done = match words[..] {
        ["--help"] => {
            let (inputs, scripts) = generate::exhaustive();
            println!("{USAGE}\nThe exhaustive lists have {inputs} digest inputs and {scripts} scripts.");
            return ExitCode::SUCCESS;
        }
        ["limits"] => print(generate::limits().into_iter()),
        [n, seed] => match (n.parse::<u64>(), seed.parse::<u64>()) {
            (Ok(n), Ok(seed)) => print((0..n).map(|i| generate::case(seed, i))),
            _ => return usage("N and SEED are numbers"),
        },
        _ => return usage("two numbers are needed"),
    };
    match done {
        Err(e) if e.kind() != ErrorKind::BrokenPipe => {
            eprintln!("generate: {e}");
            ExitCode::FAILURE
        }
        _ => ExitCode::SUCCESS,
    }
}

fn usage(fault: &str) -> ExitCode {
    eprintln!("generate: {fault}\n{USAGE}");
    ExitCode::from(2)
}

fn print(cases: impl Iterator<Item = impl std::fmt::Display>) -> io::Result<()> {
    let mut out = BufWriter::new(io::stdout().lock());
    for case in cases {
        writeln!(out, "{case}")?;
    }
    out.flush()
}
