//! The examples, as programs to be run.

use std::io::Write;
use std::path::PathBuf;
use std::process::{Command, Output, Stdio};

/// `cargo test` builds the examples, two folders up from this test's own program. On a machine of another kind
/// `WALUMBEEX_RUNNER` has the words that start an x86-64 program.
pub fn program(example: &str) -> Command {
    // Not current_exe: where a loader is named in front of the program, that is the loader.
    let mut path = PathBuf::from(std::env::args_os().next().unwrap());
    path.pop();
    path.pop();
    path.push("examples");
    path.push(example);
    assert!(
        path.is_file(),
        "the example isn't built: `cargo build --example {example}` builds it, and so does a plain `cargo test`"
    );
    let runner = std::env::var("WALUMBEEX_RUNNER").unwrap_or_default();
    let mut words = runner.split_whitespace();
    match words.next() {
        None => Command::new(path),
        Some(first) => {
            let mut command = Command::new(first);
            command.args(words).arg(path);
            command
        }
    }
}

/// What a program says to an input.
pub fn output(program: &mut Command, input: &[u8]) -> Output {
    let mut child = program.stdin(Stdio::piped()).stdout(Stdio::piped()).stderr(Stdio::piped()).spawn().unwrap();
    // It may have stopped before it read anything.
    let _ = child.stdin.take().unwrap().write_all(input);
    child.wait_with_output().unwrap()
}
