//! The program examples/bytes.rs.

mod program;

use program::{output, program};
use std::io::{BufRead, BufReader, Write};
use std::process::Stdio;
use std::sync::mpsc;
use std::thread;
use std::time::Duration;

/// What it prints of an input, and what it says besides.
fn bytes(input: &[u8]) -> (String, String) {
    let said = output(&mut program("bytes"), input);
    assert_eq!(said.status.code(), Some(0));
    (String::from_utf8(said.stdout).unwrap(), String::from_utf8(said.stderr).unwrap())
}

#[test]
fn an_exchange_byte_by_byte() {
    let (heard, errors) = bytes(b"AT+CSQ\r\r\n+CSQ: 17,99\r\n\r\nOK\r\n\r\nRING\r\n\r\nNA\r\n\r\n+CREG: 1\r\n\r\n> ");
    assert_eq!(heard, "ok +CSQ: 17,99\nnotice RING\nerror NotAllowedError\nnotice +CREG: 1\nprompt >\n");
    assert_eq!(errors, "");
}

/// In one piece they would be an Ok.
#[test]
fn an_error_and_an_ok_are_each_heard_when_they_come() {
    assert_eq!(bytes(b"\r\nERROR\r\n\r\nOK\r\n").0, "error OtherError\nok \n");
}

#[test]
fn a_prompt_byte_inside_a_line_is_no_prompt() {
    let (heard, _) = bytes(b"AT+CGDCONT?\r\r\n+CGDCONT: 1,\"IP\",\"me@apn\"\r\n\r\nOK\r\n\r\n<html>\r\n</html>\r\n\r\nOK\r\n");
    assert_eq!(heard, "ok +CGDCONT: 1,\\\"IP\\\",\\\"me@apn\\\"\nok <html>\\r\\n</html>\n");
}

/// It is printed while the line is open, once the line is quiet.
#[test]
fn a_prompt_then_quiet() {
    let mut child = program("bytes").stdin(Stdio::piped()).stdout(Stdio::piped()).spawn().unwrap();
    let mut line = child.stdin.take().unwrap();
    let lines = BufReader::new(child.stdout.take().unwrap()).lines();
    let (sender, heard) = mpsc::channel();
    thread::spawn(move || lines.map_while(Result::ok).try_for_each(|line| sender.send(line)));
    let patience = Duration::from_secs(20);

    line.write_all(b"AT+CMGS=1\r\r\n> ").unwrap();
    let prompt = heard.recv_timeout(patience);
    line.write_all(b"\r\n+CMGS: 5\r\n\r\nOK\r\n").unwrap();
    drop(line);
    assert!(child.wait().unwrap().success());
    assert_eq!(prompt.as_deref(), Ok("prompt >"));
    assert_eq!(heard.iter().collect::<Vec<_>>(), ["ok +CMGS: 5"]);
}

#[test]
fn what_nothing_finishes_is_dropped_and_what_is_left_is_said() {
    let (heard, errors) = bytes(&[b'a'; 1030]);
    assert_eq!(heard, "");
    assert_eq!(
        errors,
        "bytes: the buffer is full and nothing in it is finished: 1024 bytes dropped\nbytes: unfinished at the end: aaaaaa\n"
    );
}

#[test]
fn how_to_use_it() {
    let said = output(program("bytes").arg("--help"), b"");
    assert!(said.stdout.starts_with(b"usage: bytes < DEVICE"), "{said:?}");
    assert_eq!((said.stderr.len(), said.status.code()), (0, Some(0)));
    let said = output(program("bytes").arg("RING"), b"");
    assert!(said.stderr.starts_with(b"bytes: it takes no words, and got \"RING\"; usage: "), "{said:?}");
    assert_eq!((said.stdout.len(), said.status.code()), (0, Some(2)));
}
