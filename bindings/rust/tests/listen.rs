//! The program examples/listen.rs, from standard input and from a device.

mod program;
mod pty;

use program::output;
use std::fs::OpenOptions;
use std::io::{BufRead, BufReader, Write};
use std::process::{Command, Output, Stdio};
use std::sync::mpsc;
use std::thread;
use std::time::Duration;

fn program() -> Command {
    program::program("listen")
}

fn listen(words: &[&str], input: &[u8]) -> Output {
    output(program().args(words), input)
}

#[test]
fn a_capture_from_standard_input() {
    let said = listen(&["-"], b"AT+CSQ\r\r\n+CSQ: 17,99\r\n\r\nOK\r\n\r\n> ");
    assert_eq!(String::from_utf8_lossy(&said.stdout), "ok          +CSQ: 17,99\nprompt      >\n");
    assert_eq!((said.stderr.len(), said.status.code()), (0, Some(0)));
}

#[test]
fn the_digits_of_an_error_as_they_came() {
    let said = listen(&["-"], b"\r\n+CME ERROR: 0010\r\n\r\n+CMS ERROR:\t7\n\r\nMODEM ERROR:007\n");
    assert_eq!(String::from_utf8_lossy(&said.stdout), "cme error   0010\ncms error   7\nmodem error 007\n");
    assert_eq!((said.stderr.len(), said.status.code()), (0, Some(0)));
}

#[test]
fn connect_with_text_behind_it_where_the_digester_hears_it() {
    let line = b"ATD1\r\r\nCONNECT 9600\r\n";
    for (digester, heard, left) in [
        (&["connect"][..], "ok          \n", ""),
        (&["verbose"], "", "listen: unfinished at the end: \\r\\nCONNECT 9600\\r\\n\n"),
        (&[], "", "listen: unfinished at the end: \\r\\nCONNECT 9600\\r\\n\n"),
    ] {
        let said = output(program().arg("-").envs(digester.iter().map(|name| ("DIGESTER", name))), line);
        assert_eq!(String::from_utf8_lossy(&said.stdout), heard, "{digester:?}");
        assert_eq!(String::from_utf8_lossy(&said.stderr), left, "{digester:?}");
        assert_eq!(said.status.code(), Some(0));
    }
    let said = output(program().arg("-").env("DIGESTER", "deaf"), line);
    let errors = String::from_utf8_lossy(&said.stderr);
    assert!(errors.starts_with("listen: DIGESTER is \"deaf\"; usage: "), "{errors}");
    assert_eq!((said.status.code(), said.stdout.len()), (Some(2), 0));
}

/// An echo, a line of information, a code; RING by its name; a line that is one digit; more RINGs than the queue holds.
#[test]
fn a_modem_in_v0() {
    let input = b"AT+CSQ\r+CSQ: 17,99\r\n0\r2\rATD1\r7\r4\r0\r\n1\r2\r2\r2\r2\r2\r2\r";
    let said = output(program().arg("-").env("DIGESTER", "numeric"), input);
    let ring = "notice      RING\n";
    let expected = format!("ok          +CSQ: 17,99\n{ring}connection  Busy\nerror\nok          0\n{}", ring.repeat(6));
    assert_eq!(String::from_utf8_lossy(&said.stdout), expected);
    let errors = String::from_utf8_lossy(&said.stderr);
    assert!(errors.lines().all(|line| line.starts_with("listen: refused 5: ")), "{errors}");
    assert_eq!((errors.lines().count(), said.status.code()), (2, Some(0)));
}

/// A NOTICE can't be heard in V0: it isn't taken in silence.
#[test]
fn a_notice_in_v0_is_wrong_usage() {
    let said = output(program().args(["-", "RING"]).env("DIGESTER", "numeric"), b"2\r");
    let errors = String::from_utf8_lossy(&said.stderr);
    assert!(errors.starts_with("listen: with DIGESTER=numeric there is no NOTICE: "), "{errors}");
    assert!(errors.contains("; usage: ") && errors.lines().count() == 1, "{errors}");
    assert_eq!((said.status.code(), said.stdout.len()), (Some(2), 0));
}

#[test]
fn each_notice_once_whatever_the_queue_holds() {
    let mut input = Vec::new();
    let mut expected = String::new();
    for n in 0..100 {
        input.extend_from_slice(format!("\r\n+CREG: {n}\r\n").as_bytes());
        expected.push_str(&format!("notice      +CREG: {n}\n"));
    }
    input.extend_from_slice(b"\r\nBUSY\r\n\r\nhalf");
    expected.push_str("connection  Busy\n");
    let said = listen(&["-", "RING", "+CREG"], &input);
    assert_eq!(String::from_utf8_lossy(&said.stdout), expected);
    assert_eq!(said.status.code(), Some(0));
    let errors = String::from_utf8_lossy(&said.stderr);
    assert!(errors.contains("listen: refused 5: the notice queue is full"), "{errors}");
    assert!(errors.ends_with("listen: unfinished at the end: \\r\\nhalf\n"), "{errors}");
}

#[test]
fn bytes_that_nothing_finishes_are_dropped_and_it_goes_on() {
    let mut input = vec![b'a'; 5000];
    input.extend_from_slice(b"\r\nOK\r\n");
    let said = listen(&["-"], &input);
    // The echo before the first CRLF is no part of an answer.
    assert_eq!(String::from_utf8_lossy(&said.stdout), "ok          \n");
    let errors = String::from_utf8_lossy(&said.stderr);
    assert_eq!(errors, "listen: the buffer is full and nothing in it is finished: 4096 bytes dropped\n");
}

#[test]
fn a_notice_that_no_queue_holds_is_said_to_be_lost() {
    let said = listen(&["-", "+CREG"], format!("\r\n+CREG: {}\r\n\r\nOK\r\n", "1".repeat(1018)).as_bytes());
    assert_eq!(String::from_utf8_lossy(&said.stdout), "ok          \n");
    assert_eq!(String::from_utf8_lossy(&said.stderr), "listen: 0 answers and 1 notices were lost\n");
}

/// The longest that it holds, and more of them than it holds at once.
#[test]
fn notices_of_1024_bytes_are_printed() {
    let line = format!("+CREG: {}", "1".repeat(1017));
    let said = listen(&["-", "+CREG"], format!("\r\n{line}\r\n").repeat(5).as_bytes());
    assert_eq!(String::from_utf8_lossy(&said.stdout), format!("notice      {line}\n").repeat(5));
    assert_eq!(said.status.code(), Some(0));
}

/// A text that something other than `:` or CRLF follows is no notice.
#[test]
fn a_notice_is_its_text_or_its_text_and_a_colon() {
    let said = listen(&["-", "+IPD"], b"\r\n+IPD,12:abc\r\n\r\n+IPD: 12\r\n");
    assert_eq!(String::from_utf8_lossy(&said.stdout), "notice      +IPD: 12\n");
}

#[test]
fn output_that_cant_be_written() {
    let full = OpenOptions::new().write(true).open("/dev/full").unwrap();
    let mut child = program().arg("-").stdin(Stdio::piped()).stdout(full).stderr(Stdio::piped()).spawn().unwrap();
    child.stdin.take().unwrap().write_all(b"\r\nOK\r\n").unwrap();
    let said = child.wait_with_output().unwrap();
    let errors = String::from_utf8_lossy(&said.stderr);
    assert!(errors.starts_with("listen: standard output can't be written: "), "{errors}");
    assert_eq!(said.status.code(), Some(1));
}

#[test]
fn how_to_use_it() {
    let said = listen(&["--help"], b"");
    assert!(said.stdout.starts_with(b"usage: [QUIET=MS] [DIGESTER=NAME] listen DEVICE"), "{said:?}");
    assert_eq!((said.stderr.len(), said.status.code()), (0, Some(0)));
}

#[test]
fn wrong_usage() {
    for (words, status, what) in [
        (&[][..], 2, "listen: no device was named; usage: [QUIET=MS] [DIGESTER=NAME] listen DEVICE"),
        (&["/no/such/device"], 1, "listen: /no/such/device: "),
        (&["-", "RING", " x"], 2, "listen: notice \" x\": byte 0 of the text"),
        (
            &[&["-"], &["a2345678901234567890123456789012"; 65][..]].concat(),
            2,
            "listen: notice \"a2345678901234567890123456789012\": a table has",
        ),
    ] {
        let said = listen(words, b"");
        let errors = String::from_utf8_lossy(&said.stderr);
        assert!(errors.starts_with(what) && errors.lines().count() == 1, "{errors}");
        assert_eq!((said.status.code(), said.stdout.len()), (Some(status), 0));
    }
}

/// A read may end behind a `>` or `@` of a line; what comes at once belongs to that line, and the lines of one read to one answer.
#[test]
fn a_prompt_byte_inside_a_line_is_no_prompt() {
    for (answer, at, line) in [
        (
            &b"AT+CGDCONT?\r\r\n+CGDCONT: 1,\"IP\",\"me@apn\"\r\n\r\nOK\r\n"[..],
            35,
            r#"ok          +CGDCONT: 1,\"IP\",\"me@apn\""#,
        ),
        (b"\r\n+X: <a> b\r\n\r\nOK\r\n", 9, "ok          +X: <a> b"),
        (b"\r\n+X: <a> b\r\n\r\nOK\r\n", 10, "ok          +X: <a> b"),
        (b"\r\n<html>\r\n</html>\r\n\r\nOK\r\n", 10, r"ok          <html>\r\n</html>"),
        (b"\r\n<html>\r\n</html>\r\n\r\nOK\r\n", 0, r"ok          <html>\r\n</html>"),
    ] {
        // With patience, since a busy machine may be slow to write the rest.
        let mut child = program().arg("-").env("QUIET", "20000").stdin(Stdio::piped()).stdout(Stdio::piped()).spawn().unwrap();
        let mut line_in = child.stdin.take().unwrap();
        line_in.write_all(&answer[..at]).unwrap();
        // Long enough for two reads.
        thread::sleep(Duration::from_millis(if at > 0 { 100 } else { 0 }));
        line_in.write_all(&answer[at..]).unwrap();
        drop(line_in);
        let said = child.wait_with_output().unwrap();
        assert_eq!(String::from_utf8_lossy(&said.stdout), format!("{line}\n"), "cut at {at}");
    }
}

/// In V0 a read may end between a CR and its LF: what comes at once belongs to that line.
#[test]
fn a_cr_that_an_lf_follows_ends_no_code() {
    // With patience, as above.
    let mut command = program();
    command.arg("-").envs([("DIGESTER", "numeric"), ("QUIET", "20000")]);
    let mut child = command.stdin(Stdio::piped()).stdout(Stdio::piped()).spawn().unwrap();
    let mut line_in = child.stdin.take().unwrap();
    line_in.write_all(b"0\r").unwrap();
    thread::sleep(Duration::from_millis(100));
    line_in.write_all(b"\n0\r").unwrap();
    drop(line_in);
    let said = child.wait_with_output().unwrap();
    assert_eq!(String::from_utf8_lossy(&said.stdout), "ok          0\n");
}

/// Each line is printed when it is heard, while the device is still open; when the modem hangs up, the program ends.
fn speaks(digester: &str, notices: &[&str], said: &[(&[u8], &str)]) {
    let (mut modem, host, path) = pty::pseudo_terminal();
    let mut child = program().arg(&path).args(notices).env("DIGESTER", digester).stdout(Stdio::piped()).spawn().unwrap();
    let lines = BufReader::new(child.stdout.take().unwrap()).lines();
    let (sender, heard) = mpsc::channel();
    let reader = thread::spawn(move || lines.map_while(Result::ok).for_each(|line| sender.send(line).unwrap_or(())));
    let patience = Duration::from_secs(20);

    let mut wrong = Vec::new();
    for (bytes, line) in said {
        for piece in bytes.chunks(3) {
            modem.write_all(piece).unwrap();
        }
        match heard.recv_timeout(patience) {
            Ok(said) if said == *line => {}
            other => {
                wrong.push(format!("{other:?} in the place of {line}"));
                break;
            }
        }
    }
    drop(host);
    drop(modem);
    if heard.recv_timeout(patience) != Err(mpsc::RecvTimeoutError::Disconnected) {
        wrong.push("it didn't end when the modem hung up".to_owned());
        child.kill().unwrap();
    }
    child.wait().unwrap();
    reader.join().unwrap();
    assert!(wrong.is_empty(), "{wrong:?}");
}

#[test]
fn a_device_as_it_speaks() {
    speaks(
        "verbose",
        &["RING"],
        &[
            (b"\r\nRING\r\n", "notice      RING"),
            (b"ATD1\r\r\nNO CARRIER\r\n", "connection  No carrier"),
            (b"AT+CMGS=1\r\r\n> ", "prompt      >"),
            (b"\r\n+CMS ERROR: 0500\r\n", "cms error   0500"),
        ],
    );
}

/// A code is heard when the line has gone quiet behind its CR; behind an LF that comes later no line starts.
#[test]
fn a_device_in_v0_as_it_speaks() {
    speaks(
        "numeric",
        &[],
        &[
            (b"2\r", "notice      RING"),
            (b"AT+CSQ\r+CSQ: 17,99\r\n0\r", "ok          +CSQ: 17,99"),
            (b"ATD1\r3\r", "connection  No carrier"),
            (b"0\r", "ok          "),
            (b"\n0\r7\r", "connection  Busy"),
        ],
    );
}
