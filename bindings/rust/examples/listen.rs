//! Prints what a modem says, as it says it.
//!
//!     [QUIET=MS] [DIGESTER=NAME] listen DEVICE [NOTICE ..]     such as: listen /dev/ttyUSB0 RING +CREG
//!     [QUIET=MS] [DIGESTER=NAME] listen - [NOTICE ..]          the same from standard input
//!
//! The device is read as it is set; `stty -F DEVICE raw 115200` sets it. A NOTICE is a line that is that text, or the text, `:` and
//! more: +CREG hears `+CREG: 1`; +IPD doesn't hear `+IPD,12:abc`. A `>` or `@` is a prompt where for MS milliseconds nothing
//! follows it: 200, which is more than lies between two bytes of a line, also where an adapter gathers them. An error's digits are
//! printed as they came. NAME is verbose, as without a DIGESTER, or one of two more:
//!
//! - connect: CONNECT with text behind it, such as `CONNECT 9600`, is an ok too. The text isn't printed: an ingress doesn't hand it
//!   on.
//! - numeric: a modem in V0, which ends an answer with a code and CR, such as `0\r`. It takes no NOTICE: the one that there is, RING,
//!   is a code, and printed by its name. What ends in a CR is heard where for MS milliseconds nothing follows it, since an LF
//!   behind it would make a code a line of information.
//!
//! Status 0: the input came to its end; 1: it could not be read, or the output not be written, or a call was refused; 2: wrong
//! usage.

use std::error::Error;
use std::io::{ErrorKind, Read, Write};
use std::sync::mpsc::{self, Receiver};
use std::time::Duration;
use std::{env, fs, io, process, thread};
use walumbeex::{Digester, Ingress, Refusal, Response, Table, TableBuilder, NOTICE_RECORD, RING};

const USAGE: &str = "usage: [QUIET=MS] [DIGESTER=NAME] listen DEVICE [NOTICE ..]   \
                     (DEVICE - is standard input; a NOTICE is a text such as RING or +CREG; MS is 1 to 60000; \
                     NAME is verbose, connect or numeric, which takes no NOTICE)";

/// Prints the notices that wait, oldest first.
fn notices(ingress: &mut Ingress<'_>) -> Result<(), Box<dyn Error>> {
    while notice(ingress)? {}
    Ok(())
}

/// Prints the oldest notice; was there one?
fn notice(ingress: &mut Ingress<'_>) -> Result<bool, Box<dyn Error>> {
    let Some(urc) = ingress.notices.take()? else { return Ok(false) };
    let line = if urc.record == RING { b"RING" } else { urc.payload };
    print(&format!("notice      {}", line.escape_ascii()))?;
    Ok(true)
}

fn print(line: &str) -> Result<(), Box<dyn Error>> {
    writeln!(io::stdout(), "{line}").map_err(|e| format!("standard output can't be written: {e}").into())
}

/// The digits of a code as they came; the code where the slot's memory was too short for them.
fn number(code: u16, digits: &[u8]) -> String {
    if digits.is_empty() {
        return code.to_string();
    }
    digits.escape_ascii().to_string()
}

/// Prints the answer that is held, behind the notices that came before it, and frees the slot. No command is sent here: the serial
/// numbers count the answers.
fn answer(ingress: &mut Ingress<'_>) -> Result<(), Box<dyn Error>> {
    if !ingress.res_slot.signalled() {
        return Ok(());
    }
    notices(ingress)?;
    match ingress.res_slot.try_get()? {
        None => {}
        Some(Response::Ok(payload)) => print(&format!("ok          {}", payload.escape_ascii()))?,
        Some(Response::Prompt(byte)) => print(&format!("prompt      {}", byte.escape_ascii()))?,
        Some(Response::CapacityError) => print("too long    an answer that the memory for it does not hold")?,
        Some(Response::OtherError) => print("error")?,
        Some(Response::CmeError { code, digits }) => print(&format!("cme error   {}", number(code, digits)))?,
        Some(Response::CmsError { code, digits }) => print(&format!("cms error   {}", number(code, digits)))?,
        Some(Response::UnknownError { digits }) => print(format!("modem error {}", digits.escape_ascii()).trim_end())?,
        Some(Response::NotAllowedError) => print("not allowed")?,
        Some(Response::ConnectionError(e)) => print(&format!("connection  {e}"))?,
        Some(Response::CustomError { text, .. }) => print(&format!("error       {}", text.escape_ascii()))?,
    }
    ingress.res_slot.reset_next()?;
    Ok(())
}

/// Says a refusal in words, and after refusal 5 makes room: takes a notice and advances by 0 until that isn't refused.
fn go_on(ingress: &mut Ingress<'_>, refusal: Refusal) -> Result<(), Box<dyn Error>> {
    let mut refused = Err(refusal);
    while let Err(refusal) = refused {
        eprintln!("listen: {refusal}");
        if !matches!(refusal, Refusal::QueueFull { .. }) || !notice(ingress)? {
            return Err(refusal.into());
        }
        refused = ingress.try_advance(0);
    }
    answer(ingress)
}

/// Writes a piece into the ingress, all of it.
fn write(ingress: &mut Ingress<'_>, mut piece: &[u8]) -> Result<(), Box<dyn Error>> {
    while !piece.is_empty() {
        match ingress.try_write(piece) {
            // No room, and nothing in the buffer is finished: no further byte can finish it.
            Ok(0) => match ingress.try_advance(0) {
                Err(refusal) => go_on(ingress, refusal)?,
                Ok(()) if !ingress.write_buf().is_empty() => answer(ingress)?,
                Ok(()) => {
                    eprintln!(
                        "listen: the buffer is full and nothing in it is finished: {} bytes dropped",
                        ingress.pending().len()
                    );
                    ingress.clear();
                }
            },
            Ok(taken) => {
                piece = &piece[taken..];
                answer(ingress)?;
            }
            // The bytes taken are consumed or in the buffer: they are never offered again.
            Err(refusal @ Refusal::QueueFull { taken }) => {
                piece = &piece[taken..];
                go_on(ingress, refusal)?;
            }
            Err(refusal) => go_on(ingress, refusal)?,
        }
    }
    Ok(())
}

/// What the source gives, a read at a time. A thread reads, so that the line can be heard to be quiet.
fn reads(mut source: Box<dyn Read + Send>) -> Receiver<io::Result<Vec<u8>>> {
    let (sender, reads) = mpsc::sync_channel(1);
    thread::spawn(move || loop {
        let mut heard = vec![0; 4096];
        let read = match source.read(&mut heard) {
            Err(e) if e.kind() == ErrorKind::Interrupted => continue,
            Ok(0) => return,
            Ok(n) => {
                heard.truncate(n);
                Ok(heard)
            }
            Err(e) => Err(e),
        };
        let failed = read.is_err();
        if sender.send(read).is_err() || failed {
            return;
        }
    });
    reads
}

/// Is the last byte, blanks aside, a `>` or an `@`? With nothing behind it, it is heard as a prompt.
fn ends_as_a_prompt(bytes: &[u8]) -> bool {
    let last = bytes.iter().rev().find(|b| !b" \t\r\n".contains(b));
    last.is_some_and(|b| b">@".contains(b))
}

/// Does what is heard of the bytes hang on what follows them? In V0 a CR may end a code, and with an LF behind it ends a line of
/// information.
fn hangs_on_more(bytes: &[u8], in_v0: bool) -> bool {
    if in_v0 {
        return bytes.ends_with(b"\r");
    }
    ends_as_a_prompt(bytes)
}

/// How many of the bytes to hand over at once: a line, since the slot holds one answer and each but a prompt ends with its
/// line. A line that ends as a prompt goes with the next. In V0 a line that may be an answer ends in a CR with no LF behind it.
fn piece_of(bytes: &[u8], in_v0: bool) -> usize {
    let ends = |&k: &usize| match bytes[k - 1] {
        b'\r' => in_v0 && bytes[k] != b'\n',
        b'\n' => !in_v0 && !ends_as_a_prompt(&bytes[..k]),
        _ => false,
    };
    (1..bytes.len()).find(ends).unwrap_or(bytes.len())
}

fn listen(source: Box<dyn Read + Send>, digester: Digester<'_>, quiet: Duration) -> Result<(), Box<dyn Error>> {
    let (mut buf, mut slot_mem, mut queue_mem) = ([0; 4096], [0; 4096], [0; 4 * NOTICE_RECORD]);
    let mut ingress = Ingress::new(digester, &mut buf, &mut slot_mem, &mut queue_mem)?;
    let in_v0 = digester == Digester::numeric();

    let reads = reads(source);
    let mut failed = None;
    while let (None, Ok(read)) = (&failed, reads.recv()) {
        let mut heard = Vec::new();
        let mut next = Some(read);
        while let Some(read) = next.take() {
            match read {
                Ok(more) => heard.extend(more),
                Err(e) => failed = Some(e),
            }
            // A prompt, or a code, is where nothing follows; inside a line more comes at once.
            if failed.is_none() && hangs_on_more(&heard, in_v0) {
                next = reads.recv_timeout(quiet).ok();
            }
        }
        let mut rest = &heard[..];
        while !rest.is_empty() {
            let (piece, behind) = rest.split_at(piece_of(rest, in_v0));
            write(&mut ingress, piece)?;
            rest = behind;
        }
        notices(&mut ingress)?;
    }
    if ingress.res_slot.lost() > 0 || ingress.notices.lost() > 0 {
        eprintln!("listen: {} answers and {} notices were lost", ingress.res_slot.lost(), ingress.notices.lost());
    }
    if !ingress.pending().is_empty() {
        eprintln!("listen: unfinished at the end: {}", ingress.pending().escape_ascii());
    }
    failed.map_or(Ok(()), |e| Err(format!("the input can't be read: {e}").into()))
}

fn stop(what: &str, status: i32) -> ! {
    eprintln!("listen: {what}");
    process::exit(status)
}

/// The digester that DIGESTER names, over the notices' table.
fn digester(table: Table<'_>) -> Digester<'_> {
    match env::var("DIGESTER").as_deref().unwrap_or("verbose") {
        "verbose" => Digester::new(table),
        "connect" => Digester::connect(table),
        "numeric" if table.records() == 0 => Digester::numeric(),
        "numeric" => {
            stop(&format!("with DIGESTER=numeric there is no NOTICE: a modem in V0 sends codes, RING among them; {USAGE}"), 2)
        }
        other => stop(&format!("DIGESTER is \"{other}\"; {USAGE}"), 2),
    }
}

fn main() {
    let mut words = env::args().skip(1);
    let Some(device) = words.next() else { stop(&format!("no device was named; {USAGE}"), 2) };
    if device == "--help" {
        return print(USAGE).unwrap_or_else(|e| stop(&e.to_string(), 1));
    }
    let quiet = match env::var("QUIET").as_deref().unwrap_or("200").parse() {
        Ok(ms @ 1..=60000) => Duration::from_millis(ms),
        _ => stop(&format!("QUIET is no number of 1 to 60000; {USAGE}"), 2),
    };
    // Room for one text more than a table may have, so that one too many is seen to be.
    let mut memory = [0; 65 * 35];
    let mut builder = TableBuilder::new(&mut memory);
    for text in words {
        if let Err(e) = builder.urc(text.as_bytes()) {
            stop(&format!("notice \"{text}\": {e}; {USAGE}"), 2)
        }
    }
    let digester = digester(builder.finish());
    let source: Box<dyn Read + Send> = match &*device {
        "-" => Box::new(io::stdin()),
        _ => Box::new(fs::File::open(&device).unwrap_or_else(|e| stop(&format!("{device}: {e}; {USAGE}"), 1))),
    };
    if let Err(e) = listen(source, digester, quiet) {
        stop(&e.to_string(), 1)
    }
}
