//! Prints what a modem says, for a board whose driver hands over one byte at a time.
//!
//!     bytes < DEVICE
//!
//! `Board::byte_came` is what such a driver calls with each byte, and `Board::line_is_quiet` what a timer calls where none came for
//! 200 milliseconds; here `listen` calls both. `try_feed` spares a byte that finishes nothing a digest of all that is in the
//! buffer. RING and +CREG are notices.
//!
//! Of single bytes each answer is heard when it comes: ERROR and an OK behind it are two. A `>` or `@` inside a line would be heard
//! as a prompt, so it is held back until a byte comes that is no blank, or the line is quiet.
//!
//! Status 0: the input came to its end; 1: it could not be read, or the output not be written, or a call was refused; 2: wrong
//! usage.

use std::error::Error;
use std::io::{self, Read, Write};
use std::sync::mpsc::{self, Receiver, RecvTimeoutError};
use std::time::Duration;
use std::{env, process, thread};
use walumbeex::{Digester, Ingress, Refusal, Response, Table, NOTICE_RECORD};

const USAGE: &str = "usage: bytes < DEVICE   (it takes no words; RING and +CREG are notices)";
const QUIET: Duration = Duration::from_millis(200);

struct Board<'a> {
    ingress: Ingress<'a>,
    /// What may be a prompt, and the blanks behind it.
    held_back: [u8; 8],
    held_len: usize,
}

impl Board<'_> {
    fn byte_came(&mut self, byte: u8) -> Result<(), Box<dyn Error>> {
        self.held_back[self.held_len] = byte;
        self.held_len += 1;
        if !self.holds_a_prompt() || self.held_len == self.held_back.len() {
            self.line_is_quiet()?;
        }
        Ok(())
    }

    fn line_is_quiet(&mut self) -> Result<(), Box<dyn Error>> {
        let (bytes, n) = (self.held_back, self.held_len);
        self.held_len = 0;
        self.feed(&bytes[..n])
    }

    /// Is the last byte that is held back, blanks aside, a `>` or an `@`? With nothing behind it, it is heard as a prompt.
    fn holds_a_prompt(&self) -> bool {
        let last = self.held_back[..self.held_len].iter().rev().find(|b| !b" \t\r\n".contains(b));
        last.is_some_and(|b| b">@".contains(b))
    }

    /// Hands over a byte, or a few.
    fn feed(&mut self, mut bytes: &[u8]) -> Result<(), Box<dyn Error>> {
        while !bytes.is_empty() {
            match self.ingress.try_feed(bytes) {
                // Every call before this one left nothing that is finished, and no further byte fits.
                Ok(0) => {
                    eprintln!(
                        "bytes: the buffer is full and nothing in it is finished: {} bytes dropped",
                        self.ingress.pending().len()
                    );
                    self.ingress.clear();
                }
                Ok(taken) => bytes = &bytes[taken..],
                Err(Refusal::QueueFull { taken }) => {
                    bytes = &bytes[taken..];
                    self.make_room()?;
                }
                Err(refusal) => return Err(refusal.into()),
            }
            self.deliver()?;
        }
        Ok(())
    }

    /// What is taken from the queue makes room for the notice that waits.
    fn make_room(&mut self) -> Result<(), Box<dyn Error>> {
        loop {
            self.deliver()?;
            match self.ingress.try_feed_advance(0) {
                Err(Refusal::QueueFull { .. }) => {}
                done => return Ok(done?),
            }
        }
    }

    /// Prints the notices and the answer that wait. No command is sent here: the serial numbers count the answers.
    fn deliver(&mut self) -> Result<(), Box<dyn Error>> {
        while let Some(notice) = self.ingress.notices.take()? {
            print(&format!("notice {}", notice.payload.escape_ascii()))?;
        }
        match self.ingress.res_slot.try_get()? {
            None => return Ok(()),
            Some(Response::Ok(payload)) => print(&format!("ok {}", payload.escape_ascii()))?,
            Some(Response::Prompt(byte)) => print(&format!("prompt {}", byte.escape_ascii()))?,
            Some(error) => print(&format!("error {error:?}"))?,
        }
        self.ingress.res_slot.reset_next()?;
        Ok(())
    }
}

fn print(line: &str) -> Result<(), Box<dyn Error>> {
    writeln!(io::stdout(), "{line}").map_err(|e| format!("standard output can't be written: {e}").into())
}

/// Standard input, a byte at a time. A thread reads, so that the line can be heard to be quiet.
fn bytes() -> Receiver<io::Result<u8>> {
    let (sender, bytes) = mpsc::sync_channel(1);
    thread::spawn(move || io::stdin().lock().bytes().try_for_each(|byte| sender.send(byte)));
    bytes
}

fn listen() -> Result<(), Box<dyn Error>> {
    let (mut buf, mut slot_mem, mut queue_mem) = ([0; 1024], [0; 1024], [0; 2 * NOTICE_RECORD]);
    let digester = Digester::new(Table::new(b"UR\x04RINGUR\x05+CREG")?);
    let ingress = Ingress::new(digester, &mut buf, &mut slot_mem, &mut queue_mem)?;
    let mut board = Board { ingress, held_back: [0; 8], held_len: 0 };
    let bytes = bytes();
    loop {
        // With nothing held back there is nothing to hear where the line is quiet.
        match bytes.recv_timeout(QUIET) {
            Ok(byte) => board.byte_came(byte.map_err(|e| format!("standard input can't be read: {e}"))?)?,
            Err(RecvTimeoutError::Timeout) => board.line_is_quiet()?,
            Err(RecvTimeoutError::Disconnected) => break,
        }
    }
    board.line_is_quiet()?;
    if !board.ingress.pending().is_empty() {
        eprintln!("bytes: unfinished at the end: {}", board.ingress.pending().escape_ascii());
    }
    Ok(())
}

fn main() {
    let stop = |what: &str, status| -> ! {
        eprintln!("bytes: {what}");
        process::exit(status)
    };
    let done = match env::args().nth(1).as_deref() {
        None => listen(),
        Some("--help") => print(USAGE),
        Some(word) => stop(&format!("it takes no words, and got \"{word}\"; {USAGE}"), 2),
    };
    if let Err(e) = done {
        stop(&e.to_string(), 1)
    }
}
