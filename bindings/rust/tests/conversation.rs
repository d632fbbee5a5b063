//! A conversation with a modem over a pseudo-terminal, in which bytes arrive in odd pieces.

mod pty;

use std::fs::File;
use std::io::{Read, Write};
use std::sync::mpsc;
use std::thread;
use std::time::Duration;
use walumbeex::{ConnectionError, Digester, Ingress, Refusal, Response, TableBuilder, NOTICE_RECORD};

/// What the host sends, and what the modem then sends: notices, its echo, its answer.
const EXCHANGES: [(&[u8], &[u8]); 8] = [
    (b"AT\r", b"AT\r\r\nOK\r\n"),
    (b"AT+CSQ\r", b"\r\n+UUSORD: 0,4\r\nAT+CSQ\r\r\n+CSQ: 17,99\r\n\r\nOK\r\n"),
    (b"AT+CMGS=\"+4912\"\r", b"AT+CMGS=\"+4912\"\r\r\n> "),
    (b"Gate 4\x1A", b"Gate 4\x1A\r\n+CMGS: 5\r\n\r\nOK\r\n"),
    (b"AT+COPS=9\r", b"AT+COPS=9\r\r\n+CME ERROR: 0003\r\n"),
    (b"ATD112\r", b"ATD112\r\r\nNO CARRIER\r\n"),
    (b"AT+CIPSHUT\r", b"AT+CIPSHUT\r\r\nSHUT OK\r\n"),
    (b"ATZ\r", b"\r\nRING\r\n\r\nRING\r\n\r\nRING\r\n\r\n+UUSORD: 1,7\r\nATZ\r\r\nOK\r\n"),
];

/// The modem: awaits each command, byte for byte, and answers in pieces of 1 to 7 bytes, now and then of 40.
fn modem(mut line: File) {
    let sizes = [1, 2, 3, 1, 5, 7, 40, 1, 1, 4];
    let mut turn = 0;
    for (command, mut answer) in EXCHANGES {
        let mut got = vec![0; command.len()];
        line.read_exact(&mut got).unwrap();
        assert_eq!(got, command);
        while !answer.is_empty() {
            let n = usize::min(answer.len(), sizes[turn % sizes.len()]);
            turn += 1;
            line.write_all(&answer[..n]).unwrap();
            answer = &answer[n..];
            thread::sleep(Duration::from_millis(2));
        }
    }
}

/// A wrong answer may leave each side waiting for the other, so the conversation has a time limit.
#[test]
fn a_conversation_in_odd_pieces() {
    let (sender, done) = mpsc::channel();
    let conversation = thread::spawn(move || {
        converse();
        sender.send(()).unwrap();
    });
    let timed_out = done.recv_timeout(Duration::from_secs(30)) == Err(mpsc::RecvTimeoutError::Timeout);
    assert!(!timed_out, "the conversation came to no end");
    conversation.join().unwrap();
}

fn converse() {
    let (modem_end, mut host, _) = pty::pseudo_terminal();
    let modem = thread::spawn(move || modem(modem_end));

    let mut memory = [0; 64];
    let mut builder = TableBuilder::new(&mut memory);
    let sord = builder.urc(b"+UUSORD").unwrap();
    let ring = builder.urc(b"RING").unwrap();
    builder.custom_success(b"SHUT OK").unwrap();
    // A queue for one notice, so that the burst in the last exchange meets refusal 5.
    let (mut buf, mut slot_mem, mut queue_mem) = ([0; 96], [0; 32], [0; NOTICE_RECORD]);
    let mut ingress = Ingress::new(Digester::new(builder.finish()), &mut buf, &mut slot_mem, &mut queue_mem).unwrap();

    let mut answers = Vec::new();
    let mut notices: Vec<(u8, Vec<u8>)> = Vec::new();
    let (mut pieces, mut full) = (0, 0);
    for (serial, (command, _)) in (1..).zip(EXCHANGES) {
        ingress.res_slot.reset(serial).unwrap();
        host.write_all(command).unwrap();
        while !ingress.res_slot.signalled() {
            let n = host.read(ingress.write_buf()).unwrap();
            assert!(n > 0, "the modem hung up, or the buffer is full: {}", ingress.pending().escape_ascii());
            pieces += 1;
            let mut done = ingress.try_advance(n);
            while let Err(refusal) = done {
                assert!(matches!(refusal, Refusal::QueueFull { .. }), "{refusal}");
                full += 1;
                let urc = ingress.notices.take().unwrap().unwrap();
                notices.push((urc.record, urc.payload.to_vec()));
                done = ingress.try_advance(0);
            }
        }
        let (response, bears) = ingress.res_slot.try_get_with_serial().unwrap().unwrap();
        assert_eq!(bears, serial);
        answers.push(format!("{response:?}"));
    }
    while let Some(urc) = ingress.notices.take().unwrap() {
        notices.push((urc.record, urc.payload.to_vec()));
    }
    modem.join().unwrap();

    let expected = [
        Response::Ok(b""),
        Response::Ok(b"+CSQ: 17,99"),
        Response::Prompt(b'>'),
        Response::Ok(b"+CMGS: 5"),
        Response::CmeError { code: 3, digits: b"0003" },
        Response::ConnectionError(ConnectionError::NoCarrier),
        Response::Ok(b""),
        Response::Ok(b""),
    ];
    assert_eq!(answers, expected.map(|response| format!("{response:?}")));
    let expected: [(u8, &[u8]); 5] =
        [(sord, b"+UUSORD: 0,4"), (ring, b"RING"), (ring, b"RING"), (ring, b"RING"), (sord, b"+UUSORD: 1,7")];
    assert_eq!(notices, expected.map(|(record, payload)| (record, payload.to_vec())));
    assert_eq!((ingress.res_slot.lost(), ingress.notices.lost()), (0, 0));
    // The first notice lies in the queue until the burst, so each of the burst's four meets a full queue.
    assert_eq!(full, 4);
    assert!(pieces > EXCHANGES.len(), "every answer came in one piece");
    println!("{pieces} pieces, {full} refusals");
}
