//! Case in, answer line out.

use crate::notation::{self, Asked, Case, Mode};
use crate::origin::{self, Origin, LONGEST};
use crate::{lines, script, table, tokens};
use atat::Digester;

/// The answer to a line that isn't skipped.
pub fn answer(line: &[u8]) -> (String, Origin) {
    match notation::read(line) {
        None => ("bad line".to_owned(), Origin::Harness),
        Some(asked) => answer_asked(&asked),
    }
}

/// The crate's answer is the mode's too as long as no digest meets a longer CONNECT line, up to which the crate and the mode have the same bytes before them.
/// From there on there is nothing to compare.
fn answer_asked(asked: &Asked) -> (String, Origin) {
    let said = answer_case(&asked.case);
    if asked.mode == Mode::Connect && tokens::met_longer() {
        return ("unsupported".to_owned(), Origin::Harness);
    }
    said
}

/// The crate's answer, in the one mode that it has.
pub fn answer_case(case: &Case) -> (String, Origin) {
    tokens::begin();
    match case {
        Case::Digest { table, input } => digest(table, input),
        Case::Ingress { table, buffer, slot, queue, ops } => script::run(table, buffer, slot, queue, ops),
    }
}

fn digest(table: &[u8], input: &[u8]) -> (String, Origin) {
    if input.len() > LONGEST {
        return ("refused 1".to_owned(), Origin::Harness);
    }
    match table::read(table) {
        Err(record) => return (format!("refused 2 {record}"), Origin::Harness),
        Ok(records) => tokens::lay(records),
    }
    let (answer, consumed) = match origin::caught(|| tokens::Tokens::new().digest(input)) {
        Ok(said) => said,
        Err(place) => return (format!("panic {place}"), Origin::Panic),
    };
    let digits = lines::digits_of(&answer, &input[..consumed]);
    let said = lines::of_digest(answer);
    let mut line = format!("{} {} {} {} {consumed}", said.kind, said.number(), said.place(input), said.payload.len());
    if !digits.is_empty() {
        line += &format!(" digits {} {}", digits.as_ptr() as usize - input.as_ptr() as usize, digits.len());
    }
    (line, if tokens::asked_us() { Origin::Ours } else { Origin::Crate })
}
