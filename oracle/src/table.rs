//! The token table and its rules. The crate has none: this is the harness's, and so is every refusal 2.

#[derive(Clone, Copy, Debug, PartialEq, Eq)]
pub enum Mark {
    Notice,
    Success,
    Error,
    Prompt(u8),
}

#[derive(Clone, Debug)]
pub struct Record {
    pub mark: Mark,
    pub text: Vec<u8>,
}

/// The records of a good table, or the number of the first faulty one.
pub fn read(table: &[u8]) -> Result<Vec<Record>, usize> {
    let mut records = Vec::new();
    let mut rest = table;
    while !rest.is_empty() {
        let number = records.len();
        if number == 64 {
            return Err(64);
        }
        let (record, behind) = first(rest).ok_or(number)?;
        records.push(record);
        rest = behind;
    }
    Ok(records)
}

fn first(table: &[u8]) -> Option<(Record, &[u8])> {
    let (mark, rest) = table.split_at_checked(2)?;
    let (mark, rest) = match mark {
        b"UR" => (Mark::Notice, rest),
        b"CS" => (Mark::Success, rest),
        b"CE" => (Mark::Error, rest),
        b"CP" => (Mark::Prompt(*rest.first()?), &rest[1..]),
        _ => return None,
    };
    let (&len, rest) = rest.split_first()?;
    let (text, rest) = rest.split_at_checked(usize::from(len))?;
    let is_good = (1..=32).contains(&text.len()) && text.iter().all(|b| (0x20..=0x7E).contains(b)) && text[0] != b' ' && text[text.len() - 1] != b' ';
    is_good.then(|| (Record { mark, text: text.to_vec() }, rest))
}
