//! What an answer to a sheet is, with its cause where a number has more than one.
use crate::sheet::header;

const LONGEST: usize = 60_000;

/// `ordered`, or `refused N` and the cause.
pub fn class(sheet: &[u8], answer: &str) -> String {
    let mut words = answer.split_whitespace();
    if words.next() != Some("refused") {
        return "ordered".into();
    }
    let mut number = || words.next().and_then(|word| word.parse::<u64>().ok());
    let (number, beside) = (number().unwrap_or(0), number().unwrap_or(0));
    let flags = header(sheet).map_or(0, |header| header[9]);
    let cause = match number {
        1 if sheet.len() > LONGEST => ", the sheet's length",
        1 => ", a size",
        2 if flags > 7 => ", the flags",
        2 => ", bytes left",
        4 if beside > u32::MAX as u64 => ", a code over 32 bits",
        4 => ", a code of 32 bits",
        15 if sheet.is_empty() => ", an empty sheet",
        15 | 16 if header(sheet).is_err() => ", in the ten numbers",
        15 | 16 => ", in the lists",
        _ => "",
    };
    format!("refused {number:2}{cause}")
}
