//! Document 01's token rules, and request Q-2's of the pair, written from their words and not from the crate, as answers to the same
//! questions. Where an answer differs from the crate's, the documents and the crate differ.
use crate::token_line::Question;

/// A number and the bytes used, or a refusal's number.
type Read = Result<(u64, usize), u64>;

/// The documents' answer.
pub fn answer(question: &Question) -> String {
    let rest = question.rest();
    let argument = |index: usize| question.arguments[index];
    let read = match question.function.as_str() {
        "pair" => return pair(rest, argument(0), question.place),
        "uint" => decimal(rest),
        "header_field" | "symbol_index" => within(decimal(rest), argument(0)),
        "lit" if argument(1) == 1 => within(assignable(decimal(rest)), argument(0)),
        "lit" => within(decimal(rest), argument(0)),
        "binary_uint" => groups(rest),
        "delta_code" => delta(rest, argument(0)),
        function => panic!("no such question: {function}"),
    };
    match read {
        Ok((value, used)) => format!("V {value} {used}"),
        Err(number) => format!("R {number} {}", question.place),
    }
}

/// The longest run of digits: 10, then 11, then 21.
fn decimal(bytes: &[u8]) -> Read {
    let length = bytes.iter().take_while(|b| b.is_ascii_digit()).count();
    let digits = std::str::from_utf8(&bytes[..length]).unwrap();
    if length == 0 {
        Err(10)
    } else if length > 1 && digits.starts_with('0') {
        Err(11)
    } else {
        digits.parse().map(|value| (value, length)).map_err(|_| 21)
    }
}

fn assignable(read: Read) -> Read {
    match read {
        Ok((0, _)) => Err(13),
        Ok((value, _)) if value % 2 == 1 => Err(14),
        other => other,
    }
}

fn within(read: Read, limit: u64) -> Read {
    match read {
        Ok((value, _)) if value > limit => Err(12),
        other => other,
    }
}

/// Seven-bit groups, low first, at most eight.
fn groups(bytes: &[u8]) -> Read {
    let mut value = 0;
    for index in 0..8 {
        let byte = *bytes.get(index).ok_or(15u64)?;
        value += (byte as u64 % 128) << (7 * index);
        if byte < 128 {
            return Ok((value, index + 1));
        }
    }
    Err(16)
}

fn delta(bytes: &[u8], reference: u64) -> Read {
    let (value, used) = groups(bytes)?;
    let code = reference.checked_sub(value).ok_or(17u64)?;
    Ok((code, used))
}

/// Two deltas; a refusal names the first byte of the delta that caused it. That the first delta is 0 is told once both are read.
fn pair(bytes: &[u8], code: u64, place: u64) -> String {
    let (first, used) = match delta(bytes, code) {
        Ok(read) => read,
        Err(number) => return format!("R {number} {place}"),
    };
    match delta(&bytes[used..], first) {
        Err(number) => format!("R {number} {}", place + used as u64),
        Ok(_) if first == code => format!("R 20 {place}"),
        Ok((second, more)) => format!("P {first} {second} {}", used + more),
    }
}
