//! Questions about tokens: random ones, and every short one.
use crate::{circuit::put, hex, random::Random};
use std::io;

const LARGEST: u64 = u64::MAX;

/// Where decimal runs change their answer.
const EDGES: [u64; 8] = [0, 1, 6, 7, 9, 10, LARGEST - 1, LARGEST];

/// A random question.
pub fn any(random: &mut Random) -> String {
    match random.below(7) {
        0 => binary(random, "binary_uint"),
        1 => binary(random, "delta_code"),
        2 => binary(random, "pair"),
        3 => decimal(random, "uint"),
        4 => decimal(random, "header_field"),
        5 => decimal(random, "symbol_index"),
        _ => decimal(random, "lit"),
    }
}

/// A number that is often small, at an edge, or next to the one named.
fn number_near(random: &mut Random, named: u64) -> u64 {
    match random.below(8) {
        0 => random.pick(&EDGES),
        1 => random.bits(64),
        2 => named.wrapping_sub(random.between(1, 3)),
        3 => named.wrapping_add(random.between(1, 3)),
        _ => named,
    }
}

fn decimal(random: &mut Random, function: &str) -> String {
    let (digits, value) = run(random);
    let mut token = digits.into_bytes();
    if random.percent(60) {
        token.push(random.pick(b" \n/:x\x00\xff09"));
    }
    if random.percent(5) {
        token = (0..random.below(5)).map(|_| random.next() as u8).collect();
    }
    let limit = number_near(random, value);
    let arguments = match function {
        "uint" => String::new(),
        "lit" => format!("{limit} {} ", random.bit()),
        _ => format!("{limit} "),
    };
    placed(random, function, &arguments, token)
}

/// A run of digits, and its value where it has one.
fn run(random: &mut Random) -> (String, u64) {
    let value = match random.below(4) {
        0 => random.pick(&EDGES),
        1 => random.below(20),
        _ => random.bits(64),
    };
    let near_64_bits = (1u128 << 64) - 8 + random.below(16) as u128;
    let digits = match random.below(12) {
        0 => format!("0{value}"),
        1 => format!("{}{value}", "0".repeat(random.between(2, 24) as usize)),
        2 => near_64_bits.to_string(),
        3 => format!("{}{}", random.between(1, 9), run_of(random, 18)),
        4 => format!("{}{}", random.between(1, 9), run_of(random, 19)),
        5 => format!("{}{}", random.between(1, 9), run_of(random, 20)),
        6 => format!("0{near_64_bits}"),
        _ => value.to_string(),
    };
    let value = digits.parse().unwrap_or(value);
    (digits, value)
}

fn run_of(random: &mut Random, length: u64) -> String {
    (0..length).map(|_| random.below(10).to_string()).collect()
}

fn binary(random: &mut Random, function: &str) -> String {
    let mut token = vec![];
    let first = group(random, &mut token);
    let mut reference = number_near(random, first);
    if function == "pair" {
        let second = group(random, &mut token);
        let named = random.pick(&[first, first.wrapping_add(second)]);
        reference = number_near(random, named);
    }
    if random.percent(15) {
        token.truncate(random.index(token.len() + 1));
    }
    if random.percent(20) {
        token.push(random.next() as u8);
    }
    let arguments = match function {
        "binary_uint" => String::new(),
        _ => format!("{reference} "),
    };
    placed(random, function, &arguments, token)
}

/// Appends a number of one to nine bytes, which is one too many, and gives it.
fn group(random: &mut Random, token: &mut Vec<u8>) -> u64 {
    let value = match random.below(3) {
        0 => random.below(10),
        _ => random.bits(56),
    };
    let least = match random.below(3) {
        0 => random.between(1, 9) as usize,
        _ => 1,
    };
    put(token, value, least);
    value
}

/// The question with the token at a random place: among other bytes, at the start, or missed.
fn placed(random: &mut Random, function: &str, arguments: &str, token: Vec<u8>) -> String {
    let before = match random.bit() {
        0 => 0,
        _ => random.below(4),
    };
    let mut bytes: Vec<u8> = (0..before).map(|_| random.next() as u8).collect();
    bytes.extend(token);
    let end = bytes.len() as u64;
    let place = match random.below(16) {
        0 => end,
        1 => end + random.between(1, 3),
        2 => random.pick(&[LARGEST, LARGEST - 1, 1 << 63, 1 << 32]),
        3 => random.below(end + 1),
        _ => before,
    };
    question(function, place, arguments, &bytes)
}

fn question(function: &str, place: u64, arguments: &str, bytes: &[u8]) -> String {
    match bytes {
        [] => format!("{function} {place} {arguments}-"),
        _ => format!("{function} {place} {arguments}{}", hex::encode(bytes)),
    }
}

/// Bytes around the digits, and the digits that limits and signs turn on.
const DECIMAL_BYTES: [u8; 9] = [0x00, 0x2f, b'0', b'1', b'6', b'7', b'9', 0x3a, 0xff];
/// Small groups, and groups with the top bit set.
const BINARY_BYTES: [u8; 10] = [0x00, 0x01, 0x02, 0x06, 0x07, 0x7f, 0x80, 0x81, 0x86, 0xff];
const LIMITS: [u64; 7] = [0, 1, 6, 7, 67, 617, LARGEST];
const REFERENCES: [u64; 8] = [0, 1, 6, 7, 127, 128, 16_384, LARGEST];

/// Every string of one byte, and every one of none, two and three from the bytes that matter, at every
/// place up to one past the end.
pub fn short(mut tell: impl FnMut(String) -> io::Result<()>) -> io::Result<()> {
    for bytes in strings(&DECIMAL_BYTES) {
        for place in 0..=bytes.len() as u64 + 1 {
            tell(question("uint", place, "", &bytes))?;
            for limit in LIMITS {
                tell(question(
                    "header_field",
                    place,
                    &format!("{limit} "),
                    &bytes,
                ))?;
                tell(question(
                    "symbol_index",
                    place,
                    &format!("{limit} "),
                    &bytes,
                ))?;
                tell(question("lit", place, &format!("{limit} 0 "), &bytes))?;
                tell(question("lit", place, &format!("{limit} 1 "), &bytes))?;
            }
        }
    }
    for bytes in strings(&BINARY_BYTES) {
        for place in 0..=bytes.len() as u64 + 1 {
            tell(question("binary_uint", place, "", &bytes))?;
            for reference in REFERENCES {
                tell(question(
                    "delta_code",
                    place,
                    &format!("{reference} "),
                    &bytes,
                ))?;
                tell(question("pair", place, &format!("{reference} "), &bytes))?;
            }
        }
    }
    Ok(())
}

fn strings(alphabet: &[u8]) -> Vec<Vec<u8>> {
    let mut strings: Vec<Vec<u8>> = vec![vec![]];
    strings.extend((0..=255).map(|byte| vec![byte]));
    for &first in alphabet {
        for &second in alphabet {
            strings.push(vec![first, second]);
            strings.extend(alphabet.iter().map(|&third| vec![first, second, third]));
        }
    }
    strings
}
