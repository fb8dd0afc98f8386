//! One question to the crate's token readers, as a line of text, and the crate's answer as another.
//!
//! A question is `FUNCTION PLACE ARGUMENT.. HEX`, HEX being `-` for no bytes:
//!     uint PLACE HEX                  header_field PLACE LIMIT HEX
//!     binary_uint PLACE HEX           symbol_index PLACE LIMIT HEX
//!     delta_code PLACE REFERENCE HEX  lit PLACE LIMIT ASSIGNING HEX
//!     pair PLACE CODE HEX
//! An answer is `V value used`, `P first second used`, or `R number place` with document 01's number for
//! the crate's message and the place that the crate names.
use crate::hex;
use flussab::{text::LineReader, DeferredReader, Parsed};
use flussab_aiger::{token, InnerParseError, ParseError};

/// The answer, and how far the crate's reader has moved on: `used`, or on a refusal what it has consumed.
pub struct Answer {
    pub text: String,
    pub consumed: usize,
}

/// The documents' answer, which is the crate's but on one line of docs/DIFFERENCES.md: a pair that the crate takes with
/// the output's own code for its first input, so with a first delta of zero, is refused by 20 at its place.
pub fn documented(question: &Question) -> String {
    let Answer { text, .. } = answer(question);
    match question.arguments[..] {
        [code] if text.starts_with(&format!("P {code} ")) => format!("R 20 {}", question.place),
        _ => text,
    }
}

/// What a question asks for, taken apart.
pub struct Question {
    pub function: String,
    pub place: u64,
    pub arguments: Vec<u64>,
    pub bytes: Vec<u8>,
}

impl Question {
    /// Panics where the line is not a question.
    pub fn parse(line: &str) -> Question {
        let fields: Vec<&str> = line.split(' ').collect();
        assert!(fields.len() >= 3, "not a question: {line}");
        let number = |text: &&str| text.parse::<u64>().expect("a number of 64 bits");
        let last = fields.len() - 1;
        Question {
            function: fields[0].into(),
            place: number(&fields[1]),
            arguments: fields[2..last].iter().map(number).collect(),
            bytes: match fields[last] {
                "-" => vec![],
                digits => hex::decode(digits),
            },
        }
    }

    /// The bytes from the place on; a place past the end reads as the end.
    pub fn rest(&self) -> &[u8] {
        let end = self.bytes.len() as u64;
        &self.bytes[self.place.min(end) as usize..]
    }
}

enum Value {
    One(usize),
    Two(usize, usize),
}

/// The crate's answer.
pub fn answer(question: &Question) -> Answer {
    let mut reader = LineReader::new(DeferredReader::from_read(question.rest()));
    let result = ask(&mut reader, question);
    let consumed = reader.reader.position();
    let text = match result {
        Ok(Value::One(value)) => format!("V {value} {consumed}"),
        Ok(Value::Two(first, second)) => format!("P {first} {second} {consumed}"),
        Err((number, at)) => format!("R {number} {}", question.place + at as u64),
    };
    Answer { text, consumed }
}

fn ask(reader: &mut LineReader, question: &Question) -> Result<Value, (u64, usize)> {
    let arguments: Vec<usize> = question.arguments.iter().map(|&x| x as usize).collect();
    let one = match (question.function.as_str(), &arguments[..]) {
        ("uint", []) => return uint(reader).map(Value::One),
        ("pair", &[code]) => {
            return pair(reader, code)
                .map(|(first, second)| Value::Two(first, second))
                .map_err(refusal)
        }
        ("header_field", &[limit]) => token::header_field(reader, "field", limit, false),
        ("symbol_index", &[limit]) => token::symbol_index(reader, "index", limit),
        ("lit", &[limit, assigning @ 0..=1]) => {
            token::lit(reader, "literal", limit, assigning == 1)
        }
        ("binary_uint", []) => binary_uint(reader).map(|value| value as usize),
        ("delta_code", &[reference]) => token::delta_code(reader, reference, "code", "reference"),
        (function, _) => panic!("no such question: {function}"),
    };
    one.map(Value::One).map_err(refusal).map_err(|(number, at)| (told_apart(number, &question.rest()[at..]), at))
}

/// The crate's `uint` has no message: the run of digits is told apart as its `exceeds_count` does.
fn uint(reader: &mut LineReader) -> Result<usize, (u64, usize)> {
    let place = reader.reader.position();
    match token::uint::<usize>(reader) {
        Parsed::Res(Ok(value)) => Ok(value),
        Parsed::Res(Err(digits)) if digits.starts_with('0') => Err((11, place)),
        Parsed::Res(Err(_)) => Err((21, place)),
        Parsed::Fallthrough => Err((10, place)),
    }
}

/// The crate has one message for a number over its limit and for a run of digits that does not fit 64 bits, 12 here; the
/// documents have 21 for the latter. The run at the place that the message names tells which it is.
pub fn told_apart(number: u64, rest: &[u8]) -> u64 {
    let length = rest.iter().take_while(|byte| byte.is_ascii_digit()).count();
    let digits = std::str::from_utf8(&rest[..length]).unwrap();
    if number == 12 && digits.parse::<u64>().is_err() {
        21
    } else {
        number
    }
}

/// The crate's private `binary_uint`, through `delta_code` from the largest reference.
pub fn binary_uint(reader: &mut LineReader) -> Result<u64, ParseError> {
    let rest = token::delta_code(reader, usize::MAX, "number", "largest")?;
    Ok((usize::MAX - rest) as u64)
}

/// A gate's pair, as binary.rs reads it.
fn pair(reader: &mut LineReader, code: usize) -> Result<(usize, usize), ParseError> {
    let first = token::delta_code(reader, code, "first input", "output code")?;
    let second = token::delta_code(reader, first, "second input", "first input code")?;
    Ok((first, second))
}

/// Document 01's number for a message of token.rs, and the place that it names. A message that begins
/// with `expected` quotes the input, so it is looked at no further.
pub fn refusal(error: ParseError) -> (u64, usize) {
    let error = match *error {
        InnerParseError::SyntaxError(error) => error,
        InnerParseError::IoError(error) => panic!("{error}"),
    };
    let has = |words| error.msg.contains(words);
    let number = if error.msg.starts_with("expected end of file, found ") {
        15
    } else if error.msg.starts_with("expected ") {
        10
    } else if has("has leading zeros") {
        11
    } else if has("exceeds the specified") {
        12
    } else if has("is constant false") {
        13
    } else if has("is negated (odd)") {
        14
    } else if has("uses more bytes than required") {
        16
    } else if has("encoded delta") {
        17
    } else {
        panic!("a message without a number: {}", error.msg)
    };
    (number, error.position)
}
