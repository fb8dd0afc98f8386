//! One question about writing, as a line of text, and the answer as another.
//!
//! A question is one of
//!     write BYTES INPUTS K count.. N next.. T reset.. G word.. S size.. R root..
//!     textwrite BYTES INPUTS K count.. N next.. T reset.. G word.. S size.. R root..
//!     again HEX
//! In the first two, of which the second asks for a text, a list that is empty is left out; so many bytes are lent. The third is a binary file, which is read and
//! written into as many bytes as it has.
//! An answer is `W number literal bytes HEX` with every lent byte, `-` for none; one that is not written is 165. A file that is refused is `R number place`.
use crate::{
    file_compare,
    file_words::AMPLE,
    hex,
    write_compare::{compare, Compared},
    write_words::{Form, Given},
};

/// What a byte is before.
const BEFORE: u8 = 165;

/// The question for a circuit, a form and so many bytes.
pub fn question(given: &Given, form: Form, room: usize) -> String {
    let lists = [("K", &given.counts), ("N", &given.nexts), ("T", &given.resets), ("G", &given.gates), ("S", &given.sizes), ("R", &given.roots)];
    let word = if form == Form::Text { "textwrite" } else { "write" };
    let mut line = format!("{word} {room} {}", given.inputs);
    for (letter, list) in lists.into_iter().filter(|(_, list)| !list.is_empty()) {
        line.push_str(&format!(" {letter}"));
        list.iter().for_each(|word| line.push_str(&format!(" {word}")));
    }
    line
}

/// The answer, and whose it is: the crate's, or document 02's with the words of a line of docs/DIFFERENCES.md. Panics where the line is not a question, or
/// where the two differ on no line.
pub fn answer(line: &str) -> (String, String) {
    match line.split_once(' ') {
        Some((word @ ("write" | "textwrite"), rest)) => {
            let (given, room) = parse(rest);
            written(&given, if word == "write" { Form::Binary } else { Form::Text }, room)
        }
        Some(("again", "-")) => again(&[]),
        Some(("again", rest)) => again(&hex::decode(rest)),
        _ => panic!("no question about writing: {line}"),
    }
}

fn parse(text: &str) -> (Given, usize) {
    let mut words = text.split(' ');
    let mut number = || words.next().and_then(|word| word.parse::<usize>().ok()).expect("bytes and inputs");
    let [room, inputs] = [number(), number()];
    let mut given = Given { inputs: inputs as u32, ..Given::default() };
    let mut list = &mut given.counts;
    for word in words {
        match word {
            "K" => list = &mut given.counts,
            "N" => list = &mut given.nexts,
            "T" => list = &mut given.resets,
            "G" => list = &mut given.gates,
            "S" => list = &mut given.sizes,
            "R" => list = &mut given.roots,
            _ => list.push(word.parse().expect("a word of 32 bits")),
        }
    }
    (given, room)
}

fn written(given: &Given, form: Form, room: usize) -> (String, String) {
    let Compared { request, line, crate_writes } = compare(given, form, room).unwrap_or_else(|what| panic!("{given:?}: {what}"));
    let mut lent = vec![BEFORE; room];
    let words = match &request {
        Ok(bytes) => {
            lent[..bytes.len()].copy_from_slice(bytes);
            format!("0 0 {}", bytes.len())
        }
        Err(refused) => format!("{} {} {}", refused.number, refused.literal, refused.needed),
    };
    let bytes = if lent.is_empty() { "-".into() } else { hex::encode(&lent) };
    let crate_does = match crate_writes {
        Some(true) => "the crate writes it",
        Some(false) => "the crate panics",
        None if given.recorded() => "the crate was not asked",
        None => "the crate has no record of it",
    };
    (format!("W {words} {bytes}"), line.map_or(whose(None), |line| format!("{}: {crate_does}", whose(Some(line.words())))))
}

fn again(file: &[u8]) -> (String, String) {
    let read = file_compare::compare(file, AMPLE).unwrap_or_else(|what| panic!("{}: {what}", file.escape_ascii()));
    match (&read.request, read.line) {
        (Ok((circuit, _)), None) => written(&Given::from(circuit), Form::Binary, file.len()),
        (Ok((circuit, _)), Some(line)) => (written(&Given::from(circuit), Form::Binary, file.len()).0, whose(Some(line.words()))),
        (Err(refused), line) => (format!("R {} {}", refused.number, refused.place), whose(line.map(|line| line.words()))),
    }
}

fn whose(line: Option<&'static str>) -> String {
    line.map_or("the crate's".into(), |line| format!("document 02's, for {line}"))
}
