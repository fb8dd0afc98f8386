//! Text files, good and damaged, one a line in hexadecimal; `-` for no bytes.
//!
//!     textgen --cases | textgen SEED COUNT MAXGATES | textgen --short SEED COUNT MAXGATES
//!
//! The cases are those of `text_examples`. The others are so many texts at random; with --short those of them that have up to 120 bytes. Of the cases and of the
//! short ones those are left out that need longer lists than the program of the gate that is asked about them lends.
use judge::{
    file_words::Rules,
    hex,
    random::Random,
    text_examples, text_kinds,
    text_words::{read, Room, AMPLE},
};
use std::io::{self, BufWriter, Write};

/// How many inputs, states, next states, resets, gate words, sizes and roots there is room for.
const ROOM: Room = [32, 16, 16, 16, 128, 8, 32];

fn fits(bytes: &[u8]) -> bool {
    read(bytes, ROOM, Rules::Request) == read(bytes, AMPLE, Rules::Request)
}

fn main() -> io::Result<()> {
    let mut arguments: Vec<String> = std::env::args().skip(1).collect();
    let short = arguments.first().is_some_and(|first| first == "--short");
    arguments.drain(..short as usize);
    let mut out = BufWriter::new(io::stdout().lock());
    let mut tell = |bytes: &[u8]| match bytes {
        [] => writeln!(out, "-"),
        _ => writeln!(out, "{}", hex::encode(bytes)),
    };
    let numbers: Vec<u64> = arguments.iter().filter_map(|argument| argument.parse().ok()).collect();
    match (&numbers[..], &arguments[..]) {
        (_, [only]) if only == "--cases" && !short => {
            for (bytes, ..) in text_examples::CASES.iter().filter(|case| fits(case.0)) {
                tell(bytes)?;
            }
        }
        (&[seed, count, gates], [_, _, _]) => {
            let mut random = Random(seed);
            for _ in 0..count {
                let bytes = text_kinds::any(&mut random, gates);
                if !short || bytes.len() <= 120 && fits(&bytes) {
                    tell(&bytes)?;
                }
            }
        }
        _ => {
            eprintln!("usage: textgen --cases | SEED COUNT MAXGATES | --short SEED COUNT MAXGATES");
            std::process::exit(2)
        }
    }
    out.flush()
}
