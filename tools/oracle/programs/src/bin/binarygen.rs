//! Binary files, good and damaged, one a line in hexadecimal; `-` for no bytes.
//!
//!     binarygen SEED COUNT MAXGATES
use judge::{file_kinds, hex, random::Random};
use std::io::{self, BufWriter, Write};

fn main() -> io::Result<()> {
    let arguments: Vec<String> = std::env::args().skip(1).collect();
    let numbers: Vec<u64> = arguments.iter().filter_map(|argument| argument.parse().ok()).collect();
    let ([seed, count, gates], 3) = (&numbers[..], arguments.len()) else {
        eprintln!("usage: binarygen SEED COUNT MAXGATES");
        std::process::exit(2)
    };
    let mut random = Random(*seed);
    let mut out = BufWriter::new(io::stdout().lock());
    for _ in 0..*count {
        match &file_kinds::any(&mut random, *gates)[..] {
            [] => writeln!(out, "-")?,
            bytes => writeln!(out, "{}", hex::encode(bytes))?,
        }
    }
    out.flush()
}
