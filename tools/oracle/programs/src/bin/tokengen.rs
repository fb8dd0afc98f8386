//! Questions about tokens, one a line.
//!
//!     tokengen SEED COUNT    random ones, of every function
//!     tokengen --short       every short string of bytes at every place, for every function
use judge::{random::Random, token_kinds};
use std::io::{self, BufWriter, Write};

fn main() -> io::Result<()> {
    let arguments: Vec<String> = std::env::args().skip(1).collect();
    let mut out = BufWriter::new(io::stdout().lock());
    match arguments.iter().map(String::as_str).collect::<Vec<_>>()[..] {
        ["--short"] => token_kinds::short(|question| writeln!(out, "{question}"))?,
        [seed, count] => {
            let mut random = Random(seed.parse().expect("SEED is a number"));
            for _ in 0..count.parse().expect("COUNT is a number") {
                writeln!(out, "{}", token_kinds::any(&mut random))?;
            }
        }
        _ => {
            eprintln!("usage: tokengen SEED COUNT, or tokengen --short");
            std::process::exit(2)
        }
    }
    out.flush()
}
