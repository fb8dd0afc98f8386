//! Document 01's report program with the crate inside.
//!
//!     report < sheet          prints the answer to one sheet
//!     report --hex < lines    a sheet a line in hexadecimal; each answer is followed by a line `--`
use judge::{hex, sheet::report};
use std::io::{self, BufRead, BufWriter, Read, Write};

fn main() -> io::Result<()> {
    let mut out = BufWriter::new(io::stdout().lock());
    match std::env::args().nth(1).as_deref() {
        Some("--hex") => {
            for line in io::stdin().lock().lines() {
                writeln!(out, "{}--", report(&hex::decode(&line?)))?;
            }
        }
        _ => {
            let mut sheet = vec![];
            io::stdin().lock().read_to_end(&mut sheet)?;
            out.write_all(report(&sheet).as_bytes())?;
        }
    }
    out.flush()
}
