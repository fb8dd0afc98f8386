//! The judge's answers to questions about tokens, one a line; `token_line` gives both forms. They are the crate's, and
//! request Q-2's for a pair whose first delta is zero, which docs/DIFFERENCES.md has a line for.
//!
//!     tokens < questions
use judge::token_line::{documented, Question};
use std::io::{self, BufRead, BufWriter, Write};

fn main() -> io::Result<()> {
    let mut out = BufWriter::new(io::stdout().lock());
    for line in io::stdin().lock().lines() {
        writeln!(out, "{}", documented(&Question::parse(&line?)))?;
    }
    out.flush()
}
