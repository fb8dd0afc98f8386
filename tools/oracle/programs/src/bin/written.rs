//! The judge's answers about writing, a question a line (`write_line` gives the form): the crate's, and document 02's where a line of docs/DIFFERENCES.md says
//! that the crate's is another. Standard error says how many of each there were.
//!
//!     written < questions
use judge::{write_crate, write_line::answer};
use std::{
    collections::BTreeMap,
    io::{self, BufRead, BufWriter, Write},
};

fn main() -> io::Result<()> {
    write_crate::silent();
    let mut out = BufWriter::new(io::stdout().lock());
    let mut tally: BTreeMap<String, u64> = BTreeMap::new();
    for line in io::stdin().lock().lines() {
        let line = line?;
        let (text, whose) = answer(&line);
        writeln!(out, "{text}")?;
        let mut words = line.split(' ').take(1).chain(text.split(' ').take(2));
        let [asked, kind, number] = [(); 3].map(|()| words.next().unwrap_or_default());
        let said = match (kind, number) {
            ("W", "0") => "written".into(),
            ("W", _) => format!("refused {number}"),
            _ => format!("not read, {number}"),
        };
        *tally.entry(format!("{asked}: {said}, {whose}")).or_default() += 1;
    }
    for (kind, count) in tally {
        eprintln!("  {kind}: {count}");
    }
    out.flush()
}
