//! Answers about files, one a line in hexadecimal (`-` for no bytes): what the programs for binary files and for texts share.
use crate::{file_compare::Compared, hex};
use std::{
    collections::BTreeMap,
    io::{self, BufRead, BufWriter, Write},
};

/// Answers the files on standard input, each on a line of its own: the file again, the refusal's number or 0, and the eleven words that the port answers with; for a
/// file that is taken its lists follow. Standard error says how many of each answer there were, and whose they are.
pub fn answer<C>(compare: impl Fn(&[u8]) -> Result<Compared<C>, String>, words: impl Fn(&C, usize) -> Vec<u64>) -> io::Result<()> {
    let mut out = BufWriter::new(io::stdout().lock());
    let mut tally: BTreeMap<String, u64> = BTreeMap::new();
    for line in io::stdin().lock().lines() {
        let line = line?;
        let bytes = if line == "-" { vec![] } else { hex::decode(&line) };
        let Compared { request, line: listed, .. } = compare(&bytes).unwrap_or_else(|what| panic!("{line}: {what}"));
        let (number, mut said) = match &request {
            Ok((circuit, used)) => (0, words(circuit, *used)),
            Err(refused) => (refused.number, vec![refused.place as u64]),
        };
        said.resize(said.len().max(11), 0);
        let said: Vec<String> = said.iter().map(u64::to_string).collect();
        writeln!(out, "{line} {number} {}", said.join(" "))?;
        let whose = listed.map_or("the crate's".into(), |line| format!("document 02's, for {}", line.words()));
        let kind = if number == 0 { "taken".into() } else { format!("refused {number}") };
        *tally.entry(format!("{kind}, {whose}")).or_default() += 1;
    }
    for (kind, count) in tally {
        eprintln!("  {kind}: {count}");
    }
    out.flush()
}
