//! Random sheets of every kind, in hexadecimal, one a line.
//!
//!     gen SEED COUNT MAXGATES [--kinds]
//!
//! With --kinds a table goes to standard error: how many of each kind, and what the crate answered.
use judge::{hex, random::Random, sheet::report, sheet_kinds};
use std::{
    collections::BTreeMap,
    io::{self, BufWriter, Write},
};

fn main() -> io::Result<()> {
    let arguments: Vec<String> = std::env::args().skip(1).collect();
    let (numbers, switches): (Vec<String>, Vec<String>) =
        arguments.into_iter().partition(|a| !a.starts_with("--"));
    let numbers: Vec<u64> = numbers.iter().filter_map(|a| a.parse().ok()).collect();
    let (seed, count, gates) = match numbers[..] {
        [seed, count, gates] => (seed, count, gates),
        _ => {
            eprintln!("usage: gen SEED COUNT MAXGATES [--kinds]");
            std::process::exit(2)
        }
    };
    let mut random = Random(seed);
    let mut table: BTreeMap<&str, BTreeMap<String, u64>> = BTreeMap::new();
    let mut out = BufWriter::new(io::stdout().lock());
    for _ in 0..count {
        let (kind, sheet) = sheet_kinds::any(&mut random, gates);
        writeln!(out, "{}", hex::encode(&sheet))?;
        if !switches.is_empty() {
            *table
                .entry(kind)
                .or_default()
                .entry(word(&report(&sheet)))
                .or_default() += 1;
        }
    }
    out.flush()?;
    for (kind, answers) in table {
        let total: u64 = answers.values().sum();
        let answers: Vec<String> = answers.iter().map(|(a, n)| format!("{a}: {n}")).collect();
        eprintln!("{total:8}  {kind:32}{}", answers.join(", "));
    }
    Ok(())
}

/// `ordered`, or `refused N`.
fn word(answer: &str) -> String {
    let words: Vec<&str> = answer.split_whitespace().collect();
    match words[0] {
        "refused" => format!("refused {}", words[1]),
        other => other.into(),
    }
}
