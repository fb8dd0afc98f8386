//! A report program against the crate's report, on random sheets of every kind, small ones first.
//!
//!     against_program SEED COUNT LEFT PROGRAM [ARGUMENT ..]
//!
//! The program is run once a sheet. At the first difference the smallest sheet that can be found from it is
//! left in the file LEFT, and the exit status is 1. Else the answers and the kinds are counted.
use judge::{hex, random::Random, sheet::report, sheet_cause, sheet_kinds, sheet_shrink};
use std::{
    collections::BTreeMap,
    fs,
    io::{Read, Write},
    process::{exit, Command, Stdio},
    thread,
};

/// How many of a hundred sheets have up to so many gates.
const SIZES: [(u64, u64); 6] = [(15, 2), (35, 8), (30, 30), (15, 100), (4, 300), (1, 950)];

/// How many sheets are made before they are asked about.
const BATCH: u64 = 1_000;

fn main() {
    let arguments: Vec<String> = std::env::args().skip(1).collect();
    let number = |text: &str| text.parse::<u64>().ok();
    let (seed, count, left, program) = match &arguments[..] {
        [seed, count, left, program @ ..] if !program.is_empty() => {
            match (number(seed), number(count)) {
                (Some(seed), Some(count)) => (seed, count, left, program),
                _ => usage(),
            }
        }
        _ => usage(),
    };
    let mut random = Random(seed);
    let mut tally = Tally::default();
    let mut made = 0;
    while made < count {
        let batch: Vec<(&str, Vec<u8>)> = (made..count.min(made + BATCH))
            .map(|index| sheet_kinds::any(&mut random, gates(index, count)))
            .collect();
        made += batch.len() as u64;
        if let Some(sheet) = first_difference(&batch, program) {
            differ(sheet, left, program);
        }
        batch
            .iter()
            .for_each(|(kind, sheet)| tally.count(kind, sheet));
    }
    tally.print();
}

fn usage() -> ! {
    eprintln!("usage: against_program SEED COUNT LEFT PROGRAM [ARGUMENT ..]");
    exit(2)
}

/// The most gates of the sheet with this index.
fn gates(index: u64, count: u64) -> u64 {
    let mut share = 0;
    for (size, gates) in SIZES {
        share += size;
        if index * 100 < share * count {
            return gates;
        }
    }
    unreachable!("the shares are a hundred")
}

/// What the program writes. A program that stops reading a sheet that is too long is right to.
fn answer(sheet: &[u8], program: &[String]) -> Vec<u8> {
    let mut child = Command::new(&program[0])
        .args(&program[1..])
        .stdin(Stdio::piped())
        .stdout(Stdio::piped())
        .spawn()
        .expect("the program is there");
    let _ = child.stdin.take().unwrap().write_all(sheet);
    let mut out = vec![];
    child.stdout.take().unwrap().read_to_end(&mut out).unwrap();
    child.wait().unwrap();
    out
}

fn differs(sheet: &[u8], program: &[String]) -> bool {
    answer(sheet, program) != report(sheet).as_bytes()
}

/// The first sheet of a batch that the two answer otherwise; each processor asks about a part.
fn first_difference(batch: &[(&str, Vec<u8>)], program: &[String]) -> Option<Vec<u8>> {
    let parts = thread::available_parallelism().map_or(1, |n| n.get());
    let ask = |part: &[(&str, Vec<u8>)]| {
        let found = part.iter().find(|(_, sheet)| differs(sheet, program));
        found.map(|(_, sheet)| sheet.clone())
    };
    thread::scope(|scope| {
        let asked: Vec<_> = batch
            .chunks(batch.len().div_ceil(parts))
            .map(|part| scope.spawn(move || ask(part)))
            .collect();
        let found: Vec<_> = asked.into_iter().map(|part| part.join().unwrap()).collect();
        found.into_iter().flatten().next()
    })
}

/// Leaves the smallest sheet that can be found, and ends.
fn differ(sheet: Vec<u8>, left: &str, program: &[String]) -> ! {
    let smallest = sheet_shrink::smallest(sheet, |sheet| differs(sheet, program));
    fs::write(left, &smallest).expect("the file for the sheet can be written");
    println!(
        "differs, on {} bytes: {}",
        smallest.len(),
        hex::encode(&smallest)
    );
    print!("the judge:\n{}", report(&smallest));
    print!(
        "the program:\n{}",
        String::from_utf8_lossy(&answer(&smallest, program))
    );
    exit(1)
}

#[derive(Default)]
struct Tally {
    answers: BTreeMap<String, u64>,
    kinds: BTreeMap<String, u64>,
    most_bytes: usize,
}

impl Tally {
    fn count(&mut self, kind: &str, sheet: &[u8]) {
        let class = sheet_cause::class(sheet, &report(sheet));
        *self.answers.entry(class).or_default() += 1;
        *self.kinds.entry(kind.into()).or_default() += 1;
        self.most_bytes = self.most_bytes.max(sheet.len());
    }

    fn print(&self) {
        for (title, table) in [("answers:", &self.answers), ("made as:", &self.kinds)] {
            println!("{title}");
            for (name, count) in table {
                println!("{count:8}  {name}");
            }
        }
        println!("longest: {} bytes", self.most_bytes);
    }
}
