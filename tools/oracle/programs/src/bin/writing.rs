//! Document 02's words for writing a binary file, or with --text a text, against the crate's `write_ordered_aig`, byte for byte, on ordered circuits and on what is none.
//!
//!     writing [--text] small | writing [--text] random SEED COUNT MAXGATES | writing [--text] large
//!
//! Prints how many of each answer there were, and for each line of docs/DIFFERENCES.md how many; a difference that is on no line is shrunk and shown, and ends it with 1.
use judge::{
    random::Random,
    write_compare::compare,
    write_crate, write_kinds, write_shrink,
    write_words::{Form, Given, Line},
};
use std::{collections::BTreeMap, process::exit};

struct Tally {
    form: Form,
    circuits: u64,
    answers: BTreeMap<u32, u64>,
    lines: BTreeMap<Line, [u64; 2]>,
}

impl Tally {
    fn compare(&mut self, given: &Given, room: usize) {
        let found = compare(given, self.form, room).unwrap_or_else(|_| differs(given, self.form, room));
        self.circuits += 1;
        *self.answers.entry(found.request.map_or_else(|refused| refused.number, |_| 0)).or_default() += 1;
        if let Some(line) = found.line {
            let counts = self.lines.entry(line).or_default();
            counts[0] += 1;
            counts[1] += (found.crate_writes == Some(true)) as u64;
        }
    }
}

fn differs(given: &Given, form: Form, room: usize) -> ! {
    let smallest = write_shrink::smallest(given.clone(), |given| compare(given, form, room).is_err());
    println!("DIFFERS {smallest:?}, {room} bytes\n  {}", compare(&smallest, form, room).err().unwrap());
    exit(1)
}

fn main() {
    let arguments: Vec<String> = std::env::args().skip(1).collect();
    let arguments: Vec<&str> = arguments.iter().map(String::as_str).collect();
    let number = |text: &str| text.parse::<u64>().expect("a number");
    write_crate::silent();
    let (form, run) = match arguments[..] {
        ["--text", ref run @ ..] => (Form::Text, run),
        ref run => (Form::Binary, run),
    };
    let mut tally = Tally { form, circuits: 0, answers: BTreeMap::new(), lines: BTreeMap::new() };
    match *run {
        ["small"] => write_kinds::small(&mut Random(1), form, |given| tally.compare(given, usize::MAX)),
        ["large"] => write_kinds::large(&mut Random(1), |given| tally.compare(given, usize::MAX)),
        ["random", seed, count, gates] => {
            let mut random = Random(number(seed));
            for _ in 0..number(count) {
                let given = write_kinds::any(&mut random, number(gates), form);
                let room = write_kinds::room(&mut random, &given, form);
                tally.compare(&given, room);
            }
        }
        _ => {
            eprintln!("usage: writing [--text] small | [--text] random SEED COUNT MAXGATES | [--text] large");
            exit(2)
        }
    }
    println!("{}: {} circuits, no difference that is not listed", arguments.join(" "), tally.circuits);
    for (number, count) in tally.answers {
        match number {
            0 => println!("  written, and byte for byte by both: {count}"),
            _ => println!("  refused {number}: {count}"),
        }
    }
    for (line, [count, written]) in tally.lines {
        println!("  not alike, {}: {count}, of which the crate writes {written}", line.words());
    }
}
