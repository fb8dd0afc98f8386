//! The crate against the documents' words, and how high the crate's stack grows.
//!
//!     against_words small                         every circuit of up to two gates, and most of three; every one of a latch and no gate
//!     against_words random SEED COUNT MAXGATES    random circuits that pass checks 1 to 4
//!     against_words deep                          the circuit that fills the stack, up to 1,048,575 gates
//!     against_words tokens < questions            questions about tokens; of pairs with the difference that is listed
//!
//! The exit status is 1 if there is a disagreement.
use judge::{circuit::Circuit, circuit_kinds, random::Random, sheet, walk_words};
use judge::{token_line, token_words};
use std::{collections::BTreeMap, io::BufRead};

fn main() {
    let arguments: Vec<String> = std::env::args().skip(1).collect();
    let arguments: Vec<&str> = arguments.iter().map(String::as_str).collect();
    let number = |text: &str| text.parse::<u64>().expect("a number");
    let mut tally = Tally::default();
    match arguments[..] {
        ["small"] => small(&mut tally),
        ["random", s, c, g] => random(&mut tally, Random(number(s)), number(c), number(g)),
        ["deep"] => deep(&mut tally),
        ["tokens"] => tokens(&mut tally),
        _ => {
            eprintln!("usage: against_words small | random SEED COUNT MAXGATES | deep | tokens");
            std::process::exit(2)
        }
    }
    println!("{:?}, {} disagreements", tally.answers, tally.disagreements);
    if let Some((height, room)) = tally.deepest {
        println!("stack nearest to its room of 2G entries: {height} of {room}");
    }
    std::process::exit((tally.disagreements > 0) as i32)
}

/// Counts of each answer, the disagreements, and the stack nearest to its room of 2G, with that room.
#[derive(Default)]
struct Tally {
    answers: BTreeMap<String, u64>,
    disagreements: u64,
    deepest: Option<(usize, usize)>,
}

impl Tally {
    fn count(&mut self, answer: String) {
        *self.answers.entry(answer).or_default() += 1;
    }

    fn disagree(&mut self, words: String) {
        self.disagreements += 1;
        if self.disagreements <= 5 {
            println!("DISAGREE {words}");
        }
    }

    /// Compares the answers to a circuit, and measures the crate's stack.
    fn compare(&mut self, circuit: &Circuit) {
        match walk_words::compare(circuit) {
            Ok(None) => self.count("ordered".into()),
            Ok(Some(refused)) => self.count(format!("refused {}", refused.0)),
            Err(words) => self.disagree(words),
        }
        if circuit.stray().is_some() {
            return;
        }
        let (height, room) = (walk_words::deepest(circuit), 2 * circuit.gates.len());
        if height > room {
            self.disagree(format!("the crate's stack has {height} entries, and {room} are two a gate"));
        }
        let (highest, its_room) = self.deepest.unwrap_or((0, 1));
        if height * its_room >= highest * room {
            self.deepest = Some((height, room));
        }
    }
}

/// Variable 1 is an input, 2 and up are gates, the one after them is not defined.
fn small(tally: &mut Tally) {
    for flags in 0..8 {
        every(tally, 0, flags, &[0, 1, 2, 3, 4, 5], true);
        every(tally, 1, flags, &(0..8).collect::<Vec<u64>>(), true);
        every(tally, 2, flags, &(0..10).collect::<Vec<u64>>(), true);
    }
    for choice in 0..8 * 8u64.pow(4) {
        // an input and a latch, of which all three codes are any, and a root
        let mut codes = [1, 8, 64, 512].map(|power| choice / power % 8).into_iter();
        let mut next = || codes.next().unwrap();
        tally.compare(&Circuit {
            largest: 3,
            inputs: vec![2],
            latches: vec![[next(), next(), next()]],
            roots: [vec![next()], vec![], vec![], vec![], vec![]],
            flags: choice / 4096,
            ..Circuit::default()
        });
    }
    for flags in [0, 7] {
        // The signs of constants and of the input do not steer the walk.
        every(tally, 3, flags, &[0, 2, 4, 5, 6, 7, 8, 9, 10], false);
    }
}

/// Every circuit of so many gates whose inputs and one root are among the codes.
fn every(tally: &mut Tally, gates: u32, flags: u64, codes: &[u64], odd_outputs: bool) {
    let base = codes.len() as u64;
    let signs = if odd_outputs { 1 << gates } else { 1 };
    for choice in 0..base.pow(2 * gates + 1) * signs {
        let mut rest = choice / signs;
        let mut next = || {
            let code = codes[(rest % base) as usize];
            rest /= base;
            code
        };
        let gate = |index: u32, first, second| {
            [
                (4 + 2 * index as u64) | (choice % signs) >> index & 1,
                first,
                second,
            ]
        };
        let circuit = Circuit {
            largest: 2 + gates as u64,
            inputs: vec![2],
            gates: (0..gates)
                .map(|index| gate(index, next(), next()))
                .collect(),
            roots: [vec![next()], vec![], vec![], vec![], vec![]],
            flags,
            ..Circuit::default()
        };
        tally.compare(&circuit);
    }
}

fn random(tally: &mut Tally, mut random: Random, count: u64, gates: u64) {
    for _ in 0..count {
        let mut circuit = circuit_kinds::valid(&mut random, gates);
        let (_, _, fault) = random.pick(&circuit_kinds::FAULTS);
        fault(&mut random, &mut circuit);
        circuit_kinds::with_resets(&mut random, &mut circuit);
        match sheet::renumber(&circuit) {
            Err(sheet::Refused(4, _)) => tally.count("passed over: refused 4".into()),
            _ => tally.compare(&circuit),
        }
    }
}

/// A chain of gates, the last of which feeds itself negated.
fn deep(tally: &mut Tally) {
    for gates in [1, 2, 3, 10, 1_000, 1_048_575] {
        let next = |k: u64| if k == gates { 2 * gates + 1 } else { 2 * k + 2 };
        tally.compare(&Circuit {
            largest: gates,
            gates: (1..=gates).map(|k| [2 * k, next(k), 0]).collect(),
            roots: [vec![2], vec![], vec![], vec![], vec![]],
            flags: 1,
            ..Circuit::default()
        });
    }
}

fn tokens(tally: &mut Tally) {
    for line in std::io::stdin().lock().lines() {
        let line = line.expect("lines of text");
        let question = token_line::Question::parse(&line);
        let by_crate = token_line::documented(&question);
        let by_words = token_words::answer(&question);
        let kind = match by_words.split(' ').collect::<Vec<_>>()[..] {
            ["R", number, _] => format!("refused {number}"),
            _ => "read".into(),
        };
        match by_crate == by_words {
            true => tally.count(format!("{} {kind}", question.function)),
            false => tally.disagree(format!("{line}: crate {by_crate}, words {by_words}")),
        }
    }
}
