//! The port against the crate, in one program: the answer and every word of every lent list.
//!
//!     against_port small                         every circuit of up to two gates: all codes, roots, flags
//!     against_port random SEED COUNT MAXGATES    random circuits of every kind, lent lists of every length near the needed one
//!     against_port sharing SEED COUNT MAXGATES   random circuits in which many gates share a few nodes; one in eight with a fault
//!     against_port large                         the limits and one over, a long chain, a full stack, a wide fan-out
//!     against_port binary small                  binary files: short endings of each section, every shape of header cut at each byte
//!     against_port binary random SEED COUNT MAXGATES    good and damaged binary files in lists of every length near the needed one
//!     against_port binary large                  binary files at the limits and one over
//!     against_port expansions SEED COUNT         ordered circuits expanded, at the limits too
//!     against_port write small                   every small ordered circuit of some forms, written
//!     against_port write random SEED COUNT MAXGATES
//!     against_port write large                   ordered circuits at the limits and one over, written
//!     against_port write trips SEED COUNT MAXGATES   files read and written again
//!     against_port texts small                   texts: as binary files above
//!     against_port texts random SEED COUNT MAXGATES     and those that are taken renumbered, written as binary files and read again
//!     against_port texts large
//!     against_port text-writing small            ordered circuits written as texts: as above
//!     against_port text-writing random SEED COUNT MAXGATES
//!     against_port text-writing large
//!     against_port text-writing trips SEED COUNT MAXGATES   texts written and read again
//!     against_port order small                   binary files ordered by one call: every shape of header cut at each byte
//!     against_port order random SEED COUNT MAXGATES     good and damaged ones, with all flags, in lists of every length near the needed one
//!     against_port order large                   binary files at the limits and one over
//!     against_port file FILE FOLDER SEED         an AIGER file in three orders, with all flags; writes FOLDER/ORDER-FLAGS.aig as the port ordered it; a binary
//!                                                file is ordered by one call too
//!     against_port flip FILE WHICH TO            the file with one literal flipped: of a next state, a reset, a root or a gate (WHICH)
//!
//! Prints how many of each answer there were. At the first difference it prints the smallest circuit it can shrink it to and ends with 1.
mod aiger;
mod binary;
mod file;
mod files;
mod order;
mod ordering;
mod outcome;
mod reading;
mod shrink;
mod texts;
mod values;
mod writing;

use judge::{circuit::Circuit, circuit_kinds, random::Random, write_words::Form};
use outcome::{by_crate, by_port, Lists, Spare};
use std::{collections::BTreeMap, process::exit};

#[derive(Default)]
struct Tally {
    answers: BTreeMap<u32, u64>,
    compared: u64,
}

/// After how many circuits a line says how many were compared.
const PROGRESS: u64 = 5_000_000;

impl Tally {
    fn compare(&mut self, circuit: &Circuit, spare: Spare) {
        let differ = |circuit: &Circuit| {
            let lists = Lists::lent(circuit, spare);
            by_port(circuit, spare, lists.clone()) != by_crate(circuit, spare, lists)
        };
        let lists = Lists::lent(circuit, spare);
        let (port, judge) = (by_port(circuit, spare, lists.clone()), by_crate(circuit, spare, lists));
        if port != judge {
            // what is too large to be shrunk is told by its sizes and its first word
            match circuit.codes().len() {
                0..=10_000 => show(&shrink::smallest(circuit.clone(), differ), spare),
                _ => println!("DIFFERS, with the header {:?}: {}", circuit.header(), outcome::difference(port, judge)),
            }
            exit(1);
        }
        *self.answers.entry(port.number).or_default() += 1;
        self.compared += 1;
        if self.compared % PROGRESS == 0 {
            eprintln!("  {} circuits so far, no difference", self.compared);
        }
    }
}

fn show(circuit: &Circuit, spare: Spare) {
    let lists = Lists::lent(circuit, spare);
    let Circuit {
        largest,
        inputs,
        gates,
        latches,
        roots,
        flags,
    } = circuit;
    println!("DIFFERS V={largest} inputs {inputs:?} gates {gates:?} latches {latches:?} roots {roots:?} flags {flags} spare {spare:?}");
    println!("  the port:  {:?}", by_port(circuit, spare, lists.clone()));
    println!("  the crate: {:?}", by_crate(circuit, spare, lists));
}

fn main() {
    let arguments: Vec<String> = std::env::args().skip(1).collect();
    let arguments: Vec<&str> = arguments.iter().map(String::as_str).collect();
    let number = |text: &str| text.parse::<u64>().expect("a number");
    let mut tally = Tally::default();
    match arguments[..] {
        ["small"] => small(&mut tally),
        ["random", s, c, g] => random(&mut tally, Random(number(s)), number(c), number(g), of_every_kind),
        ["sharing", s, c, g] => random(&mut tally, Random(number(s)), number(c), number(g), sharing),
        ["large"] => large(&mut tally),
        ["binary", ref run @ ..] => return binary_files(run),
        ["write", ref run @ ..] => return written(run),
        ["texts", ref run @ ..] => return text_files(run),
        ["text-writing", ref run @ ..] => return texts_written(run),
        ["order", ref run @ ..] => return ordered(run),
        ["expansions", s, c] => return binary::expansions(Random(number(s)), number(c)),
        ["file", path, folder, seed] => return file::compare(path, folder, number(seed)),
        ["flip", path, which, to] => return file::flip(path, which, to),
        _ => misused(),
    }
    let total: u64 = tally.answers.values().sum();
    println!("{}: {total} circuits, no difference", arguments.join(" "));
    for (number, count) in tally.answers {
        match number {
            0 => println!("  ordered: {count}"),
            _ => println!("  refused {number}: {count}"),
        }
    }
}

fn misused() -> ! {
    eprintln!("usage: against_port small | random SEED COUNT MAXGATES | sharing SEED COUNT MAXGATES | large");
    eprintln!("     | binary small | binary random SEED COUNT MAXGATES | binary large | expansions SEED COUNT");
    eprintln!("     | write small | write random SEED COUNT MAXGATES | write large | write trips SEED COUNT MAXGATES");
    eprintln!("     | texts small | texts random SEED COUNT MAXGATES | texts large");
    eprintln!("     | text-writing small | text-writing random SEED COUNT MAXGATES | text-writing large | text-writing trips SEED COUNT MAXGATES");
    eprintln!("     | order small | order random SEED COUNT MAXGATES | order large");
    eprintln!("     | file FILE FOLDER SEED | flip FILE WHICH TO");
    exit(2)
}

/// A run over binary files, and what it found.
fn binary_files(run: &[&str]) {
    let number = |text: &str| text.parse::<u64>().expect("a number");
    let mut tally = files::Tally::default();
    match *run {
        ["small"] => binary::small(&mut tally),
        ["random", s, c, g] => binary::random(&mut tally, Random(number(s)), number(c), number(g)),
        ["large"] => binary::large(&mut tally),
        _ => misused(),
    }
    tally.tell::<binary::Binary, 5>(&format!("binary {}", run.join(" ")));
}

/// A run over texts, and what it found.
fn text_files(run: &[&str]) {
    let number = |text: &str| text.parse::<u64>().expect("a number");
    let mut tally = files::Tally::default();
    match *run {
        ["small"] => texts::small(&mut tally),
        ["random", s, c, g] => texts::random(&mut tally, Random(number(s)), number(c), number(g)),
        ["large"] => texts::large(&mut tally),
        _ => misused(),
    }
    tally.tell::<texts::Texts, 7>(&format!("texts {}", run.join(" ")));
}

/// A run over ordered circuits that are written, and what it found.
fn written(run: &[&str]) {
    let number = |text: &str| text.parse::<u64>().expect("a number");
    match *run {
        ["trips", s, c, g] => writing::trips(Random(number(s)), number(c), number(g)),
        _ => written_as(Form::Binary, "write", run),
    }
}

/// The same for texts.
fn texts_written(run: &[&str]) {
    let number = |text: &str| text.parse::<u64>().expect("a number");
    match *run {
        ["trips", s, c, g] => writing::text_trips(Random(number(s)), number(c), number(g)),
        _ => written_as(Form::Text, "text-writing", run),
    }
}

/// A run over binary files that are ordered by one call, and what it found.
fn ordered(run: &[&str]) {
    let number = |text: &str| text.parse::<u64>().expect("a number");
    let mut tally = order::Tally::default();
    match *run {
        ["small"] => order::small(&mut tally),
        ["random", s, c, g] => order::random(&mut tally, Random(number(s)), number(c), number(g)),
        ["large"] => order::large(&mut tally),
        _ => misused(),
    }
    tally.tell(&format!("order {}", run.join(" ")));
}

fn written_as(form: Form, name: &str, run: &[&str]) {
    let number = |text: &str| text.parse::<u64>().expect("a number");
    judge::write_crate::silent();
    let mut tally = writing::Tally::of(form);
    match *run {
        ["small"] => writing::small(&mut tally),
        ["random", s, c, g] => writing::random(&mut tally, Random(number(s)), number(c), number(g)),
        ["large"] => writing::large(&mut tally),
        _ => misused(),
    }
    tally.tell(&format!("{name} {}", run.join(" ")));
}

/// Every circuit of up to two gates over an input, with a root, of up to one gate with a latch too, and of two latches with trim on and all else off; all codes of
/// V = G + 2 and a variable more for each latch, so of a variable more than need be defined: outputs, states, inputs, next states and roots. A latch's reset is 0, 1,
/// its own literal, that negated, or beside no gate a code that is over; with one latch and no gate any code, and one over.
fn small(tally: &mut Tally) {
    for flags in 0..8 {
        for gates in 0..=2 {
            every(tally, gates, 0, flags, 1);
        }
        every(tally, 0, 1, flags, 9);
        every(tally, 1, 1, flags, 4);
    }
    every(tally, 0, 2, 1, 5);
}

/// Every circuit of these sizes, with as many choices of resets: all codes and one over, or 0, 1, the latch, that negated and one over, or the first four.
fn every(tally: &mut Tally, gates: u32, latches: u32, flags: u64, resets: u64) {
    let largest = (gates + latches) as u64 + 2;
    let bound = 2 * largest + 2;
    let reset = |choice: u64, own: u64| match choice {
        _ if resets > 5 => choice,
        2 => own,
        3 => own ^ 1,
        4 => bound,
        _ => choice,
    };
    for choice in 0..bound.pow(3 * gates + 2 * latches + 1) * resets.pow(latches) {
        let mut rest = choice;
        let mut next = |bound: u64| {
            let code = rest % bound;
            rest /= bound;
            code
        };
        let mut latch = |_| {
            let (state, step) = (next(bound), next(bound));
            [state, step, reset(next(resets), state)]
        };
        let circuit = Circuit {
            largest,
            inputs: vec![2],
            latches: (0..latches).map(&mut latch).collect(),
            gates: (0..gates).map(|_| [next(bound), next(bound), next(bound)]).collect(),
            roots: [vec![next(bound)], vec![], vec![], vec![], vec![]],
            flags,
        };
        tally.compare(&circuit, Spare::of(1));
    }
}

fn of_every_kind(random: &mut Random, gates: u64) -> Circuit {
    let mut circuit = circuit_kinds::valid(random, gates);
    let (_, _, fault) = random.pick(&circuit_kinds::FAULTS);
    fault(random, &mut circuit);
    circuit_kinds::with_resets(random, &mut circuit);
    circuit
}

fn sharing(random: &mut Random, gates: u64) -> Circuit {
    let mut circuit = circuit_kinds::sharing(random, gates);
    if random.below(8) == 0 {
        let (_, _, fault) = random.pick(&circuit_kinds::FAULTS);
        fault(random, &mut circuit);
    }
    circuit_kinds::with_resets(random, &mut circuit);
    circuit
}

fn random(tally: &mut Tally, mut random: Random, count: u64, gates: u64, make: fn(&mut Random, u64) -> Circuit) {
    let mut made = 0;
    while made < count {
        let circuit = make(&mut random, gates);
        if circuit.codes().iter().any(|&code| code > u32::MAX as u64) {
            continue;
        }
        made += 1;
        let spare = Spare::any(&mut random);
        tally.compare(&circuit, spare);
    }
}

/// Circuits at the limits: each size at 1,048,575 and one over, a chain from its far end, the stack filled, one node used by all, one node that is the larger
/// input of as many different gates as there can be.
fn large(tally: &mut Tally) {
    const LIMIT: u64 = 1_048_575;
    let chain = |gates: u64, last: u64, root: u64, flags: u64| Circuit {
        largest: gates + 1,
        inputs: vec![2 * (gates + 1)],
        gates: (1..=gates)
            .map(|k| {
                [
                    2 * k,
                    if k == gates { last } else { 2 * k + 2 },
                    2 * (gates + 1),
                ]
            })
            .collect(),
        roots: [vec![root], vec![], vec![], vec![], vec![]],
        flags,
        ..Circuit::default()
    };
    for size in [LIMIT, LIMIT + 1] {
        tally.compare(
            &Circuit {
                largest: size,
                ..Circuit::default()
            },
            Spare::of(0),
        );
        tally.compare(
            &Circuit {
                largest: LIMIT,
                inputs: (1..=size).map(|v| 2 * v.min(LIMIT)).collect(),
                ..Circuit::default()
            },
            Spare::of(0),
        );
        tally.compare(
            &Circuit {
                largest: LIMIT,
                latches: (1..=size)
                    .map(|v| [2 * v.min(LIMIT), 2 * v.min(LIMIT) + 1, [0, 1, 2 * v.min(LIMIT)][v as usize % 3]])
                    .collect(),
                ..Circuit::default()
            },
            Spare::of(0),
        );
        // more next states or resets than there may be latches: too many for the latch that there is, and no size of its own
        for read in [[LIMIT as isize, 0, 0], [0, LIMIT as isize, 0]] {
            let circuit = Circuit { largest: size, latches: vec![[2, 3, 1]], ..Circuit::default() };
            tally.compare(&circuit, Spare { read, ..Spare::of(0) });
        }
        // odd states, of which each is unset; in one circuit the last reset is the negated literal
        for last in [0, 1] {
            let mut latches: Vec<[u64; 3]> = (1..=LIMIT).rev().map(|v| [2 * v + 1, 0, 2 * v + 1]).collect();
            latches.last_mut().unwrap()[2] ^= last;
            tally.compare(
                &Circuit {
                    largest: LIMIT,
                    latches,
                    ..Circuit::default()
                },
                Spare::of(1),
            );
        }
        tally.compare(
            &Circuit {
                largest: LIMIT,
                gates: (1..=size).map(|v| [2 * v.min(LIMIT), 0, 1]).collect(),
                ..Circuit::default()
            },
            Spare::of(0),
        );
        tally.compare(
            &Circuit {
                roots: [vec![1; size as usize], vec![], vec![], vec![], vec![]],
                ..Circuit::default()
            },
            Spare::of(0),
        );
    }
    for flags in 0..8 {
        // a chain a million gates deep, from its far end
        tally.compare(&chain(LIMIT - 1, 2 * LIMIT, 2, flags), Spare::of(1));
        // one node with a million fan-outs, as the larger input and as the smaller
        for node in [2 * LIMIT, 2] {
            let source = if node == 2 { 1 } else { LIMIT };
            let gates = (1..=LIMIT)
                .filter(|&v| v != source)
                .map(|v| [2 * v, node, v % 2])
                .collect();
            tally.compare(
                &Circuit {
                    largest: LIMIT,
                    inputs: vec![node],
                    gates,
                    flags,
                    ..Circuit::default()
                },
                Spare::of(1),
            );
        }
    }
    // the last of the inputs, with either sign, is the larger input of gates with these smaller ones
    let under = |sources: u64, pairs: &[(u64, u64)], flags: u64| Circuit {
        largest: sources + pairs.len() as u64,
        inputs: (1..=sources).map(|v| 2 * v).collect(),
        gates: (sources + 1..).zip(pairs).map(|(v, &(sign, smaller))| [2 * v, smaller, 2 * sources + sign]).collect(),
        flags,
        ..Circuit::default()
    };
    for flags in 0..8 {
        // over 524,287 other inputs; over both signs of 262,144, and then the oldest gate again and again
        let many: Vec<(u64, u64)> = (1..LIMIT / 2).map(|v| (0, 2 * v)).collect();
        tally.compare(&under(LIMIT / 2 + 1, &many, flags), Spare::of(1));
        let mut both: Vec<(u64, u64)> = (1..262_144).flat_map(|v| [(0, 2 * v), (1, 2 * v + 1)]).collect();
        both.resize((LIMIT - 262_144) as usize, (0, 2));
        tally.compare(&under(262_144, &both, flags), Spare::of(1));
        // keys that agree with one of 22 bits in ever more of them, that one itself, its twin with the other sign, and all of them again
        let (sign, smaller) = (flags % 2, 0x15_5554 + flags);
        let mut deep: Vec<(u64, u64)> = (0..21).map(|bit| (sign, smaller ^ 1 << bit)).collect();
        deep.insert(0, (1 - sign, smaller ^ 1));
        deep.extend([(sign, smaller), (1 - sign, smaller)]);
        deep.extend(deep.clone());
        tally.compare(&under(LIMIT - 48, &deep, flags), Spare::of(1));
    }
    for gates in [1, 2, 3, 10, 1_000, LIMIT] {
        // a cycle that fills the stack of 2G entries: a chain into a gate that feeds itself negated
        let next = |k: u64| if k == gates { 2 * gates + 1 } else { 2 * k + 2 };
        let circuit = Circuit {
            largest: gates,
            gates: (1..=gates).map(|k| [2 * k, next(k), 0]).collect(),
            roots: [vec![2], vec![], vec![], vec![], vec![]],
            flags: 1,
            ..Circuit::default()
        };
        tally.compare(&circuit, Spare::of(1));
    }
}
