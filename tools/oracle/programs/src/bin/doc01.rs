//! Every example of document 01, with request Q-2's pairs and Q-7's resets, of the review of the definitions and of the papers, asked of the crate.
//!
//!     doc01
//!
//! Prints `agree` or `DISAGREE` a line. The exit status is 1 if a disagreement is not on the list of
//! known ones, or if one on the list has gone.
use flussab_aiger::{
    aig::{OrderedAig, Renumber},
    ascii, binary, Error,
};
use judge::{
    circuit::Circuit,
    examples::{CIRCUITS, CONSUMED, CRATE_ALONE, HALF_ADDER, KNOWN, PAIRS_ALONE, RESETS, SHEETS, TEXTS, TOKENS},
    hex, sheet,
    token_line::{answer, Question},
    walk_words,
};

/// Counts of agreements, known disagreements, and surprises.
#[derive(Default)]
struct Tally {
    agreed: usize,
    known: usize,
    surprises: usize,
}

fn main() {
    let mut tally = Tally::default();
    for (words, expected) in CIRCUITS {
        let answer = sheet::report(&circuit(words).sheet());
        tally.note(words, expected, &joined(&answer), None);
    }
    for (words, expected) in RESETS {
        tally.note(words, expected, &resets(words), None);
    }
    let entry = renumbered("V=0").1.lit_map().get(0);
    tally.note("* V=0: map entry 0", "Some(0)", &format!("{entry:?}"), None);
    let height = walk_words::deepest(&circuit("gate 2(2,0), root 3, trim"));
    tally.note(
        "* gate 2(2,0), root 3, trim: entries",
        "2",
        &height.to_string(),
        None,
    );
    for (digits, times, expected) in SHEETS {
        let answer = sheet::report(&hex::decode(digits).repeat(*times));
        let name = format!("sheet of {times} times `{digits}`");
        tally.note(&name, expected, &joined(&answer), None);
    }
    for (question, words, expected) in TOKENS {
        let name = format!("{question} {words}");
        let answer = answer(&Question::parse(question)).text;
        tally.note(name.trim_end(), expected, &answer, None);
    }
    for (text, expected) in TEXTS {
        tally.note(text, expected, &joined(&ordered_text(text)), None);
    }
    let (expected, read) = half_adder();
    tally.note("the half adder in binary form", &expected, &read, None);
    for (question, words) in CONSUMED {
        let consumed = answer(&Question::parse(question)).consumed;
        let name = format!("{question}: bytes consumed after {words}");
        tally.note(&name, "0", &consumed.to_string(), known(question));
    }
    for (question, expected) in PAIRS_ALONE {
        let name = format!("{question}: the crate alone");
        let answer = answer(&Question::parse(question)).text;
        tally.note(&name, expected, &answer, known(question));
    }
    for (words, expected) in CRATE_ALONE {
        let name = format!("{words}: the crate alone");
        tally.note(
            &name,
            expected,
            &joined(&sheet::print(&renumbered(words).0)),
            known(words),
        );
    }
    println!(
        "{} agree, {} disagree as known, {} surprises",
        tally.agreed, tally.known, tally.surprises
    );
    std::process::exit((tally.surprises > 0) as i32)
}

impl Tally {
    fn note(&mut self, name: &str, expected: &str, answer: &str, known: Option<&str>) {
        let agree = if answer == expected {
            "agree   "
        } else {
            "DISAGREE"
        };
        match (answer == expected, known) {
            (true, None) => {
                self.agreed += 1;
                println!("{agree} {name}: {answer}");
            }
            (false, Some(reason)) => {
                self.known += 1;
                println!("{agree} {name}: expected {expected}, crate {answer} (known: {reason})");
            }
            _ => {
                self.surprises += 1;
                println!("{agree} {name}: expected {expected}, crate {answer} (NOT AS LISTED)");
            }
        }
    }
}

fn known(name: &str) -> Option<&'static str> {
    let entry = KNOWN.iter().find(|(known, _)| *known == name);
    entry.map(|(_, reason)| *reason)
}

fn joined(answer: &str) -> String {
    answer.trim_end().replace('\n', " | ")
}

/// The circuit that the words name. V is the least that passes check 4 unless it is given.
fn circuit(words: &str) -> Circuit {
    let mut circuit = Circuit::default();
    let mut lists: [Vec<u64>; 9] = Default::default();
    let (mut list, mut largest) = (0, None);
    for word in words
        .split(|c: char| " ,()*".contains(c))
        .filter(|word| !word.is_empty())
    {
        match word {
            "input" | "inputs" => list = 0,
            "gate" | "gates" => list = 1,
            "latch" | "latches" => list = 2,
            "root" | "roots" => list = 3,
            "fairness" => list = 6,
            "justice" => list = 7,
            "reset" | "resets" => list = 8,
            "trim" => circuit.flags |= 1,
            "hash" => circuit.flags |= 2,
            "fold" => circuit.flags |= 4,
            _ => match word.strip_prefix("V=") {
                Some(number) => largest = Some(number.parse().unwrap()),
                None => lists[list].push(word.parse().unwrap()),
            },
        }
    }
    let [inputs, gates, latches, outputs, bad, constraints, fairness, justice, resets] = lists;
    let mut resets = resets.into_iter();
    circuit.inputs = inputs;
    circuit.gates = gates.chunks(3).map(|g| [g[0], g[1], g[2]]).collect();
    circuit.latches = latches.chunks(2).map(|l| [l[0], l[1], resets.next().unwrap_or(0)]).collect();
    circuit.roots = [outputs, bad, constraints, fairness, justice];
    let least = circuit.codes().into_iter().max().unwrap_or(0) / 2;
    circuit.largest = largest.unwrap_or(least);
    circuit
}

/// What the resets of a circuit become, or why it is refused; the crate's and the words' answers are held to each other.
fn resets(words: &str) -> String {
    let circuit = circuit(words);
    let answer = match sheet::renumber(&circuit) {
        Ok((ordered, _)) => format!("resets {:?}", sheet::reset_images(&ordered)),
        Err(sheet::Refused(number, literal)) => format!("refused {number} {literal}"),
    };
    let over = answer.starts_with("refused 4");
    match if over { Ok(None) } else { walk_words::compare(&circuit) } {
        Ok(_) => answer,
        Err(differ) => differ,
    }
}

/// What the crate makes of a circuit that it takes, without document 01's checks.
fn renumbered(words: &str) -> (OrderedAig<u32>, Renumber<u32>) {
    let circuit = circuit(words);
    Renumber::renumber_aig(sheet::config(circuit.flags), &circuit.to_crate())
        .expect("a circuit that the crate takes")
}

/// A circuit in text form, read by the crate and renumbered with no flag.
fn ordered_text(text: &str) -> String {
    let text = text.replace(" / ", "\n") + "\n";
    ascii::Parser::<u32>::from_read(text.as_bytes(), ascii::Config::default())
        .and_then(|parser| parser.parse())
        .map_err(Error::from)
        .and_then(|aig| Ok(Renumber::renumber_aig(sheet::config(0), &aig)?))
        .map_or_else(
            |error| error.to_string(),
            |(ordered, _)| sheet::print(&ordered),
        )
}

/// The half adder's order as it comes from the text form, and as the crate reads it from binary.
fn half_adder() -> (String, String) {
    let (before, gates) = HALF_ADDER;
    let mut file = before.as_bytes().to_vec();
    file.extend(hex::decode(gates));
    let read = binary::Parser::<u32>::from_read(&file[..], binary::Config::default())
        .and_then(|parser| parser.parse())
        .map_or_else(|error| error.to_string(), |ordered| sheet::print(&ordered));
    let text = TEXTS.iter().find(|(text, _)| text.starts_with("aag 7 2 0"));
    (text.unwrap().1.to_string(), joined(&read))
}
