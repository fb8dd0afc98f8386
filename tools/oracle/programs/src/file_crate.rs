//! A binary file read by the crate's staged calls, stopped after the last gate: its `parse` reads on.
use crate::circuit::{reset, start};
use crate::file_words::{Ordered, Refused};
use crate::token_line;
use flussab_aiger::{aig, binary, InnerParseError, ParseError};

/// The circuit, or the number and the place of the refusal.
pub fn read(bytes: &[u8]) -> Result<Ordered, Refused> {
    staged(bytes).map_err(|error| refused(error, bytes))
}

/// Puts all that a stage gives into a list.
macro_rules! all {
    ($list:expr, $stage:ident.$next:ident, $with:expr) => {
        while let Some(item) = $stage.$next()? {
            $list.push($with(item));
        }
    };
}
pub(crate) use all;

fn staged(bytes: &[u8]) -> Result<Ordered, ParseError> {
    let parser = binary::Parser::<u32>::from_read(bytes, binary::Config::default())?;
    let header = parser.header().clone();
    let inputs = header.input_count as u64;
    let mut circuit = Ordered { top: header.max_var_index as u64, inputs, ..Ordered::default() };
    let (mut latches, mut gates) = (vec![], vec![]);
    let (mut fairness, mut justice) = (vec![], vec![]);
    let (roots, sizes) = (&mut circuit.roots, &mut circuit.sizes);

    let mut stage = parser.latches()?;
    all!(latches, stage.next_latch, |latch: aig::OrderedLatch<u32>| latch);
    let mut stage = stage.outputs()?;
    all!(roots, stage.next_output, u64::from);
    let mut stage = stage.bad_state_properties()?;
    all!(roots, stage.next_bad_state_property, u64::from);
    let mut stage = stage.invariant_constraints()?;
    all!(roots, stage.next_invariant_constraint, u64::from);
    let mut stage = stage.justice_properties()?;
    all!(sizes, stage.next_justice_property_size, |size| size as u64);
    let mut stage = stage.justice_property_local_fairness_constraints()?;
    all!(justice, stage.next_justice_property_local_fairness_constraint, u64::from);
    let mut stage = stage.fairness_constraints()?;
    all!(fairness, stage.next_fairness_constraint, u64::from);
    let mut stage = stage.and_gates()?;
    all!(gates, stage.next_and_gate, |gate: aig::OrderedAndGate<u32>| gate.inputs.map(u64::from));

    let [o, b, c] = [header.output_count, header.bad_state_property_count, header.invariant_constraint_count];
    circuit.counts = [o, b, c, fairness.len(), justice.len()].map(|count| count as u64);
    circuit.roots.extend(fairness.into_iter().chain(justice));
    circuit.gates = gates.concat();
    for (latch, state) in latches.iter().zip((inputs + 1..).map(|variable| 2 * variable)) {
        circuit.nexts.push(latch.next_state as u64);
        circuit.resets.push(reset(state, latch.initialization));
    }
    Ok(circuit)
}

/// The crate's record of a circuit that was read.
pub fn record(circuit: &Ordered) -> aig::Aig<u32> {
    let word = |&code: &u64| code as u32;
    let states = (circuit.inputs + 1..).map(|variable| 2 * variable);
    let latches = circuit.nexts.iter().zip(&circuit.resets).zip(states);
    let latch = |((next, &reset), state)| aig::OrderedLatch { next_state: word(next), initialization: start(state, reset) };
    let gate = |pair: &[u64]| aig::OrderedAndGate { inputs: [word(&pair[0]), word(&pair[1])] };
    let mut roots = circuit.roots.iter().map(word);
    let mut next = |count: u64| roots.by_ref().take(count as usize).collect::<Vec<u32>>();
    let [outputs, bad_state_properties, invariant_constraints, fairness_constraints, justice] = circuit.counts.map(&mut next);
    aig::Aig::from(aig::OrderedAig {
        max_var_index: circuit.top as usize,
        input_count: circuit.inputs as usize,
        latches: latches.map(latch).collect(),
        outputs,
        bad_state_properties,
        invariant_constraints,
        justice_properties: vec![justice],
        fairness_constraints,
        and_gates: circuit.gates.chunks(2).map(gate).collect(),
        ..Default::default()
    })
}

/// The documents' number for a message of the crate, and the place that it names. What follows `found` is quoted from the file, and no message is looked at
/// that far.
pub(crate) fn refused(error: ParseError, bytes: &[u8]) -> Refused {
    let error = match *error {
        InnerParseError::SyntaxError(error) => error,
        InnerParseError::IoError(error) => panic!("{error}"),
    };
    let message = error.msg.split(", found ").next().unwrap();
    let number = match message {
        "expected binary AIGER header \"aig\"" | "expected ASCII AIGER header \"aag\"" => 18,
        "expected a space character" | "expected a newline" | "expected a space or newline" => 18,
        "expected end of file" => 15,
        _ if message.starts_with("expected ") => 10,
        _ if message.starts_with("invalid initialization literal ") => 22,
        _ if message.contains("has leading zeros") => 11,
        _ if message.ends_with(" is constant false") => 13,
        _ if message.ends_with(" is negated (odd)") => 14,
        _ if message.contains(" exceeds the ") => token_line::told_apart(12, &bytes[error.position..]),
        _ if message.contains("uses more bytes than required") => 16,
        _ if message.starts_with("encoded delta ") => 17,
        _ => panic!("a message without a number: {message}"),
    };
    Refused { number, place: error.position, line: None }
}
