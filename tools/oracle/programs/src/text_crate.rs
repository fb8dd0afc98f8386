//! A text read by the crate's staged calls, stopped after the last gate: its `parse` reads on.
use crate::{
    circuit::reset,
    file_crate::{all, refused},
    file_words::Refused,
    text_words::Text,
};
use flussab_aiger::{aig, ascii, ParseError};

/// The circuit, or the number and the place of the refusal.
pub fn read(bytes: &[u8]) -> Result<Text, Refused> {
    staged(bytes).map_err(|error| refused(error, bytes))
}

fn staged(bytes: &[u8]) -> Result<Text, ParseError> {
    let parser = ascii::Parser::<u32>::from_read(bytes, ascii::Config::default())?;
    let header = parser.header().clone();
    let mut text = Text { top: header.max_var_index as u64, ..Text::default() };
    let (mut latches, mut gates) = (vec![], vec![]);
    let (mut fairness, mut justice) = (vec![], vec![]);
    let (roots, sizes) = (&mut text.roots, &mut text.sizes);

    let mut stage = parser.inputs()?;
    all!(text.inputs, stage.next_input, u64::from);
    let mut stage = stage.latches()?;
    all!(latches, stage.next_latch, |latch: aig::Latch<u32>| latch);
    let mut stage = stage.outputs()?;
    all!(roots, stage.next_output, u64::from);
    let mut stage = stage.bad_state_properties()?;
    all!(roots, stage.next_bad_state_property, u64::from);
    let mut stage = stage.invariant_constraints()?;
    all!(roots, stage.next_invariant_constraint, u64::from);
    let mut stage = stage.justice_properties()?;
    all!(sizes, stage.next_justice_property_size, |size| size as u64);
    let mut stage = stage.justice_property_local_fairness_constraints()?;
    all!(justice, stage.next_justice_property_local_fairness_constraint, u64::from);
    let mut stage = stage.fairness_constraints()?;
    all!(fairness, stage.next_fairness_constraint, u64::from);
    let mut stage = stage.and_gates()?;
    all!(gates, stage.next_and_gate, |gate: aig::AndGate<u32>| [gate.output, gate.inputs[0], gate.inputs[1]].map(u64::from));

    let [o, b, c] = [header.output_count, header.bad_state_property_count, header.invariant_constraint_count];
    text.counts = [o, b, c, fairness.len(), justice.len()].map(|count| count as u64);
    text.roots.extend(fairness.into_iter().chain(justice));
    text.gates = gates.concat();
    for latch in latches {
        let state = latch.state as u64;
        text.states.push(state);
        text.nexts.push(latch.next_state as u64);
        text.resets.push(reset(state, latch.initialization));
    }
    Ok(text)
}
