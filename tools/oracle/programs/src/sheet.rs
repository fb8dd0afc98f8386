//! Document 01's report program with the crate inside. The crate decides the numbers' bytes (15 and 16,
//! through `delta_code`), 5, 7, 8, the numbering, the gates and the images. The limits, the order of the
//! checks and refusals 1, 2, 4 and 6 are document 01's, 22 is document 02's. Refusal 3 cannot come up: nothing is lent.
use crate::{
    circuit::{self, Circuit},
    token_line,
};
use flussab::{text::LineReader, DeferredReader};
use flussab_aiger::aig::{AigStructureError, OrderedAig, Renumber, RenumberConfig};
use std::{collections::HashSet, fmt::Write};

/// A refusal's number, and the literal or the byte offset printed beside it.
#[derive(Debug, PartialEq, Eq, Clone, Copy)]
pub struct Refused(pub u64, pub u64);

const LONGEST: usize = 60_000;
const LIMIT: u64 = 1_023;

/// The answer to a sheet, as it is printed.
pub fn report(sheet: &[u8]) -> String {
    match read(sheet).and_then(|circuit| renumber(&circuit)) {
        Ok((ordered, _)) => print(&ordered),
        Err(Refused(number, beside)) => format!("refused {number} {beside}\n"),
    }
}

/// The circuit on a sheet; no code is looked at.
pub fn read(sheet: &[u8]) -> Result<Circuit, Refused> {
    if sheet.len() > LONGEST {
        return Err(Refused(1, 0));
    }
    let mut reader = LineReader::new(DeferredReader::from_read(sheet));
    let header = numbers(&mut reader, 10)?;
    let roots: u64 = header[4..9].iter().sum();
    if header[..9].iter().any(|&number| number > LIMIT) || roots > LIMIT {
        return Err(Refused(1, 0));
    }
    if header[9] > 7 {
        return Err(Refused(2, 0));
    }
    let inputs = numbers(&mut reader, header[1])?;
    let gates = numbers(&mut reader, 3 * header[3])?;
    let latches = numbers(&mut reader, 2 * header[2])?;
    let mut lists: [Vec<u64>; 5] = Default::default();
    for (list, &length) in lists.iter_mut().zip(&header[4..9]) {
        *list = numbers(&mut reader, length)?;
    }
    if !reader.reader.is_at_end() {
        return Err(Refused(2, 0));
    }
    Ok(Circuit {
        largest: header[0],
        inputs,
        gates: gates.chunks(3).map(|g| [g[0], g[1], g[2]]).collect(),
        latches: latches.chunks(2).map(|l| [l[0], l[1], 0]).collect(),
        roots: lists,
        flags: header[9],
    })
}

/// The ten numbers that open a sheet.
pub fn header(sheet: &[u8]) -> Result<Vec<u64>, Refused> {
    numbers(&mut LineReader::new(DeferredReader::from_read(sheet)), 10)
}

fn numbers(reader: &mut LineReader, count: u64) -> Result<Vec<u64>, Refused> {
    let number = |_| {
        token_line::binary_uint(reader)
            .map_err(token_line::refusal)
            .map_err(|(number, place)| Refused(number, place as u64))
    };
    (0..count).map(number).collect()
}

/// Checks 4, 22, 5 and 6 in their order, then the crate.
pub fn renumber(circuit: &Circuit) -> Result<(OrderedAig<u32>, Renumber<u32>), Refused> {
    let over = |code: &u64| *code > 2 * circuit.largest + 1;
    if let Some(code) = circuit.codes().into_iter().find(over) {
        return Err(Refused(4, code));
    }
    if let Some(reset) = circuit.stray() {
        return Err(Refused(22, reset));
    }
    let aig = circuit.to_crate();
    let defined = aig.lit_defs().map_err(structure_refusal)?;
    let mut states = HashSet::new();
    for latch in &aig.latches {
        let state = latch.state;
        if defined.contains_key(&state)
            || defined.contains_key(&(state ^ 1))
            || !states.insert(state / 2)
        {
            return Err(Refused(6, state as u64));
        }
    }
    Renumber::renumber_aig(config(circuit.flags), &aig).map_err(structure_refusal)
}

/// The crate's switches for document 01's flags.
pub fn config(flags: u64) -> RenumberConfig {
    RenumberConfig::default()
        .trim(flags & 1 != 0)
        .structural_hash(flags & 2 != 0)
        .const_fold(flags & 4 != 0)
}

/// Document 01's number for a refusal of the crate.
pub fn structure_refusal(error: AigStructureError<u32>) -> Refused {
    match error {
        AigStructureError::LitAlreadyDefined { lit } => Refused(5, lit as u64),
        AigStructureError::LitNotDefined { lit } => Refused(7, lit as u64),
        AigStructureError::FoundCycle { lit } => Refused(8, lit as u64),
    }
}

/// The resets of the ordered latches, which have the literals behind those of the inputs.
pub fn reset_images(ordered: &OrderedAig<u32>) -> Vec<u32> {
    let literals = (ordered.input_count as u64 + 1..).map(|variable| 2 * variable);
    let starts = ordered.latches.iter().map(|latch| latch.initialization);
    literals.zip(starts).map(|(literal, start)| circuit::reset(literal, start) as u32).collect()
}

/// The images of the roots in the walk's order.
pub fn root_images(ordered: &OrderedAig<u32>) -> Vec<u32> {
    let mut images = ordered.outputs.clone();
    images.extend(&ordered.bad_state_properties);
    images.extend(&ordered.invariant_constraints);
    images.extend(&ordered.fairness_constraints);
    images.extend(ordered.justice_properties.iter().flatten());
    images
}

/// The text for a circuit that was ordered.
pub fn print(ordered: &OrderedAig<u32>) -> String {
    let (inputs, latches) = (ordered.input_count, ordered.latches.len());
    let (top, made) = (ordered.max_var_index, ordered.and_gates.len());
    let mut text = format!("ordered {top} {inputs} {latches} {made}\n");
    for (index, gate) in ordered.and_gates.iter().enumerate() {
        let output = 2 * (inputs + latches + 1 + index);
        let [larger, smaller] = gate.inputs;
        writeln!(text, "{output} {larger} {smaller}").unwrap();
    }
    for latch in &ordered.latches {
        writeln!(text, "n {}", latch.next_state).unwrap();
    }
    for image in root_images(ordered) {
        writeln!(text, "r {image}").unwrap();
    }
    text
}
