//! A circuit written by the crate's `Writer::write_ordered_aig`.
use crate::{
    circuit::start,
    write_words::{Form, Given},
};
use flussab::DeferredWriter;
use flussab_aiger::{aig, ascii, binary};
use std::panic;

/// The crate's record of a circuit of which it has one. `top` is its `max_var_index`.
pub fn record(given: &Given, top: u64) -> aig::OrderedAig<u32> {
    let mut roots = given.roots.iter().copied();
    let mut next = |count: u32| roots.by_ref().take(count as usize).collect::<Vec<u32>>();
    let [outputs, bad_state_properties, invariant_constraints, fairness_constraints, justice] =
        <[u32; 5]>::try_from(&given.counts[..]).expect("five counts").map(&mut next);
    let mut justice = justice.into_iter();
    let latches = given.nexts.iter().zip(&given.resets).zip(given.states());
    let latch = |((&next_state, &reset), state)| aig::OrderedLatch { next_state, initialization: start(state, reset as u64) };
    aig::OrderedAig {
        max_var_index: top as usize,
        input_count: given.inputs as usize,
        latches: latches.map(latch).collect(),
        outputs,
        bad_state_properties,
        invariant_constraints,
        justice_properties: given.sizes.iter().map(|&size| justice.by_ref().take(size as usize).collect()).collect(),
        fairness_constraints,
        and_gates: given.gates.chunks_exact(2).map(|pair| aig::OrderedAndGate { inputs: [pair[0], pair[1]] }).collect(),
        ..Default::default()
    }
}

/// The bytes that the crate writes, or none where it panics.
pub fn write(record: &aig::OrderedAig<u32>, form: Form) -> Option<Vec<u8>> {
    panic::catch_unwind(|| {
        let mut bytes = vec![];
        let mut writer = DeferredWriter::from_write(&mut bytes);
        match form {
            Form::Binary => {
                let mut binary = binary::Writer::<u32>::new(writer);
                binary.write_ordered_aig(record);
                binary.check_io_error().expect("memory takes all bytes");
            }
            Form::Text => {
                ascii::Writer::<u32>::new(&mut writer).write_ordered_aig(record);
                writer.check_io_error().expect("memory takes all bytes");
                drop(writer);
            }
        }
        bytes
    })
    .ok()
}

/// The crate's panics are answers here, and not to be told of. This is for the whole program.
pub fn silent() {
    panic::set_hook(Box::new(|info| {
        let ours = info.location().is_none_or(|place| !place.file().ends_with("binary.rs") || place.file().contains("against_port"));
        if ours {
            eprintln!("{info}");
        }
    }));
}
