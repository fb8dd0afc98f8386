//! The crate behind entries that C can call, so that one driver runs it and the port on the same input. The reader under token.rs is the
//! stand-in's, over bytes in memory.
use flussab::{text::LineReader, DeferredReader, DeferredWriter};
use flussab_aiger::{
    aig::{Aig, AndGate, Latch, OrderedAig, OrderedAndGate, OrderedLatch, Renumber, RenumberConfig},
    ascii, binary, token, ParseError,
};
use std::{ptr, slice};

/// A reader over the bytes; it is never freed.
///
/// # Safety
/// `bytes` points to `length` bytes that can be read.
#[no_mangle]
pub unsafe extern "C" fn crate_reader(bytes: *const u8, length: usize) -> *mut LineReader<'static> {
    let bytes = unsafe { slice::from_raw_parts(bytes, length) };
    Box::into_raw(Box::new(LineReader::new(DeferredReader::from_read(bytes))))
}

/// The next delta from its reference: 1 and the value, or 0 where the crate refuses it.
///
/// # Safety
/// `reader` comes from `crate_reader`, and `value` can be written.
#[no_mangle]
pub unsafe extern "C" fn crate_delta(
    reader: *mut LineReader<'static>,
    reference: u64,
    value: *mut u64,
) -> u32 {
    match token::delta_code(
        unsafe { &mut *reader },
        reference as usize,
        "code",
        "reference",
    ) {
        Ok(code) => {
            unsafe { *value = code as u64 };
            1
        }
        Err(_) => 0,
    }
}

/// A circuit for `crate_renumber`; it is never freed. Gates come flat: output, first, second. A latch has a state, a next state and a reset.
///
/// # Safety
/// Each pointer points to as many words as its length says, those of states, next states and resets to as many as there are latches.
#[no_mangle]
pub unsafe extern "C" fn crate_circuit(
    top: u32,
    inputs: *const u32,
    inputs_length: usize,
    states: *const u32,
    nexts: *const u32,
    resets: *const u32,
    latches: usize,
    gates: *const u32,
    gates_length: usize,
    roots: *const u32,
    roots_length: usize,
) -> *mut Aig<u32> {
    let words = |pointer, length| unsafe { slice::from_raw_parts(pointer, length) };
    let [states, nexts, resets] = [states, nexts, resets].map(|list| words(list, latches));
    let latch = |index: usize| Latch {
        state: states[index],
        next_state: nexts[index],
        initialization: start(resets[index]),
    };
    let gate = |gate: &[u32]| AndGate {
        output: gate[0],
        inputs: [gate[1], gate[2]],
    };
    Box::into_raw(Box::new(Aig {
        max_var_index: top as usize,
        inputs: words(inputs, inputs_length).to_vec(),
        latches: (0..latches).map(latch).collect(),
        and_gates: words(gates, gates_length).chunks(3).map(gate).collect(),
        outputs: words(roots, roots_length).to_vec(),
        ..Aig::default()
    }))
}

/// What a latch with this reset starts at: none for its own literal.
fn start(reset: u32) -> Option<bool> {
    (reset < 2).then_some(reset == 1)
}

/// Renumbers with the flags trim 1, hash 2, fold 4: the gates made, or u32::MAX where the crate refuses. What it made is dropped.
///
/// # Safety
/// `circuit` comes from `crate_circuit`.
#[no_mangle]
pub unsafe extern "C" fn crate_renumber(circuit: *const Aig<u32>, flags: u32) -> u32 {
    let config = RenumberConfig::default()
        .trim(flags & 1 != 0)
        .structural_hash(flags & 2 != 0)
        .const_fold(flags & 4 != 0);
    match Renumber::renumber_aig(config, unsafe { &*circuit }) {
        Ok((ordered, _)) => ordered.and_gates.len() as u32,
        Err(_) => u32::MAX,
    }
}

/// What was read of a binary file or of a text, and its justice sizes; all justice literals are one list.
pub struct FileRead<C>(C, Vec<usize>);

/// Reads a binary file by the staged calls, up to its last gate: what `crate_sum` takes, or null where the crate refuses it.
///
/// # Safety
/// `bytes` points to `length` bytes that can be read.
#[no_mangle]
pub unsafe extern "C" fn crate_read(bytes: *const u8, length: usize) -> *mut FileRead<OrderedAig<u32>> {
    let bytes = unsafe { slice::from_raw_parts(bytes, length) };
    staged(bytes).map_or(ptr::null_mut(), |read| Box::into_raw(Box::new(read)))
}

/// The sum of all words that were read, which are dropped.
///
/// # Safety
/// `read` comes from `crate_read` and is not used again.
#[no_mangle]
pub unsafe extern "C" fn crate_sum(read: *mut FileRead<OrderedAig<u32>>) -> u64 {
    let FileRead(read, sizes) = *unsafe { Box::from_raw(read) };
    sum(&read, &sizes)
}

/// Reads a text in the same way: what `crate_text_sum` takes, or null where the crate refuses it.
///
/// # Safety
/// `bytes` points to `length` bytes that can be read.
#[no_mangle]
pub unsafe extern "C" fn crate_read_text(bytes: *const u8, length: usize) -> *mut FileRead<Aig<u32>> {
    let bytes = unsafe { slice::from_raw_parts(bytes, length) };
    staged_text(bytes).map_or(ptr::null_mut(), |read| Box::into_raw(Box::new(read)))
}

/// The sum of all words that were read, which are dropped.
///
/// # Safety
/// `read` comes from `crate_read_text` and is not used again.
#[no_mangle]
pub unsafe extern "C" fn crate_text_sum(read: *mut FileRead<Aig<u32>>) -> u64 {
    let FileRead(read, sizes) = *unsafe { Box::from_raw(read) };
    let latch = |latch: &Latch<u32>| latch.state as u64 + latch.next_state as u64 + latch.initialization.map_or(latch.state as u64, u64::from);
    let latches: u64 = read.latches.iter().map(latch).sum();
    let gates: u64 = read.and_gates.iter().map(|gate| gate.output as u64 + words(&gate.inputs)).sum();
    let roots = [&read.outputs, &read.bad_state_properties, &read.invariant_constraints, &read.fairness_constraints, &read.justice_properties[0]];
    words(&read.inputs) + latches + gates + roots.map(|list| words(list)).iter().sum::<u64>() + sizes.iter().sum::<usize>() as u64
}

/// Puts all that a stage gives into a list.
macro_rules! all {
    ($list:expr, $stage:ident.$next:ident) => {
        while let Some(item) = $stage.$next()? {
            $list.push(item);
        }
    };
}

/// The root section, whose stages have the same names in both forms, from the stage of the latches on: the stage of the gates, and the justice sizes.
macro_rules! roots {
    ($stage:ident, $read:ident, $header:ident) => {{
        $read.outputs.reserve_exact($header.output_count);
        $read.bad_state_properties.reserve_exact($header.bad_state_property_count);
        $read.invariant_constraints.reserve_exact($header.invariant_constraint_count);
        $read.fairness_constraints.reserve_exact($header.fairness_constraint_count);
        let mut sizes = Vec::with_capacity($header.justice_property_count);
        let mut stage = $stage.outputs()?;
        all!($read.outputs, stage.next_output);
        let mut stage = stage.bad_state_properties()?;
        all!($read.bad_state_properties, stage.next_bad_state_property);
        let mut stage = stage.invariant_constraints()?;
        all!($read.invariant_constraints, stage.next_invariant_constraint);
        let mut stage = stage.justice_properties()?;
        all!(sizes, stage.next_justice_property_size);
        let mut justice = Vec::with_capacity(sizes.iter().sum());
        let mut stage = stage.justice_property_local_fairness_constraints()?;
        all!(justice, stage.next_justice_property_local_fairness_constraint);
        $read.justice_properties = vec![justice];
        let mut stage = stage.fairness_constraints()?;
        all!($read.fairness_constraints, stage.next_fairness_constraint);
        (stage.and_gates()?, sizes)
    }};
}

/// What the file holds, in lists with room for all that its header counts.
fn staged(bytes: &[u8]) -> Result<FileRead<OrderedAig<u32>>, ParseError> {
    let parser = binary::Parser::<u32>::from_read(bytes, binary::Config::default())?;
    let header = parser.header().clone();
    let mut read = OrderedAig {
        max_var_index: header.max_var_index,
        input_count: header.input_count,
        latches: Vec::with_capacity(header.latch_count),
        and_gates: Vec::with_capacity(header.and_gate_count),
        ..OrderedAig::default()
    };
    let mut stage = parser.latches()?;
    all!(read.latches, stage.next_latch);
    let (mut stage, sizes) = roots!(stage, read, header);
    all!(read.and_gates, stage.next_and_gate);
    Ok(FileRead(read, sizes))
}

/// What the text holds, in the same way.
fn staged_text(bytes: &[u8]) -> Result<FileRead<Aig<u32>>, ParseError> {
    let parser = ascii::Parser::<u32>::from_read(bytes, ascii::Config::default())?;
    let header = parser.header().clone();
    let mut read = Aig {
        max_var_index: header.max_var_index,
        inputs: Vec::with_capacity(header.input_count),
        latches: Vec::with_capacity(header.latch_count),
        and_gates: Vec::with_capacity(header.and_gate_count),
        ..Aig::default()
    };
    let mut stage = parser.inputs()?;
    all!(read.inputs, stage.next_input);
    let mut stage = stage.latches()?;
    all!(read.latches, stage.next_latch);
    let (mut stage, sizes) = roots!(stage, read, header);
    all!(read.and_gates, stage.next_and_gate);
    Ok(FileRead(read, sizes))
}

/// The sum of a list.
fn words(list: &[u32]) -> u64 {
    list.iter().map(|&word| word as u64).sum()
}

/// The sum of all words that were read.
fn sum(read: &OrderedAig<u32>, sizes: &[usize]) -> u64 {
    let own = |index: usize| 2 * (read.input_count + 1 + index) as u64;
    let latch = |(index, latch): (usize, &OrderedLatch<u32>)| latch.next_state as u64 + latch.initialization.map_or(own(index), u64::from);
    let latches: u64 = read.latches.iter().enumerate().map(latch).sum();
    let gates: u64 = read.and_gates.iter().map(|gate| words(&gate.inputs)).sum();
    let roots = [&read.outputs, &read.bad_state_properties, &read.invariant_constraints, &read.fairness_constraints, &read.justice_properties[0]];
    latches + gates + roots.map(|list| words(list)).iter().sum::<u64>() + sizes.iter().sum::<usize>() as u64
}

/// An ordered circuit for `crate_write`; it is never freed. Gates come flat, two words each, roots in the walk's order with their five counts, and each
/// justice set has its size.
///
/// # Safety
/// Each pointer points to as many words as its length says, `counts` to five, and `resets` to as many as there are next states.
#[no_mangle]
pub unsafe extern "C" fn crate_ordered(
    inputs: u32,
    counts: *const u32,
    nexts: *const u32,
    nexts_length: usize,
    resets: *const u32,
    gates: *const u32,
    gates_length: usize,
    sizes: *const u32,
    sizes_length: usize,
    roots: *const u32,
    roots_length: usize,
) -> *mut OrderedAig<u32> {
    let words = |pointer, length| unsafe { slice::from_raw_parts(pointer, length) };
    let mut roots = words(roots, roots_length).iter().copied();
    let mut next = |count: u32| roots.by_ref().take(count as usize).collect::<Vec<u32>>();
    let counts: [u32; 5] = words(counts, 5).try_into().expect("five counts");
    let [outputs, bad_state_properties, invariant_constraints, fairness_constraints, justice] = counts.map(&mut next);
    let mut justice = justice.into_iter();
    let sizes = words(sizes, sizes_length);
    let latch = |(&next_state, &reset): (&u32, &u32)| OrderedLatch { next_state, initialization: start(reset) };
    Box::into_raw(Box::new(OrderedAig {
        max_var_index: inputs as usize + nexts_length + gates_length / 2,
        input_count: inputs as usize,
        latches: words(nexts, nexts_length).iter().zip(words(resets, nexts_length)).map(latch).collect(),
        outputs,
        bad_state_properties,
        invariant_constraints,
        justice_properties: sizes.iter().map(|&size| justice.by_ref().take(size as usize).collect()).collect(),
        fairness_constraints,
        and_gates: words(gates, gates_length).chunks(2).map(|pair| OrderedAndGate { inputs: [pair[0], pair[1]] }).collect(),
        ..OrderedAig::default()
    }))
}

/// Writes an ordered circuit into the bytes, of which there are enough: how many it took.
///
/// # Safety
/// `circuit` comes from `crate_ordered`, and `out` points to `length` bytes that can be written.
#[no_mangle]
pub unsafe extern "C" fn crate_write(circuit: *const OrderedAig<u32>, out: *mut u8, length: usize) -> usize {
    written(unsafe { &*circuit }, unsafe { slice::from_raw_parts_mut(out, length) })
}

/// Writes an ordered circuit as a text in the same way.
///
/// # Safety
/// As of `crate_write`.
#[no_mangle]
pub unsafe extern "C" fn crate_write_text(circuit: *const OrderedAig<u32>, out: *mut u8, length: usize) -> usize {
    let out = unsafe { slice::from_raw_parts_mut(out, length) };
    let mut left = out;
    let mut writer = DeferredWriter::from_write(&mut left);
    ascii::Writer::<u32>::new(&mut writer).write_ordered_aig(unsafe { &*circuit });
    writer.check_io_error().expect("room for the text");
    drop(writer);
    length - left.len()
}

/// Reads a file, renumbers it with the flags and writes what comes of it: how many bytes that took, or none where the crate refuses it.
///
/// # Safety
/// `bytes` points to `length` bytes that can be read, `out` to `room` bytes that can be written.
#[no_mangle]
pub unsafe extern "C" fn crate_whole(bytes: *const u8, length: usize, flags: u32, out: *mut u8, room: usize) -> usize {
    let bytes = unsafe { slice::from_raw_parts(bytes, length) };
    let Ok(FileRead(mut read, sizes)) = staged(bytes) else { return 0 };
    let mut justice = read.justice_properties.pop().unwrap_or_default().into_iter();
    read.justice_properties = sizes.iter().map(|&size| justice.by_ref().take(size).collect()).collect();
    let config = RenumberConfig::default()
        .trim(flags & 1 != 0)
        .structural_hash(flags & 2 != 0)
        .const_fold(flags & 4 != 0);
    match Renumber::renumber_aig(config, &Aig::from(read)) {
        Ok((ordered, _)) => written(&ordered, unsafe { slice::from_raw_parts_mut(out, room) }),
        Err(_) => 0,
    }
}

/// The crate's writer over bytes in memory.
fn written(circuit: &OrderedAig<u32>, out: &mut [u8]) -> usize {
    let all = out.len();
    let mut left = &mut *out;
    let mut writer = binary::Writer::<u32>::new(DeferredWriter::from_write(&mut left));
    writer.write_ordered_aig(circuit);
    writer.check_io_error().expect("room for the file");
    drop(writer);
    all - left.len()
}
