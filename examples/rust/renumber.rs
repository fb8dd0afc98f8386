//! The circuits of examples/c/renumber.c from Rust, by the safe function of imdagluz.rs: a million gates and a thousand latches that stand backwards, with
//! each of some flags, and a cycle. Prints the same lines. `tools/c/run` says how it is compiled. The exit status is 1 where a circuit is not answered as it
//! should be, or standard output does not take a line.

mod imdagluz;

use std::io::{self, Write};
use std::process::ExitCode;

use imdagluz::{renumber, Circuit, Flags, Lists, Ordered, Refusal};

const INPUTS: u32 = 1000;
const LATCHES: u32 = 1000;
const SOURCES: u32 = INPUTS + LATCHES;
const GATES: u32 = 1_000_000;
const TOP: u32 = SOURCES + GATES;

/// The code of the k-th gate by depth: the deeper a gate, the smaller its code.
fn gate_code(k: u32) -> u32 {
    2 * (TOP - k)
}

/// What the k-th gate takes second: an input, a latch or a gate before it, negated or not.
fn second_of(k: u32) -> u32 {
    let mixed = (k + 1).wrapping_mul(2_654_435_761) >> 7;
    let pick = mixed % (SOURCES + k);
    let code = if pick < SOURCES { 2 * (pick + 1) } else { gate_code(pick - SOURCES) };
    code + mixed / 2 % 2
}

/// Each gate takes the one before it, negated; every tenth takes it twice, and every hundredth is a twin of the gate before it.
fn gate(k: u32) -> [u32; 3] {
    let like = if k % 100 == 99 { k - 1 } else { k };
    let first = if like == 0 { 2 } else { gate_code(like - 1) + 1 };
    [gate_code(k), first, if like % 10 == 5 { first } else { second_of(like) }]
}

/// Whether each gate has a code above its larger input, and the larger input first.
fn in_order(gates: &[u32]) -> bool {
    gates.chunks(2).zip((2 * (SOURCES + 1)..).step_by(2)).all(|(inputs, code)| inputs[1] <= inputs[0] && inputs[0] < code)
}

/// What the latches start at: every third at 0, at 1, and at either, which is the latch's own literal.
fn resets(literals: impl Iterator<Item = u32>) -> Vec<u32> {
    literals.zip(0..).map(|(literal, index)| if index % 3 < 2 { index % 3 } else { literal }).collect()
}

/// A circuit that was ordered: the gates made, what its latches start at, and the first root.
struct Renumbered {
    ordered: Ordered,
    gates: Vec<u32>,
    resets: Vec<u32>,
    root: u32,
}

/// Renumbers into lists of just the words that are asked for.
fn renumbered(circuit: &Circuit) -> Result<Renumbered, Refusal> {
    let (top, latches, gates) = (circuit.top as usize, circuit.states.len(), circuit.gates.len() / 3);
    let (mut map, mut next_images, mut reset_images) = (vec![0; top + 1], vec![0; latches], vec![0; latches]);
    let (mut root_images, mut gates_out, mut scratch) = (vec![0; circuit.roots.len()], vec![0; 2 * gates], vec![0; 3 * top + 3 + 3 * gates]);
    let lists = Lists {
        map: &mut map,
        next_images: &mut next_images,
        reset_images: &mut reset_images,
        root_images: &mut root_images,
        gates_out: &mut gates_out,
        scratch: &mut scratch,
    };
    let ordered = renumber(circuit, lists)?;
    gates_out.truncate(2 * ordered.gates_made as usize);
    Ok(Renumbered { ordered, gates: gates_out, resets: reset_images, root: root_images[0] })
}

/// Why there is no line: the circuit was refused, or standard output did not take it.
fn refused(why: Refusal) -> String {
    format!("refused: {why:?}")
}

fn unwritten(why: io::Error) -> String {
    format!("standard output can't be written: {why}")
}

fn print_million(out: &mut impl Write, circuit: &Circuit) -> Result<(), String> {
    let Renumbered { ordered, gates, resets: starts, root } = renumbered(circuit).map_err(refused)?;
    let Ordered { gates_made, largest_variable } = ordered;
    let flags = circuit.flags.number();
    let (good, kept) = (in_order(&gates), starts == resets((INPUTS + 1..=SOURCES).map(|v| 2 * v)));
    let [said, start] = [good, kept].map(|good| if good { "yes" } else { "no" });
    write!(out, "flags {flags}: answer 0, gates made {gates_made}, largest variable {largest_variable}, first root {root}; ").map_err(unwritten)?;
    writeln!(out, "each gate above its inputs, larger input first: {said}; each latch starts as it did: {start}").map_err(unwritten)?;
    if good && kept { Ok(()) } else { Err("a gate is out of order, or a latch starts otherwise".to_string()) }
}

fn print_all(out: &mut impl Write) -> Result<(), String> {
    let inputs: Vec<u32> = (1..=INPUTS).map(|v| 2 * v).collect();
    let states: Vec<u32> = (INPUTS + 1..=SOURCES).rev().map(|v| 2 * v).collect();
    let resets = resets(states.iter().copied());
    let nexts: Vec<u32> = (0..LATCHES).map(|i| gate_code(GATES / LATCHES * i)).collect();
    let gates: Vec<u32> = (0..GATES).rev().flat_map(gate).collect();
    let roots = [2 * (SOURCES + 501), 2 * TOP + 1, 7];
    for (trim, hash, fold) in [(false, false, false), (true, false, false), (false, true, false), (false, false, true), (true, true, true)] {
        let flags = Flags { trim, hash, fold };
        let (inputs, states, nexts, resets) = (&inputs[..], &states[..], &nexts[..], &resets[..]);
        print_million(out, &Circuit { top: TOP, counts: [1, 1, 0, 0, 1], flags, inputs, states, nexts, resets, gates: &gates, roots: &roots })?;
    }
    // gates 4(2,7) and 6(4,2): the variable 3 needs 2, which needs 3
    let flags = Flags { trim: true, ..Flags::default() };
    let (gates, counts) = (&[4, 2, 7, 6, 4, 2], [1, 0, 0, 0, 0]);
    let cycle = Circuit { top: 3, counts, flags, inputs: &[2], states: &[], nexts: &[], resets: &[], gates, roots: &[6] };
    let Err(Refusal::Cycle(literal)) = renumbered(&cycle) else { return Err("a cycle is not refused".to_string()) };
    writeln!(out, "a cycle: answer 8, literal {literal}").map_err(unwritten)?;
    out.flush().map_err(unwritten)
}

fn main() -> ExitCode {
    let Err(why) = print_all(&mut io::stdout().lock()) else { return ExitCode::SUCCESS };
    eprintln!("renumber: {why}");
    ExitCode::FAILURE
}
