//! Random circuits: one that passes every check, one that shares a few nodes heavily, and what can be done to either. Their latches start at 0 until
//! `with_resets` says otherwise.
use crate::{circuit::Circuit, random::Random};

type Fault = fn(&mut Random, &mut Circuit);

/// A kind's name, its share, and what it does to a circuit that passes every check. The last two make
/// use of the others; two faults show the order of the checks.
pub const FAULTS: [(&str, u64, Fault); 11] = [
    ("valid", 60, |_, _| ()),
    ("odd definitions", 30, odd_definitions),
    ("cycle", 50, cycle),
    ("undefined use", 40, undefined),
    ("defined twice", 20, defined_twice),
    ("constant defined", 10, constant_defined),
    ("latch state defined twice", 20, latch_twice),
    ("code over the limit", 20, code_over),
    ("code over 32 bits", 20, code_wide),
    ("inputs at random", 20, inputs_at_random),
    ("two faults", 50, two_faults),
];

/// How the inputs of gates are drawn from what is defined before them.
#[derive(Clone, Copy)]
enum Style {
    Anywhere,
    /// Near the last: deep circuits.
    Last,
    /// Near the first: many equal pairs.
    First,
}

/// A circuit that passes every check: variables named at random, gates in any order.
pub fn valid(random: &mut Random, gates: u64) -> Circuit {
    let inputs = random.below(gates.min(40) + 2);
    let latches = random.bit() * random.below(gates.min(20) + 2);
    let gates = match random.percent(10) {
        true => random.below(gates + 1),
        false => gates - random.below(gates / 4 + 1),
    };
    let spare = random.bit() * random.below(4);
    let roots = [(); 5].map(|()| random.bit() * random.below(5));
    let mut circuit = of_sizes(random, inputs, latches, gates, roots);
    circuit.largest += spare;
    circuit
}

/// A circuit that passes every check, with no variable to spare.
pub fn of_sizes(random: &mut Random, i: u64, l: u64, g: u64, roots: [u64; 5]) -> Circuit {
    let largest = i + l + g;
    let mut names: Vec<u64> = (1..=largest).collect();
    if random.percent(70) {
        random.shuffle(&mut names);
    }
    let style = random.pick(&[Style::Anywhere, Style::Last, Style::First]);
    let constants = random.pick(&[0, 3, 30]);
    let code = |index: u64| 2 * names[index as usize];
    let mut gates: Vec<[u64; 3]> = (i + l..largest)
        .map(|index| {
            let mut input = || draw(random, &names[..index as usize], style, constants);
            [code(index), input(), input()]
        })
        .collect();
    if random.bit() == 1 {
        random.shuffle(&mut gates);
    }
    let mut used = |_| draw(random, &names, Style::Anywhere, constants);
    Circuit {
        largest,
        inputs: (0..i).map(code).collect(),
        latches: (i..i + l).map(|index| [code(index), used(0), 0]).collect(),
        gates,
        roots: roots.map(|length| (0..length).map(&mut used).collect()),
        flags: random.below(8),
    }
}

/// Where the nodes that many gates share stand among the variables, and so whether they are the larger inputs or the smaller ones.
#[derive(Clone, Copy)]
enum Hubs {
    /// The first sources: smaller than all else.
    FirstSources,
    /// The last sources: larger than all other sources.
    LastSources,
    /// The first gates: larger than all sources, smaller than most gates.
    FirstGates,
}

/// A circuit that passes every check and in which one of a few nodes is an input in nearly every second place, with either sign; in some every other
/// input is a source, in some sources whose codes agree in their low bits, and in some many pairs are repeated, with their inputs exchanged or a sign flipped.
pub fn sharing(random: &mut Random, gates: u64) -> Circuit {
    let sources = random.pick(&[1, 3, 8, gates / 2 + 2, gates + 2, 2 * gates + 2]);
    let latches = random.bit() * random.below(sources);
    let gates = gates - random.below(gates / 4 + 1);
    let largest = sources + gates;
    let mut names: Vec<u64> = (1..=largest).collect();
    if random.percent(70) {
        random.shuffle(&mut names);
    }
    let count = random.between(1, 4).min(sources);
    let first = match random.pick(&[Hubs::FirstSources, Hubs::LastSources, Hubs::FirstGates]) {
        Hubs::FirstSources => 0,
        Hubs::LastSources => sources - count,
        Hubs::FirstGates => sources,
    };
    let (shared, constants, over_sources) = (random.pick(&[40, 48, 100]), random.pick(&[0, 0, 5]), random.bit() == 1);
    let (stride, repeated) = (1 << random.below(8), random.pick(&[0, 10, 40]));
    let mut listed: Vec<[u64; 3]> = vec![];
    for index in sources..largest {
        let sign = random.bit();
        let hub = 2 * names[random.between(first, first + count - 1).min(index - 1) as usize] + sign;
        let bound = if over_sources { sources } else { index };
        let any = random.below(bound);
        let spread = if stride < bound { any / stride * stride } else { any };
        let other = match random.percent(constants) {
            true => random.bit(),
            false => 2 * names[spread as usize] + random.bit(),
        };
        let mut pair = [if random.percent(2 * shared) { hub } else { 2 * names[any as usize] + sign }, other];
        if !listed.is_empty() && random.percent(repeated) {
            let [_, one, two] = random.pick(&listed);
            pair = [one, two];
            if random.percent(30) {
                pair[random.index(2)] ^= 1;
            }
        }
        if random.bit() == 1 {
            pair.swap(0, 1);
        }
        listed.push([2 * names[index as usize], pair[0], pair[1]]);
    }
    if random.bit() == 1 {
        random.shuffle(&mut listed);
    }
    let code = |index: u64| 2 * names[index as usize];
    let roots = [(); 5].map(|()| random.bit() * random.below(5));
    let mut used = |_| draw(random, &names, Style::Anywhere, constants);
    Circuit {
        largest,
        inputs: (0..sources - latches).map(code).collect(),
        latches: (sources - latches..sources).map(|index| [code(index), used(0), 0]).collect(),
        gates: listed,
        roots: roots.map(|length| (0..length).map(&mut used).collect()),
        flags: random.below(8) | random.pick(&[0, 2, 2, 2]),
    }
}

/// A literal of one of the variables, or a constant.
fn draw(random: &mut Random, names: &[u64], style: Style, constants: u64) -> u64 {
    let sign = random.percent(40) as u64;
    if names.is_empty() || random.percent(constants) {
        return sign;
    }
    let index = match style {
        Style::Anywhere => random.index(names.len()),
        Style::Last => names.len() - 1 - random.index(names.len().min(3)),
        Style::First => random.index(names.len().min(6)),
    };
    2 * names[index] + sign
}

/// A literal of the circuit's variables, the constant among them.
fn any_literal(random: &mut Random, circuit: &Circuit) -> u64 {
    random.below(2 * circuit.largest + 2)
}

fn odd_definitions(random: &mut Random, circuit: &mut Circuit) {
    for input in &mut circuit.inputs {
        *input ^= random.bit();
    }
    for gate in &mut circuit.gates {
        gate[0] ^= random.bit();
    }
    for latch in &mut circuit.latches {
        latch[0] ^= random.bit();
    }
}

/// Two gates use each other, or a few inputs of gates become literals of any gates.
fn cycle(random: &mut Random, circuit: &mut Circuit) {
    let count = circuit.gates.len();
    if count == 0 {
        return;
    }
    let (one, other) = (random.index(count), random.index(count));
    let mut using = vec![(one, other), (other, one)];
    if random.bit() == 1 {
        using = (0..random.between(1, 5))
            .map(|_| (random.index(count), random.index(count)))
            .collect();
    }
    for (user, used) in using {
        let literal = circuit.gates[used][0] ^ random.bit();
        circuit.gates[user][random.between(1, 2) as usize] = literal;
    }
}

/// A few uses become literals of variables that nothing defines.
fn undefined(random: &mut Random, circuit: &mut Circuit) {
    let free = 2 * circuit.largest + 2 + random.below(6);
    circuit.largest += 3;
    for _ in 0..random.between(1, 2) {
        let mut uses: Vec<&mut u64> = vec![];
        uses.extend(circuit.gates.iter_mut().flat_map(|gate| &mut gate[1..]));
        uses.extend(circuit.latches.iter_mut().map(|latch| &mut latch[1]));
        uses.extend(circuit.roots.iter_mut().flatten());
        if !uses.is_empty() {
            let index = random.index(uses.len());
            *uses[index] = free;
        }
    }
}

/// One more input or gate defines a variable of the circuit, or a definition is changed to one.
fn defined_twice(random: &mut Random, circuit: &mut Circuit) {
    let code = any_literal(random, circuit);
    match random.below(4) {
        0 => circuit.inputs.push(code),
        1 => circuit.gates.push([code, any_literal(random, circuit), 0]),
        2 if !circuit.inputs.is_empty() => {
            let index = random.index(circuit.inputs.len());
            circuit.inputs[index] = code;
        }
        _ if !circuit.gates.is_empty() => {
            let index = random.index(circuit.gates.len());
            circuit.gates[index][0] = code;
        }
        _ => circuit.inputs.push(code),
    }
}

fn constant_defined(random: &mut Random, circuit: &mut Circuit) {
    let constant = random.bit();
    match random.below(3) {
        0 => circuit.inputs.push(constant),
        1 => circuit.gates.push([constant, 0, 1]),
        _ => circuit.latches.push([constant, 0, 0]),
    }
}

/// One more latch has a variable of the circuit as its state, or a latch is changed to have one.
fn latch_twice(random: &mut Random, circuit: &mut Circuit) {
    let code = any_literal(random, circuit);
    match circuit.latches.len() {
        count if count > 0 && random.bit() == 1 => {
            circuit.latches[random.index(count)][0] = code;
        }
        _ => circuit.latches.push([code, any_literal(random, circuit), 0]),
    }
}

/// Changes one code of those that a sheet has, or adds a root where there is none.
fn change_code(random: &mut Random, circuit: &mut Circuit, change: impl Fn(u64) -> u64) {
    if circuit.sheet_codes().is_empty() {
        circuit.roots[random.index(5)].push(0);
    }
    let mut codes = circuit.sheet_codes_mut();
    let index = random.index(codes.len());
    *codes[index] = change(*codes[index]);
}

fn code_over(random: &mut Random, circuit: &mut Circuit) {
    let first = 2 * circuit.largest + 2;
    for _ in 0..random.between(1, 3) {
        let code = match random.below(3) {
            0 => first,
            1 => first + random.below(10),
            _ => random.between(first, u32::MAX as u64),
        };
        change_code(random, circuit, |_| code);
    }
}

/// Codes of 33 to 56 bits, some with low words that would pass.
fn code_wide(random: &mut Random, circuit: &mut Circuit) {
    for _ in 0..random.between(1, 2) {
        let high = random.between(1, (1 << 24) - 1) << 32;
        let low = random.next() as u32 as u64;
        match random.below(4) {
            0 => change_code(random, circuit, |_| 1 << 32),
            1 => change_code(random, circuit, |_| high + low),
            2 => change_code(random, circuit, |_| (1 << 56) - 1),
            _ => change_code(random, circuit, |code| high + (code & 0xffff_ffff)),
        }
    }
}

fn two_faults(random: &mut Random, circuit: &mut Circuit) {
    for _ in 0..2 {
        let (_, _, fault) = random.pick(&FAULTS[1..FAULTS.len() - 2]);
        fault(random, circuit);
    }
}

/// Gives the latches resets: of one kind or mixed, and in one circuit of six some that no latch can have, or that are over every code.
pub fn with_resets(random: &mut Random, circuit: &mut Circuit) {
    let style = random.below(8);
    for latch in &mut circuit.latches {
        let kind = if style < 3 { style } else { random.below(3) };
        latch[2] = if kind < 2 { kind } else { latch[0] };
    }
    if circuit.latches.is_empty() || random.below(6) != 0 {
        return;
    }
    for _ in 0..random.between(1, 2) {
        let reset = stray(random, circuit);
        let index = random.index(circuit.latches.len());
        let own = circuit.latches[index][0];
        circuit.latches[index][2] = if random.below(3) == 0 { own ^ 1 } else { reset };
        // both of a latch's literals over: the next state comes first
        if random.below(8) == 0 {
            let first = 2 * circuit.largest + 2;
            circuit.latches[index][1] = first + 1;
            circuit.latches[index][2] = first + random.below(3);
        }
    }
}

/// A reset that hardly any latch can have: the literal of an input, a gate or another latch, with either sign, any literal, or a code that is over.
fn stray(random: &mut Random, circuit: &Circuit) -> u64 {
    let first = 2 * circuit.largest + 2;
    let mut defined: Vec<u64> = circuit.inputs.clone();
    defined.extend(circuit.gates.iter().map(|gate| gate[0]));
    defined.extend(circuit.latches.iter().map(|latch| latch[0]));
    match random.below(8) {
        0 => first,
        1 => random.between(first, u32::MAX as u64),
        2 => random.below(first),
        3 => 2 + random.bit(),
        _ => random.pick(&defined) ^ random.bit(),
    }
}

/// Gates over any literals: mostly cycles, met at any depth.
fn inputs_at_random(random: &mut Random, circuit: &mut Circuit) {
    odd_definitions(random, circuit);
    let most = 2 * circuit.largest + 2;
    for gate in &mut circuit.gates {
        gate[1] = random.below(most);
        gate[2] = random.below(most);
    }
    circuit.flags |= random.bit();
}
