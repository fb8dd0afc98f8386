//! AIGER files, text and binary: a reader and a writer of our own, after the papers. Symbols and comments are left out. On what is no AIGER
//! file it panics.
use flussab_aiger::{
    aig::{Aig, Latch},
    ascii, binary,
};
use judge::circuit::{put, reset, start, Circuit};

/// A circuit, and what renumbering leaves to its caller.
pub struct File {
    pub circuit: Circuit,
    /// How many literals each justice property has.
    pub justice: Vec<u64>,
}

impl File {
    /// All that was read, as numbers.
    pub fn numbers(&self) -> Vec<u64> {
        let mut numbers = numbers(&self.circuit);
        numbers.extend(&self.justice);
        numbers
    }

    /// What each latch starts at, none where it may be either.
    pub fn starts(&self) -> Vec<Option<bool>> {
        self.circuit.latches.iter().map(|&[state, _, reset]| start(state, reset)).collect()
    }
}

/// All of a circuit: sizes, flags and codes, resets too.
pub fn numbers(circuit: &Circuit) -> Vec<u64> {
    let mut numbers = circuit.header();
    numbers.extend(circuit.codes());
    numbers
}

/// A place in a file.
struct Reader<'a> {
    bytes: &'a [u8],
    place: usize,
}

impl Reader<'_> {
    /// The numbers on a line.
    fn line(&mut self) -> Vec<u64> {
        let rest = &self.bytes[self.place..];
        let length = rest.iter().position(|&byte| byte == b'\n').expect("a whole line");
        self.place += length + 1;
        let text = std::str::from_utf8(&rest[..length]).expect("a line of text");
        text.split(' ').map(|word| word.parse().expect("a number")).collect()
    }

    /// Lines with a number each.
    fn column(&mut self, count: u64) -> Vec<u64> {
        let one = |line: Vec<u64>| <[u64; 1]>::try_from(line).expect("one number on a line")[0];
        (0..count).map(|_| one(self.line())).collect()
    }

    /// A latch with the state given, or named on its line, and its reset.
    fn latch(&mut self, given: Option<u64>) -> [u64; 3] {
        let mut line = self.line();
        line.splice(0..0, given);
        match line[..] {
            [state, next] => [state, next, 0],
            [state, next, reset] if reset < 2 || reset == state => [state, next, reset],
            _ => panic!("a latch's reset is 0, 1 or its state: {line:?}"),
        }
    }

    /// A number in groups of seven bits, low first.
    fn groups(&mut self) -> u64 {
        let byte = self.bytes[self.place] as u64;
        self.place += 1;
        byte % 128 + if byte < 128 { 0 } else { 128 * self.groups() }
    }

    /// A gate of the binary form, by two deltas, the first of which is above 0.
    fn deltas(&mut self, output: u64) -> [u64; 3] {
        let first = output.checked_sub(self.groups()).expect("a delta within its reference");
        assert!(first < output, "a gate above its inputs");
        let second = first.checked_sub(self.groups()).expect("a delta within its reference");
        [output, first, second]
    }
}

/// Reads a file, and holds the lists to those that the crate's own parsers read.
pub fn read(bytes: &[u8]) -> File {
    let binary = bytes.starts_with(b"aig ");
    assert!(binary || bytes.starts_with(b"aag "), "the file begins with aig or aag");
    let mut reader = Reader { bytes, place: 4 };
    let mut header = reader.line();
    assert!((5..=9).contains(&header.len()), "a header of five to nine numbers");
    header.resize(9, 0);
    let [largest, i, l, o, g, b, c, j, f] = header[..] else { unreachable!() };

    let inputs = if binary { (1..=i).map(|v| 2 * v).collect() } else { reader.column(i) };
    let state = |k| binary.then_some(2 * (i + 1 + k));
    let latches = (0..l).map(|k| reader.latch(state(k))).collect();
    let [outputs, bad, constraints] = [o, b, c].map(|count| reader.column(count));
    let justice = reader.column(j);
    let literals = reader.column(justice.iter().sum());
    let fairness = reader.column(f);
    let gate = |k| match binary {
        true => reader.deltas(2 * (i + l + 1 + k)),
        false => reader.line().try_into().expect("three numbers of a gate"),
    };
    let gates = (0..g).map(gate).collect();
    let roots = [outputs, bad, constraints, fairness, literals];
    let circuit = Circuit { largest, inputs, gates, latches, roots, flags: 0 };
    let file = File { circuit, justice };
    assert!(file.numbers() == read_by_crate(&bytes[..reader.place], binary).numbers(), "the crate reads something else");
    file
}

/// The crate's reading, over the stand-in for flussab.
fn read_by_crate(bytes: &[u8], binary: bool) -> File {
    let aig: Aig<u32> = match binary {
        true => binary::Parser::from_read(bytes, Default::default()).and_then(|parser| parser.parse()).map(Aig::from),
        false => ascii::Parser::from_read(bytes, Default::default()).and_then(|parser| parser.parse()),
    }
    .expect("the crate reads the file");
    File {
        circuit: circuit_of(&aig),
        justice: aig.justice_properties.iter().map(|list| list.len() as u64).collect(),
    }
}

/// The lists of the crate's record.
pub fn circuit_of(aig: &Aig<u32>) -> Circuit {
    let codes = |list: &[u32]| list.iter().map(|&code| code as u64).collect::<Vec<u64>>();
    let latch = |latch: &Latch<u32>| {
        let [state, next] = [latch.state, latch.next_state].map(u64::from);
        [state, next, reset(state, latch.initialization)]
    };
    Circuit {
        largest: aig.max_var_index as u64,
        inputs: codes(&aig.inputs),
        gates: aig.and_gates.iter().map(|gate| [gate.output, gate.inputs[0], gate.inputs[1]].map(u64::from)).collect(),
        latches: aig.latches.iter().map(latch).collect(),
        roots: [
            codes(&aig.outputs),
            codes(&aig.bad_state_properties),
            codes(&aig.invariant_constraints),
            codes(&aig.fairness_constraints),
            codes(&aig.justice_properties.concat()),
        ],
        flags: 0,
    }
}

/// The text form of any circuit. Every count and every reset is spelled.
pub fn write_text(circuit: &Circuit, justice: &[u64]) -> Vec<u8> {
    let Circuit { inputs, gates, latches, roots, .. } = circuit;
    let line = |codes: &[u64]| codes.iter().map(u64::to_string).collect::<Vec<String>>().join(" ") + "\n";
    let mut text = header("aag", circuit, justice);
    text.extend(inputs.iter().map(|&input| line(&[input])));
    text.extend(latches.iter().map(|latch| line(latch)));
    text += &root_lines(roots, justice);
    text.extend(gates.iter().map(|gate| line(gate)));
    text.into_bytes()
}

/// The first line, with every count.
fn header(tag: &str, circuit: &Circuit, justice: &[u64]) -> String {
    let Circuit { largest, inputs, gates, latches, roots, .. } = circuit;
    let [outputs, bad, constraints, fairness, _] = roots.each_ref().map(Vec::len);
    let counts = [inputs.len(), latches.len(), outputs, gates.len(), bad, constraints, justice.len(), fairness];
    format!("{tag} {largest}{}\n", counts.map(|count| format!(" {count}")).concat())
}

/// The root lines and justice sizes in the file's order.
fn root_lines(roots: &[Vec<u64>; 5], sizes: &[u64]) -> String {
    let [outputs, bad, constraints, fairness, justice] = roots.each_ref().map(|list| &list[..]);
    [outputs, bad, constraints, sizes, justice, fairness].concat().iter().map(|code| format!("{code}\n")).collect()
}

/// The binary form of a circuit whose variables are numbered in order: inputs, latches, gates, each gate above its inputs. Every count and every reset is
/// spelled.
pub fn write(file: &File) -> Vec<u8> {
    let Circuit { largest, inputs, gates, latches, roots, .. } = &file.circuit;
    let states = latches.iter().map(|latch| latch[0]);
    let defined = inputs.iter().copied().chain(states).chain(gates.iter().map(|gate| gate[0]));
    assert!(defined.eq((1..=*largest).map(|v| 2 * v)), "variables in order");
    let mut text = header("aig", &file.circuit, &file.justice);
    for [_, next, reset] in latches {
        text += &format!("{next} {reset}\n");
    }
    text += &root_lines(roots, &file.justice);
    let mut bytes = text.into_bytes();
    for &[output, first, second] in gates {
        assert!(output > first && first >= second, "a gate above its inputs, the larger one first");
        put(&mut bytes, output - first, 1);
        put(&mut bytes, first - second, 1);
    }
    bytes
}
