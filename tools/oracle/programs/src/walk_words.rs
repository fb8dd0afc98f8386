//! Document 01's renumbering, and document 02's resets, written from their words and not from the crate: checks 22, 5 and 6, the walk
//! with one stack word an entry, images read again from the map. Where it and the crate differ, document 01
//! and the crate differ. Two entries a gate are enough (document 02's Q-6): where they are not, it panics.
use crate::{
    circuit::Circuit,
    sheet::{self, Refused},
};
use flussab_aiger::{aig::Renumber, probed};
use std::collections::HashMap;

/// What renumbering writes. The new largest variable is I+L+g.
#[derive(Debug, PartialEq)]
pub struct Ordered {
    pub largest: usize,
    pub map: Vec<Option<u32>>,
    pub gates: Vec<[u32; 2]>,
    pub nexts: Vec<u32>,
    pub resets: Vec<u32>,
    pub roots: Vec<u32>,
}

struct Walk {
    fold: bool,
    hash: bool,
    gates: Vec<[u32; 3]>,
    /// A variable's gate.
    gate_of: Vec<Option<usize>>,
    /// A variable's image.
    map: Vec<Option<u32>>,
    last_code: u32,
    made: Vec<[u32; 2]>,
    code_of_pair: HashMap<[u32; 2], u32>,
}

fn variable(code: u32) -> usize {
    code as usize / 2
}

/// Document 01's answer to a circuit that passes checks 1 to 4.
pub fn renumber(circuit: &Circuit) -> Result<Ordered, Refused> {
    let resets: Vec<u32> = check_resets(circuit)?;
    let aig = circuit.to_crate();
    let gates: Vec<[u32; 3]> = aig
        .and_gates
        .iter()
        .map(|gate| [gate.output, gate.inputs[0], gate.inputs[1]])
        .collect();
    let states: Vec<u32> = aig.latches.iter().map(|latch| latch.state).collect();
    let nexts: Vec<u32> = aig.latches.iter().map(|latch| latch.next_state).collect();
    let roots: Vec<u32> = circuit.roots.iter().flatten().map(|&r| r as u32).collect();
    let mut walk = Walk::new(circuit, gates);
    walk.check_definitions(&aig.inputs, &states)?;
    for &code in aig.inputs.iter().chain(&states) {
        let image = walk.next_code();
        walk.map[variable(code)] = Some(image ^ (code & 1));
    }
    let outputs: Vec<u32> = walk.gates.iter().map(|gate| gate[0]).collect();
    let trim = circuit.flags & 1 != 0;
    let walked = if trim { vec![] } else { outputs };
    for &literal in walked.iter().chain(&nexts).chain(&roots) {
        walk.transfer(literal)?;
    }
    Ok(Ordered {
        largest: aig.inputs.len() + states.len() + walk.made.len(),
        resets,
        nexts: nexts
            .iter()
            .map(|&next| walk.image(next).unwrap())
            .collect(),
        roots: roots
            .iter()
            .map(|&root| walk.image(root).unwrap())
            .collect(),
        map: walk.map,
        gates: walk.made,
    })
}

/// Check 22, and what the resets become: 0 and 1 themselves, a latch's own literal the code that its state gets.
fn check_resets(circuit: &Circuit) -> Result<Vec<u32>, Refused> {
    let first = 2 * (circuit.inputs.len() as u32 + 1);
    let image = |(&[state, _, reset], literal): (&[u64; 3], u32)| match reset {
        0 => Ok(0),
        1 => Ok(1),
        own if own == state => Ok(literal),
        other => Err(Refused(22, other)),
    };
    circuit.latches.iter().zip((first..).step_by(2)).map(image).collect()
}

impl Walk {
    fn new(circuit: &Circuit, gates: Vec<[u32; 3]>) -> Walk {
        let variables = circuit.largest as usize + 1;
        let mut map = vec![None; variables];
        map[0] = Some(0);
        Walk {
            fold: circuit.flags & 4 != 0,
            hash: circuit.flags & 2 != 0,
            gates,
            gate_of: vec![None; variables],
            map,
            last_code: 0,
            made: vec![],
            code_of_pair: HashMap::new(),
        }
    }

    /// Checks 5 and 6; notes each variable's gate.
    fn check_definitions(&mut self, inputs: &[u32], states: &[u32]) -> Result<(), Refused> {
        let mut defined = vec![false; self.map.len()];
        defined[0] = true;
        let mut define =
            |code: u32, refusal: u64| match std::mem::replace(&mut defined[variable(code)], true) {
                true => Err(Refused(refusal, code as u64)),
                false => Ok(()),
            };
        for &input in inputs {
            define(input, 5)?;
        }
        for (index, gate) in self.gates.iter().enumerate() {
            define(gate[0], 5)?;
            self.gate_of[variable(gate[0])] = Some(index);
        }
        for &state in states {
            define(state, 6)?;
        }
        Ok(())
    }

    fn image(&self, code: u32) -> Option<u32> {
        self.map[variable(code)].map(|image| image ^ (code & 1))
    }

    fn next_code(&mut self) -> u32 {
        self.last_code += 2;
        self.last_code
    }

    /// Walks a literal. An entry is a literal and whether its gate's second input is being walked.
    fn transfer(&mut self, mut literal: u32) -> Result<(), Refused> {
        let mut stack: Vec<(u32, bool)> = vec![];
        loop {
            if self.image(literal).is_none() {
                let gate = self.enter(&stack, literal)?;
                stack.push((literal, false));
                literal = self.gates[gate][1];
                continue;
            }
            // The literal has its image: gates end, until one still has its second input to walk.
            loop {
                let (above, second) = match stack.pop() {
                    Some(entry) => entry,
                    None => return Ok(()),
                };
                let gate = self.gate_of[variable(above)].unwrap();
                if !second {
                    stack.push((above, true));
                    literal = self.gates[gate][2];
                    break;
                }
                self.settle(gate);
            }
        }
    }

    /// The tests before a literal without image goes on the stack: 8, 7. Its gate, if none fails; there is room for it.
    fn enter(&self, stack: &[(u32, bool)], literal: u32) -> Result<usize, Refused> {
        let refused = |number| Refused(number, literal as u64);
        match stack.get(stack.len() / 2) {
            Some(&(middle, _)) if middle == literal => return Err(refused(8)),
            _ => (),
        }
        let gate = self.gate_of[variable(literal)].ok_or_else(|| refused(7))?;
        assert!(stack.len() < 2 * self.gates.len(), "two entries a gate are not enough");
        Ok(gate)
    }

    /// Gives a gate whose inputs have images its own.
    fn settle(&mut self, gate: usize) {
        let [output, first, second] = self.gates[gate];
        let images = [self.image(first).unwrap(), self.image(second).unwrap()];
        let pair = [images[0].max(images[1]), images[0].min(images[1])];
        let code = match self.known(pair) {
            Some(code) => code,
            None => {
                let code = self.next_code();
                self.made.push(pair);
                self.code_of_pair.entry(pair).or_insert(code);
                code
            }
        };
        self.map[variable(output)] = Some(code ^ (output & 1));
    }

    /// The code that folding or hashing gives a pair.
    fn known(&self, pair: [u32; 2]) -> Option<u32> {
        let [larger, smaller] = pair;
        if self.fold && (larger == 0 || smaller == 0) {
            Some(0)
        } else if self.fold && (larger == 1 || larger == smaller) {
            Some(smaller)
        } else if self.fold && smaller == 1 {
            Some(larger)
        } else if self.hash {
            self.code_of_pair.get(&pair).copied()
        } else {
            None
        }
    }
}

/// The common answer of the crate (with check 6 added) and the words to a circuit that passes checks
/// 1 to 4: a refusal or none. `Err` says how they differ.
pub fn compare(circuit: &Circuit) -> Result<Option<Refused>, String> {
    let by_crate = sheet::renumber(circuit).map(|(ordered, renumber)| Ordered {
        largest: ordered.max_var_index,
        map: images(&renumber, circuit.largest),
        gates: ordered.and_gates.iter().map(|gate| gate.inputs).collect(),
        nexts: ordered
            .latches
            .iter()
            .map(|latch| latch.next_state)
            .collect(),
        resets: sheet::reset_images(&ordered),
        roots: sheet::root_images(&ordered),
    });
    let by_words = renumber(circuit);
    match by_crate == by_words {
        true => Ok(by_words.err()),
        false => Err(format!("crate {by_crate:?}, words {by_words:?}")),
    }
}

fn images(renumber: &Renumber<u32>, largest: u64) -> Vec<Option<u32>> {
    let image = |variable: u32| renumber.lit_map().get(2 * variable);
    (0..=largest as u32).map(image).collect()
}

/// How high the crate's own stack grows on a circuit that passes check 22.
pub fn deepest(circuit: &Circuit) -> usize {
    let aig = circuit.to_crate();
    let gate = |gate: &flussab_aiger::aig::AndGate<u32>| probed::AndGate {
        output: gate.output,
        inputs: gate.inputs,
    };
    let latch = |latch: &flussab_aiger::aig::Latch<u32>| probed::Latch {
        state: latch.state,
        next_state: latch.next_state,
        initialization: None,
    };
    let copy = probed::Aig {
        inputs: aig.inputs.clone(),
        and_gates: aig.and_gates.iter().map(gate).collect(),
        latches: aig.latches.iter().map(latch).collect(),
        outputs: circuit.roots.iter().flatten().map(|&r| r as u32).collect(),
        ..probed::Aig::default()
    };
    let config = probed::RenumberConfig::default()
        .trim(circuit.flags & 1 != 0)
        .structural_hash(circuit.flags & 2 != 0)
        .const_fold(circuit.flags & 4 != 0);
    flussab_aiger::DEEPEST.with(|deepest| deepest.set(0));
    let _ = probed::Renumber::renumber_aig(config, &copy);
    flussab_aiger::DEEPEST.with(|deepest| deepest.get())
}
