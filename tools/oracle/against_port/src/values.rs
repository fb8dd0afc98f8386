//! What a circuit's next states and roots are under 64 settings of its inputs and states at once, a bit each.
use judge::{circuit::Circuit, random::Random};
use std::collections::HashMap;

/// The values of next states and roots; the settings are the same for every circuit with as many inputs and latches. Each variable that is asked for has to be
/// defined, and by a gate that does not need itself.
pub fn values(circuit: &Circuit) -> Vec<u64> {
    let mut random = Random(64);
    let mut known = HashMap::from([(0, 0)]);
    let sources = circuit.inputs.iter().copied().chain(circuit.latches.iter().map(|latch| latch[0]));
    for source in sources {
        // a source that is written negated is what its literal is set to
        known.insert(source / 2, random.next() ^ negated(source));
    }
    let gates: HashMap<u64, &[u64; 3]> = circuit.gates.iter().map(|gate| (gate[0] / 2, gate)).collect();
    let asked = circuit.latches.iter().map(|latch| latch[1]).chain(circuit.roots.iter().flatten().copied());
    asked.map(|literal| value(literal, &gates, &mut known)).collect()
}

/// All ones for a literal that is negated.
fn negated(literal: u64) -> u64 {
    0u64.wrapping_sub(literal % 2)
}

fn value(literal: u64, gates: &HashMap<u64, &[u64; 3]>, known: &mut HashMap<u64, u64>) -> u64 {
    // what is still to be known stands on a path of its own, since a chain of gates may be long
    let mut path = vec![literal / 2];
    while let Some(&variable) = path.last() {
        if known.contains_key(&variable) {
            path.pop();
            continue;
        }
        let [output, first, second] = gates[&variable];
        let unknown: Vec<u64> = [first / 2, second / 2].into_iter().filter(|input| !known.contains_key(input)).collect();
        if unknown.is_empty() {
            let both = (known[&(first / 2)] ^ negated(*first)) & (known[&(second / 2)] ^ negated(*second));
            known.insert(variable, both ^ negated(*output));
        }
        path.extend(unknown);
    }
    known[&(literal / 2)] ^ negated(literal)
}
