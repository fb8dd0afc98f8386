//! A smaller circuit on which the two still differ: parts are taken away, and codes made smaller, as long as they do.
use judge::circuit::Circuit;

pub fn smallest(mut circuit: Circuit, differ: impl Fn(&Circuit) -> bool) -> Circuit {
    while let Some(smaller) = candidates(&circuit).into_iter().find(|c| differ(c)) {
        circuit = smaller;
    }
    circuit
}

fn candidates(circuit: &Circuit) -> Vec<Circuit> {
    let mut all = vec![];
    let mut with = |change: &dyn Fn(&mut Circuit)| {
        let mut candidate = circuit.clone();
        change(&mut candidate);
        all.push(candidate);
    };
    for index in 0..circuit.gates.len() {
        with(&|c| {
            c.gates.remove(index);
        });
    }
    for index in 0..circuit.inputs.len() {
        with(&|c| {
            c.inputs.remove(index);
        });
    }
    for index in 0..circuit.latches.len() {
        with(&|c| {
            c.latches.remove(index);
        });
    }
    // a reset that is its latch's own literal, with either sign, stays so
    for index in 0..circuit.latches.len() {
        let [state, _, reset] = circuit.latches[index];
        if reset / 2 == state / 2 && state > 3 {
            with(&|c| {
                c.latches[index][0] -= 2;
                c.latches[index][2] -= 2;
            });
        }
    }
    for list in 0..5 {
        for index in 0..circuit.roots[list].len() {
            with(&|c| {
                c.roots[list].remove(index);
            });
        }
    }
    if circuit.largest > 0 {
        with(&|c| c.largest -= 1);
    }
    for flag in [1, 2, 4] {
        if circuit.flags & flag != 0 {
            with(&|c| c.flags -= flag);
        }
    }
    for index in 0..circuit.codes().len() {
        for smaller in [
            0,
            circuit.codes()[index] / 2,
            circuit.codes()[index].wrapping_sub(1),
        ] {
            if smaller < circuit.codes()[index] {
                with(&|c| *c.codes_mut()[index] = smaller);
            }
        }
    }
    all
}
