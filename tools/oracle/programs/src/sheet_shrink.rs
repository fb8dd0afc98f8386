//! A smaller sheet that still shows what a sheet shows.
use crate::{circuit::Circuit, sheet::read};

/// The most candidates that are tried.
const TRIES: usize = 20_000;

/// Takes the first smaller sheet that still shows it, again and again, until none does.
pub fn smallest(sheet: Vec<u8>, shows: impl Fn(&[u8]) -> bool) -> Vec<u8> {
    let (mut best, mut tries) = (sheet, 0);
    while let Some(smaller) = candidates(&best).into_iter().find(|candidate| {
        tries += 1;
        tries <= TRIES && shows(candidate)
    }) {
        best = smaller;
    }
    best
}

/// Smaller sheets, the smallest first: parts of the circuit, if there is one, and parts of the bytes.
fn candidates(sheet: &[u8]) -> Vec<Vec<u8>> {
    let mut found: Vec<Vec<u8>> = parts(sheet);
    if let Ok(circuit) = read(sheet) {
        found.extend(circuits(&circuit).iter().map(Circuit::sheet));
    }
    for index in 0..sheet.len().min(1_000) {
        for byte in [0, sheet[index] / 2, sheet[index].saturating_sub(1)] {
            let mut lower = sheet.to_vec();
            lower[index] = byte;
            found.push(lower);
        }
    }
    let size = |sheet: &[u8]| (sheet.len(), sheet.iter().map(|&b| b as u64).sum::<u64>());
    found.retain(|candidate| size(candidate) < size(sheet));
    found.sort_by_key(|candidate| size(candidate));
    found
}

/// A list without one of its 2, 4, 8, .. parts, down to a single item for short lists.
fn parts<T: Clone>(list: &[T]) -> Vec<Vec<T>> {
    let mut found = vec![];
    let mut length = list.len().div_ceil(2);
    while length > 0 && list.len() / length <= 512 {
        for start in (0..list.len()).step_by(length) {
            let end = list.len().min(start + length);
            found.push([&list[..start], &list[end..]].concat());
        }
        length = if length == 1 { 0 } else { length.div_ceil(2) };
    }
    found
}

/// The circuit with a part of one list gone, without a flag, or with a smaller V.
fn circuits(circuit: &Circuit) -> Vec<Circuit> {
    let with = |change: &dyn Fn(&mut Circuit)| {
        let mut smaller = circuit.clone();
        change(&mut smaller);
        smaller
    };
    let mut found = vec![];
    for list in parts(&circuit.inputs) {
        found.push(with(&|c| c.inputs = list.clone()));
    }
    for list in parts(&circuit.gates) {
        found.push(with(&|c| c.gates = list.clone()));
    }
    for list in parts(&circuit.latches) {
        found.push(with(&|c| c.latches = list.clone()));
    }
    for index in 0..5 {
        for list in parts(&circuit.roots[index]) {
            found.push(with(&|c| c.roots[index] = list.clone()));
        }
    }
    for flag in [1, 2, 4] {
        found.push(with(&|c| c.flags &= !flag));
    }
    found.push(with(&|c| c.largest /= 2));
    found.push(with(&|c| c.largest = c.largest.saturating_sub(1)));
    found
}
