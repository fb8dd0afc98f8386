//! The whole outcome of reading a file into lent lists, and of expanding what was read: by the port, and as documents and header have it.
use judge::file_words::{Refused, LIMIT};

/// How many words an answer has.
pub const ANSWER: usize = 11;

/// The refusal's number or 0, the answer's words, and the lists; before the call, what is lent.
#[derive(Clone, PartialEq, Eq, Debug)]
pub struct Outcome<const N: usize> {
    pub number: u32,
    pub answer: Vec<u64>,
    pub lists: [Vec<u32>; N],
}

/// Words that are easy to tell, and of which none is 0.
fn dirty(length: usize, index: u32) -> Vec<u32> {
    (0..length as u32).map(|word| 0xabcd_0001 ^ word.wrapping_mul(0x9e36) ^ index << 20).collect()
}

/// Lists of these lengths, with other words in them.
pub fn lent<const N: usize>(room: [usize; N], answer: usize) -> Outcome<N> {
    let list = |index: usize| dirty(room[index], index as u32);
    Outcome { number: 0, answer: dirty(answer, 7).into_iter().map(u64::from).collect(), lists: std::array::from_fn(list) }
}

extern "C" {
    #[allow(clippy::too_many_arguments)]
    fn imdagluz_expand(
        inputs: u32,
        latches: u32,
        gates: *const u32,
        gates_length: usize,
        input_codes: *mut u32,
        input_codes_length: usize,
        state_codes: *mut u32,
        state_codes_length: usize,
        triples: *mut u32,
        triples_length: usize,
    ) -> u32;
}

/// What a reading has to leave: named cells and no others where a file is taken, and all lists 0 where it is refused.
pub fn by_words<const N: usize>(reading: Result<([u64; ANSWER], [&[u64]; N]), &Refused>, mut lent: Outcome<N>) -> Outcome<N> {
    if lent.answer.len() < ANSWER {
        lent.number = 3;
        return lent;
    }
    lent.answer[..ANSWER].fill(0);
    match reading {
        Ok((answer, lists)) => {
            lent.answer[..ANSWER].copy_from_slice(&answer);
            for (list, read) in lent.lists.iter_mut().zip(lists) {
                list.iter_mut().zip(read).for_each(|(cell, &word)| *cell = word as u32);
            }
        }
        Err(refused) => {
            lent.number = refused.number as u32;
            lent.answer[0] = refused.place as u64;
            lent.lists.iter_mut().for_each(|list| list.fill(0));
        }
    }
    lent
}

/// Where two outcomes differ first.
pub fn difference<const N: usize>(port: &Outcome<N>, words: &Outcome<N>, names: [&str; N]) -> String {
    if (port.number, &port.answer) != (words.number, &words.answer) {
        return format!("the port answers {} {:?}, by the words it is {} {:?}", port.number, port.answer, words.number, words.answer);
    }
    for ((one, other), name) in port.lists.iter().zip(&words.lists).zip(names) {
        if let Some(cell) = (0..one.len()).find(|&cell| one[cell] != other[cell]) {
            return format!("{name}[{cell}]: the port {}, by the words {}", one[cell], other[cell]);
        }
    }
    unreachable!("equal outcomes")
}

/// An ordered circuit that is to be expanded.
pub struct Compact<'a> {
    pub inputs: u32,
    pub latches: u32,
    pub gates: &'a [u32],
}

/// The number, and the lists of input codes, state codes and triples.
#[derive(Clone, PartialEq, Eq, Debug)]
pub struct Expanded {
    pub number: u32,
    pub lists: [Vec<u32>; 3],
}

/// Lists for an expansion, with other words in them.
pub fn lent_for_expansion(lengths: [usize; 3]) -> Expanded {
    Expanded { number: 0, lists: [0, 1, 2].map(|index: usize| dirty(lengths[index], 8 + index as u32)) }
}

/// How many words an expansion fills.
pub fn needed_for_expansion(compact: &Compact) -> [usize; 3] {
    [compact.inputs as usize, compact.latches as usize, 3 * (compact.gates.len() / 2)]
}

pub fn expanded_by_port(compact: &Compact, mut lent: Expanded) -> Expanded {
    let [inputs, states, triples] = lent.lists.each_mut().map(|list| (list.as_mut_ptr(), list.len()));
    // As above.
    lent.number = unsafe {
        imdagluz_expand(
            compact.inputs,
            compact.latches,
            compact.gates.as_ptr(),
            compact.gates.len(),
            inputs.0,
            inputs.1,
            states.0,
            states.1,
            triples.0,
            triples.1,
        )
    };
    lent
}

/// 1 for the sizes, 2 for half a pair, 3 for a short list; else inputs 2, 4, .., then states, and a gate's output with its pair.
pub fn expanded_by_words(compact: &Compact, mut lent: Expanded) -> Expanded {
    let (inputs, latches, gates) = (compact.inputs as u64, compact.latches as u64, compact.gates.len() as u64 / 2);
    let needed = needed_for_expansion(compact);
    lent.number = if inputs + latches + gates > LIMIT {
        1
    } else if compact.gates.len() % 2 == 1 {
        2
    } else if lent.lists.iter().zip(needed).any(|(list, words)| list.len() < words) {
        3
    } else {
        0
    };
    if lent.number > 0 {
        return lent;
    }
    let code = |variable: u64| 2 * variable as u32;
    let triples = compact.gates.chunks(2).zip(inputs + latches + 1..).flat_map(|(pair, variable)| [code(variable), pair[0], pair[1]]);
    let filled: [Vec<u32>; 3] = [(1..=inputs).map(code).collect(), (inputs + 1..=inputs + latches).map(code).collect(), triples.collect()];
    for (list, words) in lent.lists.iter_mut().zip(filled) {
        list[..words.len()].copy_from_slice(&words);
    }
    lent
}
