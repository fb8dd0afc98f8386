//! Ordered circuits to be written: every small one of some forms, good ones of every shape, ones with a fault, and ones at the limits.
use crate::{
    file_words::LIMIT,
    random::Random,
    write_words::{Form, Given},
};

/// Where a number has a digit more, or a delta a byte more, and the ends of both.
const BORDERS: [u64; 24] = [
    0, 1, 9, 10, 99, 100, 126, 127, 128, 129, 999, 1_000, 9_999, 10_000, 16_382, 16_383, 16_384, 16_385, 99_999, 100_000, 999_999, 1_000_000, 2_097_150,
    2_097_151,
];

/// A number up to the largest: small, any, or at a border.
fn near(random: &mut Random, largest: u64) -> u64 {
    match random.below(8) {
        0 => random.pick(&BORDERS).min(largest),
        1..=3 => random.between(0, largest),
        _ => random.between(0, largest.min(150)),
    }
}

/// A good circuit of these sizes: the five counts in the walk's order, and so many justice sets, which have all of the fifth.
pub fn of_sizes(random: &mut Random, inputs: u64, latches: u64, gates: u64, counts: [u64; 5], sets: u64) -> Given {
    let codes = 2 * (inputs + latches + gates) + 2;
    let literals = |count: u64, random: &mut Random| -> Vec<u32> { (0..count).map(|_| any_code(random, codes)).collect() };
    let nexts = literals(latches, random);
    let style = random.below(4);
    let resets = (0..latches).map(|index| a_reset(random, style, 2 * (inputs + 1 + index))).collect();
    let roots = literals(counts.iter().sum(), random);
    let mut sizes = vec![0; sets as usize];
    for _ in 0..if sets > 0 { counts[4] } else { 0 } {
        sizes[random.index(sets as usize)] += 1;
    }
    let mut pairs = vec![];
    for index in 0..gates {
        let code = 2 * (inputs + latches + 1 + index);
        let first = code - 1 - near(random, code - 1);
        pairs.extend([first as u32, (first - near(random, first)) as u32]);
    }
    Given { inputs: inputs as u32, counts: counts.map(|count| count as u32).to_vec(), nexts, resets, gates: pairs, sizes, roots }
}

/// A reset of the latch: 0 in the first style, the latch's own literal in the second, and any that it can have in the others.
fn a_reset(random: &mut Random, style: u64, own: u64) -> u32 {
    match (style, random.below(3)) {
        (0, _) | (2.., 0) => 0,
        (2.., 1) => 1,
        _ => own as u32,
    }
}

/// A code below so many: any, at a border, or the largest.
fn any_code(random: &mut Random, codes: u64) -> u32 {
    match random.below(8) {
        0 => random.pick(&BORDERS).min(codes - 1) as u32,
        1 => (codes - 1) as u32,
        _ => random.below(codes) as u32,
    }
}

/// A good circuit of up to so many gates, to be written in a form.
pub fn good(random: &mut Random, most: u64, form: Form) -> Given {
    let mut few = |most: u64| match random.below(8) {
        0 => random.below(most + 1),
        _ => random.below(5.min(most + 1)),
    };
    let [latches, gates] = [few(most / 4), few(most)];
    let left = match form {
        Form::Binary => LIMIT - latches - gates,
        // a text has a line for each input, so few have many
        Form::Text if random.below(2_000) == 0 => LIMIT - latches - gates,
        Form::Text => random.pick(&[9, 60, 600]),
    };
    let inputs = match random.below(8) {
        // codes as large as they come, without a list as long
        0 => left,
        1 => random.bits(20).min(left),
        2 => random.pick(&BORDERS).min(left),
        _ => random.below(5),
    };
    let long = random.below(40) == 0;
    let mut counts = [(); 5].map(|()| if random.bit() == 0 { 0 } else { random.below(if long { 120 } else { 4 }) });
    let sets = match random.below(3) {
        0 => 0,
        _ => random.below(if long { 120 } else { 4 }),
    };
    if sets == 0 {
        counts[4] = 0;
    }
    of_sizes(random, inputs, latches, gates, counts, sets)
}

type Fault = fn(&mut Random, &mut Given);

/// Words at which sizes and sums go wrong.
const EDGES: [u32; 12] =
    [0, 1, 1_048_574, 1_048_575, 1_048_576, 2_097_151, 2_097_152, 1 << 31, (1 << 31) - 1, u32::MAX, u32::MAX - 1, 524_288];

/// One of the codes: of gates, next states, resets or roots.
fn a_code<'a>(random: &mut Random, given: &'a mut Given) -> Option<&'a mut u32> {
    let all = given.gates.len() + given.nexts.len() + given.resets.len() + given.roots.len();
    let index = random.index(all);
    given.gates.iter_mut().chain(&mut given.nexts).chain(&mut given.resets).chain(&mut given.roots).nth(index)
}

/// One of the latches: its place and its own literal.
fn a_latch(random: &mut Random, given: &Given) -> Option<(usize, u32)> {
    let latches = given.nexts.len().min(given.resets.len());
    let index = random.index(latches);
    (latches > 0).then_some((index, (2 * (given.inputs as u64 + 1 + index as u64)) as u32))
}

/// One of the gates: its place and its own code.
fn a_gate(random: &mut Random, given: &Given) -> Option<(usize, u64)> {
    let gates = given.gates.len() / 2;
    let index = random.index(gates);
    (gates > 0).then_some((2 * index, given.first_code() + 2 * index as u64))
}

/// Faults, each with its share.
const FAULTS: [(u64, Fault); 21] = [
    (3, |random, given| given.inputs = random.pick(&EDGES)),
    (4, |random, given| {
        // V at the limit, or just over it
        let others = given.top() - given.inputs as u64;
        given.inputs = (LIMIT - others + random.below(3)) as u32;
    }),
    (2, |random, given| {
        let length = random.pick(&[0, 1, 4, 6, 7]);
        given.counts.resize(length, 0);
    }),
    (3, |random, given| {
        if let Some(count) = given.counts.get_mut(random.index(5)) {
            *count = random.pick(&[count.wrapping_add(1), count.wrapping_sub(1), 0, 1 << 31, u32::MAX]);
        }
    }),
    (4, |random, given| {
        // one more of a kind and one less of another: the sum stays
        let (more, less) = (random.index(5), random.index(5));
        if given.counts.len() == 5 && given.counts[less] > 0 {
            given.counts[less] -= 1;
            given.counts[more] = given.counts[more].wrapping_add(1);
        }
    }),
    (3, |random, given| {
        // a sum that is right in 32 bits only
        let (one, other) = (random.index(5), random.index(5));
        if given.counts.len() == 5 && one != other {
            given.counts[one] = given.counts[one].wrapping_add(1 << 31);
            given.counts[other] = given.counts[other].wrapping_add(1 << 31);
        }
    }),
    (3, |random, given| {
        let sets = given.sizes.len();
        match sets {
            0 => given.sizes.push(random.below(2) as u32),
            _ => {
                let size = &mut given.sizes[random.index(sets)];
                *size = random.pick(&[size.wrapping_add(1), size.wrapping_sub(1), 0, u32::MAX]);
            }
        }
    }),
    (2, |random, given| {
        // sizes that sum to the literals in 32 bits only
        given.sizes.extend([1 << 31, 1 << 31]);
        random.shuffle(&mut given.sizes);
    }),
    (2, |random, given| {
        if given.sizes.pop().is_none() {
            given.sizes.push(random.below(3) as u32);
        }
    }),
    (3, |random, given| match random.bit() {
        0 => drop(given.gates.pop()),
        _ => given.gates.push(0),
    }),
    (3, |random, given| match random.bit() {
        0 => drop(given.roots.pop()),
        _ => given.roots.push(0),
    }),
    (12, |random, given| {
        let largest = (given.top() as u32).wrapping_mul(2).wrapping_add(1);
        let over = largest.wrapping_add(1);
        let code = random.pick(&[largest, over, over, over.wrapping_add(1), u32::MAX, 1 << 31]);
        if let Some(found) = a_code(random, given) {
            *found = code;
        }
    }),
    (10, |random, given| {
        // a reset that the latch cannot have, but where it is its own: the literal negated, another's, any code
        if let Some((place, own)) = a_latch(random, given) {
            let codes = 2 * given.top() + 2;
            let any = random.below(codes) as u32;
            given.resets[place] = random.pick(&[own ^ 1, own ^ 1, own.wrapping_add(2), own.wrapping_sub(2), any, 2, 3]);
        }
    }),
    (4, |random, given| {
        // a reset that is over, or just not
        if let Some((place, _)) = a_latch(random, given) {
            let largest = (given.top() as u32).wrapping_mul(2).wrapping_add(1);
            given.resets[place] = random.pick(&[largest, largest.wrapping_add(1), u32::MAX]);
        }
    }),
    (4, |random, given| match random.below(3) {
        0 => drop(given.resets.pop()),
        1 => given.resets.push(random.below(4) as u32),
        _ => given.resets.clear(),
    }),
    (2, |random, given| {
        // a latch and its reset gone: the literals of the latches behind it are others
        if let Some((place, _)) = a_latch(random, given) {
            given.nexts.remove(place);
            given.resets.remove(place);
        }
    }),
    (6, |random, given| {
        // the first input at its gate's code, or just above or below it
        if let Some((place, code)) = a_gate(random, given) {
            given.gates[place] = (code + random.below(4) - 1) as u32;
        }
    }),
    (6, |random, given| {
        if let Some((place, _)) = a_gate(random, given) {
            given.gates.swap(place, place + 1);
        }
    }),
    (4, |random, given| {
        if let Some((place, _)) = a_gate(random, given) {
            given.gates[place + 1] = given.gates[place].wrapping_add(random.below(3) as u32);
        }
    }),
    (3, |random, given| {
        // both inputs any codes
        if let Some((place, _)) = a_gate(random, given) {
            let codes = 2 * given.top() + 2;
            given.gates[place] = random.below(codes) as u32;
            given.gates[place + 1] = random.below(codes) as u32;
        }
    }),
    (2, |random, given| {
        let left = given.nexts.len();
        if left > 0 {
            given.nexts.remove(random.index(left));
        }
    }),
];

/// A circuit of any kind, of up to so many gates, to be written in a form: half of them good, the others with one to three faults.
pub fn any(random: &mut Random, gates: u64, form: Form) -> Given {
    let mut given = good(random, gates, form);
    for _ in 0..[0, 0, 0, 0, 1, 1, 2, 3][random.index(8)] {
        random.share(&FAULTS)(random, &mut given);
    }
    // of those that a fault gave a text of a million lines a few are enough
    match form == Form::Text && (20_000..LIMIT + 9).contains(&(given.inputs as u64)) && random.below(500) > 0 {
        true => any(random, gates, form),
        false => given,
    }
}

/// As many bytes as the file has, more, or fewer.
pub fn room(random: &mut Random, given: &Given, form: Form) -> usize {
    let exact = if given.fault(form).is_some() { random.index(60) } else { given.bytes(form, given.top()).map_or(0, |bytes| bytes.len()) };
    match random.below(20) {
        0 => exact.saturating_sub(1),
        1 => random.index(exact + 1),
        _ => exact + random.index(3),
    }
}

/// Every circuit of two gates over an input or with a root, and of one gate with two latches, with two inputs and a root, or with an input, a latch and a
/// root, and of two latches and an input, of all codes up to 2V+2, one more than there are, resets too; every shape with up to two inputs, latches and gates and up to two of each kind of root, in up to two
/// justice sets; and each pair of deltas at a border, in a text where the numbers have up to four digits.
pub fn small(random: &mut Random, form: Form, mut tell: impl FnMut(&Given)) {
    for (inputs, latches, gates, roots) in [(0, 0, 0, 0), (1, 0, 2, 0), (0, 0, 2, 1), (1, 1, 1, 1), (0, 2, 1, 0), (2, 0, 1, 1), (1, 2, 0, 0)] {
        let bound: u32 = 2 * (inputs + latches + gates) + 3;
        let codes = 2 * latches + 2 * gates + roots;
        for choice in 0..bound.pow(codes) {
            let mut word = (0..codes).map(|place| choice / bound.pow(place) % bound);
            let mut next = |count: u32| word.by_ref().take(count as usize).collect::<Vec<u32>>();
            let [nexts, resets, pairs, literals] = [latches, latches, 2 * gates, roots].map(&mut next);
            tell(&Given { inputs, counts: vec![roots, 0, 0, 0, 0], nexts, resets, gates: pairs, sizes: vec![], roots: literals });
        }
    }
    for choice in 0..27 * 243 * 3u64 {
        let [inputs, latches, gates] = [1, 3, 9].map(|power| choice / power % 3);
        let counts = [1, 3, 9, 27, 81].map(|power| choice / 27 / power % 3);
        let sets = choice / (27 * 243);
        if sets > 0 || counts[4] == 0 {
            tell(&of_sizes(random, inputs, latches, gates, counts, sets));
        }
    }
    let most = if form == Form::Text { 1_000 } else { LIMIT };
    for first in BORDERS {
        for second in BORDERS {
            for top in BORDERS.map(|border| border.clamp(1, most)) {
                let code = 2 * top;
                if first <= code && first + second <= code {
                    let gates = vec![(code - first) as u32, (code - first - second) as u32];
                    tell(&Given { inputs: top as u32 - 1, counts: vec![0; 5], gates, ..Given::default() });
                }
            }
        }
    }
}

/// Circuits at the limits and one over, in which one size is large.
pub fn large(random: &mut Random, mut tell: impl FnMut(&Given)) {
    for size in [LIMIT, LIMIT + 1] {
        tell(&of_sizes(random, size, 0, 0, [1, 0, 0, 0, 0], 0));
        tell(&of_sizes(random, 0, size, 0, [0; 5], 0));
        tell(&of_sizes(random, 0, 0, size, [0; 5], 0));
        tell(&of_sizes(random, 1, 0, size - 1, [0, 1, 0, 0, 0], 0));
        tell(&of_sizes(random, size / 3, size / 3, size - 2 * (size / 3), [0, 0, 0, 0, 2], 2));
        for kind in 0..5 {
            let mut counts = [0; 5];
            counts[kind] = size;
            tell(&of_sizes(random, 3, 0, 1, counts, 1));
        }
        tell(&of_sizes(random, 3, 0, 1, [0; 5], size));
        tell(&of_sizes(random, 0, 0, 1, [size / 2, 0, 0, 0, size - size / 2], size));
    }
    // more resets than there may be latches: too many for the latches that there are, and no size of its own
    for latches in [0, 3, LIMIT] {
        let mut given = of_sizes(random, 0, latches, 0, [0; 5], 0);
        given.resets.resize(LIMIT as usize + 1, 0);
        tell(&given);
    }
    // the last latch there can be, with its own literal for its reset, that negated, and a code that is over
    let mut last = of_sizes(random, 0, LIMIT, 0, [0; 5], 0);
    for reset in [2 * LIMIT as u32, 2 * LIMIT as u32 + 1, 2 * LIMIT as u32 + 2] {
        *last.resets.last_mut().expect("a latch") = reset;
        tell(&last);
    }
    let mut last = of_sizes(random, 0, 0, LIMIT, [0; 5], 0);
    // the last gate there can be, with its own code, with inputs exchanged, and with a code that is over
    for pair in [[2 * LIMIT as u32, 0], [0, 1], [2 * LIMIT as u32 + 1, 0], [2 * LIMIT as u32 - 1, 2 * LIMIT as u32 + 2]] {
        let at = last.gates.len() - 2;
        last.gates[at..].copy_from_slice(&pair);
        tell(&last);
    }
}

/// A gate for each two deltas at the borders of their bytes, over as few inputs as that takes.
pub fn borders(mut tell: impl FnMut(&Given)) {
    const DELTAS: [u64; 8] = [0, 1, 127, 128, 16_383, 16_384, 2_097_149, 2_097_150];
    for first in DELTAS {
        for second in DELTAS {
            let top = (first + second).div_ceil(2).max(1);
            if top <= LIMIT {
                let gates = vec![(2 * top - first) as u32, (2 * top - first - second) as u32];
                tell(&Given { inputs: top as u32 - 1, counts: vec![0; 5], gates, ..Given::default() });
            }
        }
    }
}
