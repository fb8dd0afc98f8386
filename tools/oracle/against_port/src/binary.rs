//! Binary files read by the port, by the crate's staged calls and by document 02's words, expanded and renumbered.
use crate::{
    aiger,
    files::{self, Asked, Form, Spare, Tally},
    outcome::{self, Lists},
    reading::{self, expanded_by_port, expanded_by_words, Compact, Expanded, Outcome, ANSWER},
};
use judge::{
    circuit::Circuit,
    file_compare::{compare, Compared},
    file_crate,
    file_examples::CASES,
    file_kinds,
    file_words::{needed, Ordered, Refused, Room, LIMIT},
    random::Random,
};
use std::{collections::BTreeMap, process::exit};

/// Files longer than this are read and expanded, and not renumbered.
const LONG: usize = 100_000;

/// Binary files.
pub struct Binary;

extern "C" {
    #[allow(clippy::too_many_arguments)]
    fn imdagluz_read_aig(
        bytes: *const u8,
        length: usize,
        nexts: *mut u32,
        nexts_length: usize,
        resets: *mut u32,
        resets_length: usize,
        gates: *mut u32,
        gates_length: usize,
        sizes: *mut u32,
        sizes_length: usize,
        roots: *mut u32,
        roots_length: usize,
        answer: *mut u64,
        answer_length: usize,
    ) -> u32;
}

impl Form<5> for Binary {
    type Circuit = Ordered;

    const NAMES: [&'static str; 5] = ["nexts", "resets", "gates", "sizes", "roots"];

    const NEVER_SHORT: Room = [LIMIT as usize, LIMIT as usize, 2 * LIMIT as usize, LIMIT as usize, LIMIT as usize];

    fn needed(bytes: &[u8]) -> Room {
        needed(bytes)
    }

    fn compare(bytes: &[u8], room: Room) -> Result<Compared, String> {
        compare(bytes, room)
    }

    fn by_crate(bytes: &[u8]) -> Result<Ordered, Refused> {
        file_crate::read(bytes)
    }

    fn by_port(bytes: &[u8], mut lent: Outcome<5>) -> Outcome<5> {
        let [nexts, resets, gates, sizes, roots] = lent.lists.each_mut().map(|list| (list.as_mut_ptr(), list.len()));
        let answer = (lent.answer.as_mut_ptr(), lent.answer.len());
        // Each pointer and length is a whole slice or Vec, and no two of those that are written overlap.
        lent.number = unsafe {
            imdagluz_read_aig(
                bytes.as_ptr(),
                bytes.len(),
                nexts.0,
                nexts.1,
                resets.0,
                resets.1,
                gates.0,
                gates.1,
                sizes.0,
                sizes.1,
                roots.0,
                roots.1,
                answer.0,
                answer.1,
            )
        };
        lent
    }

    fn words(circuit: &Ordered, used: usize) -> ([u64; ANSWER], [&[u64]; 5]) {
        (circuit.answer(used), circuit.lists())
    }

    fn go_on(circuit: &Ordered, port: &Outcome<5>, spare: &Spare<5>, length: usize) -> Result<Option<u32>, String> {
        let expanded = expand(circuit, port, spare)?;
        if length > LONG {
            return Ok(None);
        }
        renumber(circuit, port, expanded, length as u64 % 8).map(|()| Some(0))
    }

    fn tell_taken(count: u64, renumbered: &BTreeMap<u32, u64>) {
        println!("  taken: {count}, expanded too, and {} renumbered", renumbered.values().sum::<u64>());
    }
}

/// Expands what was read, into lists of the length that is needed, longer, and one word short.
fn expand(circuit: &Ordered, port: &Outcome<5>, spare: &Spare<5>) -> Result<Expanded, String> {
    let gates = &port.lists[2][..circuit.gates.len()];
    let compact = Compact { inputs: circuit.inputs as u32, latches: circuit.nexts.len() as u32, gates };
    let needed = reading::needed_for_expansion(&compact);
    let mut last = None;
    for round in 0..2 {
        let short = if round == 0 { spare.words[1].unsigned_abs() % 3 } else { 3 };
        let lengths = [0, 1, 2].map(|index| if index == short { needed[index].saturating_sub(1) } else { needed[index] + spare.words[index].unsigned_abs() % 3 });
        let lent = reading::lent_for_expansion(lengths);
        let (port, words) = (expanded_by_port(&compact, lent.clone()), expanded_by_words(&compact, lent));
        if port != words {
            return Err(format!("expanded by the port: {port:?}; by the words: {words:?}"));
        }
        last = Some((port, needed));
    }
    let (mut expanded, needed) = last.unwrap();
    expanded.lists.iter_mut().zip(needed).for_each(|(list, words)| list.truncate(words));
    Ok(expanded)
}

/// The circuit of lists that the port read and expanded.
fn circuit_of(circuit: &Ordered, port: &Outcome<5>, expanded: Expanded, flags: u64) -> Circuit {
    let [inputs, states, triples] = expanded.lists;
    let wide = |list: &[u32]| list.iter().map(|&word| word as u64).collect::<Vec<u64>>();
    let mut roots = port.lists[4].iter().map(|&root| root as u64);
    Circuit {
        largest: circuit.top,
        inputs: wide(&inputs),
        gates: triples.chunks(3).map(|gate| [gate[0], gate[1], gate[2]].map(u64::from)).collect(),
        latches: states.iter().zip(port.lists[0].iter().zip(&port.lists[1])).map(|(&state, (&next, &reset))| [state, next, reset].map(u64::from)).collect(),
        roots: circuit.counts.map(|count| roots.by_ref().take(count as usize).collect()),
        flags,
    }
}

/// The lists have to be those of the crate's own record, and the circuit that they are is renumbered by both: a file that is read is not refused there.
fn renumber(circuit: &Ordered, port: &Outcome<5>, expanded: Expanded, flags: u64) -> Result<(), String> {
    let given = circuit_of(circuit, port, expanded, flags);
    let by_crate = Circuit { flags, ..aiger::circuit_of(&file_crate::record(circuit)) };
    let [numbers, expected] = [&given, &by_crate].map(aiger::numbers);
    if numbers != expected {
        return Err(format!("expanded by the port: {numbers:?}; by the crate: {expected:?}"));
    }
    let spare = outcome::Spare::of(1);
    let lists = Lists::lent(&given, spare);
    let (port, judge) = (outcome::by_port(&given, spare, lists.clone()), outcome::by_crate(&given, spare, lists));
    match (port == judge, port.number) {
        (true, 0) => Ok(()),
        (true, number) => Err(format!("read, and refused by {number} in renumbering")),
        (false, _) => Err(format!("renumbered: {}", outcome::difference(port, judge))),
    }
}

/// Every small file of some forms: the documents' cases, short endings of each section, and every shape of header, cut at each byte.
pub fn small(tally: &mut Tally) {
    file_kinds::short(6, 5, |bytes| tally.compare::<Binary, 5>(bytes, Spare::EXACT));
    file_kinds::shapes(&mut Random(1), |bytes| tally.in_every_length::<Binary, 5>(bytes));
    for (bytes, ..) in CASES {
        tally.in_every_length::<Binary, 5>(bytes);
        tally.compare::<Binary, 5>(bytes, Spare { asked: Asked::Never, ..Spare::EXACT });
    }
}

/// Good and damaged files of up to so many inputs and gates.
pub fn random(tally: &mut Tally, random: Random, count: u64, gates: u64) {
    tally.random::<Binary, 5>(random, count, gates, file_kinds::any);
}

/// Files at the limits.
pub fn large(tally: &mut Tally) {
    file_kinds::large(&mut Random(1), |bytes| tally.at_the_limits::<Binary, 5>(bytes));
}

/// Random expansions, of circuits that no file has too: sizes at the limits, odd lists of gates, any codes.
pub fn expansions(mut random: Random, count: u64) {
    let mut answers = [0u64; 4];
    let edge = |random: &mut Random| match random.below(12) {
        0 => random.pick(&[1_048_574, 1_048_575, 1_048_576, u32::MAX, 1 << 31, 524_287, 524_288]),
        _ => random.below(6) as u32,
    };
    for _ in 0..count {
        let gates: Vec<u32> = (0..random.below(9)).map(|_| random.next() as u32).collect();
        let compact = Compact { inputs: edge(&mut random), latches: edge(&mut random), gates: &gates };
        let most = if random.below(20) == 0 { 1 << 21 } else { 100 };
        let mut lengths = reading::needed_for_expansion(&compact).map(|words| words.min(most) + random.index(3));
        if random.percent(10) {
            let list = random.index(3);
            lengths[list] = lengths[list].saturating_sub(random.between(1, 3) as usize);
        }
        let lent = reading::lent_for_expansion(lengths);
        let (port, words) = (expanded_by_port(&compact, lent.clone()), expanded_by_words(&compact, lent));
        if port != words {
            println!("DIFFERS: {} inputs, {} latches, gates {gates:?}, lists of {lengths:?}", compact.inputs, compact.latches);
            println!("  the port answers {}, the words {}", port.number, words.number);
            exit(1);
        }
        answers[port.number as usize] += 1;
    }
    let [done, refused @ ..] = answers;
    println!("expansions {count}: no difference\n  expanded: {done}, refused 1, 2, 3: {refused:?}");
}

/// A real file, all of it: read, and expanded to the circuit that is given, which comes of a reader of its own.
pub fn whole(bytes: &[u8], given: &Circuit) -> usize {
    let spare = Spare { words: [1; 5], answer: 1, asked: Asked::All };
    let (port, circuit, used) = files::whole::<Binary, 5>(bytes, &spare);
    let expanded = expand(&circuit, &port, &spare).unwrap_or_else(|what| panic!("{what}"));
    let read = circuit_of(&circuit, &port, expanded, given.flags);
    assert!(aiger::numbers(&read) == aiger::numbers(given), "the port reads another circuit");
    used
}
