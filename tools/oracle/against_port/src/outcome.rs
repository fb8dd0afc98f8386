//! The whole outcome of renumbering a circuit in lent lists: by the port, and by the crate with document 01's checks and buffers around it.
use flussab_aiger::aig::{OrderedAig, Renumber};
use judge::{
    circuit::Circuit,
    random::Random,
    sheet::{self, Refused},
};

const NO_IMAGE: u32 = u32::MAX;
const LIMIT: usize = 1_048_575;

/// The lists that are lent and written.
#[derive(Clone, PartialEq, Eq, Debug)]
pub struct Lists {
    pub map: Vec<u32>,
    pub next_images: Vec<u32>,
    pub reset_images: Vec<u32>,
    pub root_images: Vec<u32>,
    pub gates_out: Vec<u32>,
    pub scratch: Vec<u32>,
}

/// The refusal's number or 0; the literal, the gates made and the new largest variable; and the lists afterwards.
#[derive(PartialEq, Eq, Debug)]
pub struct Outcome {
    pub number: u32,
    pub words: [u32; 3],
    pub lists: Lists,
}

/// How many words more (fewer, where it is negative) a list is lent than it has to have: the six lists that are written, and then those of next states, resets and
/// gates, which are only read.
#[derive(Clone, Copy, Debug, Default)]
pub struct Spare {
    pub written: [isize; 6],
    pub read: [isize; 3],
}

impl Spare {
    /// Each list that is written as long as it has to be and so many words more.
    pub const fn of(words: isize) -> Spare {
        Spare { written: [words; 6], read: [0; 3] }
    }

    /// Up to two words more, in some a word less, and in some a list that is read longer or shorter than its circuit has it.
    pub fn any(random: &mut Random) -> Spare {
        let mut spare = Spare { written: [(); 6].map(|()| random.below(3) as isize), read: [0; 3] };
        if random.percent(3) {
            spare.written[random.index(6)] = -1;
        }
        if random.percent(2) {
            spare.read[random.index(3)] = random.pick(&[-2, -1, 1, 2]);
        }
        spare
    }
}

/// How many words each list has to have.
fn needed(circuit: &Circuit) -> [usize; 6] {
    let (top, gates) = (circuit.largest as usize, circuit.gates.len());
    let roots = circuit.roots.iter().map(Vec::len).sum();
    [
        top + 1,
        circuit.latches.len(),
        circuit.latches.len(),
        roots,
        2 * gates,
        3 * top + 3 + 3 * gates,
    ]
}

impl Lists {
    /// Lists as long as they have to be and the spare words, filled with words that are easy to tell.
    pub fn lent(circuit: &Circuit, spare: Spare) -> Lists {
        let needed = needed(circuit);
        Lists::of(std::array::from_fn(|index| needed[index].saturating_add_signed(spare.written[index])))
    }

    /// The same of these lengths.
    pub fn of(lengths: [usize; 6]) -> Lists {
        let word = |index: usize, word: u32| 0xabcd_0000 ^ word.wrapping_mul(0x9e37) ^ (index as u32) << 20;
        Lists::from_all(std::array::from_fn(|index| (0..lengths[index] as u32).map(|cell| word(index, cell)).collect()))
    }

    /// The six lists, in the order of the call.
    pub fn from_all([map, next_images, reset_images, root_images, gates_out, scratch]: [Vec<u32>; 6]) -> Lists {
        Lists { map, next_images, reset_images, root_images, gates_out, scratch }
    }

    /// The same way back.
    pub fn into_all(self) -> [Vec<u32>; 6] {
        let Lists { map, next_images, reset_images, root_images, gates_out, scratch } = self;
        [map, next_images, reset_images, root_images, gates_out, scratch]
    }

    /// Whether one of them is shorter than the circuit asks for.
    pub fn short(&mut self, circuit: &Circuit) -> bool {
        self.all().iter().zip(needed(circuit)).any(|(list, words)| list.len() < words)
    }

    fn all(&mut self) -> [&mut Vec<u32>; 6] {
        [
            &mut self.map,
            &mut self.next_images,
            &mut self.reset_images,
            &mut self.root_images,
            &mut self.gates_out,
            &mut self.scratch,
        ]
    }
}

/// Where two outcomes differ first: the answers, or a word of a list.
pub fn difference(port: Outcome, judge: Outcome) -> String {
    if (port.number, port.words) != (judge.number, judge.words) {
        return format!("the port answers {} {:?}, the crate {} {:?}", port.number, port.words, judge.number, judge.words);
    }
    let names = ["map", "next_images", "reset_images", "root_images", "gates_out", "scratch"];
    for ((one, other), name) in port.lists.into_all().into_iter().zip(judge.lists.into_all()).zip(names) {
        if let Some(word) = (0..one.len()).find(|&word| one[word] != other[word]) {
            return format!("{name}[{word}]: the port {}, the crate {}", one[word], other[word]);
        }
    }
    unreachable!("equal outcomes")
}

/// A circuit's lists as the port takes them. Every code must fit 32 bits.
struct Flat {
    counts: [u32; 5],
    inputs: Vec<u32>,
    states: Vec<u32>,
    nexts: Vec<u32>,
    resets: Vec<u32>,
    gates: Vec<u32>,
    roots: Vec<u32>,
}

/// A list that is so many words longer or shorter.
fn bent(mut list: Vec<u32>, words: isize) -> Vec<u32> {
    list.resize(list.len().saturating_add_signed(words), 0);
    list
}

fn flat(circuit: &Circuit, spare: Spare) -> Flat {
    let word = |&code: &u64| u32::try_from(code).expect("a code of 32 bits");
    let latches = |part: usize| circuit.latches.iter().map(|latch| word(&latch[part])).collect();
    Flat {
        counts: [0, 1, 2, 3, 4].map(|index: usize| circuit.roots[index].len() as u32),
        inputs: circuit.inputs.iter().map(word).collect(),
        states: latches(0),
        nexts: bent(latches(1), spare.read[0]),
        resets: bent(latches(2), spare.read[1]),
        gates: bent(circuit.gates.iter().flatten().map(word).collect(), spare.read[2]),
        roots: circuit.roots.iter().flatten().map(word).collect(),
    }
}

extern "C" {
    #[allow(clippy::too_many_arguments)]
    fn imdagluz_renumber(
        top: u32,
        counts: *const u32,
        counts_length: usize,
        flags: u32,
        inputs: *const u32,
        inputs_length: usize,
        states: *const u32,
        states_length: usize,
        nexts: *const u32,
        nexts_length: usize,
        resets: *const u32,
        resets_length: usize,
        gates: *const u32,
        gates_length: usize,
        roots: *const u32,
        roots_length: usize,
        map: *mut u32,
        map_length: usize,
        next_images: *mut u32,
        next_images_length: usize,
        reset_images: *mut u32,
        reset_images_length: usize,
        root_images: *mut u32,
        root_images_length: usize,
        gates_out: *mut u32,
        gates_out_length: usize,
        scratch: *mut u32,
        scratch_length: usize,
        answer: *mut u32,
        answer_length: usize,
    ) -> u32;
}

/// What the port answers and leaves.
pub fn by_port(circuit: &Circuit, spare: Spare, mut lists: Lists) -> Outcome {
    let flat = flat(circuit, spare);
    let mut words = [0; 3];
    let read = |list: &[u32]| (list.as_ptr(), list.len());
    let (counts, inputs, states) = (read(&flat.counts), read(&flat.inputs), read(&flat.states));
    let (nexts, resets) = (read(&flat.nexts), read(&flat.resets));
    let (gates, roots) = (read(&flat.gates), read(&flat.roots));
    let lent = lists.all().map(|list| (list.as_mut_ptr(), list.len()));
    // Each pointer and length is a whole Vec or array, and no two of those that are written overlap.
    let number = unsafe {
        imdagluz_renumber(
            circuit.largest as u32,
            counts.0,
            counts.1,
            circuit.flags as u32,
            inputs.0,
            inputs.1,
            states.0,
            states.1,
            nexts.0,
            nexts.1,
            resets.0,
            resets.1,
            gates.0,
            gates.1,
            roots.0,
            roots.1,
            lent[0].0,
            lent[0].1,
            lent[1].0,
            lent[1].1,
            lent[2].0,
            lent[2].1,
            lent[3].0,
            lent[3].1,
            lent[4].0,
            lent[4].1,
            lent[5].0,
            lent[5].1,
            words.as_mut_ptr(),
            words.len(),
        )
    };
    Outcome {
        number,
        words,
        lists,
    }
}

/// What the documents say: their checks 1 to 4, 22 and 6 and their buffers, and the crate for all else.
pub fn by_crate(circuit: &Circuit, spare: Spare, mut lists: Lists) -> Outcome {
    let refused = |number: u64, literal: u64, lists: Lists| Outcome {
        number: number as u32,
        words: [literal as u32, 0, 0],
        lists,
    };
    let roots: usize = circuit.roots.iter().map(Vec::len).sum();
    let sizes = [
        circuit.largest as usize,
        circuit.inputs.len(),
        circuit.latches.len(),
        circuit.gates.len(),
        roots,
    ];
    if sizes.iter().any(|&size| size > LIMIT) {
        return refused(1, 0, lists);
    }
    // a list that is read and not as long as its circuit has it: next states and resets are as many as states, and a gate has three words
    let Flat { states, nexts, resets, gates, .. } = flat(circuit, spare);
    if nexts.len() != states.len() || resets.len() != states.len() || gates.len() % 3 != 0 {
        return refused(2, 0, lists);
    }
    if lists.short(circuit) {
        return refused(3, 0, lists);
    }
    let needed = needed(circuit);
    match sheet::renumber(circuit) {
        Err(Refused(number @ (4 | 22), literal)) => refused(number, literal, lists),
        Err(Refused(number, literal)) => {
            for (index, list) in lists.all().into_iter().enumerate() {
                let word = if index == 0 { NO_IMAGE } else { 0 };
                list[..needed[index]].fill(word);
            }
            refused(number, literal, lists)
        }
        Ok((ordered, renumber)) => {
            write(circuit, &ordered, &renumber, &mut lists);
            Outcome {
                number: 0,
                words: [
                    0,
                    ordered.and_gates.len() as u32,
                    ordered.max_var_index as u32,
                ],
                lists,
            }
        }
    }
}

/// What success leaves in lists that are long enough.
pub fn write(
    circuit: &Circuit,
    ordered: &OrderedAig<u32>,
    renumber: &Renumber<u32>,
    lists: &mut Lists,
) {
    let needed = needed(circuit);
    for (variable, entry) in lists.map[..needed[0]].iter_mut().enumerate() {
        *entry = renumber
            .lit_map()
            .get(2 * variable as u32)
            .unwrap_or(NO_IMAGE);
    }
    for (image, latch) in lists.next_images.iter_mut().zip(&ordered.latches) {
        *image = latch.next_state;
    }
    for (image, reset) in lists.reset_images.iter_mut().zip(sheet::reset_images(ordered)) {
        *image = reset;
    }
    for (image, root) in lists
        .root_images
        .iter_mut()
        .zip(sheet::root_images(ordered))
    {
        *image = root;
    }
    lists.gates_out[..needed[4]].fill(0);
    for (pair, gate) in lists.gates_out.chunks_mut(2).zip(&ordered.and_gates) {
        pair.copy_from_slice(&gate.inputs);
    }
    lists.scratch[..needed[5]].fill(0);
}

/// The circuit that an outcome of success describes.
pub fn ordered(circuit: &Circuit, outcome: &Outcome) -> Circuit {
    let [_, made, largest] = outcome.words.map(u64::from);
    let lists = &outcome.lists;
    let (i, l) = (circuit.inputs.len() as u64, circuit.latches.len() as u64);
    let mut images = lists.root_images.iter().map(|&image| image as u64);
    Circuit {
        largest,
        inputs: (1..=i).map(|v| 2 * v).collect(),
        latches: (i + 1..=i + l).zip(lists.next_images.iter().zip(&lists.reset_images)).map(|(v, (&next, &reset))| [2 * v, next as u64, reset as u64]).collect(),
        gates: (i + l + 1..=i + l + made).zip(lists.gates_out.chunks(2)).map(|(v, pair)| [2 * v, pair[0] as u64, pair[1] as u64]).collect(),
        roots: circuit.roots.each_ref().map(|list| images.by_ref().take(list.len()).collect()),
        flags: 0,
    }
}
