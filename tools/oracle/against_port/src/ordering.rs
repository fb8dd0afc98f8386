//! The whole outcome of ordering a binary file by one call: by the port, by the port's parts called one by one, and by document 02's words with the crate's
//! renumbering and writing behind them. Every word of every lent list, every byte, the answer's words, and some cells past all of these.
use crate::{
    binary::Binary,
    files::Form as _,
    outcome::{self, Lists, Spare},
    reading::{self, expanded_by_port, expanded_by_words, Compact, Expanded},
    writing::{self, Lent},
};
use flussab_aiger::aig::{Aig, OrderedAig, Renumber};
use judge::{
    circuit::Circuit,
    file_words::{Ordered, Reading},
    sheet, write_crate,
    write_words::{Form, Given},
};

/// How many words an answer has.
pub const ANSWER: usize = 14;

/// How many lists are lent: five of the file, three of expanding, six of renumbering.
pub const LISTS: usize = 14;

/// Who refused: the last word of the answer.
pub const BY_FILE: u64 = 1;
pub const BY_RENUMBERING: u64 = 2;
pub const BY_WRITING: u64 = 3;

/// How many words stand behind those of a list that are lent, which nobody may write.
const PAST: usize = 4;

/// What the lists hold, in the order of the call.
pub const NAMES: [&str; LISTS] = [
    "nexts",
    "resets",
    "gates",
    "sizes",
    "roots",
    "input_codes",
    "state_codes",
    "triples",
    "map",
    "next_images",
    "reset_images",
    "root_images",
    "gates_out",
    "scratch",
];

extern "C" {
    #[allow(clippy::too_many_arguments)]
    fn imdagluz_order(
        bytes: *const u8,
        bytes_length: usize,
        flags: u32,
        nexts: *mut u32,
        nexts_length: usize,
        resets: *mut u32,
        resets_length: usize,
        gates: *mut u32,
        gates_length: usize,
        sizes: *mut u32,
        sizes_length: usize,
        roots: *mut u32,
        roots_length: usize,
        input_codes: *mut u32,
        input_codes_length: usize,
        state_codes: *mut u32,
        state_codes_length: usize,
        triples: *mut u32,
        triples_length: usize,
        map: *mut u32,
        map_length: usize,
        next_images: *mut u32,
        next_images_length: usize,
        reset_images: *mut u32,
        reset_images_length: usize,
        root_images: *mut u32,
        root_images_length: usize,
        gates_out: *mut u32,
        gates_out_length: usize,
        scratch: *mut u32,
        scratch_length: usize,
        out: *mut u8,
        out_length: usize,
        answer: *mut u64,
        answer_length: usize,
    ) -> u32;
}

/// How much is lent: words of each list, bytes, and words for the answer.
#[derive(Clone, Copy, Debug)]
pub struct Lengths {
    pub lists: [usize; LISTS],
    pub bytes: usize,
    pub answer: usize,
}

/// The refusal's number or 0, the lists, the bytes and the answer's words, all with those past what is lent; before the call, what is lent.
#[derive(Clone, PartialEq, Eq)]
pub struct Outcome {
    pub number: u32,
    pub lists: [Vec<u32>; LISTS],
    pub out: Vec<u8>,
    pub answer: Vec<u64>,
}

impl Outcome {
    /// Words and bytes that are easy to tell, with some past those that are lent.
    pub fn lent(lengths: &Lengths) -> Outcome {
        let writing::Outcome { number, out, answer } = writing::dirty(Lent { bytes: lengths.bytes, words: lengths.answer });
        let words = lengths.lists.map(|words| words + PAST);
        let file = reading::lent(std::array::from_fn(|list| words[list]), 0);
        let expansion = reading::lent_for_expansion(std::array::from_fn(|list| words[5 + list]));
        let images = Lists::of(std::array::from_fn(|list| words[8 + list]));
        let lists = joined(file.lists, expansion.lists, images);
        Outcome { number, lists, out, answer }
    }

    /// The first words of the answer.
    fn answers(&mut self, words: &[u64]) {
        self.answer[..words.len()].copy_from_slice(words);
    }

    /// A refusal, and who gives it.
    fn refused(mut self, number: u32, by: u64) -> Outcome {
        self.number = number;
        self.answer[ANSWER - 1] = by;
        self
    }

    /// As many lists from one on, as they are lent.
    fn taken<const N: usize>(&self, first: usize, lengths: &Lengths) -> [Vec<u32>; N] {
        std::array::from_fn(|index| self.lists[first + index][..lengths.lists[first + index]].to_vec())
    }

    /// What a part left in them.
    fn left<const N: usize>(&mut self, first: usize, lists: [Vec<u32>; N]) {
        self.lists[first..].iter_mut().zip(lists).for_each(|(list, left)| list[..left.len()].copy_from_slice(&left));
    }
}

fn joined(file: [Vec<u32>; 5], expanded: [Vec<u32>; 3], images: Lists) -> [Vec<u32>; LISTS] {
    let [nexts, resets, gates, sizes, roots] = file;
    let [inputs, states, triples] = expanded;
    let [map, next_images, reset_images, root_images, gates_out, scratch] = images.into_all();
    [nexts, resets, gates, sizes, roots, inputs, states, triples, map, next_images, reset_images, root_images, gates_out, scratch]
}

/// What the port answers and leaves by one call.
pub fn by_one(bytes: &[u8], flags: u32, lengths: &Lengths) -> Outcome {
    let mut left = Outcome::lent(lengths);
    let [nexts, resets, gates, sizes, roots, inputs, states, triples, map, next_images, reset_images, root_images, gates_out, scratch] =
        std::array::from_fn(|index| (left.lists[index].as_mut_ptr(), lengths.lists[index]));
    // Each pointer and length is a whole slice or the beginning of a Vec, and no two of those that are written overlap.
    left.number = unsafe {
        imdagluz_order(
            bytes.as_ptr(),
            bytes.len(),
            flags,
            nexts.0,
            nexts.1,
            resets.0,
            resets.1,
            gates.0,
            gates.1,
            sizes.0,
            sizes.1,
            roots.0,
            roots.1,
            inputs.0,
            inputs.1,
            states.0,
            states.1,
            triples.0,
            triples.1,
            map.0,
            map.1,
            next_images.0,
            next_images.1,
            reset_images.0,
            reset_images.1,
            root_images.0,
            root_images.1,
            gates_out.0,
            gates_out.1,
            scratch.0,
            scratch.1,
            left.out.as_mut_ptr(),
            lengths.bytes,
            left.answer.as_mut_ptr(),
            lengths.answer,
        )
    };
    left
}

/// The circuit of what was read and expanded: of each list just the words that are its own.
fn circuit_of(read: &reading::Outcome<5>, expanded: &Expanded, flags: u32) -> Circuit {
    let [largest, i, l, a] = [1, 2, 3, 4].map(|word: usize| read.answer[word]);
    let [nexts, resets, _, _, roots] = &read.lists;
    let [inputs, states, triples] = &expanded.lists;
    let mut roots = roots.iter().map(|&root| root as u64);
    let latches = states.iter().zip(nexts.iter().zip(resets)).take(l as usize);
    Circuit {
        largest,
        inputs: inputs[..i as usize].iter().map(|&code| code as u64).collect(),
        gates: triples[..3 * a as usize].chunks(3).map(|gate| [gate[0], gate[1], gate[2]].map(u64::from)).collect(),
        latches: latches.map(|(&state, (&next, &reset))| [state, next, reset].map(u64::from)).collect(),
        roots: [5, 6, 7, 8, 9].map(|word: usize| roots.by_ref().take(read.answer[word] as usize).collect()),
        flags: flags as u64,
    }
}

/// What the port leaves by its parts, called one by one, each with just the words that the part before it left. That an answer list is too short and that flags
/// are over 7, which no part before renumbering is asked, is told here.
pub fn by_parts(bytes: &[u8], flags: u32, lengths: &Lengths) -> Outcome {
    let mut left = Outcome::lent(lengths);
    if lengths.answer < ANSWER {
        return Outcome { number: 3, ..left };
    }
    left.answers(&[0; ANSWER]);
    let read = Binary::by_port(bytes, reading::Outcome { number: 0, answer: vec![0; reading::ANSWER], lists: left.taken(0, lengths) });
    left.left(0, read.lists.clone());
    left.answers(&read.answer);
    if read.number != 0 {
        return left.refused(read.number, BY_FILE);
    }
    if flags > 7 {
        return left.refused(2, BY_RENUMBERING);
    }
    let [i, l, a, sets] = [2, 3, 4, 10].map(|word: usize| read.answer[word] as usize);
    let compact = Compact { inputs: i as u32, latches: l as u32, gates: &read.lists[2][..2 * a] };
    let expanded = expanded_by_port(&compact, Expanded { number: 0, lists: left.taken(5, lengths) });
    left.left(5, expanded.lists.clone());
    if expanded.number != 0 {
        return left.refused(expanded.number, BY_RENUMBERING);
    }
    let circuit = circuit_of(&read, &expanded, flags);
    let renumbered = outcome::by_port(&circuit, Spare::of(0), Lists::from_all(left.taken(8, lengths)));
    let made = renumbered.words[1];
    let images = renumbered.lists.into_all();
    left.left(8, images.clone());
    if renumbered.number != 0 {
        return left.refused(renumbered.number, BY_RENUMBERING);
    }
    let [_, next_images, reset_images, root_images, gates_out, _] = images;
    let given = Given {
        inputs: i as u32,
        counts: read.answer[5..10].iter().map(|&count| count as u32).collect(),
        nexts: next_images[..l].to_vec(),
        resets: reset_images[..l].to_vec(),
        gates: gates_out[..2 * made as usize].to_vec(),
        sizes: read.lists[3][..sets].to_vec(),
        roots: root_images[..circuit.roots.iter().map(Vec::len).sum()].to_vec(),
    };
    let written = writing::by_port(&given, Form::Binary, Lent { bytes: lengths.bytes, words: 2 });
    left.out = written.out;
    left.answer[reading::ANSWER] = made as u64;
    left.answer[reading::ANSWER + 1] = written.answer[1];
    match written.number {
        0 => left,
        number => left.refused(number, BY_WRITING),
    }
}

/// The circuit of a file that was read, with every literal that the file does not spell.
pub fn circuit_read(file: &Ordered, flags: u32) -> Circuit {
    let code = |variable: u64| 2 * variable;
    let (i, l) = (file.inputs, file.nexts.len() as u64);
    let mut roots = file.roots.iter().copied();
    Circuit {
        largest: file.top,
        inputs: (1..=i).map(code).collect(),
        gates: (i + l + 1..).map(code).zip(file.gates.chunks(2)).map(|(output, pair)| [output, pair[0], pair[1]]).collect(),
        latches: (i + 1..).map(code).zip(file.nexts.iter().zip(&file.resets)).map(|(state, (&next, &reset))| [state, next, reset]).collect(),
        roots: file.counts.map(|count| roots.by_ref().take(count as usize).collect()),
        flags: flags as u64,
    }
}

/// What the crate makes of a file that was read, with its justice sets: renumbered under the flags, and written. None where its renumbering refuses.
pub struct Crated {
    ordered: OrderedAig<u32>,
    renumber: Renumber<u32>,
    pub bytes: Vec<u8>,
}

/// The crate's way from there on.
pub fn by_crate(file: &Ordered, flags: u32) -> Option<Crated> {
    let aig = Aig::from(write_crate::record(&Given::from(file), file.top));
    let (ordered, renumber) = Renumber::renumber_aig(sheet::config(flags as u64), &aig).ok()?;
    let bytes = write_crate::write(&ordered, Form::Binary)?;
    Some(Crated { ordered, renumber, bytes })
}

/// What has to be left: of the file what document 02's words read, and behind it what the crate makes of that, which is given for a file that is taken.
pub fn by_words(reading: &Reading, crated: Option<&Crated>, flags: u32, lengths: &Lengths) -> Outcome {
    let mut left = Outcome::lent(lengths);
    if lengths.answer < ANSWER {
        return Outcome { number: 3, ..left };
    }
    left.answers(&[0; ANSWER]);
    let taken = reading.as_ref().map(|(file, used)| (file.answer(*used), file.lists()));
    let read = reading::by_words(taken, reading::Outcome { number: 0, answer: vec![0; reading::ANSWER], lists: left.taken(0, lengths) });
    left.left(0, read.lists);
    left.answers(&read.answer);
    let Ok((file, _)) = reading else { return left.refused(read.number, BY_FILE) };
    if flags > 7 {
        return left.refused(2, BY_RENUMBERING);
    }
    let gates: Vec<u32> = file.gates.iter().map(|&code| code as u32).collect();
    let compact = Compact { inputs: file.inputs as u32, latches: file.nexts.len() as u32, gates: &gates };
    let expanded = expanded_by_words(&compact, Expanded { number: 0, lists: left.taken(5, lengths) });
    left.left(5, expanded.lists);
    if expanded.number != 0 {
        return left.refused(expanded.number, BY_RENUMBERING);
    }
    let circuit = circuit_read(file, flags);
    let crated = crated.expect("a file that is taken is ordered by the crate");
    let mut images = Lists::from_all(left.taken(8, lengths));
    if images.short(&circuit) {
        return left.refused(3, BY_RENUMBERING);
    }
    outcome::write(&circuit, &crated.ordered, &crated.renumber, &mut images);
    left.left(8, images.into_all());
    left.answer[reading::ANSWER] = crated.ordered.and_gates.len() as u64;
    left.answer[reading::ANSWER + 1] = crated.bytes.len() as u64;
    if crated.bytes.len() > lengths.bytes {
        return left.refused(3, BY_WRITING);
    }
    left.out[..crated.bytes.len()].copy_from_slice(&crated.bytes);
    left
}

/// How many words of each list a file with these numbers asks for.
pub fn needed(file: [usize; 5], inputs: usize) -> [usize; LISTS] {
    let [latches, _, pairs, _, roots] = file;
    let compact = [inputs, latches, 3 * (pairs / 2)];
    let top = inputs + latches + pairs / 2;
    let images = [top + 1, latches, latches, roots, pairs, 3 * top + 3 + 3 * (pairs / 2)];
    let all: Vec<usize> = file.into_iter().chain(compact).chain(images).collect();
    all.try_into().expect("as many as there are lists")
}

/// Where two outcomes of the same lists differ first.
pub fn difference(one: &Outcome, other: &Outcome, lengths: &Lengths, by: &str) -> String {
    let words = lengths.answer.min(ANSWER);
    let [said, expected] = [one, other].map(|outcome| &outcome.answer[..words]);
    if (one.number, said) != (other.number, expected) {
        return format!("one call answers {} {said:?}, {by} it is {} {expected:?}", one.number, other.number);
    }
    if one.answer != other.answer {
        return "one call writes a word past its answer".into();
    }
    for (((left, right), name), lent) in one.lists.iter().zip(&other.lists).zip(NAMES).zip(lengths.lists) {
        match (0..left.len()).find(|&word| left[word] != right[word]) {
            Some(word) if word < lent => return format!("{name}[{word}]: by one call {}, {by} {}", left[word], right[word]),
            Some(word) => return format!("{name}[{word}], which is not lent: by one call {}", left[word]),
            None => {}
        }
    }
    let at = (0..one.out.len()).find(|&at| one.out[at] != other.out[at]).expect("unlike bytes");
    match at < lengths.bytes {
        true => format!("byte {at}: by one call {:#04x}, {by} {:#04x}", one.out[at], other.out[at]),
        false => format!("byte {at}, which is not lent: by one call {:#04x}", one.out[at]),
    }
}

/// Orders a file by one call, as the parts do, into the bytes that are given; with all flags on also with a byte too few. Every list is a word longer than it has
/// to be.
pub fn whole(bytes: &[u8], flags: u32, ordered: &[u8]) -> Result<(), String> {
    let read = Binary::by_port(bytes, reading::lent(Binary::needed(bytes), reading::ANSWER));
    let lists = needed(Binary::needed(bytes), read.answer[2] as usize).map(|words| words + 1);
    let rooms = [ordered.len() + 3, ordered.len() - 1];
    for &room in if flags == 7 { &rooms[..] } else { &rooms[..1] } {
        let lengths = Lengths { lists, bytes: room, answer: ANSWER + 1 };
        let (one, parts) = (by_one(bytes, flags, &lengths), by_parts(bytes, flags, &lengths));
        if one != parts {
            return Err(difference(&one, &parts, &lengths, "by the parts"));
        }
        let [number, by] = if room < ordered.len() { [3, BY_WRITING] } else { [0; 2] };
        if (one.number as u64, one.answer[12], one.answer[13]) != (number, ordered.len() as u64, by) {
            return Err(format!("one call answers {} {:?}", one.number, &one.answer[..ANSWER]));
        }
        if number == 0 && one.out[..ordered.len()] != *ordered {
            return Err("one call writes another file".into());
        }
    }
    Ok(())
}
