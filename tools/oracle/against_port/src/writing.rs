//! Ordered circuits written by the port, by document 02's words and by the crate, as binary files and as texts: every byte that is lent and the answer's words, on
//! refusals too; files that are read and written again, and texts that are written and read.
use crate::{
    aiger::File,
    binary::Binary,
    files::Form as _,
    reading::{self, expanded_by_words, lent_for_expansion, needed_for_expansion, Compact},
    texts::Texts,
};
use judge::{
    circuit::Circuit,
    file_crate, file_kinds, file_shrink,
    file_words::{read, Rules, AMPLE},
    hex,
    random::Random,
    text_crate,
    write_compare::{compare, Compared},
    write_crate, write_kinds, write_shrink,
    write_words::{plain, Form, Given, Line, Unwritten},
};
use std::{collections::BTreeMap, process::exit};

/// How many words an answer has.
const ANSWER: usize = 2;

/// How many bytes and words stand behind those that are lent, which nobody may write.
const PAST: usize = 8;

/// The most bytes that are lent though fewer are needed, but for circuits at the limits: a million of them would take long.
const AMPLE_BYTES: usize = 65_536;

/// After how many circuits a line says how many were compared.
const PROGRESS: u64 = 1_000_000;

/// The refusal's number or 0, the lent bytes and the answer's words; before the call, what is lent.
#[derive(Clone, PartialEq, Eq, Debug)]
pub struct Outcome {
    pub number: u32,
    pub out: Vec<u8>,
    pub answer: Vec<u64>,
}

/// Entries of the port that take what is to be written, and bytes and words for it.
macro_rules! entries {
    ($($name:ident)*) => {
        extern "C" {
            $(
                #[allow(clippy::too_many_arguments)]
                fn $name(
                    inputs: u32,
                    counts: *const u32,
                    counts_length: usize,
                    nexts: *const u32,
                    nexts_length: usize,
                    resets: *const u32,
                    resets_length: usize,
                    gates: *const u32,
                    gates_length: usize,
                    sizes: *const u32,
                    sizes_length: usize,
                    roots: *const u32,
                    roots_length: usize,
                    out: *mut u8,
                    out_length: usize,
                    answer: *mut u64,
                    answer_length: usize,
                ) -> u32;
            )*
        }
    };
}
entries!(imdagluz_write_aig imdagluz_write_aag);

/// How much is lent: bytes, and words for the answer.
#[derive(Clone, Copy, Debug)]
pub struct Lent {
    pub bytes: usize,
    pub words: usize,
}

/// Bytes and words that are easy to tell, with some past those that are lent.
pub fn dirty(lent: Lent) -> Outcome {
    let word = |index: usize| 0xabcd_ef01_2345_6789 ^ (index as u64).wrapping_mul(0x9e37_79b9);
    let byte = |index: usize| 0xa5 ^ (index as u8).wrapping_mul(29);
    Outcome { number: 0, out: (0..lent.bytes + PAST).map(byte).collect(), answer: (0..lent.words + PAST).map(word).collect() }
}

/// What the port answers and leaves.
pub fn by_port(given: &Given, form: Form, lent: Lent) -> Outcome {
    let mut left = dirty(lent);
    let entry = match form {
        Form::Binary => imdagluz_write_aig,
        Form::Text => imdagluz_write_aag,
    };
    let Given { inputs, counts, nexts, resets, gates, sizes, roots } = given;
    // Each pointer and length is a whole list or the beginning of one, and no two of those that are written overlap.
    left.number = unsafe {
        entry(
            *inputs,
            counts.as_ptr(),
            counts.len(),
            nexts.as_ptr(),
            nexts.len(),
            resets.as_ptr(),
            resets.len(),
            gates.as_ptr(),
            gates.len(),
            sizes.as_ptr(),
            sizes.len(),
            roots.as_ptr(),
            roots.len(),
            left.out.as_mut_ptr(),
            lent.bytes,
            left.answer.as_mut_ptr(),
            lent.words,
        )
    };
    left
}

/// What has to be left: the file's bytes and two words, and nothing else; on a refusal two words, and no byte.
fn by_words(request: &Result<Vec<u8>, Unwritten>, lent: Lent) -> Outcome {
    let mut left = dirty(lent);
    if lent.words < ANSWER {
        left.number = 3;
        return left;
    }
    match request {
        Ok(bytes) => {
            left.out[..bytes.len()].copy_from_slice(bytes);
            left.answer[..ANSWER].copy_from_slice(&[0, bytes.len() as u64]);
        }
        Err(refused) => {
            left.number = refused.number;
            left.answer[..ANSWER].copy_from_slice(&[refused.literal, refused.needed]);
        }
    }
    left
}

/// Where two outcomes differ first.
fn difference(port: &Outcome, words: &Outcome) -> String {
    let [said, expected] = [port, words].map(|outcome| &outcome.answer[..ANSWER]);
    if (port.number, said) != (words.number, expected) {
        return format!("the port answers {} {said:?}, by the words it is {} {expected:?}", port.number, words.number);
    }
    if port.answer != words.answer {
        return "the port writes a word past its answer".into();
    }
    let at = (0..port.out.len()).find(|&at| port.out[at] != words.out[at]).expect("unlike bytes");
    format!("byte {at}: the port {:#04x}, by the words {:#04x}", port.out[at], words.out[at])
}

/// How much is lent, beside what is needed.
#[derive(Clone, Copy)]
enum Spare {
    /// Bytes more than needed, and words of the answer.
    More(usize, usize),
    /// Bytes fewer than needed.
    Fewer(usize),
    /// From four bytes fewer than the largest file of such a circuit has to some more, so that the port measures or does not, and words of the answer.
    Ample(usize, usize),
    /// As many bytes as the largest file of such a circuit has.
    Most,
    /// So many bytes.
    Just(usize),
}

impl Spare {
    fn any(random: &mut Random) -> Spare {
        match random.below(40) {
            0 => Spare::More(random.index(9), random.index(ANSWER)),
            1 => Spare::Fewer(1),
            2 => Spare::Fewer(random.between(1, 20) as usize),
            3 => Spare::Just(random.index(40)),
            4..=21 => Spare::Ample(random.index(9), ANSWER + random.index(3)),
            _ => Spare::More(random.index(9), ANSWER + random.index(3)),
        }
    }

    fn lent(self, given: &Given, form: Form) -> Lent {
        let needed = if given.fault(form).is_none() { given.bytes(form, given.top()).map_or(0, |bytes| bytes.len()) } else { 40 };
        let most = given.most_bytes(form) as usize;
        match self {
            Spare::Ample(bytes, words) if most <= AMPLE_BYTES => Lent { bytes: needed.max(most + bytes - 4), words },
            Spare::Ample(bytes, words) | Spare::More(bytes, words) => Lent { bytes: needed + bytes, words },
            Spare::Most => Lent { bytes: most, words: ANSWER },
            Spare::Fewer(bytes) => Lent { bytes: needed.saturating_sub(bytes), words: ANSWER },
            Spare::Just(bytes) => Lent { bytes, words: ANSWER + 1 },
        }
    }
}

/// Compares all writings of a circuit.
fn check(given: &Given, form: Form, spare: Spare) -> Result<Compared, String> {
    let lent = spare.lent(given, form);
    let compared = compare(given, form, lent.bytes)?;
    let (port, words) = (by_port(given, form, lent), by_words(&compared.request, lent));
    match port == words {
        true => Ok(compared),
        false => Err(difference(&port, &words)),
    }
}

/// What was found in a run.
pub struct Tally {
    form: Form,
    circuits: u64,
    short_answers: u64,
    answers: BTreeMap<u32, u64>,
    /// For each line of docs/DIFFERENCES.md how many circuits there were, and how many of them the crate writes.
    lines: BTreeMap<Line, [u64; 2]>,
}

impl Tally {
    pub fn of(form: Form) -> Tally {
        Tally { form, circuits: 0, short_answers: 0, answers: BTreeMap::new(), lines: BTreeMap::new() }
    }

    /// Compares all writings of a circuit; ends the program at a difference, which is shrunk.
    fn compare(&mut self, given: &Given, spare: Spare) {
        let found = check(given, self.form, spare).unwrap_or_else(|what| differs(given, self.form, spare, what));
        self.circuits += 1;
        if self.circuits % PROGRESS == 0 {
            eprintln!("  {} circuits so far, no difference that is not listed", self.circuits);
        }
        if spare.lent(given, self.form).words < ANSWER {
            self.short_answers += 1;
            return;
        }
        *self.answers.entry(found.request.map_or_else(|refused| refused.number, |_| 0)).or_default() += 1;
        if let Some(line) = found.line {
            let counts = self.lines.entry(line).or_default();
            counts[0] += 1;
            counts[1] += (found.crate_writes == Some(true)) as u64;
        }
    }

    /// Says what was compared.
    pub fn tell(&self, run: &str) {
        println!("{run}: {} circuits, no difference that is not listed", self.circuits);
        for (number, count) in &self.answers {
            match number {
                0 => println!("  written, the same bytes by port, words and crate: {count}"),
                _ => println!("  refused {number}: {count}"),
            }
        }
        println!("  with an answer list that is too short: {}", self.short_answers);
        for (line, [count, written]) in &self.lines {
            println!("  not alike, {}: {count}, of which the crate writes {written}", line.words());
        }
    }
}

/// Shows the smallest circuit that differs, and ends the program.
fn differs(given: &Given, form: Form, spare: Spare, what: String) -> ! {
    if given.gates.len() + given.nexts.len() + given.resets.len() + given.roots.len() + given.sizes.len() > 20_000 {
        println!("DIFFERS, with {} inputs, {} latches, {} words of gates, counts {:?}: {what}", given.inputs, given.nexts.len(), given.gates.len(), given.counts);
        exit(1);
    }
    let smallest = write_shrink::smallest(given.clone(), |given| check(given, form, spare).is_err());
    let lent = spare.lent(&smallest, form);
    println!("DIFFERS {smallest:?}, lent {lent:?}");
    println!("  {}", check(&smallest, form, spare).err().unwrap());
    match compare(&smallest, form, lent.bytes) {
        Ok(found) => println!("  the words: {}", found.request.map_or_else(|refused| format!("{refused:?}"), |bytes| format!("\"{}\"", bytes.escape_ascii()))),
        Err(what) => println!("  {what}"),
    }
    exit(1)
}

/// Good circuits and ones with faults, of up to so many gates.
pub fn random(tally: &mut Tally, mut random: Random, count: u64, gates: u64) {
    for _ in 0..count {
        let given = write_kinds::any(&mut random, gates, tally.form);
        let spare = Spare::any(&mut random);
        tally.compare(&given, spare);
    }
}

/// Small circuits, with as many bytes as they need, as the largest file of their size has, one fewer than they need and none, and with a short answer list.
pub fn small(tally: &mut Tally) {
    write_kinds::small(&mut Random(1), tally.form, |given| {
        for spare in [Spare::More(0, 2), Spare::Ample(4, 3), Spare::Fewer(1), Spare::Just(0), Spare::More(1, 1), Spare::More(1, 0)] {
            tally.compare(given, spare);
        }
    });
}

/// Circuits at the limits.
pub fn large(tally: &mut Tally) {
    write_kinds::large(&mut Random(1), |given| {
        for spare in [Spare::More(0, 2), Spare::More(5, 2), Spare::Fewer(1), Spare::Most] {
            tally.compare(given, spare);
        }
    });
}

/// A file that the port reads and writes: the same bytes just when it is plain, the same length just then too, and the same circuit when it is read again. Answers whether
/// the file is plain; none where it is not read.
fn trip(bytes: &[u8]) -> Result<Option<bool>, String> {
    let Ok((circuit, used)) = read(bytes, AMPLE, Rules::Request) else { return Ok(None) };
    let room = circuit.lists().map(|list| list.len());
    let first = Binary::by_port(bytes, reading::lent(room, reading::ANSWER));
    if first.number != 0 {
        return Err(format!("the port refuses the file by {}", first.number));
    }
    let counts = first.answer[5..10].iter().map(|&count| count as u32).collect();
    let [nexts, resets, gates, sizes, roots] = first.lists.clone();
    let given = Given { inputs: first.answer[2] as u32, counts, nexts, resets, gates, sizes, roots };
    if given != Given::from(&circuit) {
        return Err("the port reads another circuit".into());
    }
    let out = &measured(&given, Form::Binary)?[..];
    let plain = plain(bytes);
    if (out == bytes) != plain || (out.len() == bytes.len()) != plain {
        return Err(format!("the file is {}plain, and was written as \"{}\"", if plain { "" } else { "not " }, out.escape_ascii()));
    }
    if out.len() > used {
        return Err(format!("the file used {used} bytes, and was written in {}", out.len()));
    }
    let again = Binary::by_port(out, reading::lent(room, reading::ANSWER));
    if (again.number, &again.answer[1..], &again.lists) != (0, &first.answer[1..], &first.lists) || again.answer[0] != out.len() as u64 {
        return Err(format!("read again: {} {:?}", again.number, again.answer));
    }
    if write_crate::write(&write_crate::record(&given, given.top()), Form::Binary).as_deref() != Some(out) {
        return Err("the crate writes other bytes".into());
    }
    if file_crate::read(bytes).is_ok_and(|circuit| Given::from(&circuit) != given) {
        return Err("the crate reads another circuit".into());
    }
    Ok(Some(plain))
}

/// What the port writes of a circuit, first measured by a call that lends no byte.
fn measured(given: &Given, form: Form) -> Result<Vec<u8>, String> {
    let measured = by_port(given, form, Lent { bytes: 0, words: ANSWER });
    let needed = measured.answer[1] as usize;
    if measured.number != 3 {
        return Err(format!("refused by {}", measured.number));
    }
    let mut written = by_port(given, form, Lent { bytes: needed, words: ANSWER });
    if (written.number, written.answer[1]) != (0, needed as u64) {
        return Err(format!("measured {needed} bytes, and then answered {} {:?}", written.number, written.answer));
    }
    written.out.truncate(needed);
    Ok(written.out)
}

/// A good circuit that the port writes as a text, which is read, by the port and by the crate, as the lists that the port makes of the circuit when it expands it; and
/// as the circuit's own next states, resets, justice sizes and roots.
fn text_trip(given: &Given) -> Result<(), String> {
    let text = measured(given, Form::Text)?;
    let compact = Compact { inputs: given.inputs, latches: given.nexts.len() as u32, gates: &given.gates };
    let [inputs, states, triples] = expanded_by_words(&compact, lent_for_expansion(needed_for_expansion(&compact))).lists;
    let lists = [&inputs, &states, &given.nexts, &given.resets, &triples, &given.sizes, &given.roots];
    let read = Texts::by_port(&text, reading::lent(lists.map(Vec::len), reading::ANSWER));
    let expected: Vec<u64> = [text.len() as u64, given.top(), inputs.len() as u64, states.len() as u64, triples.len() as u64 / 3]
        .into_iter()
        .chain(given.counts.iter().map(|&count| count as u64))
        .chain([given.sizes.len() as u64])
        .collect();
    if read.number != 0 || read.answer != expected || read.lists.each_ref() != lists {
        return Err(format!("\"{}\" is read by the port as {read:?}", text.escape_ascii()));
    }
    // the crate does not read all that we write: B, C, J and F are held to M-I-L there
    match text_crate::read(&text) {
        Ok(circuit) if circuit.lists().map(|list| list.iter().map(|&word| word as u32).collect::<Vec<u32>>()).each_ref() != lists => Err("the crate reads another circuit".into()),
        _ => Ok(()),
    }
}

/// Good circuits of up to so many gates, written as texts and read.
pub fn text_trips(mut random: Random, count: u64, gates: u64) {
    for _ in 0..count {
        let given = write_kinds::good(&mut random, gates, Form::Text);
        if text_trip(&given).is_err() {
            let smallest = write_shrink::smallest(given, |given| given.fault(Form::Text).is_none() && text_trip(given).is_err());
            println!("DIFFERS {smallest:?}\n  {}", text_trip(&smallest).err().unwrap());
            exit(1);
        }
    }
    println!("text-writing trips: {count} circuits of up to {gates} gates, written as texts by the port and read again as the same circuits");
}

/// Good files of up to so many gates, in every spelling and plain, read and written.
pub fn trips(mut random: Random, count: u64, gates: u64) {
    let [mut same, mut other, mut unread] = [0u64; 3];
    for _ in 0..count {
        let bytes = match random.bit() {
            0 => file_kinds::any(&mut random, gates),
            _ => {
                let given = write_kinds::good(&mut random, gates, Form::Binary);
                let mut bytes = given.bytes(Form::Binary, given.top()).expect("a good circuit has a file");
                if random.below(4) == 0 {
                    bytes.push(random.next() as u8);
                }
                bytes
            }
        };
        match trip(&bytes) {
            Ok(Some(true)) => same += 1,
            Ok(Some(false)) => other += 1,
            Ok(None) => unread += 1,
            Err(_) => {
                let smallest = file_shrink::smallest(bytes, |bytes| trip(bytes).is_err());
                println!("DIFFERS \"{}\"\n  bytes: {}\n  {}", smallest.escape_ascii(), hex::encode(&smallest), trip(&smallest).err().unwrap());
                exit(1);
            }
        }
    }
    println!("write trips: {} files that are read and written by the port, read again as the same circuit; {unread} more are not read", same + other);
    println!("  plain, and the same bytes again: {same}");
    println!("  not plain, and fewer bytes: {other}");
}

/// What is to be written of an ordered circuit with its justice sizes.
pub fn given_of(circuit: &Circuit, sizes: &[u32]) -> Given {
    let Circuit { inputs, latches, gates, roots, .. } = circuit;
    Given {
        inputs: inputs.len() as u32,
        counts: roots.iter().map(|list| list.len() as u32).collect(),
        nexts: latches.iter().map(|latch| latch[1] as u32).collect(),
        resets: latches.iter().map(|latch| latch[2] as u32).collect(),
        gates: gates.iter().flat_map(|gate| [gate[1] as u32, gate[2] as u32]).collect(),
        sizes: sizes.to_vec(),
        roots: roots.iter().flatten().map(|&root| root as u32).collect(),
    }
}

/// What the port writes of an ordered circuit, and the crate and the words too.
pub fn written(given: &Given, form: Form) -> Result<Vec<u8>, String> {
    let found = check(given, form, Spare::More(3, ANSWER))?;
    found.request.map_err(|refused| format!("an ordered circuit is refused: {refused:?}"))
}

/// The same of a real file.
pub fn whole(file: &File, form: Form) -> Vec<u8> {
    let sizes: Vec<u32> = file.justice.iter().map(|&size| size as u32).collect();
    written(&given_of(&file.circuit, &sizes), form).unwrap_or_else(|what| panic!("{what}"))
}
