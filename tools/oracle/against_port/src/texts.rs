//! Texts read by the port, by the crate's staged calls and by document 02's words, renumbered, written as binary files and read again.
use crate::{
    aiger,
    binary::Binary,
    files::{self, Asked, Form, Spare, Tally},
    outcome::{self, Lists},
    reading::{self, Outcome, ANSWER},
    values::values,
    writing,
};
use judge::{
    circuit::Circuit,
    file_compare::{compare_text, Compared},
    file_words::{Refused, LIMIT},
    random::Random,
    text_crate,
    text_examples::CASES,
    text_kinds,
    text_words::{needed, Room, Text},
    write_words::{self, Given},
};
use std::collections::BTreeMap;

/// Texts longer than this, or of more variables, are read and not renumbered.
const LONG: usize = 100_000;
const MANY: u64 = 50_000;

/// Text files.
pub struct Texts;

extern "C" {
    #[allow(clippy::too_many_arguments)]
    fn imdagluz_read_aag(
        bytes: *const u8,
        length: usize,
        inputs: *mut u32,
        inputs_length: usize,
        states: *mut u32,
        states_length: usize,
        nexts: *mut u32,
        nexts_length: usize,
        resets: *mut u32,
        resets_length: usize,
        gates: *mut u32,
        gates_length: usize,
        sizes: *mut u32,
        sizes_length: usize,
        roots: *mut u32,
        roots_length: usize,
        answer: *mut u64,
        answer_length: usize,
    ) -> u32;
}

impl Form<7> for Texts {
    type Circuit = Text;

    const NAMES: [&'static str; 7] = ["inputs", "states", "nexts", "resets", "gates", "sizes", "roots"];

    const NEVER_SHORT: Room = {
        let mut room = [LIMIT as usize; 7];
        room[4] *= 3;
        room
    };

    fn needed(bytes: &[u8]) -> Room {
        needed(bytes)
    }

    fn compare(bytes: &[u8], room: Room) -> Result<Compared<Text>, String> {
        compare_text(bytes, room)
    }

    fn by_crate(bytes: &[u8]) -> Result<Text, Refused> {
        text_crate::read(bytes)
    }

    fn by_port(bytes: &[u8], mut lent: Outcome<7>) -> Outcome<7> {
        let [inputs, states, nexts, resets, gates, sizes, roots] = lent.lists.each_mut().map(|list| (list.as_mut_ptr(), list.len()));
        let answer = (lent.answer.as_mut_ptr(), lent.answer.len());
        // Each pointer and length is a whole slice or Vec, and no two of those that are written overlap.
        lent.number = unsafe {
            imdagluz_read_aag(
                bytes.as_ptr(),
                bytes.len(),
                inputs.0,
                inputs.1,
                states.0,
                states.1,
                nexts.0,
                nexts.1,
                resets.0,
                resets.1,
                gates.0,
                gates.1,
                sizes.0,
                sizes.1,
                roots.0,
                roots.1,
                answer.0,
                answer.1,
            )
        };
        lent
    }

    fn words(text: &Text, used: usize) -> ([u64; ANSWER], [&[u64]; 7]) {
        (text.answer(used), text.lists())
    }

    fn go_on(text: &Text, port: &Outcome<7>, _: &Spare<7>, length: usize) -> Result<Option<u32>, String> {
        if length > LONG || text.top > MANY {
            return Ok(None);
        }
        chain(&circuit_of(text, port, length as u64 % 8), &port.lists[5][..text.sizes.len()]).map(Some)
    }

    fn tell_taken(count: u64, renumbered: &BTreeMap<u32, u64>) {
        println!("  taken: {count}, and {} renumbered:", renumbered.values().sum::<u64>());
        for (number, count) in renumbered {
            match number {
                0 => println!("    ordered, written as a binary file and read again, with the same values on next states and roots: {count}"),
                _ => println!("    refused {number}: {count}"),
            }
        }
    }
}

/// The circuit of lists that the port read.
fn circuit_of(text: &Text, port: &Outcome<7>, flags: u64) -> Circuit {
    let [inputs, states, nexts, resets, gates, _, roots] = port.lists.each_ref().map(|list| list.iter().map(|&word| word as u64));
    let latches = states.zip(nexts.zip(resets)).map(|(state, (next, reset))| [state, next, reset]);
    let gates: Vec<u64> = gates.take(text.gates.len()).collect();
    let mut roots = roots;
    Circuit {
        largest: port.answer[1],
        inputs: inputs.take(text.inputs.len()).collect(),
        gates: gates.chunks(3).map(|gate| [gate[0], gate[1], gate[2]]).collect(),
        latches: latches.take(text.states.len()).collect(),
        roots: text.counts.map(|count| roots.by_ref().take(count as usize).collect()),
        flags,
    }
}

/// The circuit of a text and its justice sizes, the whole way: renumbered by port and crate, written as a binary file by both, and read by the port. What is read
/// has on next states and roots the values that the text's circuit has. Answers what renumbering did.
fn chain(circuit: &Circuit, sizes: &[u32]) -> Result<u32, String> {
    let spare = outcome::Spare::of(1);
    let lists = Lists::lent(circuit, spare);
    let (port, judge) = (outcome::by_port(circuit, spare, lists.clone()), outcome::by_crate(circuit, spare, lists));
    if port != judge {
        return Err(format!("renumbered: {}", outcome::difference(port, judge)));
    }
    if port.number != 0 {
        return Ok(port.number);
    }
    let ordered = outcome::ordered(circuit, &port);
    let given = writing::given_of(&ordered, sizes);
    let bytes = writing::written(&given, write_words::Form::Binary)?;
    let read = Binary::by_port(&bytes, reading::lent(<Binary as Form<5>>::needed(&bytes), ANSWER));
    let Given { nexts, resets, gates, sizes, roots, .. } = &given;
    if read.number != 0 || read.answer[1] != ordered.largest || read.lists.each_ref() != [nexts, resets, gates, sizes, roots] {
        return Err(format!("ordered, written, and read again as another circuit: {} {:?}", read.number, read.answer));
    }
    match values(circuit) == values(&ordered) {
        true => Ok(0),
        false => Err("ordered, and the values are others".into()),
    }
}

/// Every small text of some forms: the documents' cases, short endings of each section, and every shape of header, cut at each byte.
pub fn small(tally: &mut Tally) {
    text_kinds::short(6, |bytes| tally.compare::<Texts, 7>(bytes, Spare::EXACT));
    text_kinds::shapes(&mut Random(1), |bytes| tally.in_every_length::<Texts, 7>(bytes));
    for (bytes, ..) in CASES {
        tally.in_every_length::<Texts, 7>(bytes);
        tally.compare::<Texts, 7>(bytes, Spare { asked: Asked::Never, ..Spare::EXACT });
    }
}

/// Good and damaged texts of up to so many inputs and gates.
pub fn random(tally: &mut Tally, random: Random, count: u64, gates: u64) {
    tally.random::<Texts, 7>(random, count, gates, text_kinds::any);
}

/// Texts at the limits.
pub fn large(tally: &mut Tally) {
    text_kinds::large(&mut Random(1), |bytes| tally.at_the_limits::<Texts, 7>(bytes));
}

/// A real text, all of it: read to the circuit that is given, which comes of a reader of its own. Answers how many bytes it took.
pub fn whole(bytes: &[u8], given: &Circuit) -> usize {
    let (port, text, used) = files::whole::<Texts, 7>(bytes, &Spare { words: [1; 7], answer: 1, asked: Asked::All });
    assert!(aiger::numbers(&circuit_of(&text, &port, given.flags)) == aiger::numbers(given), "the port reads another circuit");
    used
}
