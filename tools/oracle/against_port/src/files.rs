//! Files read by the port, by the crate's staged calls and by document 02's words: what is the same of binary files and of texts.
use crate::reading::{self, Outcome, ANSWER};
use judge::{
    file_compare::{shown, Compared},
    file_shrink,
    file_words::{Line, Refused},
    hex,
    random::Random,
};
use std::{collections::BTreeMap, fmt::Debug, process::exit};

/// A form of file, which is read into so many lists, the roots' the last of them.
pub trait Form<const N: usize> {
    /// What the crate and the words read it as.
    type Circuit: Clone + PartialEq + Debug;

    /// What the lists hold.
    const NAMES: [&'static str; N];

    /// Lists as long as no file asks for more.
    const NEVER_SHORT: [usize; N];

    /// How many words of each list a file asks for.
    fn needed(bytes: &[u8]) -> [usize; N];

    /// The readings by crate and words.
    fn compare(bytes: &[u8], room: [usize; N]) -> Result<Compared<Self::Circuit>, String>;

    /// The crate's reading.
    fn by_crate(bytes: &[u8]) -> Result<Self::Circuit, Refused>;

    /// What the port answers and leaves.
    fn by_port(bytes: &[u8], lent: Outcome<N>) -> Outcome<N>;

    /// The answer's words for a circuit that took so many bytes, and its lists.
    fn words(circuit: &Self::Circuit, used: usize) -> ([u64; ANSWER], [&[u64]; N]);

    /// What follows of a file of so many bytes that is taken: what renumbering answers, none where it is not asked.
    fn go_on(circuit: &Self::Circuit, port: &Outcome<N>, spare: &Spare<N>, length: usize) -> Result<Option<u32>, String>;

    /// Says how many files are taken, and what renumbering answers to how many of them.
    fn tell_taken(count: u64, renumbered: &BTreeMap<u32, u64>);
}

/// How much longer than they have to be lists are lent (shorter, where it is negative), and the answer.
#[derive(Clone, Copy)]
pub struct Spare<const N: usize> {
    pub words: [isize; N],
    pub answer: isize,
    pub asked: Asked,
}

/// What a header's numbers ask for: up to `MOST` words of a list, since a header may ask for a million; all of it; or as many as no file asks for more.
#[derive(Clone, Copy)]
pub enum Asked {
    Near,
    All,
    Never,
}

const MOST: usize = 20_000;

/// After how many files a line says how many were compared.
const PROGRESS: u64 = 1_000_000;

impl<const N: usize> Spare<N> {
    /// Just what is asked for.
    pub const EXACT: Spare<N> = Spare { words: [0; N], answer: 0, asked: Asked::Near };

    fn any(random: &mut Random) -> Spare<N> {
        let mut words = [(); N].map(|()| random.below(3) as isize);
        let mut answer = random.below(3) as isize;
        match random.below(100) {
            0..=3 => words[random.index(N)] = -1,
            4 => words[random.index(N)] = isize::MIN,
            5 => words[random.index(N)] = 40,
            6 => answer = -(random.between(1, ANSWER as u64) as isize),
            _ => {}
        }
        let asked = random.below(200);
        Spare { words, answer, asked: if asked == 0 { Asked::All } else { Asked::Near } }
    }

    /// The lengths of the lists, and that of the answer.
    pub fn lengths<F: Form<N>>(&self, bytes: &[u8]) -> ([usize; N], usize) {
        let mut room = match self.asked {
            Asked::Near => F::needed(bytes).map(|words| words.min(MOST)),
            Asked::All => F::needed(bytes),
            Asked::Never => F::NEVER_SHORT,
        };
        for (length, spare) in room.iter_mut().zip(self.words) {
            *length = length.saturating_add_signed(spare);
        }
        (room, ANSWER.saturating_add_signed(self.answer))
    }
}

/// What was found in a run.
#[derive(Default)]
pub struct Tally {
    files: u64,
    short_answers: u64,
    answers: BTreeMap<u64, u64>,
    /// For each line of docs/DIFFERENCES.md how many files there were, and how many of them the crate takes.
    lines: BTreeMap<Line, [u64; 2]>,
    renumbered: BTreeMap<u32, u64>,
}

impl Tally {
    /// Compares all readings of a file; ends the program at a difference, which is shrunk.
    pub fn compare<F: Form<N>, const N: usize>(&mut self, bytes: &[u8], spare: Spare<N>) {
        let (found, renumbered) = check::<F, N>(bytes, &spare).unwrap_or_else(|what| differs::<F, N>(bytes, &spare, what));
        self.files += 1;
        if self.files % PROGRESS == 0 {
            eprintln!("  {} files so far, no difference that is not listed", self.files);
        }
        if spare.answer < 0 {
            self.short_answers += 1;
            return;
        }
        let number = found.request.as_ref().map_or_else(|refused| refused.number, |_| 0);
        *self.answers.entry(number).or_default() += 1;
        if let Some(number) = renumbered {
            *self.renumbered.entry(number).or_default() += 1;
        }
        if let Some(line) = found.line {
            let counts = self.lines.entry(line).or_default();
            counts[0] += 1;
            counts[1] += found.crate_takes as u64;
        }
    }

    /// A file in lists that are as long as they must be, in longer ones, and with each of them, and the answer, one word short.
    pub fn in_every_length<F: Form<N>, const N: usize>(&mut self, bytes: &[u8]) {
        let exact = Spare::<N>::EXACT;
        self.compare::<F, N>(bytes, exact);
        self.compare::<F, N>(bytes, Spare { words: std::array::from_fn(|list| [3, 1, 2, 1, 2][list % 5]), answer: 1, ..exact });
        for list in 0..N {
            let mut words = [0; N];
            words[list] = -1;
            self.compare::<F, N>(bytes, Spare { words, ..exact });
        }
        self.compare::<F, N>(bytes, Spare { answer: -1, ..exact });
    }

    /// A file at the limits, with lists that are never too short, with just those that it asks for, and with a root list one word short.
    pub fn at_the_limits<F: Form<N>, const N: usize>(&mut self, bytes: &[u8]) {
        let all = Spare { asked: Asked::All, ..Spare::<N>::EXACT };
        let mut short = all;
        short.words[N - 1] = -1;
        for spare in [Spare { asked: Asked::Never, ..all }, all, short] {
            self.compare::<F, N>(bytes, spare);
        }
    }

    /// Good and damaged files of up to so many inputs and gates.
    pub fn random<F: Form<N>, const N: usize>(&mut self, mut random: Random, count: u64, gates: u64, any: fn(&mut Random, u64) -> Vec<u8>) {
        for _ in 0..count {
            let bytes = any(&mut random, gates);
            let spare = Spare::any(&mut random);
            self.compare::<F, N>(&bytes, spare);
        }
    }

    /// Says what was compared.
    pub fn tell<F: Form<N>, const N: usize>(&self, run: &str) {
        let listed: u64 = self.lines.values().map(|counts| counts[0]).sum();
        println!("{run}: {} files, no difference that is not listed", self.files);
        for (number, count) in &self.answers {
            match number {
                0 => F::tell_taken(*count, &self.renumbered),
                _ => println!("  refused {number}: {count}"),
            }
        }
        println!("  with an answer list that is too short: {}", self.short_answers);
        println!("  answered by the crate as by the port: {}", self.files - self.short_answers - listed);
        for (line, [count, taken]) in &self.lines {
            println!("  not alike, {}: {count}, of which the crate takes {taken}", line.words());
        }
    }
}

/// Compares all readings of a file, and what follows of one that is taken.
fn check<F: Form<N>, const N: usize>(bytes: &[u8], spare: &Spare<N>) -> Result<(Compared<F::Circuit>, Option<u32>), String> {
    let (room, answer) = spare.lengths::<F>(bytes);
    let compared = F::compare(bytes, room)?;
    let port = read_alike::<F, N>(bytes, &compared, reading::lent(room, answer))?;
    let renumbered = match (&compared.request, port.number) {
        (Ok((circuit, _)), 0) => F::go_on(circuit, &port, spare, bytes.len())?,
        _ => None,
    };
    Ok((compared, renumbered))
}

/// What the port answers and leaves, which is what it has to.
fn read_alike<F: Form<N>, const N: usize>(bytes: &[u8], compared: &Compared<F::Circuit>, lent: Outcome<N>) -> Result<Outcome<N>, String> {
    let taken = compared.request.as_ref().map(|(circuit, used)| F::words(circuit, *used));
    let (port, words) = (F::by_port(bytes, lent.clone()), reading::by_words(taken, lent));
    match port == words {
        true => Ok(port),
        false => Err(reading::difference(&port, &words, F::NAMES)),
    }
}

/// Shows the smallest file that differs, and ends the program.
fn differs<F: Form<N>, const N: usize>(bytes: &[u8], spare: &Spare<N>, what: String) -> ! {
    if bytes.len() > 20_000 {
        println!("DIFFERS, a file of {} bytes that begins with {:?}: {what}", bytes.len(), String::from_utf8_lossy(&bytes[..40]));
        exit(1);
    }
    let smallest = file_shrink::smallest(bytes.to_vec(), |bytes| check::<F, N>(bytes, spare).is_err());
    let what = check::<F, N>(&smallest, spare).err().unwrap();
    let (room, answer) = spare.lengths::<F>(&smallest);
    println!("DIFFERS \"{}\"", smallest.escape_ascii());
    println!("  bytes: {}; lent: {room:?} and {answer} words", hex::encode(&smallest));
    println!("  {what}");
    if let Ok(found) = F::compare(&smallest, room) {
        println!("  the words: {}", shown(&found.request.map(|(circuit, _)| circuit)));
    }
    println!("  the crate: {}", shown(&F::by_crate(&smallest)));
    exit(1)
}

/// A real file, all of it: read by the port as by the crate and by the words. Answers what the port left, the circuit and the bytes that it took.
pub fn whole<F: Form<N>, const N: usize>(bytes: &[u8], spare: &Spare<N>) -> (Outcome<N>, F::Circuit, usize) {
    let (room, answer) = spare.lengths::<F>(bytes);
    let found = F::compare(bytes, F::needed(bytes)).unwrap_or_else(|what| panic!("{what}"));
    assert!(found.line.is_none(), "the crate reads the file otherwise: {:?}", found.line);
    let port = read_alike::<F, N>(bytes, &found, reading::lent(room, answer)).unwrap_or_else(|what| panic!("{what}"));
    let (circuit, used) = found.request.expect("the file is taken");
    (port, circuit, used)
}
