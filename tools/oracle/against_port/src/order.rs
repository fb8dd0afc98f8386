//! Binary files ordered by one call of the port: as by its parts called one by one, and as the crate reads, renumbers and writes them.
use crate::{
    ordering::{self, by_one, by_parts, by_words, circuit_read, difference, Crated, Lengths, Outcome, ANSWER, BY_FILE, BY_WRITING, LISTS},
    values::values,
};
use judge::{
    file_compare::{compare, shown},
    file_crate,
    file_examples::CASES,
    file_kinds, file_shrink,
    file_words::{self, read, Ordered, Rules, AMPLE, LIMIT},
    hex,
    random::Random,
    write_words::plain,
};
use std::{
    collections::{BTreeMap, HashSet},
    process::exit,
};

/// Files longer than this are ordered, and what comes out is not gone through once more.
const LONG: usize = 100_000;

/// The most words of a list that are lent for what a header's numbers ask, where the file is not taken: a header may ask for a million.
const MOST: usize = 20_000;

/// The most bytes that are lent though fewer are needed, but for files at the limits.
const AMPLE_BYTES: usize = 65_536;

/// Lists, and bytes, of which no file asks for more.
const NEVER_SHORT: [usize; LISTS] = {
    let list = LIMIT as usize;
    [list, list, 2 * list, list, list, list, list, 3 * list, list + 1, list, list, list, 2 * list, 6 * list + 3]
};
const EVERY_BYTE: usize = 76 + 8 * 4 * LIMIT as usize;

/// After how many files a line says how many were compared.
const PROGRESS: u64 = 1_000_000;

/// How many bytes are lent, beside what the ordered file has.
#[derive(Clone, Copy)]
enum Bytes {
    More(usize),
    Fewer(usize),
    /// From four fewer than the largest file of such a circuit has, so that the port measures or does not.
    Ample(usize),
    Just(usize),
}

/// How much is lent: words of each list beside those that are asked for, or as many as no file asks for more; and beside those that an answer has.
#[derive(Clone, Copy)]
struct Spare {
    words: [isize; LISTS],
    never_short: bool,
    answer: isize,
    bytes: Bytes,
}

impl Spare {
    /// Just what is asked for.
    const EXACT: Spare = Spare { words: [0; LISTS], never_short: false, answer: 0, bytes: Bytes::More(0) };

    /// Just as long, or up to two words longer; in some one or two lists a word short, or empty, too few bytes, or too few words for the answer.
    fn any(random: &mut Random) -> Spare {
        let mut spare = Spare::EXACT;
        if random.percent(70) {
            spare.words = [(); LISTS].map(|()| random.below(3) as isize);
            spare.answer = random.below(3) as isize;
        }
        match random.below(100) {
            0..=11 => spare.words[random.index(LISTS)] = -1,
            12..=13 => (0..2).for_each(|_| spare.words[random.index(LISTS)] = -1),
            14 => spare.words[random.index(LISTS)] = isize::MIN,
            15 => spare.words[random.index(LISTS)] = 40,
            16 => spare.answer = -(random.between(1, ANSWER as u64) as isize),
            _ => {}
        }
        spare.bytes = match random.below(100) {
            0..=7 => Bytes::Fewer(1),
            8..=10 => Bytes::Fewer(random.between(1, 20) as usize),
            11..=12 => Bytes::Just(random.index(40)),
            13..=15 => Bytes::Just(0),
            16..=29 => Bytes::Ample(random.index(9)),
            30..=59 => Bytes::More(random.index(9)),
            _ => Bytes::More(0),
        };
        spare
    }

    /// What is lent for a file, which is written in so many bytes.
    fn lengths(&self, bytes: &[u8], circuit: Option<&Ordered>, written: usize) -> Lengths {
        let file = file_words::needed(bytes);
        let [latches, _, pairs, sets, roots] = file;
        let sources = circuit.map_or_else(|| inputs(bytes), |circuit| circuit.inputs as usize);
        let asked = ordering::needed(file, sources);
        let asked = match circuit {
            _ if self.never_short => NEVER_SHORT,
            Some(_) => asked,
            None => asked.map(|words| words.min(MOST)),
        };
        let top = sources + latches + pairs / 2;
        let most = 76 + 8 * (top + latches + roots + sets);
        let bytes = match self.bytes {
            Bytes::Ample(more) if most <= AMPLE_BYTES => most + more - 4,
            Bytes::Ample(more) | Bytes::More(more) => written + more,
            Bytes::Fewer(fewer) => written.saturating_sub(fewer),
            Bytes::Just(just) => just,
        };
        let lists = std::array::from_fn(|list| asked[list].saturating_add_signed(self.words[list]));
        Lengths { lists, bytes, answer: ANSWER.saturating_add_signed(self.answer) }
    }

    /// Those that are nearer to just what is asked for.
    fn nearer(&self) -> Vec<Spare> {
        let mut all = vec![Spare { words: [0; LISTS], ..*self }, Spare { answer: 0, ..*self }];
        all.extend([Bytes::More(0), Bytes::More(1), Bytes::Fewer(1)].map(|bytes| Spare { bytes, ..*self }));
        for list in 0..LISTS {
            for words in [0, -1] {
                let mut nearer = *self;
                nearer.words[list] = words;
                all.push(nearer);
            }
        }
        all.retain(|nearer| nearer.weight() < self.weight());
        all
    }

    /// How far it is from there.
    fn weight(&self) -> usize {
        let bytes = match self.bytes {
            Bytes::More(0) => 0,
            Bytes::More(1) | Bytes::Fewer(1) => 1,
            _ => 2,
        };
        let words = |words: &isize| words.unsigned_abs().min(100);
        self.words.iter().chain([&self.answer]).map(words).sum::<usize>() + bytes
    }
}

/// The number of inputs that a header names, 0 where it names none that can be.
fn inputs(bytes: &[u8]) -> usize {
    let header = bytes.split(|&byte| byte == b'\n').next().unwrap_or_default();
    let word = header.split(|&byte| byte == b' ').nth(2).and_then(|word| std::str::from_utf8(word).ok());
    word.and_then(|word| word.parse().ok()).filter(|&inputs| inputs <= LIMIT as usize).unwrap_or(0)
}

/// A line of docs/DIFFERENCES.md: of reading, of flags and lists in renumbering, or of writing.
#[derive(Clone, Copy, PartialEq, Eq, PartialOrd, Ord)]
enum Line {
    Reading(file_words::Line),
    Flags,
    List,
    Bytes,
}

impl Line {
    fn words(self) -> &'static str {
        match self {
            Line::Reading(line) => line.words(),
            Line::Flags => "flags over 7 (2)",
            Line::List => "a lent list behind the file's too short (3)",
            Line::Bytes => "lent bytes too few (3)",
        }
    }
}

/// What was found of a file.
struct Found {
    number: u32,
    by: u64,
    line: Option<Line>,
    /// Whether the crate orders the file.
    crate_orders: bool,
    /// Whether there are fewer gates, and whether the file came out byte for byte as it went in.
    fewer: bool,
    same: bool,
}

/// Whether the crate orders a file, as it reads it by itself. One of more inputs than can be, by more than a few, is not asked.
fn crate_orders(bytes: &[u8], flags: u32) -> bool {
    file_crate::read(bytes).is_ok_and(|file| file.inputs <= LIMIT + 9 && ordering::by_crate(&file, flags).is_some())
}

/// Orders a file by one call, by the parts, and by the words and the crate.
fn check(bytes: &[u8], flags: u32, spare: &Spare) -> Result<(Found, Lengths), String> {
    let taken = read(bytes, AMPLE, Rules::Request).ok();
    // over 7 the crate, which has three switches, is asked with the low ones
    let crated = taken.as_ref().map(|(file, _)| ordering::by_crate(file, flags).ok_or("the crate does not order a file that is taken")).transpose()?;
    let lengths = spare.lengths(bytes, taken.as_ref().map(|(file, _)| file), crated.as_ref().map_or(40, |crated| crated.bytes.len()));
    let compared = compare(bytes, std::array::from_fn(|list| lengths.lists[list]))?;
    let one = by_one(bytes, flags, &lengths);
    let (parts, words) = (by_parts(bytes, flags, &lengths), by_words(&compared.request, crated.as_ref(), flags, &lengths));
    if one != words {
        return Err(difference(&one, &words, &lengths, "by the words and the crate"));
    }
    if one != parts {
        return Err(difference(&one, &parts, &lengths, "by the parts"));
    }
    let by = if lengths.answer < ANSWER { 0 } else { one.answer[ANSWER - 1] };
    let line = match (compared.line, one.number) {
        (Some(line), _) => Some(Line::Reading(line)),
        (None, 0) => None,
        (None, _) if by == BY_FILE => None,
        (None, 2) => Some(Line::Flags),
        (None, _) if by == BY_WRITING => Some(Line::Bytes),
        (None, _) => Some(Line::List),
    };
    let orders = compared.crate_takes && (crated.is_some() || crate_orders(bytes, flags));
    let mut found = Found { number: one.number, by, line, crate_orders: orders, fewer: false, same: false };
    if let (0, Some((file, _)), Some(crated)) = (one.number, &taken, &crated) {
        promised(bytes, flags, &one, file, crated)?;
        found.fewer = one.answer[11] < one.answer[4];
        found.same = crated.bytes == bytes;
    }
    Ok((found, lengths))
}

/// What is promised of the files alone: the ordered file is read to its last byte by document 02's words; it is plain, and of no more bytes than are told; a plain
/// file with flags 0 comes out as it went in; inputs, latches, resets, counts and sizes are the same; with hashing no two gates are the same; and next states and
/// roots have the same values.
fn promised(bytes: &[u8], flags: u32, one: &Outcome, file: &Ordered, crated: &Crated) -> Result<(), String> {
    if bytes.len() > LONG {
        return Ok(());
    }
    let out = &crated.bytes[..];
    let again = read(out, AMPLE, Rules::Request);
    let Ok((ordered, used)) = again else { return Err(format!("read again: {}", shown(&again.map(|(file, _)| file)))) };
    let pairs: HashSet<&[u64]> = ordered.gates.chunks(2).collect();
    let most = 76 + 8 * (file.top as usize + file.nexts.len() + file.roots.len() + file.sizes.len());
    let kept = |file: &Ordered| (file.inputs, file.resets.clone(), file.counts, file.sizes.clone());
    let broken = [
        (used != out.len(), "what is written is read, and not to its end"),
        (!plain(out) || out.len() > most, "what is written is not plain, or too long"),
        (flags == 0 && plain(bytes) && out != bytes, "a plain file comes out otherwise"),
        (kept(&ordered) != kept(file), "inputs, resets, counts or sizes are others"),
        (ordered.gates.len() as u64 != 2 * one.answer[11], "the gates made are others"),
        (flags & 2 > 0 && 2 * pairs.len() < ordered.gates.len(), "two gates are the same"),
        (values(&circuit_read(file, 0)) != values(&circuit_read(&ordered, 0)), "the values are others"),
    ];
    broken.iter().find(|(is, _)| *is).map_or(Ok(()), |(_, what)| Err(what.to_string()))
}

/// What was found in a run.
#[derive(Default)]
pub struct Tally {
    files: u64,
    short_answers: u64,
    ordered: u64,
    fewer: u64,
    same: u64,
    /// Who refused, and by which number.
    refused: BTreeMap<(u64, u32), u64>,
    /// For each line of docs/DIFFERENCES.md how many files there were, and how many of them the crate orders.
    lines: BTreeMap<Line, [u64; 2]>,
}

impl Tally {
    /// Compares all orderings of a file; ends the program at a difference, which is shrunk.
    fn compare(&mut self, bytes: &[u8], flags: u32, spare: Spare) {
        let (found, lengths) = check(bytes, flags, &spare).unwrap_or_else(|what| differs(bytes, flags, spare, what));
        self.files += 1;
        if self.files % PROGRESS == 0 {
            eprintln!("  {} files so far, no difference that is not listed", self.files);
        }
        if lengths.answer < ANSWER {
            self.short_answers += 1;
            return;
        }
        match found.number {
            0 => self.ordered += 1,
            number => *self.refused.entry((found.by, number)).or_default() += 1,
        }
        self.fewer += found.fewer as u64;
        self.same += found.same as u64;
        if let Some(line) = found.line {
            let counts = self.lines.entry(line).or_default();
            counts[0] += 1;
            counts[1] += found.crate_orders as u64;
        }
    }

    /// Says what was compared.
    pub fn tell(&self, run: &str) {
        let listed: u64 = self.lines.values().map(|counts| counts[0]).sum();
        println!("{run}: {} files, no difference that is not listed", self.files);
        println!("  ordered, the same words and bytes by one call, by the parts and by the crate: {}", self.ordered);
        println!("    with fewer gates: {}; byte for byte as the file went in: {}", self.fewer, self.same);
        for ((by, number), count) in &self.refused {
            println!("  refused {number} by {}: {count}", ["", "the file", "renumbering", "writing"][*by as usize]);
        }
        println!("  with an answer list that is too short: {}", self.short_answers);
        println!("  answered by the crate as by the port: {}", self.files - self.short_answers - listed);
        for (line, [count, orders]) in &self.lines {
            println!("  not alike, {}: {count}, of which the crate orders {orders}", line.words());
        }
    }
}

/// Shows the smallest file that differs, with the fewest flags and what is lent as near to what is asked as can be, and ends the program.
fn differs(bytes: &[u8], mut flags: u32, mut spare: Spare, what: String) -> ! {
    if bytes.len() > 20_000 {
        println!("DIFFERS, a file of {} bytes that begins with {:?}, flags {flags}: {what}", bytes.len(), String::from_utf8_lossy(&bytes[..40]));
        exit(1);
    }
    let differ = |bytes: &[u8], flags: u32, spare: &Spare| check(bytes, flags, spare).is_err();
    let mut smallest = bytes.to_vec();
    loop {
        smallest = file_shrink::smallest(smallest, |bytes| differ(bytes, flags, &spare));
        let fewer = [0, 8, flags & 6, flags & 5, flags & 3].into_iter().find(|&fewer| fewer < flags && differ(&smallest, fewer, &spare));
        let nearer = spare.nearer().into_iter().find(|nearer| differ(&smallest, flags, nearer));
        match (fewer, nearer) {
            (Some(fewer), _) => flags = fewer,
            (None, Some(nearer)) => spare = nearer,
            (None, None) => break,
        }
    }
    let what = check(&smallest, flags, &spare).err().unwrap();
    let taken = read(&smallest, AMPLE, Rules::Request).ok();
    let written = taken.as_ref().and_then(|(file, _)| ordering::by_crate(file, flags)).map(|crated| crated.bytes);
    let Lengths { lists, bytes, answer } = spare.lengths(&smallest, taken.as_ref().map(|(file, _)| file), written.as_ref().map_or(40, Vec::len));
    println!("DIFFERS \"{}\", flags {flags}", smallest.escape_ascii());
    println!("  bytes: {}; lent: {lists:?}, {bytes} bytes and {answer} words", hex::encode(&smallest));
    println!("  {what}");
    match written {
        Some(written) => println!("  the crate orders it as \"{}\"", written.escape_ascii()),
        None => println!("  the crate reads: {}", shown(&file_crate::read(&smallest))),
    }
    exit(1)
}

/// Flags 0 to 7, and now and then others.
fn some_flags(random: &mut Random) -> u32 {
    match random.below(25) {
        0 => random.pick(&[8, 9, 15, 16, 256, 1 << 16, 1 << 31, u32::MAX]),
        _ => random.below(8) as u32,
    }
}

/// Good and damaged files of up to so many inputs and gates.
pub fn random(tally: &mut Tally, mut random: Random, count: u64, gates: u64) {
    for _ in 0..count {
        let bytes = file_kinds::any(&mut random, gates);
        let flags = some_flags(&mut random);
        let spare = Spare::any(&mut random);
        tally.compare(&bytes, flags, spare);
    }
}

/// Every shape of header, cut at each byte, and the documents' cases. Those that are taken with the flags 0 to 8, with each list one word short, with a byte too few,
/// with none, and with a short answer list; the others in lists that are long enough, and in lists that are a word short.
pub fn small(tally: &mut Tally) {
    let mut turn = 0;
    let mut every = |bytes: &[u8]| {
        turn += 1;
        let flags = turn % 9;
        tally.compare(bytes, flags, Spare { words: [1; LISTS], answer: 1, ..Spare::EXACT });
        if read(bytes, AMPLE, Rules::Request).is_err() {
            tally.compare(bytes, flags, Spare { words: [-1; LISTS], bytes: Bytes::Just(0), ..Spare::EXACT });
            return;
        }
        (0..9).for_each(|flags| tally.compare(bytes, flags, Spare::EXACT));
        for list in 0..LISTS {
            let mut words = [0; LISTS];
            words[list] = -1;
            tally.compare(bytes, flags, Spare { words, ..Spare::EXACT });
        }
        for bytes_lent in [Bytes::Fewer(1), Bytes::Just(0), Bytes::Ample(4)] {
            tally.compare(bytes, flags % 8, Spare { bytes: bytes_lent, ..Spare::EXACT });
        }
        tally.compare(bytes, flags, Spare { answer: -1, ..Spare::EXACT });
    };
    file_kinds::shapes(&mut Random(1), &mut every);
    CASES.iter().for_each(|(bytes, ..)| every(bytes));
}

/// Files at the limits, with lists and bytes that are never too few; those that are taken also with just what is needed, and with a byte too few.
pub fn large(tally: &mut Tally) {
    file_kinds::large(&mut Random(1), |bytes| {
        tally.compare(bytes, 7, Spare { never_short: true, bytes: Bytes::Just(EVERY_BYTE), ..Spare::EXACT });
        if read(bytes, AMPLE, Rules::Request).is_ok() {
            tally.compare(bytes, 0, Spare::EXACT);
            tally.compare(bytes, 3, Spare { bytes: Bytes::Fewer(1), ..Spare::EXACT });
        }
    });
}
