//! Binary files: good ones in every spelling, and ones with a fault; every small one of some forms; and ones at the limits.
use crate::{circuit::put, file_words::LIMIT, random::Random};

/// A file in parts: the header's words, the lines up to the gates, the bytes of the gates, and what follows them.
#[derive(Clone)]
pub struct Parts {
    pub header: Vec<String>,
    pub lines: Vec<String>,
    pub gates: Vec<u8>,
    pub after: Vec<u8>,
    /// Whether the last newline is missing.
    pub cut: bool,
}

impl Parts {
    pub fn bytes(&self) -> Vec<u8> {
        let mut bytes = self.header.join(" ").into_bytes();
        bytes.push(b'\n');
        for line in &self.lines {
            bytes.extend(line.as_bytes());
            bytes.push(b'\n');
        }
        if self.cut {
            bytes.pop();
        }
        bytes.extend(&self.gates);
        bytes.extend(&self.after);
        bytes
    }
}

/// How many of each there are.
#[derive(Clone, Copy, Default)]
pub struct Sizes {
    pub inputs: u64,
    pub latches: u64,
    pub gates: u64,
    /// Outputs, bad states, constraints, justice sets, fairness constraints: the file's order.
    pub roots: [u64; 5],
    /// How many of the four optional counts stand in the header, if not as few as can.
    pub spelled: usize,
}

impl Sizes {
    pub fn any(random: &mut Random, gates: u64) -> Sizes {
        let mut few = |most: u64| match random.below(8) {
            0 => random.below(most + 1),
            _ => random.below(4.min(most + 1)),
        };
        let [inputs, latches, gates] = [few(gates), few(gates / 4), few(gates)];
        // most have no more of a kind than the crate takes
        let most = if random.percent(85) { gates.min(3) } else { 3 };
        let roots = [3, most, most, most, most].map(|most| if random.bit() == 0 { 0 } else { random.below(most + 1) });
        Sizes { inputs, latches, gates, roots, spelled: random.index(5) }
    }

    /// The counts that stand in the header, M as it has to be.
    pub fn header(&self) -> Vec<u64> {
        let [outputs, optional @ ..] = self.roots;
        let last = optional.iter().rposition(|&count| count > 0).map_or(0, |index| index + 1);
        let mut header = vec![self.inputs + self.latches + self.gates, self.inputs, self.latches, outputs, self.gates];
        header.extend(&optional[..last.max(self.spelled)]);
        header
    }
}

/// A good file of these sizes.
pub fn of_sizes(random: &mut Random, sizes: Sizes) -> Parts {
    let numbers = sizes.header();
    let mut header = vec!["aig".to_string()];
    header.extend(numbers.iter().map(u64::to_string));
    let codes = 2 * numbers[0] + 2;
    let style = random.below(4);
    let mut lines: Vec<String> = (0..sizes.latches).map(|index| latch(random, codes, 2 * (sizes.inputs + 1 + index), style)).collect();
    let [outputs, bad, constraints, sets, fairness] = sizes.roots;
    let mut literals = |count: u64, random: &mut Random| lines.extend((0..count).map(|_| random.below(codes).to_string()));
    literals(outputs + bad + constraints, random);
    let each: Vec<u64> = (0..sets).map(|_| random.below(3)).collect();
    lines.extend(each.iter().map(u64::to_string));
    let mut literals = |count: u64, random: &mut Random| lines.extend((0..count).map(|_| random.below(codes).to_string()));
    literals(each.iter().sum::<u64>() + fairness, random);
    let mut gates = vec![];
    for index in 0..sizes.gates {
        gate(random, &mut gates, 2 * (sizes.inputs + sizes.latches + 1 + index));
    }
    Parts { header, lines, gates, after: vec![], cut: false }
}

/// A latch's line.
fn latch(random: &mut Random, codes: u64, own: u64, style: u64) -> String {
    let next = random.below(codes);
    format!("{next}{}", a_reset(random, own, style).map_or(String::new(), |reset| format!(" {reset}")))
}

/// A latch's reset: none in the first style, one that is not 0 or none in the second, and in the others any or none.
pub fn a_reset(random: &mut Random, own: u64, style: u64) -> Option<u64> {
    match (style, random.below(6)) {
        (0, _) | (_, 0 | 1) | (1, 2) => None,
        (_, 2) => Some(0),
        (_, 3) => Some(1),
        _ => Some(own),
    }
}

/// A latch's line gets a reset of another kind: the latch's own literal negated, another's, any literal, one next to the largest, and words that are no number or
/// hardly one; what follows it stays, is something else, or is cut with the rest of the file.
fn other_reset(random: &mut Random, parts: &mut Parts) {
    let count = |index: usize| parts.header.get(index).and_then(|word| word.parse::<u32>().ok()).map_or(0, u64::from);
    let (top, inputs, latches) = (count(1), count(2), count(3).min(parts.lines.len() as u64));
    if latches == 0 {
        return;
    }
    let index = random.below(latches);
    let reset = a_stray_reset(random, 2 * (inputs + 1 + index), 2 * top + 1);
    let line = &mut parts.lines[index as usize];
    let next = line.split(' ').next().unwrap_or_default().to_string();
    *line = format!("{next} {reset}{}", random.pick(&["", "", "", "", "x", " ", " 1", "\r"]));
    if random.below(6) == 0 {
        // the file ends here, some with the newline and some without
        parts.lines.truncate(index as usize + 1);
        parts.gates.clear();
        parts.after.clear();
        parts.cut = random.bit() == 1;
    }
}

/// A reset that is another than the latch's, or hardly one.
pub fn a_stray_reset(random: &mut Random, own: u64, largest: u64) -> String {
    match random.below(12) {
        0..=2 => (own ^ 1).to_string(),
        3 => (own + 2).to_string(),
        4 => (own - 2).to_string(),
        5 => random.pick(&[2, 3]).to_string(),
        6 => random.pick(&[largest, largest + 1]).to_string(),
        7 => random.pick(&EDGES).to_string(),
        8 => format!("0{own}"),
        9 => own.to_string(),
        _ => random.below(largest + 1).to_string(),
    }
}

/// A gate's two deltas: small, any, or the least, which is 1 for the first and 0 for the second; some with groups more than they need, up to the eighth byte.
fn gate(random: &mut Random, bytes: &mut Vec<u8>, output: u64) {
    let mut reference = output;
    for smallest in [1, 0] {
        let delta = match random.below(8) {
            0 => smallest,
            1..=3 => random.between(smallest, reference),
            _ => random.between(smallest, reference.min(150)),
        };
        let least = if random.percent(4) { random.between(2, 8) } else { 1 };
        put(bytes, delta, least as usize);
        reference -= delta;
    }
}

/// A first delta of zero in one of the gates, in one byte or in more. The second delta stays, and is read from the gate's own code; or it is any number, too
/// long, or cut, where the file ends.
fn zero_delta(random: &mut Random, parts: &mut Parts) {
    let gates = &mut parts.gates;
    let mut starts = vec![0];
    starts.extend((0..gates.len()).filter(|&at| gates[at] < 128).map(|at| at + 1));
    let pairs = (starts.len() - 1) / 2;
    if pairs == 0 {
        return;
    }
    let first = 2 * random.index(pairs);
    let mut zero = vec![];
    put(&mut zero, 0, random.pick(&[1, 1, 1, 2, 2, 3, 8]));
    let end = match random.below(10) {
        0 => {
            let value = random.bits(56);
            put(&mut zero, value, 1);
            starts[first + 2]
        }
        1 => {
            put(&mut zero, 0, 9);
            starts[first + 2]
        }
        2 => {
            zero.extend(random.pick(&[&[][..], &[0x80], &[0x83, 0x80]]));
            parts.after.clear();
            gates.len()
        }
        _ => starts[first + 1],
    };
    gates.splice(starts[first]..end, zero);
}

/// Where numbers change their answer, beside those near a file's own.
pub const EDGES: [&str; 18] = [
    "0", "1", "2", "00", "01", "1048574", "1048575", "1048576", "2097150", "2097151", "2147483647", "2147483648", "4294967295", "4294967296",
    "18446744073709551615", "18446744073709551616", "018446744073709551616", "99999999999999999999",
];

/// Bytes that the form turns on.
const BYTES: [u8; 18] = *b"0123456789 \n\r\t-a\x80\xff";

/// A word of the file that should be a number: of the header (one behind its tag), or of a line.
fn a_number<'a>(random: &mut Random, parts: &'a mut Parts) -> &'a mut String {
    let words = parts.header.len() - 1;
    match random.below((words + parts.lines.len()) as u64) as usize {
        index if index < words => &mut parts.header[index + 1],
        index => &mut parts.lines[index - words],
    }
}

type Fault = fn(&mut Random, &mut Parts);

/// Faults in the parts, each with its share.
const FAULTS: [(u64, Fault); 18] = [
    (10, |random, parts| *a_number(random, parts) = random.pick(&EDGES).to_string()),
    (10, |random, parts| {
        // one more, one less, or next to the largest literal
        let largest = 2 * parts.header[1].parse::<u32>().map_or(0, u64::from) + 1;
        let near = random.pick(&[largest, largest + 1]);
        let word = a_number(random, parts);
        let value = word.parse::<u64>().unwrap_or(near);
        *word = random.pick(&[value.saturating_add(1), value.saturating_sub(1), near]).to_string();
    }),
    (2, |random, parts| a_number(random, parts).insert(0, '0')),
    (2, |random, parts| a_number(random, parts).clear()),
    (4, |random, parts| a_number(random, parts).push_str(random.pick(&["\r", " ", " 0", " 1", "x", "\n", "\t", "-"]))),
    (2, |random, parts| a_number(random, parts).insert_str(0, random.pick(&[" ", "+", "-", "\n", "\r"]))),
    (6, |random, parts| {
        // more variables than are defined
        let top = parts.header[1].parse::<u32>().map_or(0, u64::from);
        parts.header[1] = (top + random.between(1, 3)).to_string();
    }),
    (3, |random, parts| {
        let count = random.below(3).to_string();
        parts.header.push(count);
    }),
    (2, |random, parts| {
        parts.header.remove(1 + random.index(parts.header.len() - 1));
    }),
    (2, |random, parts| parts.header[0] = random.pick(&["aag", "ai", "aigs", "Aig", "", " aig", "\u{feff}aig", "aig "]).to_string()),
    (3, |random, parts| {
        if !parts.lines.is_empty() {
            parts.lines.remove(random.index(parts.lines.len()));
        }
    }),
    (3, |random, parts| {
        let line = random.pick(&["0", "1", "2", "3", "0 0", "2 1", ""]).to_string();
        parts.lines.insert(random.index(parts.lines.len() + 1), line);
    }),
    (4, |random, parts| {
        // a justice size with which the roots come to the limit, or just over it
        let count = |index: usize| parts.header.get(index).and_then(|word| word.parse::<u32>().ok()).unwrap_or(0) as usize;
        let (first, fairness, sets) = (count(4) + count(6) + count(7), count(9), count(8));
        if sets > 0 && parts.lines.len() > count(3) + first {
            let rest = random.pick(&[first + fairness, first, 0]) as u64;
            parts.lines[count(3) + first] = (LIMIT - rest.min(9) + random.below(3) - 1).to_string();
        }
    }),
    (20, zero_delta),
    (20, other_reset),
    (5, |random, parts| {
        // a delta of eight or nine bytes, or one over any reference, somewhere among the gates
        let mut delta = vec![];
        let value = random.bits(58);
        put(&mut delta, value, random.between(1, 9) as usize);
        let at = random.index(parts.gates.len() + 1);
        parts.gates.splice(at..at, delta);
    }),
    (4, |random, parts| {
        if !parts.gates.is_empty() {
            parts.gates.truncate(random.index(parts.gates.len()));
        }
    }),
    (4, |random, parts| {
        if !parts.gates.is_empty() {
            let at = random.index(parts.gates.len());
            parts.gates[at] = random.next() as u8;
        }
    }),
];

/// What may follow the last gate.
pub const AFTER: [&[u8]; 8] = [b"", b"\n", b"i0 x\n", b"o0 y\nc\nwords\n", b"b0 z\n", b"junk", b"\x80\x80\x80", b"\x00\xff"];

/// One fault in the bytes.
pub fn damage(random: &mut Random, bytes: &mut Vec<u8>) {
    if bytes.is_empty() {
        return;
    }
    let at = random.index(bytes.len());
    match random.below(8) {
        0 => bytes.truncate(at),
        1 => {
            bytes.remove(at);
        }
        2 => bytes.insert(at, random.pick(&BYTES)),
        3 => bytes[at] = random.pick(&BYTES),
        4 => bytes[at] = random.next() as u8,
        5 => bytes.insert(at, bytes[at]),
        6 => line_end(random, bytes),
        _ => {
            let last = bytes.len() - 1;
            bytes.swap(at, last);
        }
    }
}

/// A newline that is replaced by a carriage return, or has one before it.
fn line_end(random: &mut Random, bytes: &mut Vec<u8>) {
    let ends: Vec<usize> = (0..bytes.len()).filter(|&at| bytes[at] == b'\n').collect();
    if ends.is_empty() {
        return;
    }
    let at = random.pick(&ends);
    match random.bit() {
        0 => bytes[at] = b'\r',
        _ => bytes.insert(at, b'\r'),
    }
}

/// A file of any kind, of up to so many inputs and so many gates: a third of them good.
pub fn any(random: &mut Random, gates: u64) -> Vec<u8> {
    let sizes = Sizes::any(random, gates);
    let mut parts = of_sizes(random, sizes);
    if random.bit() == 1 {
        parts.after = random.pick(&AFTER).to_vec();
    }
    let kind = random.below(6);
    for _ in 0..[0, 0, 1, 1, 0, 2][kind as usize] {
        random.share(&FAULTS)(random, &mut parts);
    }
    let mut bytes = parts.bytes();
    for _ in 0..[0, 0, 0, 1, 1, 2][kind as usize] {
        damage(random, &mut bytes);
    }
    bytes
}

/// What short endings are set behind: the sections of a file, each about to begin or half read.
const BEGINNINGS: [&[u8]; 14] = [
    b"", b"ai", b"aig", b"aig 1", b"aig 1 0 1", b"aig 1 0 1 0 0", b"aig 0 0 0 0 0 1 0", b"aig 2 0 2 0 0\n", b"aig 1 1 0 2 0\n", b"aig 1 0 0 0 1 0 0 1\n",
    b"aig 1 0 0 0 1 0 0 1 1\n1\n", b"aig 3 1 2 0 0\n2", b"aig 1 0 1 0 0\n0 ", b"aig 1 0 1 1 0\n3 2",
];
const LETTERS: [u8; 8] = *b"0123 \n\ra";

/// The same where gates are due.
const GATES: [&[u8]; 3] = [b"aig 1 0 0 0 1\n", b"aig 2 1 0 0 1\n", b"aig 2 0 0 0 2\n"];
const GROUPS: [u8; 10] = [0x00, 0x01, 0x02, 0x03, 0x04, 0x05, 0x7f, 0x80, 0x81, 0xff];

/// Every file that has up to so many of a few letters behind the beginning of a section, or up to so many of a few groups of bits where gates are due.
pub fn short(letters: u32, groups: u32, mut tell: impl FnMut(&[u8])) {
    BEGINNINGS.iter().for_each(|beginning| endings(beginning, &LETTERS, letters, &mut tell));
    GATES.iter().for_each(|beginning| endings(beginning, &GROUPS, groups, &mut tell));
}

/// Every file with up to so many bytes of an alphabet behind a beginning.
pub fn endings(beginning: &[u8], alphabet: &[u8], most: u32, mut tell: impl FnMut(&[u8])) {
    let count = alphabet.len();
    for length in 0..=most {
        for choice in 0..count.pow(length) {
            let ending = (0..length).map(|place| alphabet[choice / count.pow(place) % count]);
            tell(&beginning.iter().copied().chain(ending).collect::<Vec<u8>>());
        }
    }
}

/// A file for every shape of header with up to two inputs, latches and gates and up to one of each kind of root, the counts spelled in every length, cut at each of
/// its bytes; and M one more, or a first delta of zero.
pub fn shapes(random: &mut Random, mut tell: impl FnMut(&[u8])) {
    for choice in 0..27 * 32 * 5u64 {
        let [inputs, latches, gates] = [1, 3, 9].map(|power| choice / power % 3);
        let roots = [27, 54, 108, 216, 432].map(|power| choice / power % 2);
        let spelled = (choice / 864) as usize;
        let mut parts = of_sizes(random, Sizes { inputs, latches, gates, roots, spelled });
        parts.after = vec![b'x'];
        let bytes = parts.bytes();
        for length in 0..=bytes.len() {
            tell(&bytes[..length]);
        }
        if gates > 0 {
            let mut other = parts.clone();
            zero_delta(random, &mut other);
            tell(&other.bytes());
        }
        parts.header[1] = (inputs + latches + gates + 1).to_string();
        tell(&parts.bytes());
    }
}

/// Files at the limits and one over, in which one size is large; the last ones ask for too many roots.
pub fn large(random: &mut Random, mut tell: impl FnMut(&[u8])) {
    let half = LIMIT / 2;
    let sizes = |inputs, latches, gates, roots| Sizes { inputs, latches, gates, roots, spelled: 0 };
    let mut whole = |sizes: Sizes| {
        let bytes = of_sizes(random, sizes).bytes();
        tell(&bytes);
        tell(&bytes[..bytes.len() - 1]);
    };
    for size in [LIMIT, LIMIT + 1] {
        whole(sizes(size, 0, 0, [0; 5]));
        whole(sizes(0, size, 0, [0; 5]));
        whole(sizes(0, 0, size, [0; 5]));
        whole(sizes(0, 0, 1, [size, 0, 0, 0, 0]));
        whole(sizes(0, 0, 1, [0, size, 0, 0, 0]));
        whole(sizes(0, 0, 1, [0, 0, size, 0, 0]));
        whole(sizes(0, 0, 1, [0, 0, 0, 0, size]));
    }
    whole(sizes(half, half, 1, [half, 0, 0, 0, half]));
    whole(sizes(half, 0, half + 1, [half, 1, 0, 0, half]));
    whole(sizes(0, 0, LIMIT, [0, half, half + 1, 0, 0]));
    whole(sizes(0, 0, LIMIT, [0, half, half + 1, 0, 1]));
    whole(sizes(0, 0, LIMIT, [LIMIT, LIMIT, LIMIT, 0, LIMIT]));
    whole(sizes(0, 0, LIMIT, [0, 0, 0, half, 0]));
    for reset in ["", " 0", " 1"] {
        tell(format!("aig {LIMIT} 0 {LIMIT} 0 0\n{}", format!("{}{reset}\n", 2 * LIMIT + 1).repeat(LIMIT as usize)).as_bytes());
    }
    // every latch its own reset, and the last one's negated
    for last in [2 * LIMIT, 2 * LIMIT + 1] {
        let lines: String = (1..LIMIT).map(|v| format!("{} {}\n", 2 * LIMIT + 1, 2 * v)).collect();
        tell(format!("aig {LIMIT} 0 {LIMIT} 0 0\n{lines}0 {last}\n").as_bytes());
    }
    // justice sets of one size, and fairness constraints
    let many = [(LIMIT, 0, 0), (LIMIT, 1, 0), (LIMIT, 1, 1), (LIMIT + 1, 0, 0)];
    let long = [(1, LIMIT, 0), (1, LIMIT, 1), (1, LIMIT + 1, 0), (2, half, 1), (2, half, 2)];
    for (sets, size, more) in many.into_iter().chain(long) {
        let mut text = format!("aig {LIMIT} 0 0 0 {LIMIT} 0 0 {sets} {more}\n");
        text += &format!("{size}\n").repeat(sets as usize);
        text += &"1\n".repeat((sets * size + more) as usize);
        let mut bytes = text.into_bytes();
        bytes.extend([1, 0].repeat(LIMIT as usize));
        tell(&bytes);
        tell(&bytes[..bytes.len() - 1]);
    }
    // a first delta of zero in the last gate there can be
    for last in [&[0, 1][..], &[0x80, 0, 1]] {
        let header = format!("aig {LIMIT} 0 0 0 {LIMIT}\n").into_bytes();
        tell(&[&header, &[1, 0].repeat(LIMIT as usize - 1)[..], last].concat());
    }
}
