//! Texts: good ones in every spelling, with definitions and gates in any order, and ones with a fault; every small one of some forms; and ones at the limits.
use crate::{
    file_kinds::{a_reset, a_stray_reset, damage, endings, Sizes, AFTER, EDGES},
    file_words::LIMIT,
    random::Random,
};

/// The words of a line.
type Line = Vec<String>;

/// A text in parts: the header's words, the lines of inputs, of latches, of roots and justice sizes and of gates, and what follows them.
#[derive(Clone)]
pub struct Parts {
    pub header: Line,
    pub inputs: Vec<Line>,
    pub latches: Vec<Line>,
    pub roots: Vec<Line>,
    pub gates: Vec<Line>,
    pub after: Vec<u8>,
    /// How many lines there are before the text ends, if it ends early, and whether the last newline is missing then.
    pub cut: Option<(usize, bool)>,
}

impl Parts {
    pub fn bytes(&self) -> Vec<u8> {
        let sections = [&self.inputs, &self.latches, &self.roots, &self.gates];
        let lines = std::iter::once(&self.header).chain(sections.into_iter().flatten());
        let mut bytes = vec![];
        for line in lines.take(self.cut.map_or(usize::MAX, |(lines, _)| lines)) {
            bytes.extend(line.join(" ").bytes());
            bytes.push(b'\n');
        }
        match self.cut {
            Some((_, true)) => drop(bytes.pop()),
            Some((_, false)) => {}
            None => bytes.extend(&self.after),
        }
        bytes
    }

    /// A number of the header, 0 where there is none.
    fn count(&self, index: usize) -> u64 {
        self.header.get(index).and_then(|word| word.parse::<u32>().ok()).map_or(0, u64::from)
    }

    /// 2M+1.
    fn largest(&self) -> u64 {
        2 * self.count(1) + 1
    }

    /// The lines of a section: inputs, latches, roots, gates.
    fn section(&mut self, index: usize) -> &mut Vec<Line> {
        [&mut self.inputs, &mut self.latches, &mut self.roots, &mut self.gates].into_iter().nth(index).expect("one of four sections")
    }

    /// The first words of lines that define something.
    fn definitions(&mut self) -> Vec<&mut String> {
        [&mut self.inputs, &mut self.latches, &mut self.gates].into_iter().flatten().filter_map(|line| line.first_mut()).collect()
    }
}

/// How a text is made: M so much above what is defined, and the kinds of its definitions and of its gates' inputs.
#[derive(Clone, Copy)]
pub struct Style {
    pub above: u64,
    /// Variables defined in order, each once in any order, or any that there are.
    pub definitions: u64,
    /// Each gate over sources and gates before it, its line then standing in its place or anywhere; or over any literals.
    pub gates: u64,
    pub resets: u64,
}

impl Style {
    /// As we write a circuit.
    const PLAIN: Style = Style { above: 0, definitions: 0, gates: 0, resets: 1 };

    pub fn any(random: &mut Random) -> Style {
        let above = match random.below(60) {
            0..=39 => 0,
            40 => random.pick(&[3_000, 40_000]),
            41 if random.below(40) == 0 => LIMIT,
            _ => random.below(4),
        };
        Style { above, definitions: random.below(5), gates: random.below(4), resets: random.below(4) }
    }
}

/// A good text of these sizes.
pub fn of_sizes(random: &mut Random, sizes: Sizes, style: Style) -> Parts {
    let mut numbers = sizes.header();
    let defined = numbers[0];
    // M at the limit is above by as much as that leaves
    numbers[0] = (defined + style.above).min(LIMIT.max(defined));
    let top = numbers[0];
    let mut names: Vec<u64> = match style.definitions {
        0 => (1..=defined).collect(),
        1..=3 if top < 100_000 => {
            let mut names: Vec<u64> = (1..=top).collect();
            random.shuffle(&mut names);
            names
        }
        // some variable twice
        _ => (0..defined).map(|_| random.between(1, top)).collect(),
    };
    names.truncate(defined as usize);
    let words = |codes: &[u64]| codes.iter().map(u64::to_string).collect::<Line>();
    let codes = 2 * top + 2;
    let (inputs, rest) = names.split_at(sizes.inputs as usize);
    let (states, outputs) = rest.split_at(sizes.latches as usize);
    let latch = |&name: &u64| {
        let mut line = vec![2 * name, random.below(codes)];
        line.extend(a_reset(random, 2 * name, style.resets));
        words(&line)
    };
    let latches = states.iter().map(latch).collect();
    let mut gates: Vec<Line> = (0..outputs.len()).map(|gate| {
        let before = sizes.inputs as usize + sizes.latches as usize + gate;
        let mut code = || match style.gates {
            // a constant, or what stands before; the last ones more often
            0..=2 if random.below(8) == 0 || before == 0 => random.bit(),
            0..=2 if random.bit() == 0 => 2 * names[before - 1 - random.index(before.min(6))] + random.bit(),
            0..=2 => 2 * names[random.index(before)] + random.bit(),
            _ => random.below(codes),
        };
        words(&[2 * outputs[gate], code(), code()])
    }).collect();
    if style.gates == 1 {
        random.shuffle(&mut gates);
    } else if style.gates == 2 {
        gates.reverse();
    }
    let [outputs, bad, constraints, sets, fairness] = sizes.roots;
    let each: Vec<u64> = (0..sets).map(|_| random.below(3)).collect();
    let mut roots: Vec<u64> = (0..outputs + bad + constraints).map(|_| random.below(codes)).collect();
    roots.extend(&each);
    roots.extend((0..each.iter().sum::<u64>() + fairness).map(|_| random.below(codes)));
    let column = |codes: &[u64]| codes.iter().map(|&code| words(&[code])).collect::<Vec<Line>>();
    let mut header = vec!["aag".to_string()];
    header.extend(words(&numbers));
    let inputs: Vec<u64> = inputs.iter().map(|name| 2 * name).collect();
    Parts { header, inputs: column(&inputs), latches, roots: column(&roots), gates, after: vec![], cut: None }
}

/// A word of the text that should be a number: of the header, one behind its tag, or of a line.
fn a_number<'a>(random: &mut Random, parts: &'a mut Parts) -> &'a mut String {
    let Parts { header, inputs, latches, roots, gates, .. } = parts;
    let mut words: Vec<&mut String> = header.iter_mut().skip(1).chain([inputs, latches, roots, gates].into_iter().flatten().flatten()).collect();
    words.swap_remove(random.index(words.len()))
}

/// One of the lines, its section and its place in it; none where there is none.
fn a_line(random: &mut Random, parts: &mut Parts) -> Option<(usize, usize)> {
    let lengths = [0, 1, 2, 3].map(|section| parts.section(section).len());
    let mut index = random.index(lengths.iter().sum());
    for (section, length) in lengths.into_iter().enumerate() {
        if index < length {
            return Some((section, index));
        }
        index -= length;
    }
    None
}

/// A definition gets a literal that it cannot have, or hardly: 0, one that is negated, one that is over the limit with either sign, one that is defined already,
/// any; or a word that is no number.
fn other_definition(random: &mut Random, parts: &mut Parts) {
    let largest = parts.largest();
    let mut definitions = parts.definitions();
    if definitions.is_empty() {
        return;
    }
    let another = definitions[random.index(definitions.len())].clone();
    let index = random.index(definitions.len());
    let word = &mut definitions[index];
    let own = word.parse::<u64>().unwrap_or(2);
    **word = match random.below(12) {
        0 | 1 => "0".into(),
        2 | 3 => (own ^ 1).to_string(),
        4 => "1".into(),
        5 | 6 => (largest + 1).to_string(),
        7 => (largest + 2).to_string(),
        8 => largest.to_string(),
        9 => another,
        10 => random.pick(&EDGES).to_string(),
        _ => (random.below(largest + 1)).to_string(),
    };
}

/// A latch's line gets a reset of another kind; what follows it stays, is something else, or is cut with the rest of the text.
fn other_reset(random: &mut Random, parts: &mut Parts) {
    let latches = parts.latches.len();
    if latches == 0 {
        return;
    }
    let (index, largest) = (random.index(latches), parts.largest());
    let line = &mut parts.latches[index];
    let own = line.first().and_then(|word| word.parse::<u64>().ok()).unwrap_or(2).max(2);
    let reset = a_stray_reset(random, own, largest);
    line.truncate(2);
    line.push(format!("{reset}{}", random.pick(&["", "", "", "", "x", " ", " 1", "\r"])));
    if random.below(6) == 0 {
        parts.cut = Some((parts.inputs.len() + index + 2, random.bit() == 1));
    }
}

type Fault = fn(&mut Random, &mut Parts);

/// Faults in the parts, each with its share.
const FAULTS: [(u64, Fault); 19] = [
    (10, |random, parts| *a_number(random, parts) = random.pick(&EDGES).to_string()),
    (10, |random, parts| {
        // one more, one less, or next to the largest literal
        let largest = parts.largest();
        let near = random.pick(&[largest, largest + 1]);
        let word = a_number(random, parts);
        let value = word.parse::<u64>().unwrap_or(near);
        *word = random.pick(&[value.saturating_add(1), value.saturating_sub(1), near]).to_string();
    }),
    (2, |random, parts| a_number(random, parts).insert(0, '0')),
    (2, |random, parts| a_number(random, parts).clear()),
    (4, |random, parts| a_number(random, parts).push_str(random.pick(&["\r", " ", " 0", " 1", "x", "\n", "\t", "-"]))),
    (2, |random, parts| a_number(random, parts).insert_str(0, random.pick(&[" ", "+", "-", "\n", "\r"]))),
    (6, |random, parts| {
        // more variables than are defined, or fewer than are used
        let top = parts.count(1);
        parts.header[1] = random.pick(&[top + 1, top + 3, top.saturating_sub(1)]).to_string();
    }),
    (3, |random, parts| {
        let count = random.below(3).to_string();
        parts.header.push(count);
    }),
    (2, |random, parts| {
        parts.header.remove(1 + random.index(parts.header.len() - 1));
    }),
    (2, |random, parts| parts.header[0] = random.pick(&["aig", "aa", "aags", "Aag", "", " aag", "\u{feff}aag", "aag "]).to_string()),
    (3, |random, parts| {
        if let Some((section, index)) = a_line(random, parts) {
            parts.section(section).remove(index);
        }
    }),
    (3, |random, parts| {
        let line = random.pick(&["0", "1", "2", "3", "2 0", "2 1 0", "4 2", ""]).split(' ').map(String::from).collect();
        let section = parts.section(random.index(4));
        section.insert(random.index(section.len() + 1), line);
    }),
    (4, |random, parts| {
        // a justice size with which the roots come to the limit, or just over it
        let (first, fairness, sets) = (parts.count(4) + parts.count(6) + parts.count(7), parts.count(9), parts.count(8));
        if let (true, Some(line)) = (sets > 0, parts.roots.get_mut(first as usize)) {
            let rest = random.pick(&[first + fairness, first, 0]);
            *line = vec![(LIMIT - rest.min(9) + random.below(3) - 1).to_string()];
        }
    }),
    (24, other_definition),
    (20, other_reset),
    (6, |random, parts| {
        // a line with a word more, one fewer, or none
        if let Some((section, index)) = a_line(random, parts) {
            let line = &mut parts.section(section)[index];
            match random.below(4) {
                0 => line.push(random.below(4).to_string()),
                1 => line.insert(0, random.pick(&["0", "2"]).to_string()),
                2 => line.clear(),
                _ => drop(line.pop()),
            }
        }
    }),
    (5, |random, parts| {
        // the text ends with one of its lines, some with the newline and some without
        let lines = 1 + parts.inputs.len() + parts.latches.len() + parts.roots.len() + parts.gates.len();
        parts.cut = Some((random.index(lines) + 1, random.bit() == 1));
    }),
    (3, |random, parts| {
        // a line of one section in the place of another's
        if let (Some((from, index)), Some((to, place))) = (a_line(random, parts), a_line(random, parts)) {
            parts.section(to)[place] = parts.section(from)[index].clone();
        }
    }),
    (3, |random, parts| {
        // gates before the roots, or latches before the inputs
        match random.bit() {
            0 => std::mem::swap(&mut parts.roots, &mut parts.gates),
            _ => std::mem::swap(&mut parts.inputs, &mut parts.latches),
        }
    }),
];

/// A text of any kind, of up to so many inputs and so many gates: a third of them good.
pub fn any(random: &mut Random, gates: u64) -> Vec<u8> {
    let sizes = Sizes::any(random, gates);
    let style = Style::any(random);
    let mut parts = of_sizes(random, sizes, style);
    if random.bit() == 1 {
        parts.after = random.pick(&AFTER).to_vec();
    }
    let kind = random.below(6);
    for _ in 0..[0, 0, 1, 1, 0, 2][kind as usize] {
        random.share(&FAULTS)(random, &mut parts);
    }
    let mut bytes = parts.bytes();
    for _ in 0..[0, 0, 0, 1, 1, 2][kind as usize] {
        damage(random, &mut bytes);
    }
    bytes
}

/// What short endings are set behind: the sections of a text, each about to begin or half read.
const BEGINNINGS: [&[u8]; 19] = [
    b"", b"aa", b"aag", b"aag 1", b"aag 1 0 1", b"aag 1 0 1 0 0", b"aag 0 0 0 0 0 1 0", b"aag 2 2 0 0 0\n", b"aag 2 0 2 0 0\n", b"aag 2 0 1 0 0\n2",
    b"aag 2 1 1 0 0\n2\n4 0 ", b"aag 1 0 1 1 0\n2 3 2", b"aag 1 1 0 2 0\n2\n", b"aag 1 0 0 0 1 0 0 1\n", b"aag 1 0 0 0 1 0 0 1 1\n1\n", b"aag 2 0 0 0 2\n",
    b"aag 1 0 0 0 1\n2", b"aag 2 1 0 0 1\n2\n4 2", b"aag 2 0 0 1 1\n0\n4 1 ",
];
const LETTERS: [u8; 8] = *b"0124 \n\ra";

/// Every text that has up to so many of a few letters behind the beginning of a section.
pub fn short(letters: u32, mut tell: impl FnMut(&[u8])) {
    BEGINNINGS.iter().for_each(|beginning| endings(beginning, &LETTERS, letters, &mut tell));
}

/// A text for every shape of header with up to two inputs, latches and gates and up to one of each kind of root, the counts spelled in every length, cut at each of
/// its bytes; and M one more, one fewer, or another definition.
pub fn shapes(random: &mut Random, mut tell: impl FnMut(&[u8])) {
    for choice in 0..27 * 32 * 5u64 {
        let [inputs, latches, gates] = [1, 3, 9].map(|power| choice / power % 3);
        let roots = [27, 54, 108, 216, 432].map(|power| choice / power % 2);
        let spelled = (choice / 864) as usize;
        let style = Style { above: 0, ..Style::any(random) };
        let mut parts = of_sizes(random, Sizes { inputs, latches, gates, roots, spelled }, style);
        parts.after = vec![b'x'];
        let bytes = parts.bytes();
        for length in 0..=bytes.len() {
            tell(&bytes[..length]);
        }
        let mut other = parts.clone();
        other_definition(random, &mut other);
        tell(&other.bytes());
        let top = inputs + latches + gates;
        for other in [Some(top + 1), top.checked_sub(1)].into_iter().flatten() {
            parts.header[1] = other.to_string();
            tell(&parts.bytes());
        }
    }
}

/// Texts at the limits and one over, in which one size is large; the last ones ask for too many roots.
pub fn large(random: &mut Random, mut tell: impl FnMut(&[u8])) {
    let half = LIMIT / 2;
    let sizes = |inputs, latches, gates, roots| Sizes { inputs, latches, gates, roots, spelled: 0 };
    let mut whole = |sizes: Sizes, style: Style| {
        let bytes = of_sizes(random, sizes, style).bytes();
        tell(&bytes);
        tell(&bytes[..bytes.len() - 1]);
    };
    for size in [LIMIT, LIMIT + 1] {
        whole(sizes(size, 0, 0, [0; 5]), Style::PLAIN);
        whole(sizes(0, size, 0, [0; 5]), Style::PLAIN);
        whole(sizes(0, 0, size, [0; 5]), Style { gates: 2, ..Style::PLAIN });
        for kind in [0, 1, 2, 4] {
            let mut roots = [0; 5];
            roots[kind] = size;
            whole(sizes(0, 0, 1, roots), Style { above: LIMIT, ..Style::PLAIN });
        }
    }
    whole(sizes(1, 1, 1, [1, 1, 1, 1, 1]), Style { above: LIMIT, ..Style::PLAIN });
    whole(sizes(half, half, 1, [half, 0, 0, 0, half]), Style::PLAIN);
    whole(sizes(half, 0, half + 1, [half, 1, 0, 0, half]), Style { gates: 1, ..Style::PLAIN });
    whole(sizes(0, 0, LIMIT, [0, half, half + 1, 0, 1]), Style::PLAIN);
    whole(sizes(0, 0, LIMIT, [LIMIT, LIMIT, LIMIT, 0, LIMIT]), Style::PLAIN);
    whole(sizes(0, 0, LIMIT, [0, 0, 0, half, 0]), Style::PLAIN);
    // every latch its own reset, and the last one's negated; every definition the same variable, and the last one over, odd, 0
    for last in [2 * LIMIT, 2 * LIMIT + 1] {
        let lines: String = (1..LIMIT).map(|v| format!("{0} {1} {0}\n", 2 * v, 2 * LIMIT + 1)).collect();
        tell(format!("aag {LIMIT} 0 {LIMIT} 0 0\n{lines}{} 0 {last}\n", 2 * LIMIT).as_bytes());
    }
    for last in [2 * LIMIT, 2 * LIMIT + 2, 2 * LIMIT + 3, 3, 0] {
        let lines = format!("{}\n", 2 * LIMIT).repeat(LIMIT as usize - 1);
        tell(format!("aag {LIMIT} {LIMIT} 0 0 0\n{lines}{last}\n").as_bytes());
    }
    // justice sets of one size, and fairness constraints
    let many = [(LIMIT, 0, 0), (LIMIT, 1, 0), (LIMIT, 1, 1), (LIMIT + 1, 0, 0)];
    let long = [(1, LIMIT, 0), (1, LIMIT, 1), (1, LIMIT + 1, 0), (2, half, 1), (2, half, 2)];
    for (sets, size, more) in many.into_iter().chain(long) {
        let mut text = format!("aag {LIMIT} 0 0 0 1 0 0 {sets} {more}\n");
        text += &format!("{size}\n").repeat(sets as usize);
        text += &"1\n".repeat((sets * size + more) as usize);
        text += "2 1 1\n";
        tell(text.as_bytes());
        tell(&text.as_bytes()[..text.len() - 1]);
    }
}
