//! Requests, writing an ordered circuit as a binary file or as a text, as document 02's words have it and not as the crate's code does. What is
//! refused is written as the crate would, were the lines of docs/DIFFERENCES.md all that sets the two apart: so that those lines can be held to the crate, each by itself.
use crate::{
    circuit::put,
    file_words::{Ordered, LIMIT},
};

/// What is to be written: numbers that nobody has checked yet.
#[derive(Clone, Default, PartialEq, Eq, Debug)]
pub struct Given {
    pub inputs: u32,
    /// How many outputs, bad states, constraints, fairness constraints and justice literals: the walk's order. A caller in C may lend more or fewer than five.
    pub counts: Vec<u32>,
    pub nexts: Vec<u32>,
    pub resets: Vec<u32>,
    /// Two words a gate.
    pub gates: Vec<u32>,
    pub sizes: Vec<u32>,
    /// In the walk's order.
    pub roots: Vec<u32>,
}

/// What a circuit is written as.
#[derive(Clone, Copy, PartialEq, Eq, Debug)]
pub enum Form {
    Binary,
    Text,
}

impl Form {
    /// With which word a file begins.
    fn tag(self) -> &'static str {
        match self {
            Form::Binary => "aig",
            Form::Text => "aag",
        }
    }
}

/// Why nothing is written: the number, the literal at fault, and for 3 the bytes needed.
#[derive(Clone, Copy, PartialEq, Eq, Debug)]
pub struct Unwritten {
    pub number: u32,
    pub literal: u64,
    pub needed: u64,
}

/// A line of docs/DIFFERENCES.md: what is refused here, and written or not by the crate.
#[derive(Clone, Copy, PartialEq, Eq, PartialOrd, Ord, Debug)]
pub enum Line {
    Size,
    Shape,
    Code,
    Stray,
    Swapped,
    Own,
    Above,
    Disordered,
    Short,
}

impl Line {
    /// What the line says.
    pub fn words(self) -> &'static str {
        match self {
            Line::Size => "a size over 1,048,575 (1)",
            Line::Shape => "counts or sizes that are not those of the lists (2), of which the crate has no record",
            Line::Code => "a code over 2V+1 (4)",
            Line::Stray => "a reset that is not 0, 1 or the latch's own literal (22), which the crate's type cannot hold",
            Line::Swapped => "a gate's first input below its second (23), which the crate exchanges",
            Line::Own => "a gate's first input its own code (23), which the crate writes as a first delta of zero",
            Line::Above => "a gate's larger input above its own code (23), where the crate panics",
            Line::Disordered => "a gate out of order (23), which the crate writes in a text as it stands",
            Line::Short => "lent bytes too few (3)",
        }
    }
}

impl From<&Ordered> for Given {
    /// What is to be written of a file that was read.
    fn from(circuit: &Ordered) -> Given {
        let words = |list: &[u64]| list.iter().map(|&word| word as u32).collect::<Vec<u32>>();
        Given {
            inputs: circuit.inputs as u32,
            counts: words(&circuit.counts),
            nexts: words(&circuit.nexts),
            resets: words(&circuit.resets),
            gates: words(&circuit.gates),
            sizes: words(&circuit.sizes),
            roots: words(&circuit.roots),
        }
    }
}

impl Given {
    /// V, which is computed.
    pub fn top(&self) -> u64 {
        self.inputs as u64 + self.nexts.len() as u64 + self.gates.len() as u64 / 2
    }

    /// The code of the first gate.
    pub fn first_code(&self) -> u64 {
        2 * (self.inputs as u64 + self.nexts.len() as u64 + 1)
    }

    /// The latches' own literals.
    pub fn states(&self) -> impl Iterator<Item = u64> + '_ {
        (self.inputs as u64 + 1..).map(|variable| 2 * variable).take(self.nexts.len())
    }

    /// The first reset that is not 0, 1 or the latch's own literal.
    pub fn stray(&self) -> Option<u32> {
        let resets = self.resets.iter().zip(self.states());
        resets.filter(|&(&reset, state)| reset > 1 && reset as u64 != state).map(|(&reset, _)| reset).next()
    }

    /// The gates, each with its own code.
    fn coded(&self) -> impl Iterator<Item = (u64, u64, u64)> + '_ {
        let codes = (0..).map(|index| self.first_code() + 2 * index);
        codes.zip(self.gates.chunks_exact(2)).map(|(code, pair)| (code, pair[0] as u64, pair[1] as u64))
    }

    /// Whether the crate has a record of the circuit: the lists are those that the counts and sizes tell of, and each latch has a reset that it can have.
    pub fn recorded(&self) -> bool {
        self.shaped() && self.stray().is_none()
    }

    /// Whether the lists are those that the counts and sizes tell of, and there is a reset for each latch.
    pub fn shaped(&self) -> bool {
        let sum = |list: &[u32]| list.iter().map(|&count| count as u64).sum::<u64>();
        self.counts.len() == 5
            && self.gates.len() % 2 == 0
            && self.resets.len() == self.nexts.len()
            && sum(&self.counts) == self.roots.len() as u64
            && sum(&self.sizes) == self.counts[4] as u64
    }

    /// The first of the checks 1, 2, 4, 22 and 23 that does not pass, with the line that tells how the crate takes it.
    pub fn fault(&self, form: Form) -> Option<(Unwritten, Line)> {
        let no = |number, literal, line| Some((Unwritten { number, literal, needed: 0 }, line));
        if self.counts.len() != 5 {
            return no(2, 0, Line::Shape);
        }
        let lengths = [self.nexts.len(), self.gates.len() / 2, self.roots.len(), self.sizes.len()].map(|length| length as u64);
        if self.inputs as u64 > LIMIT || lengths.iter().any(|&length| length > LIMIT) || self.top() > LIMIT {
            return no(1, 0, Line::Size);
        }
        if !self.shaped() {
            return no(2, 0, Line::Shape);
        }
        let largest = 2 * self.top() + 1;
        let over = |code: &&u32| **code as u64 > largest;
        let latches = self.nexts.iter().zip(&self.resets).flat_map(|(next, reset)| [next, reset]);
        if let Some(&code) = self.gates.iter().chain(latches).chain(&self.roots).find(over) {
            return no(4, code as u64, Line::Code);
        }
        if let Some(reset) = self.stray() {
            return no(22, reset as u64, Line::Stray);
        }
        for (code, first, second) in self.coded() {
            if first >= code || first < second {
                let line = match first.max(second) {
                    _ if form == Form::Text => Line::Disordered,
                    _ if first < second && second <= code => Line::Swapped,
                    larger if larger == code => Line::Own,
                    _ => Line::Above,
                };
                return no(23, code, line);
            }
        }
        None
    }

    /// The file's bytes, where the lists are those that the counts tell of; none where the crate stops. `top` is the M that stands in the header. In a binary file a
    /// pair that is out of order is exchanged, as the crate does; document 02 has none.
    pub fn bytes(&self, form: Form, top: u64) -> Option<Vec<u8>> {
        let [outputs, bad, constraints, fairness, _] = self.counts[..] else { return None };
        let mut header: Vec<u64> = vec![top, self.inputs as u64, self.nexts.len() as u64, outputs as u64, self.gates.len() as u64 / 2];
        let optional = [bad as u64, constraints as u64, self.sizes.len() as u64, fairness as u64];
        let last = optional.iter().rposition(|&count| count > 0).map_or(0, |index| index + 1);
        header.extend(&optional[..last]);
        let mut text = String::from(form.tag());
        header.iter().for_each(|count| text.push_str(&format!(" {count}")));
        text.push('\n');
        self.sources(form, &mut text);
        // the walk's order is outputs, bad, constraints, fairness, justice; the file's has justice before fairness
        let kept = outputs as usize + bad as usize + constraints as usize;
        let (first, rest) = self.roots.split_at(kept);
        let (fair, justice) = rest.split_at(fairness as usize);
        let lines = first.iter().chain(&self.sizes).chain(justice).chain(fair);
        lines.for_each(|line| text.push_str(&format!("{line}\n")));
        match form {
            Form::Text => {
                self.coded().for_each(|(code, first, second)| text.push_str(&format!("{code} {first} {second}\n")));
                Some(text.into_bytes())
            }
            Form::Binary => self.deltas(text.into_bytes()),
        }
    }

    /// The lines of inputs, which a binary file does not have, and of latches, where it has no states. A reset stands there only where it is not 0.
    fn sources(&self, form: Form, text: &mut String) {
        if form == Form::Text {
            (1..=self.inputs as u64).for_each(|variable| text.push_str(&format!("{}\n", 2 * variable)));
        }
        for ((next, reset), state) in self.nexts.iter().zip(&self.resets).zip(self.states()) {
            if form == Form::Text {
                text.push_str(&format!("{state} "));
            }
            match reset {
                0 => text.push_str(&format!("{next}\n")),
                _ => text.push_str(&format!("{next} {reset}\n")),
            }
        }
    }

    /// The bytes with the deltas of the gates behind them, none where an input is above its gate.
    fn deltas(&self, mut bytes: Vec<u8>) -> Option<Vec<u8>> {
        for (code, first, second) in self.coded() {
            let (larger, smaller) = (first.max(second), first.min(second));
            put(&mut bytes, code.checked_sub(larger)?, 1);
            put(&mut bytes, larger - smaller, 1);
        }
        Some(bytes)
    }

    /// The most bytes that a file of so many variables, latches, roots and justice sets has.
    pub fn most_bytes(&self, form: Form) -> u64 {
        let [latches, roots, sets] = [self.nexts.len(), self.roots.len(), self.sizes.len()].map(|length| length as u64);
        match form {
            Form::Binary => 76 + 8 * (self.top() + latches + roots + sets),
            Form::Text => 76 + 8 * (3 * self.top() + roots + sets),
        }
    }
}

/// Writes into so many bytes: the file, or why not.
pub fn write(given: &Given, form: Form, room: usize) -> Result<Vec<u8>, Unwritten> {
    if let Some((refused, _)) = given.fault(form) {
        return Err(refused);
    }
    let bytes = given.bytes(form, given.top()).expect("a circuit that passes its checks has a file");
    match bytes.len() > room {
        true => Err(Unwritten { number: 3, literal: 0, needed: bytes.len() as u64 }),
        false => Ok(bytes),
    }
}

/// Whether a file that can be read is spelled as it would be written: no optional count past the last that is not zero, a reset field only where the reset
/// is not 0, every delta in its fewest bytes, and nothing after the last gate.
pub fn plain(bytes: &[u8]) -> bool {
    let mut rest = bytes;
    let mut line = || {
        let length = rest.iter().position(|&byte| byte == b'\n').expect("a whole line");
        let (line, after) = rest.split_at(length);
        rest = &after[1..];
        std::str::from_utf8(line).expect("a line of text")
    };
    let header: Vec<&str> = line().split(' ').collect();
    let count = |index: usize| header.get(index).map_or(0, |word| word.parse::<u64>().expect("a count"));
    if header.len() > 6 && header[header.len() - 1] == "0" {
        return false;
    }
    let mut fields = (0..count(3)).map(|_| line().ends_with(" 0")).collect::<Vec<bool>>();
    (0..count(4) + count(6) + count(7)).for_each(|_| {
        line();
    });
    let literals: u64 = (0..count(8)).map(|_| line().parse::<u64>().expect("a size")).sum();
    (0..literals + count(9)).for_each(|_| {
        line();
    });
    let mut deltas = 2 * count(5);
    let mut before = None;
    for (place, &byte) in rest.iter().enumerate() {
        if deltas == 0 {
            fields.push(place < rest.len());
            break;
        }
        // a delta that ends with a group of zeros behind another group has a byte too many
        fields.push(byte == 0 && before.is_some_and(|before| before > 127));
        deltas -= (byte < 128) as u64;
        before = Some(byte);
    }
    !fields.contains(&true)
}
