//! Requests, the binary file, read as document 02's words have it and not as the crate's code does. By the other `Rules` it reads as the crate
//! would, were the lines of docs/DIFFERENCES.md all that sets the two apart: so that those lines can be held to the crate, each by itself. The header, latch lines
//! and the root section are the text file's too (`text_words`).

/// Every count and size of the request is at most this, and so are the roots.
pub const LIMIT: u64 = 1_048_575;

/// Whose rules a file is read by.
#[derive(Clone, Copy, PartialEq, Eq, Debug)]
pub enum Rules {
    Request,
    Crate,
}

/// A line of docs/DIFFERENCES.md: a file is refused by one of the two where the other reads on.
#[derive(Clone, Copy, PartialEq, Eq, PartialOrd, Ord, Debug)]
pub enum Line {
    Top,
    Outputs,
    Optional,
    Size,
    Above,
    TooMany,
    Short,
    Zero,
}

impl Line {
    /// What the line says.
    pub fn words(self) -> &'static str {
        match self {
            Line::Top => "M over 1,048,575 (12)",
            Line::Outputs => "O over 1,048,575 (12)",
            Line::Optional => "B, C, J or F over M-I-L, which the crate refuses",
            Line::Size => "a justice size over 1,048,575 (12)",
            Line::Above => "M above I+L+A (19)",
            Line::TooMany => "more than 1,048,575 roots (1)",
            Line::Short => "a lent list too short (3)",
            Line::Zero => "a first delta that is zero (20)",
        }
    }
}

/// A refusal, where it stands, and the line of docs/DIFFERENCES.md where only one of the two gives it.
#[derive(Clone, Copy, PartialEq, Eq, Debug)]
pub struct Refused {
    pub number: u64,
    pub place: usize,
    pub line: Option<Line>,
}

/// An ordered circuit as a file has it.
#[derive(Clone, Default, PartialEq, Eq, Debug)]
pub struct Ordered {
    /// M, the largest variable.
    pub top: u64,
    pub inputs: u64,
    pub nexts: Vec<u64>,
    pub resets: Vec<u64>,
    /// Two words a gate, the larger input first.
    pub gates: Vec<u64>,
    pub sizes: Vec<u64>,
    /// How many outputs, bad states, constraints, fairness constraints and justice literals: the walk's order.
    pub counts: [u64; 5],
    /// In the walk's order too.
    pub roots: Vec<u64>,
}

impl Ordered {
    /// The eleven words that are answered: the bytes used, M, I, L, A, the five counts, the number of justice sets.
    pub fn answer(&self, used: usize) -> [u64; 11] {
        let [o, b, c, f, j] = self.counts;
        let [latches, gates, sets] = [self.nexts.len(), self.gates.len() / 2, self.sizes.len()].map(|length| length as u64);
        [used as u64, self.top, self.inputs, latches, gates, o, b, c, f, j, sets]
    }

    /// The lists that are lent, as they are filled.
    pub fn lists(&self) -> [&[u64]; 5] {
        [&self.nexts, &self.resets, &self.gates, &self.sizes, &self.roots]
    }
}

/// What a file is read as, and how many of its bytes that takes.
pub type Reading<C = Ordered> = Result<(C, usize), Refused>;

/// How many words of next states, resets, gates, sizes and roots are lent.
pub type Room = [usize; 5];

/// Room for whatever a file may hold.
pub const AMPLE: Room = [usize::MAX; 5];

/// The counts of the first line.
pub(crate) struct Header {
    pub top: u64,
    pub inputs: u64,
    pub latches: u64,
    outputs: u64,
    pub gates: u64,
    bad: u64,
    constraints: u64,
    pub justice: u64,
    fairness: u64,
}

impl Header {
    /// How many roots there are without the justice literals, which the header does not count.
    pub fn roots(&self) -> u64 {
        self.outputs + self.bad + self.constraints + self.fairness
    }
}

/// What the root section holds.
pub(crate) struct Roots {
    pub sizes: Vec<u64>,
    pub counts: [u64; 5],
    pub roots: Vec<u64>,
}

/// A place in the bytes.
pub(crate) struct Reader<'a> {
    pub bytes: &'a [u8],
    pub place: usize,
    pub rules: Rules,
}

pub(crate) type Part<T> = Result<T, Refused>;

impl Reader<'_> {
    pub fn refuse<T>(&self, number: u64, line: Option<Line>) -> Part<T> {
        Err(Refused { number, place: self.place, line })
    }

    fn stands(&self, byte: u8) -> bool {
        self.bytes.get(self.place) == Some(&byte)
    }

    /// A space or a newline that has to stand here.
    pub fn byte(&mut self, byte: u8) -> Part<()> {
        if !self.stands(byte) {
            return self.refuse(18, None);
        }
        self.place += 1;
        Ok(())
    }

    /// A decimal number: the limit of the request, that of the crate, and the line that tells of it where they are not the same.
    pub fn number(&mut self, request: u64, by_crate: u64, line: Option<Line>) -> Part<u64> {
        let rest = &self.bytes[self.place..];
        let length = rest.iter().take_while(|byte| byte.is_ascii_digit()).count();
        if length == 0 {
            return self.refuse(10, None);
        }
        if length > 1 && rest[0] == b'0' {
            return self.refuse(11, None);
        }
        let (limit, other) = match self.rules {
            Rules::Request => (request, by_crate),
            Rules::Crate => (by_crate, request),
        };
        match std::str::from_utf8(&rest[..length]).unwrap().parse::<u64>() {
            Ok(value) if value <= limit => {
                self.place += length;
                Ok(value)
            }
            Ok(value) if value <= other => self.refuse(12, line),
            Ok(_) => self.refuse(12, None),
            Err(_) => self.refuse(21, None),
        }
    }

    /// A number in the header behind a space.
    fn count(&mut self, request: u64, by_crate: u64, line: Option<Line>) -> Part<u64> {
        self.byte(b' ')?;
        self.number(request, by_crate, line)
    }

    /// Lines with a literal each.
    fn literals(&mut self, count: u64, largest: u64) -> Part<Vec<u64>> {
        let mut literals = vec![];
        for _ in 0..count {
            literals.push(self.number(largest, largest, None)?);
            self.byte(b'\n')?;
        }
        Ok(literals)
    }

    /// The first line, which begins with the tag.
    pub fn header(&mut self, tag: &[u8; 3]) -> Part<Header> {
        if !self.bytes.starts_with(tag) {
            return self.refuse(18, None);
        }
        self.place = 3;
        let top = self.count(LIMIT, (1 << 31) - 1, Some(Line::Top))?;
        let inputs = self.count(top, top, None)?;
        let latches = self.count(top - inputs, top - inputs, None)?;
        let outputs = self.count(LIMIT, u64::MAX, Some(Line::Outputs))?;
        let left = top - inputs - latches;
        let gates = self.count(left, left, None)?;
        let mut optional = [0; 4];
        for count in &mut optional {
            if self.stands(b' ') {
                *count = self.count(LIMIT, left, Some(Line::Optional))?;
            }
        }
        self.byte(b'\n')?;
        let [bad, constraints, justice, fairness] = optional;
        Ok(Header { top, inputs, latches, outputs, gates, bad, constraints, justice, fairness })
    }

    /// Right after the header: 19 where M is above what is defined.
    fn defined(&self, header: &Header) -> Part<()> {
        match self.rules == Rules::Request && header.top > header.inputs + header.latches + header.gates {
            true => self.refuse(19, Some(Line::Above)),
            false => Ok(()),
        }
    }

    /// Then 3 for any short list but the roots'.
    pub fn fits(&self, needed: &[u64], room: &[usize]) -> Part<()> {
        let short = needed.iter().zip(room).any(|(&words, &lent)| words > lent as u64);
        match self.rules == Rules::Request && short {
            true => self.refuse(3, Some(Line::Short)),
            false => Ok(()),
        }
    }

    /// A latch's next state and its reset, 0 where there is none. One that is not 0, 1 or the latch is told before what follows it is looked at.
    pub fn latch(&mut self, largest: u64, own: u64) -> Part<(u64, u64)> {
        let next = self.number(largest, largest, None)?;
        if !self.stands(b' ') {
            self.byte(b'\n')?;
            return Ok((next, 0));
        }
        self.place += 1;
        let field = self.place;
        let reset = self.number(largest, largest, None)?;
        if reset > 1 && reset != own {
            self.place = field;
            return self.refuse(22, None);
        }
        self.byte(b'\n')?;
        Ok((next, reset))
    }

    fn sizes(&mut self, count: u64) -> Part<Vec<u64>> {
        let (mut sizes, mut left) = (vec![], u64::MAX);
        for _ in 0..count {
            let size = self.number(LIMIT, left, Some(Line::Size))?;
            self.byte(b'\n')?;
            sizes.push(size);
            left -= size;
        }
        Ok(sizes)
    }

    /// Where the sizes end: 1 for the number of roots, then 3 for a short root list.
    fn roots_fit(&self, roots: u128, room: usize) -> Part<()> {
        match self.rules {
            Rules::Crate => Ok(()),
            Rules::Request if roots > LIMIT as u128 => self.refuse(1, Some(Line::TooMany)),
            Rules::Request if roots > room as u128 => self.refuse(3, Some(Line::Short)),
            Rules::Request => Ok(()),
        }
    }

    /// The root section, into so many words for the roots.
    pub fn roots(&mut self, header: &Header, room: usize) -> Part<Roots> {
        let &Header { top, outputs, bad, constraints, justice, fairness, .. } = header;
        let largest = 2 * top + 1;
        let mut roots = vec![];
        for count in [outputs, bad, constraints] {
            roots.extend(self.literals(count, largest)?);
        }
        let sizes = self.sizes(justice)?;
        let literals: u64 = sizes.iter().sum();
        let counts = [outputs, bad, constraints, fairness, literals];
        self.roots_fit(counts.iter().map(|&count| count as u128).sum(), room)?;
        let justice = self.literals(literals, largest)?;
        roots.extend(self.literals(fairness, largest)?);
        roots.extend(justice);
        Ok(Roots { sizes, counts, roots })
    }

    /// The code that stands by a delta below its reference.
    fn delta(&mut self, reference: u64) -> Part<u64> {
        let mut value = 0;
        for index in 0..8 {
            let Some(&byte) = self.bytes.get(self.place + index) else {
                return self.refuse(15, None);
            };
            value += (byte as u64 % 128) << (7 * index);
            if byte < 128 {
                if value > reference {
                    return self.refuse(17, None);
                }
                self.place += index + 1;
                return Ok(reference - value);
            }
        }
        self.refuse(16, None)
    }

    /// A gate's two inputs. That the first is the output itself is told once both are read, and where the first delta stands.
    fn pair(&mut self, output: u64) -> Part<[u64; 2]> {
        let place = self.place;
        let first = self.delta(output)?;
        let second = self.delta(first)?;
        if self.rules == Rules::Request && first == output {
            self.place = place;
            return self.refuse(20, Some(Line::Zero));
        }
        Ok([first, second])
    }

    fn file(&mut self, room: Room) -> Part<Ordered> {
        let header = self.header(b"aig")?;
        let Header { top, inputs, latches, gates, justice, .. } = header;
        self.defined(&header)?;
        self.fits(&[latches, latches, 2 * gates, justice], &room)?;
        let mut circuit = Ordered { top, inputs, ..Ordered::default() };
        for index in 0..latches {
            let (next, reset) = self.latch(2 * top + 1, 2 * (inputs + 1 + index))?;
            circuit.nexts.push(next);
            circuit.resets.push(reset);
        }
        let Roots { sizes, counts, roots } = self.roots(&header, room[4])?;
        for index in 0..gates {
            circuit.gates.extend(self.pair(2 * (inputs + latches + 1 + index))?);
        }
        Ok(Ordered { sizes, counts, roots, ..circuit })
    }
}

/// Reads a file.
pub fn read(bytes: &[u8], room: Room, rules: Rules) -> Reading {
    let mut reader = Reader { bytes, place: 0, rules };
    let circuit = reader.file(room)?;
    Ok((circuit, reader.place))
}

/// How many words of each list a file asks for, as far as its numbers can be read.
pub fn needed(bytes: &[u8]) -> Room {
    let mut reader = Reader { bytes, place: 0, rules: Rules::Request };
    let Ok(header) = reader.header(b"aig") else { return [0; 5] };
    let Header { latches, gates, justice, .. } = header;
    let roots = read(bytes, AMPLE, Rules::Request).map_or(header.roots(), |(circuit, _)| circuit.roots.len() as u64);
    [latches, latches, 2 * gates, justice, roots].map(|words| words as usize)
}
