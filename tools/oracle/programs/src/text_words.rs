//! Request Q-8, the text file, read as document 02's words have it and not as the crate's code does; by the other `Rules` as `file_words` does.
use crate::file_words::{Header, Part, Reader, Reading, Roots, Rules};

/// A circuit as a text has it: numbers that nobody has held to each other yet.
#[derive(Clone, Default, PartialEq, Eq, Debug)]
pub struct Text {
    /// M, which may be above all that is defined.
    pub top: u64,
    pub inputs: Vec<u64>,
    pub states: Vec<u64>,
    pub nexts: Vec<u64>,
    pub resets: Vec<u64>,
    /// Three words a gate, as it is written: its output, its first and its second input.
    pub gates: Vec<u64>,
    pub sizes: Vec<u64>,
    /// How many outputs, bad states, constraints, fairness constraints and justice literals: the walk's order.
    pub counts: [u64; 5],
    /// In the walk's order too.
    pub roots: Vec<u64>,
}

impl Text {
    /// The eleven words that are answered: the bytes used, M, I, L, A, the five counts, the number of justice sets.
    pub fn answer(&self, used: usize) -> [u64; 11] {
        let [o, b, c, f, j] = self.counts;
        let [inputs, latches, gates, sets] = [self.inputs.len(), self.states.len(), self.gates.len() / 3, self.sizes.len()].map(|length| length as u64);
        [used as u64, self.top, inputs, latches, gates, o, b, c, f, j, sets]
    }

    /// The lists that are lent, as they are filled.
    pub fn lists(&self) -> [&[u64]; 7] {
        [&self.inputs, &self.states, &self.nexts, &self.resets, &self.gates, &self.sizes, &self.roots]
    }
}

/// How many words of inputs, states, next states, resets, gates, sizes and roots are lent.
pub type Room = [usize; 7];

/// Room for whatever a text may hold.
pub const AMPLE: Room = [usize::MAX; 7];

impl Reader<'_> {
    /// A literal that is defined: 13 for 0, 14 for an odd one, and only then its limit.
    fn definition(&mut self, largest: u64) -> Part<u64> {
        let place = self.place;
        let value = self.number(u64::MAX, u64::MAX, None)?;
        let after = std::mem::replace(&mut self.place, place);
        match value {
            0 => self.refuse(13, None),
            _ if value % 2 == 1 => self.refuse(14, None),
            _ if value > largest => self.refuse(12, None),
            _ => {
                self.place = after;
                Ok(value)
            }
        }
    }

    /// A gate's line.
    fn gate(&mut self, largest: u64) -> Part<[u64; 3]> {
        let output = self.definition(largest)?;
        self.byte(b' ')?;
        let first = self.number(largest, largest, None)?;
        self.byte(b' ')?;
        let second = self.number(largest, largest, None)?;
        self.byte(b'\n')?;
        Ok([output, first, second])
    }

    fn text(&mut self, room: Room) -> Part<Text> {
        let header = self.header(b"aag")?;
        let Header { top, inputs, latches, gates, justice, .. } = header;
        let largest = 2 * top + 1;
        self.fits(&[inputs, latches, latches, latches, 3 * gates, justice], &room)?;
        let mut text = Text { top, ..Text::default() };
        for _ in 0..inputs {
            text.inputs.push(self.definition(largest)?);
            self.byte(b'\n')?;
        }
        for _ in 0..latches {
            let state = self.definition(largest)?;
            self.byte(b' ')?;
            let (next, reset) = self.latch(largest, state)?;
            text.states.push(state);
            text.nexts.push(next);
            text.resets.push(reset);
        }
        let Roots { sizes, counts, roots } = self.roots(&header, room[6])?;
        for _ in 0..gates {
            text.gates.extend(self.gate(largest)?);
        }
        Ok(Text { sizes, counts, roots, ..text })
    }
}

/// Reads a text.
pub fn read(bytes: &[u8], room: Room, rules: Rules) -> Reading<Text> {
    let mut reader = Reader { bytes, place: 0, rules };
    let text = reader.text(room)?;
    Ok((text, reader.place))
}

/// How many words of each list a text asks for, as far as its numbers can be read.
pub fn needed(bytes: &[u8]) -> Room {
    let mut reader = Reader { bytes, place: 0, rules: Rules::Request };
    let Ok(header) = reader.header(b"aag") else { return [0; 7] };
    let Header { inputs, latches, gates, justice, .. } = header;
    let roots = read(bytes, AMPLE, Rules::Request).map_or(header.roots(), |(text, _)| text.roots.len() as u64);
    [inputs, latches, latches, latches, 3 * gates, justice, roots].map(|words| words as usize)
}
