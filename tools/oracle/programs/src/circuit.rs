//! A circuit as document 01's sheet has it, with the resets of document 02: lists of numbers that nobody has checked yet.
use flussab_aiger::aig::{Aig, AndGate, Latch};

#[derive(Clone, Default)]
pub struct Circuit {
    /// V, the largest variable index.
    pub largest: u64,
    pub inputs: Vec<u64>,
    /// Output, first input, second input.
    pub gates: Vec<[u64; 3]>,
    /// State, next state, reset. A sheet has no resets: there each is 0.
    pub latches: Vec<[u64; 3]>,
    /// Outputs, bad, constraints, fairness, justice literals: the walk's order.
    pub roots: [Vec<u64>; 5],
    /// Trim 1, hash 2, fold 4.
    pub flags: u64,
}

impl Circuit {
    /// The ten numbers that open a sheet.
    pub fn header(&self) -> Vec<u64> {
        let lengths = [self.inputs.len(), self.latches.len(), self.gates.len()];
        let mut header = vec![self.largest];
        header.extend(lengths.iter().map(|&length| length as u64));
        header.extend(self.roots.iter().map(|list| list.len() as u64));
        header.push(self.flags);
        header
    }

    /// The codes in the order of check 4.
    pub fn codes(&self) -> Vec<u64> {
        self.listed(3)
    }

    /// The codes in the order of a sheet, which has no resets.
    pub fn sheet_codes(&self) -> Vec<u64> {
        self.listed(2)
    }

    /// The codes, of each latch the first so many.
    fn listed(&self, of_latch: usize) -> Vec<u64> {
        let mut codes = self.inputs.clone();
        codes.extend(self.gates.iter().flatten());
        codes.extend(self.latches.iter().flat_map(|latch| &latch[..of_latch]));
        codes.extend(self.roots.iter().flatten());
        codes
    }

    /// The codes in the order of check 4, to be changed.
    pub fn codes_mut(&mut self) -> Vec<&mut u64> {
        self.listed_mut(3)
    }

    /// Those of a sheet, to be changed.
    pub fn sheet_codes_mut(&mut self) -> Vec<&mut u64> {
        self.listed_mut(2)
    }

    fn listed_mut(&mut self, of_latch: usize) -> Vec<&mut u64> {
        let mut codes: Vec<&mut u64> = self.inputs.iter_mut().collect();
        codes.extend(self.gates.iter_mut().flatten());
        codes.extend(self.latches.iter_mut().flat_map(|latch| &mut latch[..of_latch]));
        codes.extend(self.roots.iter_mut().flatten());
        codes
    }

    /// All numbers of the sheet.
    pub fn numbers(&self) -> Vec<u64> {
        let mut numbers = self.header();
        numbers.extend(self.sheet_codes());
        numbers
    }

    /// Check 22: the first reset that is not 0, 1 or the latch's own literal as it is written.
    pub fn stray(&self) -> Option<u64> {
        let resets = self.latches.iter().map(|&[state, _, reset]| (state, reset));
        resets.filter(|&(state, reset)| reset > 1 && reset != state).map(|(_, reset)| reset).next()
    }

    /// The sheet, each number in its fewest bytes.
    pub fn sheet(&self) -> Vec<u8> {
        let mut sheet = vec![];
        for number in self.numbers() {
            put(&mut sheet, number, 1);
        }
        sheet
    }

    /// The crate's record. Every code must fit 32 bits, and no reset may be stray: the crate has no such record.
    pub fn to_crate(&self) -> Aig<u32> {
        let code = |code: &u64| u32::try_from(*code).expect("check 4 has been made");
        let list = |index: usize| self.roots[index].iter().map(code).collect::<Vec<u32>>();
        let gate = |[output, first, second]: &[u64; 3]| AndGate {
            output: code(output),
            inputs: [code(first), code(second)],
        };
        let latch = |[state, next, reset]: &[u64; 3]| Latch {
            state: code(state),
            next_state: code(next),
            initialization: start(*state, *reset),
        };
        Aig {
            max_var_index: self.largest as usize,
            inputs: self.inputs.iter().map(code).collect(),
            and_gates: self.gates.iter().map(gate).collect(),
            latches: self.latches.iter().map(latch).collect(),
            outputs: list(0),
            bad_state_properties: list(1),
            invariant_constraints: list(2),
            fairness_constraints: list(3),
            justice_properties: vec![list(4)],
            ..Aig::default()
        }
    }
}

/// What a latch starts at: none for either.
pub fn start(own: u64, reset: u64) -> Option<bool> {
    match reset {
        0 => Some(false),
        1 => Some(true),
        _ if reset == own => None,
        _ => panic!("a reset of the latch {own} that passes check 22, and not {reset}"),
    }
}

/// The reset of a latch with this literal.
pub fn reset(own: u64, start: Option<bool>) -> u64 {
    start.map_or(own, u64::from)
}

/// Appends a number in seven-bit groups, low first, with zero groups up to `least` bytes.
pub fn put(bytes: &mut Vec<u8>, mut number: u64, least: usize) {
    let start = bytes.len();
    while number >= 128 || bytes.len() - start + 1 < least {
        bytes.push(number as u8 | 0x80);
        number >>= 7;
    }
    bytes.push(number as u8);
}
