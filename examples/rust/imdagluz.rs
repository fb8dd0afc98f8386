//! `imdagluz_renumber` behind a safe function. What the header asks of a caller holds here by the types: the pointer of a slice is aligned and never
//! null, and a slice that is borrowed to be written overlaps no other.

extern "C" {
    fn imdagluz_renumber(
        top: u32, counts: *const u32, counts_length: usize, flags: u32,
        inputs: *const u32, inputs_length: usize, states: *const u32, states_length: usize, nexts: *const u32, nexts_length: usize,
        resets: *const u32, resets_length: usize, gates: *const u32, gates_length: usize, roots: *const u32, roots_length: usize,
        map: *mut u32, map_length: usize, next_images: *mut u32, next_images_length: usize, reset_images: *mut u32, reset_images_length: usize,
        root_images: *mut u32, root_images_length: usize, gates_out: *mut u32, gates_out_length: usize,
        scratch: *mut u32, scratch_length: usize, answer: *mut u32, answer_length: usize,
    ) -> u32;
}

/// What may be left out or joined on the way; the header says how.
#[derive(Clone, Copy, Debug, Default)]
pub struct Flags {
    pub trim: bool,
    pub hash: bool,
    pub fold: bool,
}

impl Flags {
    pub fn number(self) -> u32 {
        u32::from(self.trim) + 2 * u32::from(self.hash) + 4 * u32::from(self.fold)
    }
}

/// A circuit by its codes, the gates flat, three codes a gate. The counts are those of outputs, bad states, constraints, fairness and justice literals.
/// A latch's reset is 0 or 1 where it starts there, and its own literal where it starts at either.
#[derive(Clone, Copy, Debug)]
pub struct Circuit<'a> {
    pub top: u32,
    pub counts: [u32; 5],
    pub flags: Flags,
    pub inputs: &'a [u32],
    pub states: &'a [u32],
    pub nexts: &'a [u32],
    pub resets: &'a [u32],
    pub gates: &'a [u32],
    pub roots: &'a [u32],
}

/// What is written: V+1, L, L, R, 2G and 3V+3+3G words or more.
#[derive(Debug)]
pub struct Lists<'a> {
    pub map: &'a mut [u32],
    pub next_images: &'a mut [u32],
    pub reset_images: &'a mut [u32],
    pub root_images: &'a mut [u32],
    pub gates_out: &'a mut [u32],
    pub scratch: &'a mut [u32],
}

/// What a success answers.
#[derive(Clone, Copy, Debug, PartialEq, Eq)]
pub struct Ordered {
    pub gates_made: u32,
    pub largest_variable: u32,
}

/// Why a circuit is refused, with the literal at fault where there is one.
#[derive(Clone, Copy, Debug, PartialEq, Eq)]
pub enum Refusal {
    TooBig,
    Misshapen,
    ShortBuffer,
    CodeOver(u32),
    DefinedAgain(u32),
    StateAgain(u32),
    Undefined(u32),
    Cycle(u32),
    StrayReset(u32),
}

fn refusal(number: u32, literal: u32) -> Refusal {
    match number {
        1 => Refusal::TooBig,
        2 => Refusal::Misshapen,
        3 => Refusal::ShortBuffer,
        4 => Refusal::CodeOver(literal),
        5 => Refusal::DefinedAgain(literal),
        6 => Refusal::StateAgain(literal),
        7 => Refusal::Undefined(literal),
        8 => Refusal::Cycle(literal),
        22 => Refusal::StrayReset(literal),
        _ => unreachable!("the library answers 0 to 8 and 22"),
    }
}

/// Renumbers a circuit. Words of the lists past those that it asks for keep what they hold.
pub fn renumber(circuit: &Circuit, lists: Lists) -> Result<Ordered, Refusal> {
    let c = circuit;
    let mut answer = [0; 3];
    // SAFETY: each pointer stands beside the length of its slice, and the slices that are written are borrowed mutably.
    let number = unsafe {
        imdagluz_renumber(
            c.top, c.counts.as_ptr(), c.counts.len(), c.flags.number(),
            c.inputs.as_ptr(), c.inputs.len(), c.states.as_ptr(), c.states.len(), c.nexts.as_ptr(), c.nexts.len(),
            c.resets.as_ptr(), c.resets.len(), c.gates.as_ptr(), c.gates.len(), c.roots.as_ptr(), c.roots.len(),
            lists.map.as_mut_ptr(), lists.map.len(), lists.next_images.as_mut_ptr(), lists.next_images.len(),
            lists.reset_images.as_mut_ptr(), lists.reset_images.len(),
            lists.root_images.as_mut_ptr(), lists.root_images.len(), lists.gates_out.as_mut_ptr(), lists.gates_out.len(),
            lists.scratch.as_mut_ptr(), lists.scratch.len(), answer.as_mut_ptr(), answer.len(),
        )
    };
    let [literal, gates_made, largest_variable] = answer;
    match number {
        0 => Ok(Ordered { gates_made, largest_variable }),
        _ => Err(refusal(number, literal)),
    }
}
