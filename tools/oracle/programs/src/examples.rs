//! The examples of document 01, with request Q-2's and Q-7's, of the review of the definitions and of the papers, as data.
//!
//! A circuit is written as document 01 writes it: `gates 6(2,4), 8(2,5)`, `latch 4 8` (state, next), lists
//! by name, flags by name, `V=2` where V is not the least that passes check 4. Starred ones are those that
//! document 01 wants proved. Lines of an answer are separated by ` | `.

pub const CIRCUITS: &[(&str, &str)] = &[
    (
        "inputs 2, 4, gate 6(2,4), root 6",
        "ordered 3 2 0 1 | 6 4 2 | r 6",
    ),
    ("* V=0", "ordered 0 0 0 0"),
    (
        "* inputs 4, 2, gate 6(2,4), root 6",
        "ordered 3 2 0 1 | 6 4 2 | r 6",
    ),
    ("* input 3, root 2", "ordered 1 1 0 0 | r 3"),
    (
        "* input 2, gate 5(2,2), root 4",
        "ordered 2 1 0 1 | 4 2 2 | r 5",
    ),
    (
        "* input 2, gate 5(2,2), root 4, fold",
        "ordered 1 1 0 0 | r 3",
    ),
    ("* input 2, gate 4(2,3), fold", "ordered 2 1 0 1 | 4 3 2"),
    ("* gate 2(2,0), root 2, fold", "refused 8 2"),
    ("* gate 2(2,0), root 3, trim, fold", "refused 8 2"),
    ("* gate 2(2,0), trim, fold", "ordered 0 0 0 0"),
    ("gate 2(2,4), V=2, root 2", "refused 8 2"),
    ("gate 2(4,2), V=2, root 2", "refused 7 4"),
    ("inputs 2, 3", "refused 5 3"),
    ("input 0", "refused 5 0"),
    ("input 2, latch 2 0", "refused 6 2"),
    (
        "* inputs 2, 4, gates 6(2,4), 8(4,2), roots 6, 8, hash",
        "ordered 3 2 0 1 | 6 4 2 | r 6 | r 6",
    ),
    (
        "* inputs 2, 4, gates 6(2,4), 8(4,2), roots 6, 8",
        "ordered 4 2 0 2 | 6 4 2 | 8 4 2 | r 6 | r 8",
    ),
    (
        "* inputs 2, 4, gates 6(2,4), 8(6,0), root 8, trim, fold",
        "ordered 3 2 0 1 | 6 4 2 | r 0",
    ),
    (
        "inputs 2, 4, gates 6(2,4), 8(2,5), trim, justice 6, fairness 8",
        "ordered 4 2 0 2 | 6 5 2 | 8 4 2 | r 6 | r 8",
    ),
    // Examples that pin the definitions.
    ("gates 2(4,0), 4(2,0), root 2, trim", "refused 8 4"),
    ("gates 2(4,0), 4(6,0), 6(5,0), root 2, trim", "refused 8 6"),
    ("gate 2(5,2), V=2, root 2", "refused 7 5"),
    (
        "input 2, gate 4(2,1), fold, root 4",
        "ordered 1 1 0 0 | r 2",
    ),
    ("input 2, gate 3(0,0)", "refused 5 3"),
    ("input 2, latch 3 0", "refused 6 3"),
    ("inputs 4, 5, latch 0 0", "refused 5 5"),
    (
        "inputs 2, 4, gates 6(2,4), 8(2,5), roots 8, 6",
        "ordered 4 2 0 2 | 6 4 2 | 8 5 2 | r 8 | r 6",
    ),
    (
        "input 2, latch 4 8, gates 6(2,4), 8(2,5), root 6, trim",
        "ordered 4 1 1 2 | 6 5 2 | 8 4 2 | n 6 | r 8",
    ),
    ("V=1, latch 8 9", "refused 4 8"),
    ("V=1, gate 2(9,8)", "refused 4 9"),
    ("V=1, inputs 2, 2, root 9", "refused 4 9"),
    ("latches 2 0, 3 0", "refused 6 3"),
    (
        "inputs 2, 4, gates 6(2,4), 9(4,2), hash, roots 8, 9",
        "ordered 3 2 0 1 | 6 4 2 | r 7 | r 6",
    ),
    ("input 2, gate 4(0,6), fold, root 4", "refused 7 6"),
    ("input 2, gate 4(0,4), fold, root 4", "refused 8 4"),
    ("gate 2(2,0), trim, root 3", "refused 8 2"),
    ("latch 0 0", "refused 6 0"),
    ("latch 1 0", "refused 6 1"),
];

/// Circuits with resets, and what the resets become.
pub const RESETS: &[(&str, &str)] = &[
    ("latch 2 0", "resets [0]"),
    ("latch 2 0, reset 0", "resets [0]"),
    ("latch 2 0, reset 1", "resets [1]"),
    ("latch 2 0, reset 2", "resets [2]"),
    ("latch 2 0, reset 3", "refused 22 3"),
    // the own literal is the one that is written
    ("latch 3 0, reset 3", "resets [2]"),
    ("latch 3 0, reset 2", "refused 22 2"),
    ("latch 3 0, reset 1", "resets [1]"),
    // it becomes the new one
    ("input 6, latches 5 6, 2 4, resets 5, 1", "resets [4, 1]"),
    ("inputs 2, 4, latches 8 0, 6 0, resets 8, 6", "resets [6, 8]"),
    ("input 2, latch 4 2, reset 4, gate 6(2,4), root 6, trim, hash, fold", "resets [4]"),
    // another latch's, an input's, a gate's
    ("latches 4 0, 2 0, resets 2, 2", "refused 22 2"),
    ("input 2, latch 4 0, reset 2", "refused 22 2"),
    ("latch 4 0, reset 2, gate 2(0,0)", "refused 22 2"),
    // the first one
    ("latches 2 0, 4 0, 6 0, resets 1, 5, 7", "refused 22 5"),
    // 4 comes first, latch by latch (state, next, reset), roots too; then 22; then 5, 6, 7 and 8
    ("V=2, latch 4 0, reset 6", "refused 4 6"),
    ("V=2, latch 4 0, reset 3, root 9", "refused 4 9"),
    ("V=1, latch 2 8, reset 9", "refused 4 8"),
    ("V=1, latches 2 0, 8 0, resets 9, 0", "refused 4 9"),
    ("V=1, latches 2 0, 8 0, resets 3, 0", "refused 4 8"),
    ("inputs 2, 2, latch 4 0, reset 2", "refused 22 2"),
    ("input 2, latch 2 0, reset 3", "refused 22 3"),
    ("input 2, latch 2 0, reset 2", "refused 6 2"),
    ("latch 0 0, reset 0", "refused 6 0"),
    ("V=2, latch 2 4, reset 3", "refused 22 3"),
    ("V=2, latch 2 4, reset 2", "refused 7 4"),
    ("latch 2 4, reset 4, gate 4(4,4)", "refused 22 4"),
    ("latch 2 4, reset 1, gate 4(4,4)", "refused 8 4"),
];

/// Sheets as bytes: hexadecimal, and how often it is repeated.
pub const SHEETS: &[(&str, usize, &str)] = &[
    (
        "03 02 00 01 01 00 00 00 00 00 02 04 06 02 04 06",
        1,
        "ordered 3 2 0 1 | 6 4 2 | r 6",
    ),
    ("", 1, "refused 15 0"),
    ("00", 9, "refused 15 9"),
    ("80", 7, "refused 15 0"),
    ("80", 8, "refused 16 0"),
    ("80 08 00 00 00 00 00 00 00 00 08", 1, "refused 1 0"),
    ("00 00 00 00 00 00 00 00 00 08", 1, "refused 2 0"),
    (
        "01 01 00 00 00 00 00 00 00 00 80 80 80 80 10",
        1,
        "refused 4 4294967296",
    ),
    ("00", 60_000, "refused 2 0"),
    ("00", 60_001, "refused 1 0"),
];

/// Questions, with the bytes in words, and the documents' answers.
pub const TOKENS: &[(&str, &str, &str)] = &[
    ("uint 0 30", "`0`", "V 0 1"),
    ("uint 0 3030", "`00`", "R 11 0"),
    ("uint 0 3031", "`01`", "R 11 0"),
    (
        "uint 0 3138343436373434303733373039353531363135",
        "2^64 - 1",
        "V 18446744073709551615 20",
    ),
    (
        "uint 0 3138343436373434303733373039353531363136",
        "2^64",
        "R 21 0",
    ),
    (
        "uint 0 303138343436373434303733373039353531363136",
        "0 before 2^64",
        "R 11 0",
    ),
    ("uint 0 313278", "`12x`", "V 12 2"),
    ("uint 5 31", "past the end", "R 10 5"),
    ("uint 0 -", "no bytes", "R 10 0"),
    ("lit 0 6 1 36", "`6`, assigning", "V 6 1"),
    ("lit 0 6 1 37", "`7`, assigning", "R 14 0"),
    ("lit 0 6 1 38", "`8`, assigning", "R 12 0"),
    ("lit 0 6 1 30", "`0`, assigning", "R 13 0"),
    (
        "lit 0 6 1 39",
        "`9`, assigning: the sign before the limit",
        "R 14 0",
    ),
    ("lit 0 6 1 3030", "`00`, assigning", "R 11 0"),
    (
        "lit 0 6 1 3138343436373434303733373039353531363137",
        "2^64 + 1, assigning",
        "R 21 0",
    ),
    ("lit 0 6 0 36", "`6`", "V 6 1"),
    ("lit 0 6 0 37", "`7`", "R 12 0"),
    ("header_field 0 6 36", "`6`", "V 6 1"),
    ("header_field 0 6 37", "`7`", "R 12 0"),
    ("symbol_index 0 6 36", "`6`", "V 6 1"),
    ("symbol_index 0 6 37", "`7`", "R 12 0"),
    ("delta_code 0 6 02", "*", "V 4 1"),
    ("delta_code 0 6 8000", "*", "V 6 2"),
    ("delta_code 0 6 06", "all of the reference", "V 0 1"),
    ("delta_code 0 6 07", "*", "R 17 0"),
    ("delta_code 0 6 80", "*", "R 15 0"),
    ("delta_code 0 6 8080808080808080", "*", "R 16 0"),
    ("delta_code 0 6 8080808080808000", "eight groups", "V 6 8"),
    ("pair 0 6 0202", "", "P 4 2 2"),
    ("pair 0 6 0200", "a second delta of zero", "P 4 4 2"),
    ("pair 1 6 ff0205", "", "R 17 2"),
    ("pair 0 6 0280", "the second is cut", "R 15 1"),
    ("pair 0 6 00", "zero, and no second", "R 15 1"),
    ("pair 0 6 0007", "zero, and the second over it", "R 17 1"),
    ("pair 0 6 80008080808080808080", "zero, and the second too long", "R 16 2"),
    // The paper's table of numbers in seven-bit groups.
    ("binary_uint 0 00", "0", "V 0 1"),
    ("binary_uint 0 01", "1", "V 1 1"),
    ("binary_uint 0 7f", "2^7 - 1", "V 127 1"),
    ("binary_uint 0 8001", "2^7", "V 128 2"),
    ("binary_uint 0 8202", "2^8 + 2", "V 258 2"),
    ("binary_uint 0 ff7f", "2^14 - 1", "V 16383 2"),
    ("binary_uint 0 838001", "2^14 + 3", "V 16387 3"),
    ("binary_uint 0 ffffff7f", "2^28 - 1", "V 268435455 4"),
    ("binary_uint 0 8780808001", "2^28 + 7", "V 268435463 5"),
];

/// The paper's example circuits in text form, lines separated by ` / `, and their order.
pub const TEXTS: &[(&str, &str)] = &[
    ("aag 0 0 0 0 0", "ordered 0 0 0 0"),
    ("aag 0 0 0 1 0 / 0", "ordered 0 0 0 0 | r 0"),
    ("aag 0 0 0 1 0 / 1", "ordered 0 0 0 0 | r 1"),
    ("aag 1 1 0 1 0 / 2 / 2", "ordered 1 1 0 0 | r 2"),
    ("aag 1 1 0 1 0 / 2 / 3", "ordered 1 1 0 0 | r 3"),
    (
        "aag 3 2 0 1 1 / 2 / 4 / 6 / 6 2 4",
        "ordered 3 2 0 1 | 6 4 2 | r 6",
    ),
    (
        "aag 3 2 0 1 1 / 2 / 4 / 7 / 6 3 5",
        "ordered 3 2 0 1 | 6 5 3 | r 7",
    ),
    (
        "aag 7 2 0 2 3 / 2 / 4 / 6 / 12 / 6 13 15 / 12 2 4 / 14 3 5",
        "ordered 5 2 0 3 | 6 4 2 | 8 5 3 | 10 9 7 | r 10 | r 6",
    ),
    (
        "aag 1 0 1 2 0 / 2 3 / 2 / 3",
        "ordered 1 0 1 0 | n 3 | r 2 | r 3",
    ),
    (
        "aag 7 2 1 2 4 / 2 / 4 / 6 8 / 6 / 7 / 8 4 10 / 10 13 15 / 12 2 6 / 14 3 7",
        "ordered 7 2 1 4 | 8 6 2 | 10 7 3 | 12 11 9 | 14 12 4 | n 14 | r 6 | r 7",
    ),
];

/// The paper's half adder in binary form: what stands before the gates, and the gates.
pub const HALF_ADDER: (&str, &str) = ("aig 5 2 0 2 3\n10\n6\n", "02 02 03 02 01 02");

/// Questions that document 01 refuses, and what the crate has consumed by then. Document 01 wants none.
pub const CONSUMED: &[(&str, &str)] = &[
    ("uint 0 3030", "11 of uint"),
    ("header_field 0 6 3030", "11 of header_field"),
    ("delta_code 0 6 80", "15"),
    ("delta_code 0 6 8080808080808080", "16"),
    ("pair 0 6 07", "17 of a pair's first delta"),
    ("header_field 0 6 37", "12, the limit of header_field"),
    ("symbol_index 0 6 37", "12, the limit of symbol_index"),
    ("lit 0 6 0 37", "12, the limit of lit"),
    ("lit 0 6 1 30", "13"),
    ("lit 0 6 1 37", "14"),
    ("delta_code 0 6 07", "17"),
    ("pair 0 6 0280", "15 of a pair's second delta"),
    ("pair 0 6 028080808080808080", "16 of a pair's second delta"),
    ("pair 0 6 0205", "17 of a pair's second delta"),
];

/// Pairs that the crate alone takes and document 02 refuses: the output is not above its first input.
pub const PAIRS_ALONE: &[(&str, &str)] = &[
    ("pair 0 6 0002", "R 20 0"),
    ("pair 0 6 800002", "R 20 0"),
    ("pair 0 6 0000", "R 20 0"),
    ("pair 1 6 ff0002", "R 20 1"),
    ("pair 0 0 0000", "R 20 0"),
];

/// Circuits that the crate alone takes and document 01 refuses: its checks 4 and 6 are added.
pub const CRATE_ALONE: &[(&str, &str)] = &[
    ("V=0, input 2, root 3", "refused 4 2"),
    ("input 2, latch 2 0", "refused 6 2"),
    ("latches 2 0, 3 0", "refused 6 3"),
    ("gate 2(0,0), latch 2 0", "refused 6 2"),
    ("latch 0 1, root 0", "refused 6 0"),
    ("latch 1 1, root 0", "refused 6 1"),
];

/// The examples where the crate is known to answer otherwise, each with its reason.
pub const KNOWN: &[(&str, &str)] = &[
    ("header_field 0 6 37", MOVED_ON),
    ("symbol_index 0 6 37", MOVED_ON),
    ("lit 0 6 0 37", MOVED_ON),
    ("lit 0 6 1 30", MOVED_ON),
    ("lit 0 6 1 37", MOVED_ON),
    ("delta_code 0 6 07", MOVED_ON),
    ("pair 0 6 07", MOVED_ON),
    ("pair 0 6 0280", MOVED_ON),
    ("pair 0 6 028080808080808080", MOVED_ON),
    ("pair 0 6 0205", MOVED_ON),
    ("pair 0 6 0002", ZERO_FIRST),
    ("pair 0 6 800002", ZERO_FIRST),
    ("pair 0 6 0000", ZERO_FIRST),
    ("pair 1 6 ff0002", ZERO_FIRST),
    ("pair 0 0 0000", ZERO_FIRST),
    (
        "V=0, input 2, root 3",
        "the crate ignores max_var_index: the code limit is added",
    ),
    ("input 2, latch 2 0", NO_LATCH_CHECK),
    ("latches 2 0, 3 0", NO_LATCH_CHECK),
    ("gate 2(0,0), latch 2 0", NO_LATCH_CHECK),
    ("latch 0 1, root 0", NO_LATCH_CHECK),
    ("latch 1 1, root 0", NO_LATCH_CHECK),
];

const MOVED_ON: &str = "the crate has moved on before the test";
const ZERO_FIRST: &str = "the crate takes a first delta of zero: the test is added";
const NO_LATCH_CHECK: &str = "the crate maps the latch's variable anew: the latch check is added";
