//! Ordered circuits to be written, each with the answer that document 02's words give, and what the crate writes: the smallest of each line of docs/DIFFERENCES.md too.
use crate::write_words::{Form, Given};

/// A circuit, the bytes lent, the answer (the file's bytes, or the number, the literal and the bytes needed), and the crate's bytes, none where it panics or has no record.
pub type Case = (Given, usize, Result<&'static [u8], (u32, u64, u64)>, Option<&'static [u8]>);

fn given(inputs: u32, counts: [u32; 5], nexts: &[u32], gates: &[u32], sizes: &[u32], roots: &[u32]) -> Given {
    latched(inputs, counts, [nexts, &vec![0; nexts.len()]], gates, sizes, roots)
}

/// The same with resets beside the next states.
fn latched(inputs: u32, counts: [u32; 5], [nexts, resets]: [&[u32]; 2], gates: &[u32], sizes: &[u32], roots: &[u32]) -> Given {
    let list = |list: &[u32]| list.to_vec();
    Given { inputs, counts: list(&counts), nexts: list(nexts), resets: list(resets), gates: list(gates), sizes: list(sizes), roots: list(roots) }
}

pub fn cases(form: Form) -> Vec<Case> {
    match form {
        Form::Binary => binary_cases(),
        Form::Text => text_cases(),
    }
}

fn binary_cases() -> Vec<Case> {
    let good = |given: Given, bytes: &'static [u8]| (given, bytes.len(), Ok(bytes), Some(bytes));
    let none = [0; 5];
    let bare = |gates: &[u32]| given(0, none, &[], gates, &[], &[]);
    vec![
        good(bare(&[]), b"aig 0 0 0 0 0\n"),
        (bare(&[]), 13, Err((3, 0, 14)), Some(b"aig 0 0 0 0 0\n")),
        (bare(&[]), 0, Err((3, 0, 14)), Some(b"aig 0 0 0 0 0\n")),
        good(bare(&[1, 0]), b"aig 1 0 0 0 1\n\x01\x01"),
        good(bare(&[1, 1]), b"aig 1 0 0 0 1\n\x01\0"),
        (bare(&[0, 1]), 99, Err((23, 2, 0)), Some(b"aig 1 0 0 0 1\n\x01\x01")),
        (bare(&[2, 0]), 99, Err((23, 2, 0)), Some(b"aig 1 0 0 0 1\n\0\x02")),
        (bare(&[3, 0]), 99, Err((23, 2, 0)), None),
        (bare(&[4, 0]), 99, Err((4, 4, 0)), None),
        (bare(&[0, 0, 0, 1, 5, 0]), 99, Err((23, 4, 0)), Some(b"aig 3 0 0 0 3\n\x02\0\x03\x01\x01\x05")),
        (given(2, none, &[], &[6, 2], &[], &[]), 99, Err((23, 6, 0)), Some(b"aig 3 2 0 0 1\n\0\x04")),
        (given(0, [1, 0, 0, 0, 0], &[], &[], &[], &[2]), 99, Err((4, 2, 0)), Some(b"aig 0 0 0 1 0\n2\n")),
        (given(1_048_576, none, &[], &[], &[], &[]), 99, Err((1, 0, 0)), Some(b"aig 1048576 1048576 0 0 0\n")),
        (given(0, [1, 0, 0, 0, 0], &[], &[], &[], &[]), 99, Err((2, 0, 0)), None),
        (given(0, none, &[], &[], &[1], &[]), 99, Err((2, 0, 0)), None),
        (bare(&[0]), 99, Err((2, 0, 0)), None),
        // the order of the checks: 1 before 2, 2 before 4, 4 before 23, 23 before 3
        (given(1_048_576, [1, 0, 0, 0, 0], &[], &[0], &[], &[]), 99, Err((1, 0, 0)), None),
        (bare(&[9, 0, 0]), 99, Err((2, 0, 0)), None),
        (given(0, [1, 0, 0, 0, 0], &[], &[0, 1], &[], &[9]), 0, Err((4, 9, 0)), Some(b"aig 1 0 0 1 1\n9\n\x01\x01")),
        (bare(&[0, 1]), 0, Err((23, 2, 0)), Some(b"aig 1 0 0 0 1\n\x01\x01")),
        // the order of check 4: gates, next states, roots
        (given(0, [1, 0, 0, 0, 0], &[8], &[0, 7], &[], &[9]), 0, Err((4, 7, 0)), None),
        (given(0, [1, 0, 0, 0, 0], &[8], &[0, 0], &[], &[9]), 0, Err((4, 8, 0)), Some(b"aig 2 0 1 1 1\n8\n9\n\x04\0")),
        // resets: each kind that is written; one too few or too many; over; stray; 2 before 4, latch by latch, 4 before 22, 22 before 23 and 3
        good(latched(0, none, [&[0], &[0]], &[], &[], &[]), b"aig 1 0 1 0 0\n0\n"),
        good(latched(0, none, [&[0], &[1]], &[], &[], &[]), b"aig 1 0 1 0 0\n0 1\n"),
        good(latched(0, none, [&[0], &[2]], &[], &[], &[]), b"aig 1 0 1 0 0\n0 2\n"),
        good(latched(1, none, [&[2, 3, 6], &[1, 6, 0]], &[], &[], &[]), b"aig 4 1 3 0 0\n2 1\n3 6\n6\n"),
        good(latched(1, [1, 0, 0, 0, 0], [&[6], &[4]], &[4, 2], &[], &[7]), b"aig 3 1 1 1 1\n6 4\n7\n\x02\x02"),
        (latched(0, none, [&[0], &[]], &[], &[], &[]), 99, Err((2, 0, 0)), None),
        (latched(0, none, [&[0], &[0, 0]], &[], &[], &[]), 99, Err((2, 0, 0)), None),
        (latched(0, none, [&[9], &[]], &[], &[], &[]), 99, Err((2, 0, 0)), None),
        (latched(0, none, [&[0], &[4]], &[], &[], &[]), 99, Err((4, 4, 0)), None),
        (latched(0, none, [&[0], &[3]], &[], &[], &[]), 99, Err((22, 3, 0)), None),
        (latched(1, none, [&[0], &[2]], &[], &[], &[]), 99, Err((22, 2, 0)), None),
        (latched(0, none, [&[0, 0], &[2, 2]], &[], &[], &[]), 99, Err((22, 2, 0)), None),
        (latched(0, none, [&[0, 0], &[4, 3]], &[], &[], &[]), 99, Err((22, 4, 0)), None),
        (latched(0, none, [&[0, 9], &[8, 0]], &[], &[], &[]), 99, Err((4, 8, 0)), None),
        (latched(0, none, [&[9, 0], &[8, 0]], &[], &[], &[]), 99, Err((4, 9, 0)), None),
        (latched(0, [1, 0, 0, 0, 0], [&[0], &[3]], &[], &[], &[9]), 99, Err((4, 9, 0)), None),
        (latched(0, none, [&[0], &[3]], &[0, 1], &[], &[]), 0, Err((22, 3, 0)), None),
        (latched(0, none, [&[0], &[2]], &[], &[], &[]), 17, Err((3, 0, 18)), Some(b"aig 1 0 1 0 0\n0 2\n")),
        // counts up to the last that is not zero; sizes before literals, justice before fairness
        good(given(1, [0, 1, 0, 0, 0], &[], &[], &[], &[2]), b"aig 1 1 0 0 0 1\n2\n"),
        good(given(1, [0, 0, 0, 1, 0], &[], &[], &[], &[2]), b"aig 1 1 0 0 0 0 0 0 1\n2\n"),
        good(given(1, none, &[], &[], &[0], &[]), b"aig 1 1 0 0 0 0 0 1\n0\n"),
        good(given(2, [0, 0, 0, 1, 1], &[], &[4, 2, 5, 2], &[1], &[8, 6]), b"aig 4 2 0 0 2 0 0 1 1\n1\n6\n8\n\x02\x02\x03\x03"),
        good(given(1, [1, 1, 1, 1, 3], &[3, 5], &[5, 2], &[1, 0, 2], &[0, 1, 2, 3, 4, 5, 6]), b"aig 4 1 2 1 1 1 1 3 1\n3\n5\n0\n1\n2\n1\n0\n2\n4\n5\n6\n3\n\x03\x03"),
        // the papers' half adder, and deltas at the borders of their bytes
        good(given(2, [2, 0, 0, 0, 0], &[], &[4, 2, 5, 3, 9, 7], &[], &[10, 6]), b"aig 5 2 0 2 3\n10\n6\n\x02\x02\x03\x02\x01\x02"),
        good(given(127, none, &[], &[129, 1], &[], &[]), b"aig 128 127 0 0 1\n\x7f\x80\x01"),
        good(given(127, none, &[], &[128, 1], &[], &[]), b"aig 128 127 0 0 1\n\x80\x01\x7f"),
        good(given(1_048_574, none, &[], &[0, 0], &[], &[]), b"aig 1048575 1048574 0 0 1\n\xfe\xff\x7f\0"),
        good(given(1_048_574, none, &[], &[2_097_149, 2_080_765], &[], &[]), b"aig 1048575 1048574 0 0 1\n\x01\x80\x80\x01"),
    ]
}

fn text_cases() -> Vec<Case> {
    let good = |given: Given, bytes: &'static [u8]| (given, bytes.len(), Ok(bytes), Some(bytes));
    let none = [0; 5];
    let bare = |gates: &[u32]| given(0, none, &[], gates, &[], &[]);
    vec![
        good(bare(&[]), b"aag 0 0 0 0 0\n"),
        (bare(&[]), 13, Err((3, 0, 14)), Some(b"aag 0 0 0 0 0\n")),
        (bare(&[]), 0, Err((3, 0, 14)), Some(b"aag 0 0 0 0 0\n")),
        good(bare(&[1, 0]), b"aag 1 0 0 0 1\n2 1 0\n"),
        good(bare(&[1, 1]), b"aag 1 0 0 0 1\n2 1 1\n"),
        (bare(&[1, 0]), 19, Err((3, 0, 20)), Some(b"aag 1 0 0 0 1\n2 1 0\n")),
        // what is no ordered circuit the crate writes as it stands
        (bare(&[0, 1]), 99, Err((23, 2, 0)), Some(b"aag 1 0 0 0 1\n2 0 1\n")),
        (bare(&[2, 0]), 99, Err((23, 2, 0)), Some(b"aag 1 0 0 0 1\n2 2 0\n")),
        (bare(&[3, 0]), 99, Err((23, 2, 0)), Some(b"aag 1 0 0 0 1\n2 3 0\n")),
        (bare(&[4, 0]), 99, Err((4, 4, 0)), Some(b"aag 1 0 0 0 1\n2 4 0\n")),
        (bare(&[0, 0, 0, 1, 5, 0]), 99, Err((23, 4, 0)), Some(b"aag 3 0 0 0 3\n2 0 0\n4 0 1\n6 5 0\n")),
        (given(0, [1, 0, 0, 0, 0], &[], &[], &[], &[2]), 99, Err((4, 2, 0)), Some(b"aag 0 0 0 1 0\n2\n")),
        (given(0, [1, 0, 0, 0, 0], &[], &[], &[], &[]), 99, Err((2, 0, 0)), None),
        (given(0, none, &[], &[], &[1], &[]), 99, Err((2, 0, 0)), None),
        (bare(&[0]), 99, Err((2, 0, 0)), None),
        // the order of the checks: 1 before 2, 2 before 4, 4 before 23, 23 before 3
        (given(1_048_576, [1, 0, 0, 0, 0], &[], &[0], &[], &[]), 99, Err((1, 0, 0)), None),
        (given(4_294_967_295, none, &[], &[], &[], &[]), 99, Err((1, 0, 0)), None),
        (bare(&[9, 0, 0]), 99, Err((2, 0, 0)), None),
        (given(0, [1, 0, 0, 0, 0], &[], &[0, 1], &[], &[9]), 0, Err((4, 9, 0)), Some(b"aag 1 0 0 1 1\n9\n2 0 1\n")),
        (bare(&[0, 1]), 0, Err((23, 2, 0)), Some(b"aag 1 0 0 0 1\n2 0 1\n")),
        // resets: each kind that is written; one too few or too many; over; stray; 4 before 22, 22 before 23 and 3
        good(latched(0, none, [&[0], &[0]], &[], &[], &[]), b"aag 1 0 1 0 0\n2 0\n"),
        good(latched(0, none, [&[0], &[1]], &[], &[], &[]), b"aag 1 0 1 0 0\n2 0 1\n"),
        good(latched(0, none, [&[0], &[2]], &[], &[], &[]), b"aag 1 0 1 0 0\n2 0 2\n"),
        good(latched(1, none, [&[2, 3, 6], &[1, 6, 0]], &[], &[], &[]), b"aag 4 1 3 0 0\n2\n4 2 1\n6 3 6\n8 6\n"),
        good(latched(1, [1, 0, 0, 0, 0], [&[6], &[4]], &[4, 2], &[], &[7]), b"aag 3 1 1 1 1\n2\n4 6 4\n7\n6 4 2\n"),
        (latched(0, none, [&[0], &[]], &[], &[], &[]), 99, Err((2, 0, 0)), None),
        (latched(0, none, [&[0], &[0, 0]], &[], &[], &[]), 99, Err((2, 0, 0)), None),
        (latched(0, none, [&[0], &[4]], &[], &[], &[]), 99, Err((4, 4, 0)), None),
        (latched(0, none, [&[0], &[3]], &[], &[], &[]), 99, Err((22, 3, 0)), None),
        (latched(1, none, [&[0], &[2]], &[], &[], &[]), 99, Err((22, 2, 0)), None),
        (latched(0, [1, 0, 0, 0, 0], [&[0], &[3]], &[], &[], &[9]), 99, Err((4, 9, 0)), None),
        (latched(0, none, [&[0], &[3]], &[0, 1], &[], &[]), 0, Err((22, 3, 0)), None),
        (latched(0, none, [&[0], &[2]], &[], &[], &[]), 19, Err((3, 0, 20)), Some(b"aag 1 0 1 0 0\n2 0 2\n")),
        // counts up to the last that is not zero; sizes before literals, justice before fairness
        good(given(1, [0, 1, 0, 0, 0], &[], &[], &[], &[2]), b"aag 1 1 0 0 0 1\n2\n2\n"),
        good(given(1, [0, 0, 0, 1, 0], &[], &[], &[], &[2]), b"aag 1 1 0 0 0 0 0 0 1\n2\n2\n"),
        good(given(1, none, &[], &[], &[0], &[]), b"aag 1 1 0 0 0 0 0 1\n2\n0\n"),
        good(given(2, [0, 0, 0, 1, 1], &[], &[4, 2, 5, 2], &[1], &[8, 6]), b"aag 4 2 0 0 2 0 0 1 1\n2\n4\n1\n6\n8\n6 4 2\n8 5 2\n"),
        good(
            given(1, [1, 1, 1, 1, 3], &[3, 5], &[5, 2], &[1, 0, 2], &[0, 1, 2, 3, 4, 5, 6]),
            b"aag 4 1 2 1 1 1 1 3 1\n2\n4 3\n6 5\n0\n1\n2\n1\n0\n2\n4\n5\n6\n3\n8 5 2\n",
        ),
        // the papers' half adder, and a number with a digit more
        good(given(2, [2, 0, 0, 0, 0], &[], &[4, 2, 5, 3, 9, 7], &[], &[10, 6]), b"aag 5 2 0 2 3\n2\n4\n10\n6\n6 4 2\n8 5 3\n10 9 7\n"),
        good(given(4, none, &[9], &[9, 0], &[], &[]), b"aag 6 4 1 0 1\n2\n4\n6\n8\n10 9\n12 9 0\n"),
    ]
}
