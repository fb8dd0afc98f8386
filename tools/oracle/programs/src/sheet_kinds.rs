//! Random sheets of every kind: the circuits of `circuit_kinds`, and sheets whose bytes or sizes are
//! changed.
use crate::{
    circuit::put,
    circuit_kinds::{of_sizes, valid, FAULTS},
    random::Random,
};

type Maker = fn(&mut Random, u64) -> Vec<u8>;

/// A kind's name, its share, and its maker. Kinds with long sheets have small shares.
const KINDS: [(&str, u64, Maker); 15] = [
    ("cut", 20, cut),
    ("byte changed", 20, changed),
    ("bytes appended", 10, appended),
    ("redundant zero groups", 20, redundant),
    ("eight bytes, or nine", 20, eight_or_nine),
    ("header number changed", 20, header_changed),
    ("header number large", 10, header_large),
    ("flags 7 or 8", 5, flags_at_limit),
    ("V 1,023 or 1,024", 10, largest_at_limit),
    ("noise", 10, noise),
    ("roots 1,023 or 1,024", 4, roots_at_limit),
    ("a count 1,023 or 1,024", 4, count_at_limit),
    ("length 59,999 to 60,001", 2, length_at_limit),
    ("length over 60,001", 1, length_far_over),
    ("empty", 1, |_, _| vec![]),
];

/// A sheet of a random kind with up to so many gates, and the kind's name.
pub fn any(random: &mut Random, gates: u64) -> (&'static str, Vec<u8>) {
    let faults: u64 = FAULTS.iter().map(|kind| kind.1).sum();
    let kinds: u64 = KINDS.iter().map(|kind| kind.1).sum();
    let mut share = random.below(faults + kinds);
    for (name, size, fault) in FAULTS {
        if share < size {
            let mut circuit = valid(random, gates);
            fault(random, &mut circuit);
            return (name, circuit.sheet());
        }
        share -= size;
    }
    for (name, size, maker) in KINDS {
        if share < size {
            return (name, maker(random, gates));
        }
        share -= size;
    }
    unreachable!("a share below the sum lies in a kind")
}

fn cut(random: &mut Random, gates: u64) -> Vec<u8> {
    let mut sheet = valid(random, gates).sheet();
    sheet.truncate(random.index(sheet.len()));
    sheet
}

fn changed(random: &mut Random, gates: u64) -> Vec<u8> {
    let mut sheet = valid(random, gates).sheet();
    let index = random.index(sheet.len());
    sheet[index] = random.next() as u8;
    sheet
}

fn appended(random: &mut Random, gates: u64) -> Vec<u8> {
    let mut sheet = valid(random, gates).sheet();
    for _ in 0..random.between(1, 4) {
        sheet.push(random.next() as u8);
    }
    sheet
}

/// Writes the numbers, each in at least as many bytes as the width says.
fn written(numbers: &[u64], mut width: impl FnMut(usize) -> usize) -> Vec<u8> {
    let mut sheet = vec![];
    for (index, &number) in numbers.iter().enumerate() {
        put(&mut sheet, number, width(index));
    }
    sheet
}

fn redundant(random: &mut Random, gates: u64) -> Vec<u8> {
    let numbers = valid(random, gates).numbers();
    let often = random.pick(&[5, 50, 100]);
    written(&numbers, |_| match random.percent(often) {
        true => random.between(2, 8) as usize,
        false => 1,
    })
}

/// One number in exactly eight bytes, or in nine, which is one too many.
fn eight_or_nine(random: &mut Random, gates: u64) -> Vec<u8> {
    let mut numbers = valid(random, gates).numbers();
    let (wide, least) = (random.index(numbers.len()), random.between(8, 9) as usize);
    if random.percent(30) {
        numbers[wide] = random.between(1 << 49, (1 << 56) - 1);
    }
    written(&numbers, |index| if index == wide { least } else { 1 })
}

/// One of the first ten numbers is one more or one less: the lists no longer fit.
fn header_changed(random: &mut Random, gates: u64) -> Vec<u8> {
    let mut numbers = valid(random, gates).numbers();
    let index = random.index(10);
    numbers[index] = match random.bit() {
        0 => numbers[index].saturating_sub(1),
        _ => numbers[index] + 1,
    };
    written(&numbers, |_| 1)
}

fn header_large(random: &mut Random, gates: u64) -> Vec<u8> {
    let mut numbers = valid(random, gates).numbers();
    for _ in 0..random.between(1, 2) {
        numbers[random.index(10)] = random.bits(56);
    }
    written(&numbers, |_| 1)
}

fn flags_at_limit(random: &mut Random, gates: u64) -> Vec<u8> {
    let mut circuit = valid(random, gates);
    circuit.flags = random.between(7, 8);
    circuit.sheet()
}

fn largest_at_limit(random: &mut Random, gates: u64) -> Vec<u8> {
    let mut circuit = valid(random, gates);
    circuit.largest = random.between(1023, 1024);
    circuit.sheet()
}

/// R is at its limit or one over, in one list or spread over five.
fn roots_at_limit(random: &mut Random, gates: u64) -> Vec<u8> {
    let mut roots = [0; 5];
    let single = random.bit() * random.between(1, 5);
    for _ in 0..random.between(1023, 1024) {
        match single {
            0 => roots[random.index(5)] += 1,
            list => roots[list as usize - 1] += 1,
        }
    }
    let inputs = random.between(1, 8);
    of_sizes(random, inputs, 1, gates, roots).sheet()
}

/// Inputs, latches or gates at their limit or one over, some with all variables defined.
fn count_at_limit(random: &mut Random, _: u64) -> Vec<u8> {
    let count = random.between(1023, 1024);
    let [mut i, mut l, mut g] = [0, 0, 0];
    match random.below(4) {
        0 => i = count,
        1 => l = count,
        2 => g = count,
        _ => {
            i = random.between(1, 300);
            l = random.between(1, 300);
            g = count - i - l;
        }
    }
    let mut circuit = of_sizes(random, i, l, g, [1; 5]);
    if random.percent(30) {
        circuit.largest = circuit.largest.min(1023);
    }
    let width = random.pick(&[1, 1, 1, 8]);
    written(&circuit.numbers(), |_| width)
}

/// Padded with redundant groups or not, then with bytes left over: every sheet of this length has some,
/// as the limits allow 7,171 numbers of eight bytes.
fn length_at_limit(random: &mut Random, gates: u64) -> Vec<u8> {
    let numbers = valid(random, gates).numbers();
    let width = random.pick(&[1, 8]);
    let mut sheet = match random.below(8) {
        0 => vec![],
        _ => written(&numbers, |_| width),
    };
    let filler = random.pick(&[0x00, 0x01, 0x80]);
    sheet.resize(random.between(59_999, 60_001) as usize, filler);
    sheet
}

/// More than the report program reads, and more than a pipe holds.
fn length_far_over(random: &mut Random, gates: u64) -> Vec<u8> {
    let mut sheet = valid(random, gates).sheet();
    sheet.resize(random.between(60_002, 140_000) as usize, 0);
    sheet
}

fn noise(random: &mut Random, gates: u64) -> Vec<u8> {
    let most = random.pick(&[3, 8, 256]);
    let length = 10 + random.below(8 * gates + 1);
    (0..length).map(|_| random.below(most) as u8).collect()
}
