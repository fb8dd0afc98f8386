//! A real file: read in its own form, and written again if it is binary; renumbered by the port and by the crate as it stands and renamed at random, with all flags, and
//! written by the port in both forms as the port ordered it, which is read again. A binary file is ordered by one call of the port too, into the same bytes.
use crate::{
    aiger::{self, File},
    binary, ordering,
    outcome::{by_crate, by_port, difference, ordered, Lists, Spare},
    texts, writing,
};
use judge::{
    circuit::Circuit,
    random::Random,
    write_words::{plain, Form},
};
use std::{
    fs,
    path::{Path, PathBuf},
    process::exit,
};

const LIMIT: u64 = 1_048_575;

/// Compares both readings of a file, and both outcomes in three orders with every choice of flags, and writes FOLDER/ORDER-FLAGS.aig. Ends the program at a difference.
pub fn compare(path: &str, folder: &str, seed: u64) {
    let bytes = fs::read(path).expect("the file can be read");
    let file = aiger::read(&bytes);
    let Circuit { largest, inputs, gates, latches, roots, .. } = &file.circuit;
    let counts = roots.each_ref().map(Vec::len);
    let starts = file.starts();
    let resets = [Some(false), Some(true), None].map(|value| starts.iter().filter(|&&start| start == value).count());
    println!("V={largest}, {} inputs, {} latches, {} gates, roots {counts:?}, resets {resets:?}", inputs.len(), latches.len(), gates.len());
    if bytes.starts_with(b"aig ") {
        let used = binary::whole(&bytes, &file.circuit);
        println!("  read and expanded by the port as by the crate, {used} of {} bytes", bytes.len());
        let written = writing::whole(&file, Form::Binary);
        let same = plain(&bytes[..used]);
        assert!((written == bytes[..used]) == same, "a file that is read and written is the same just when it is plain");
        binary::whole(&written, &file.circuit);
        println!("  written by the port as by the crate, {} bytes, {}the same, and read again", written.len(), if same { "" } else { "not " });
    } else {
        let used = texts::whole(&bytes, &file.circuit);
        println!("  read by the port as by the crate, {used} of {} bytes", bytes.len());
    }
    let mut random = Random(seed);
    let shuffled = renamed(&file.circuit, &mut random, false);
    let signs = renamed(&file.circuit, &mut random, true);
    // a text has its definitions and gates in any order, and none that is odd
    texts::whole(&aiger::write_text(&shuffled, &file.justice), &shuffled);
    let mut made = vec![];
    for (order, circuit) in [("given", &file.circuit), ("shuffled", &shuffled), ("signs", &signs)] {
        let counts = (0..8).map(|flags| one(&file, circuit, order, flags, folder).to_string());
        made.push(counts.collect::<Vec<_>>().join(" "));
    }
    made.dedup();
    println!("  24 outcomes alike, and the 24 files and 24 texts that the port and the crate wrote alike are read alike; gates made with the flags 0 to 7: {}", made.join("; "));
    if bytes.starts_with(b"aig ") {
        by_one_call(&bytes, folder);
    }
}

/// Orders a binary file by one call under every setting of the flags, as by the parts called one by one, into the files of the order given, which are read from
/// the folder. Ends the program at a difference.
fn by_one_call(bytes: &[u8], folder: &str) {
    for flags in 0..8 {
        let ordered = fs::read(named(folder, "given", flags)).expect("the file can be read");
        if let Err(what) = ordering::whole(bytes, flags as u32, &ordered) {
            println!("DIFFERS: by one call, flags {flags}: {what}");
            exit(1);
        }
    }
    println!("  ordered by one call with the flags 0 to 7, as by the parts called one by one, into the 8 files of the order given");
}

/// Where a circuit is written that the port ordered.
fn named(folder: &str, order: &str, flags: u64) -> PathBuf {
    Path::new(folder).join(format!("{order}-{flags}.aig"))
}

/// One outcome, compared and written: the number of gates made.
fn one(file: &File, circuit: &Circuit, order: &str, flags: u64, folder: &str) -> u32 {
    let circuit = Circuit { flags, ..circuit.clone() };
    let spare = Spare::of(1);
    let lists = Lists::lent(&circuit, spare);
    let (port, judge) = (by_port(&circuit, spare, lists.clone()), by_crate(&circuit, spare, lists));
    if port != judge {
        println!("DIFFERS: {order}, flags {flags}: {}", difference(port, judge));
        exit(1);
    }
    assert_eq!(port.number, 0, "a file's circuit can be ordered");
    let ordered = File { circuit: ordered(&circuit, &port), justice: file.justice.clone() };
    assert!(ordered.starts() == file.starts(), "each latch starts as it did");
    // with every reset and count, by a writer of our own, which is read; and by the port, for abc
    binary::whole(&aiger::write(&ordered), &ordered.circuit);
    let written = writing::whole(&ordered, Form::Binary);
    binary::whole(&written, &ordered.circuit);
    assert!(aiger::read(&written).starts() == file.starts(), "each latch of what is written starts as it did");
    texts::whole(&writing::whole(&ordered, Form::Text), &ordered.circuit);
    fs::write(named(folder, order, flags), written).expect("the file can be written");
    port.words[1]
}

/// The same circuit with its variables renamed at random, some names unused, its gates shuffled and their inputs exchanged at random; with
/// `signs`, half of the variables are negated too, so that their definitions are odd.
fn renamed(circuit: &Circuit, random: &mut Random, signs: bool) -> Circuit {
    let largest = (circuit.largest + circuit.largest / 8).min(LIMIT);
    let mut names: Vec<u64> = (1..=largest).map(|v| 2 * v).collect();
    random.shuffle(&mut names);
    if signs {
        names.iter_mut().for_each(|name| *name += random.bit());
    }
    names.insert(0, 0);
    let mut renamed = Circuit { largest, ..circuit.clone() };
    // a reset that is 0 or 1 stays, as the constant does, and one that is the latch's own literal is renamed as that is
    for code in renamed.codes_mut() {
        *code = names[*code as usize / 2] ^ *code % 2;
    }
    random.shuffle(&mut renamed.gates);
    for gate in &mut renamed.gates {
        if random.bit() == 1 {
            gate.swap(1, 2);
        }
    }
    renamed
}

/// Writes an ordered file again with one literal flipped: the first latch's next state, the last root, or the last gate's second input. A latch's reset that is
/// flipped is 1 where it was 0, and else 0.
pub fn flip(path: &str, which: &str, to: &str) {
    let mut file = aiger::read(&fs::read(path).expect("the file can be read"));
    let circuit = &mut file.circuit;
    if which == "reset" {
        let latch = circuit.latches.first_mut().expect("a latch");
        // what is flipped below is the low bit of 0 or 1
        latch[2] = latch[2].min(1);
    }
    let literal = match which {
        "reset" => circuit.latches.first_mut().map(|latch| &mut latch[2]),
        "next" => circuit.latches.first_mut().map(|latch| &mut latch[1]),
        "root" => circuit.roots.iter_mut().flatten().last(),
        "gate" => circuit.gates.last_mut().map(|gate| &mut gate[2]),
        _ => None,
    };
    *literal.expect("a next state, a reset, a root or a gate") ^= 1;
    fs::write(to, aiger::write(&file)).expect("the file can be written");
}
