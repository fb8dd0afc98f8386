//! Questions about writing, one a line (`write_line` gives the form).
//!
//!     writtengen [--text] --cases | writtengen [--text] SEED COUNT MAXGATES
//!
//! The cases are those of `write_examples`, and for binary files a gate for each two deltas at the borders of their bytes. The others are so many circuits at
//! random, good and faulty, but for those that are longer than the program of the gate that is asked has room for. With --text they are to be written as texts.
use judge::{
    random::Random,
    write_examples, write_kinds,
    write_line::question,
    write_words::{Form, Given},
};

/// How many counts, next states, resets, gate words, sizes and roots there is room for, and how many bytes.
const ROOM: [usize; 6] = [8, 16, 16, 128, 8, 32];
const BYTES: usize = 256;

fn fits(given: &Given, bytes: usize) -> bool {
    let lengths = [&given.counts, &given.nexts, &given.resets, &given.gates, &given.sizes, &given.roots].map(Vec::len);
    bytes <= BYTES && lengths.iter().zip(ROOM).all(|(&length, room)| length <= room)
}

fn main() {
    let mut arguments: Vec<String> = std::env::args().skip(1).collect();
    let form = match arguments.first().is_some_and(|first| first == "--text") {
        true => Form::Text,
        false => Form::Binary,
    };
    arguments.drain(..(form == Form::Text) as usize);
    let numbers: Vec<u64> = arguments.iter().filter_map(|argument| argument.parse().ok()).collect();
    match (&numbers[..], &arguments[..]) {
        (_, [only]) if only == "--cases" => {
            for (given, bytes, ..) in write_examples::cases(form) {
                println!("{}", question(&given, form, bytes));
            }
            if form == Form::Binary {
                write_kinds::borders(|given| println!("{}", question(given, form, 40)));
            }
        }
        (&[seed, count, gates], [_, _, _]) => {
            let mut random = Random(seed);
            for _ in 0..count {
                let given = write_kinds::any(&mut random, gates, form);
                let bytes = write_kinds::room(&mut random, &given, form);
                if fits(&given, bytes) {
                    println!("{}", question(&given, form, bytes));
                }
            }
        }
        _ => {
            eprintln!("usage: writtengen [--text] --cases | [--text] SEED COUNT MAXGATES");
            std::process::exit(2)
        }
    }
}
