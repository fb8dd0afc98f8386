//! The cases of `file_examples` and `text_examples`. Document 02's words as they are written out in `file_words` and `text_words` have to give the answer of each, and so
//! has the crate but where a line of docs/DIFFERENCES.md tells of it; those are printed. Then the cases of `write_examples`, of circuits that are written in both forms, and
//! of what the crate writes. The exit status is 1 if a case disagrees.
use judge::{
    file_compare::{compare, compare_text, Compared},
    file_examples, file_words, text_examples, text_words, write_compare, write_crate, write_examples,
    write_words::{write, Form, Unwritten},
};

fn main() {
    write_crate::silent();
    let mut disagree = read("cases", file_examples::CASES, |bytes| compare(bytes, file_words::AMPLE));
    disagree += written("circuits to be written", Form::Binary);
    disagree += read("texts", text_examples::CASES, |bytes| compare_text(bytes, text_words::AMPLE));
    disagree += written("circuits to be written as texts", Form::Text);
    std::process::exit((disagree > 0) as i32)
}

/// The cases of files that are read: how many disagree.
fn read<C>(what: &str, cases: &[(&[u8], u64, usize)], compare: impl Fn(&[u8]) -> Result<Compared<C>, String>) -> u32 {
    let (mut disagree, mut listed) = (0, 0);
    for &(bytes, number, place) in cases {
        let shown = bytes.escape_ascii();
        match compare(bytes) {
            Ok(found) => {
                let answer = match &found.request {
                    Ok((_, used)) => (0, *used),
                    Err(refused) => (refused.number, refused.place),
                };
                if answer != (number, place) {
                    println!("DISAGREES \"{shown}\": {answer:?}, and not {:?}", (number, place));
                    disagree += 1;
                }
                if let Some(line) = found.line {
                    println!("listed: \"{shown}\" is answered {answer:?}; the crate differs: {}", line.words());
                    listed += 1;
                }
            }
            Err(what) => {
                println!("DISAGREES \"{shown}\": {what}");
                disagree += 1;
            }
        }
    }
    println!("{} {what}, {listed} that the crate answers otherwise, as listed, {disagree} disagreements", cases.len());
    disagree
}

/// The cases of circuits that are written: how many disagree.
fn written(what: &str, form: Form) -> u32 {
    let (mut disagree, mut listed) = (0, 0);
    let cases = write_examples::cases(form);
    for (given, room, answer, by_crate) in &cases {
        let expected = answer.map(<[u8]>::to_vec).map_err(|(number, literal, needed)| Unwritten { number, literal, needed });
        let found = write(given, form, *room);
        // no text of a million lines and more is asked for
        let asked = given.recorded() && (form == Form::Binary || given.inputs < 1_000_000);
        let crate_bytes = asked.then(|| write_crate::write(&write_crate::record(given, given.top()), form)).flatten();
        if found != expected || crate_bytes.as_deref() != *by_crate {
            println!("DISAGREES {given:?}, {room} bytes: {found:?}, and not {expected:?}; the crate: {}", write_compare::shown(&crate_bytes));
            disagree += 1;
        }
        match write_compare::compare(given, form, *room) {
            Err(what) => {
                println!("DISAGREES {given:?}: {what}");
                disagree += 1;
            }
            Ok(found) => listed += found.line.is_some() as u32,
        }
    }
    println!("{} {what}, {listed} that the crate takes otherwise, as listed, {disagree} disagreements", cases.len());
    disagree
}
