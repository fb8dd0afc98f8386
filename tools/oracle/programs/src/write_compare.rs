//! The crate's writing of an ordered circuit against document 02's words, and which line of docs/DIFFERENCES.md tells of it where they are not the same.
use crate::{
    file_words::LIMIT,
    write_crate,
    write_words::{write, Form, Given, Line, Unwritten},
};

/// What both writers make of a circuit.
pub struct Compared {
    /// Document 02's writing.
    pub request: Result<Vec<u8>, Unwritten>,
    /// The line by which the crate's is another.
    pub line: Option<Line>,
    /// Whether the crate writes something; none where it has no record of the circuit, or where its text would never end.
    pub crate_writes: Option<bool>,
}

/// Compares the two. An error is a difference on no line.
pub fn compare(given: &Given, form: Form, room: usize) -> Result<Compared, String> {
    let request = write(given, form, room);
    let line = match given.fault(form) {
        Some((_, line)) => Some(line),
        None => request.as_ref().err().map(|_| Line::Short),
    };
    if !given.recorded() {
        return match (&request, given.shaped()) {
            (Err(Unwritten { number: 1 | 2, .. }), false) | (Err(Unwritten { number: 1 | 4 | 22, .. }), true) => Ok(Compared { request, line, crate_writes: None }),
            _ => Err(format!("not as the counts say, or with a stray reset, and not told by 1, 2, 4 or 22: {request:?}")),
        };
    }
    // a text has a line for each input, and nobody waits for four thousand million of them
    if form == Form::Text && given.inputs as u64 > LIMIT + 9 {
        return Ok(Compared { request, line, crate_writes: None });
    }
    let by_crate = write_crate::write(&write_crate::record(given, given.top()), form);
    let expected = given.bytes(form, given.top());
    if by_crate != expected {
        return Err(format!("the crate: {}; as it is listed: {}", shown(&by_crate), shown(&expected)));
    }
    if let Ok(bytes) = &request {
        if by_crate.as_ref() != Some(bytes) {
            return Err(format!("the crate: {}; by the words: {}", shown(&by_crate), bytes.escape_ascii()));
        }
    }
    // the crate stops just where a gate's larger input is above its own code, and its text writer nowhere
    let stops = form == Form::Binary && given.gates.chunks_exact(2).zip((given.first_code()..).step_by(2)).any(|(pair, code)| pair[0].max(pair[1]) as u64 > code);
    if stops != by_crate.is_none() {
        return Err(format!("the crate: {}, and {} gate is above its code", shown(&by_crate), if stops { "a" } else { "no" }));
    }
    // the M of the header is what it was given
    let other = given.top() + 1;
    if write_crate::write(&write_crate::record(given, other), form) != given.bytes(form, other) {
        return Err("the crate writes another M than it is given".into());
    }
    Ok(Compared { request, line, crate_writes: Some(by_crate.is_some()) })
}

/// Bytes, or that there are none.
pub fn shown(bytes: &Option<Vec<u8>>) -> String {
    bytes.as_ref().map_or("panics".into(), |bytes| format!("\"{}\"", bytes.escape_ascii()))
}
