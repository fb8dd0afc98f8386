//! The crate's reading of a binary file or a text against document 02's words, and which line of docs/DIFFERENCES.md tells of it where they are not the same.
use crate::{
    file_crate,
    file_words::{self, Line, Ordered, Reading, Refused, Rules},
    text_crate,
    text_words::{self, Text},
};
use std::fmt::Debug;

/// What both readers make of a file.
pub struct Compared<C = Ordered> {
    /// Document 02's reading.
    pub request: Reading<C>,
    /// The line by which the crate's is another.
    pub line: Option<Line>,
    pub crate_takes: bool,
}

/// Compares the two readings of a binary file. An error is a difference on no line.
pub fn compare(bytes: &[u8], room: file_words::Room) -> Result<Compared, String> {
    let request = file_words::read(bytes, room, Rules::Request);
    held(bytes, request, file_words::read(bytes, file_words::AMPLE, Rules::Crate), file_crate::read)
}

/// The same of a text.
pub fn compare_text(bytes: &[u8], room: text_words::Room) -> Result<Compared<Text>, String> {
    let request = text_words::read(bytes, room, Rules::Request);
    held(bytes, request, text_words::read(bytes, text_words::AMPLE, Rules::Crate), text_crate::read)
}

/// Holds the crate's reading to the one that is expected of it, and that to document 02's.
fn held<C: PartialEq + Debug>(bytes: &[u8], request: Reading<C>, expected: Reading<C>, reads: fn(&[u8]) -> Result<C, Refused>) -> Result<Compared<C>, String> {
    let by_crate = reads(bytes);
    let alike = match (&expected, &by_crate) {
        (Ok((circuit, used)), Ok(read)) => circuit == read && ends_at(bytes, *used, read, reads),
        (Err(listed), Err(given)) => (listed.number, listed.place) == (given.number, given.place),
        _ => false,
    };
    match (alike, difference(&request, &expected)) {
        (true, Ok(line)) => Ok(Compared { request, line, crate_takes: by_crate.is_ok() }),
        _ => Err(format!("the crate: {}; as it is listed: {}", shown(&by_crate), shown(&expected.map(|(circuit, _)| circuit)))),
    }
}

/// Whether so many bytes are all that the crate needs: with a byte less it refuses the file.
fn ends_at<C: PartialEq>(bytes: &[u8], used: usize, circuit: &C, reads: fn(&[u8]) -> Result<C, Refused>) -> bool {
    reads(&bytes[..used]).as_ref() == Ok(circuit) && reads(&bytes[..used - 1]).is_err()
}

/// The line that tells two readings apart, none where they are the same.
fn difference<C: PartialEq>(request: &Reading<C>, by_crate: &Reading<C>) -> Result<Option<Line>, ()> {
    let given = |reading: &Reading<C>| reading.as_ref().err().map(|refused| (refused.number, refused.place));
    if given(request) == given(by_crate) {
        return if given(request).is_some() || request == by_crate { Ok(None) } else { Err(()) };
    }
    let refusals = [request, by_crate].map(|reading| reading.as_ref().err());
    let first: &Refused = refusals.into_iter().flatten().min_by_key(|refused| refused.place).ok_or(())?;
    first.line.map(Some).ok_or(())
}

/// A reading in words.
pub fn shown<C: Debug>(reading: &Result<C, Refused>) -> String {
    match reading {
        Ok(circuit) => format!("takes {circuit:?}"),
        Err(refused) => format!("{} at {}", refused.number, refused.place),
    }
}
