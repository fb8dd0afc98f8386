//! Lines, syntax errors and the scanners for digits, fixed words and line ends.
use crate::DeferredReader;
use num_traits::{
    ops::overflowing::{OverflowingAdd, OverflowingMul},
    FromPrimitive, Zero,
};
use std::fmt;

/// `position` is ours: the byte that the error names.
#[derive(Debug)]
pub struct SyntaxError {
    pub line: usize,
    pub column: usize,
    pub position: usize,
    pub msg: String,
}

impl fmt::Display for SyntaxError {
    fn fmt(&self, f: &mut fmt::Formatter<'_>) -> fmt::Result {
        write!(f, "{}:{}: {}", self.line, self.column, self.msg)
    }
}

impl std::error::Error for SyntaxError {}

pub struct LineReader<'a> {
    pub reader: DeferredReader<'a>,
    pub line: usize,
    line_start: usize,
}

impl<'a> LineReader<'a> {
    pub fn new(reader: DeferredReader<'a>) -> Self {
        LineReader {
            reader,
            line: 1,
            line_start: 0,
        }
    }

    pub fn reader(&mut self) -> &mut DeferredReader<'a> {
        &mut self.reader
    }

    pub fn line_at_offset(&mut self, offset: usize) {
        self.line += 1;
        self.line_start = self.reader.position() + offset;
    }

    pub fn give_up<E: From<SyntaxError>>(&mut self, msg: impl Into<String>) -> E {
        self.give_up_at(self.reader.position(), msg)
    }

    pub fn give_up_at<E: From<SyntaxError>>(
        &mut self,
        position: usize,
        msg: impl Into<String>,
    ) -> E {
        E::from(SyntaxError {
            line: self.line,
            column: position.saturating_sub(self.line_start) + 1,
            position,
            msg: msg.into(),
        })
    }
}

/// The value of the longest run of digits at the offset, if T holds it, and the offset past the run.
pub fn ascii_digits_multi<T>(reader: &mut DeferredReader, mut offset: usize) -> (Option<T>, usize)
where
    T: Zero + FromPrimitive + OverflowingAdd + OverflowingMul,
{
    let mut value = Some(T::zero());
    while let Some(byte @ b'0'..=b'9') = reader.request_byte_at_offset(offset) {
        value = value.and_then(|value| append_digit(value, byte - b'0'));
        offset += 1;
    }
    (value, offset)
}

fn append_digit<T>(value: T, digit: u8) -> Option<T>
where
    T: FromPrimitive + OverflowingAdd + OverflowingMul,
{
    let (tenfold, over) = value.overflowing_mul(&T::from_u8(10)?);
    let (sum, over_again) = tenfold.overflowing_add(&T::from_u8(digit)?);
    (!over && !over_again).then_some(sum)
}

/// The offset past the word if it stands at the offset, else the offset.
pub fn fixed(reader: &mut DeferredReader, offset: usize, word: &[u8]) -> usize {
    match reader.buf()[offset..].starts_with(word) {
        true => offset + word.len(),
        false => offset,
    }
}

/// The offset past a line end if one stands at the offset, else the offset.
pub fn newline(reader: &mut DeferredReader, offset: usize) -> usize {
    match reader.buf()[offset..] {
        [b'\n', ..] => offset + 1,
        [b'\r', b'\n', ..] => offset + 2,
        _ => offset,
    }
}
