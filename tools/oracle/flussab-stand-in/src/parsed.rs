//! The answer of a parser that may find nothing of its own at the place.

pub enum Parsed<T, E> {
    Res(Result<T, E>),
    Fallthrough,
}

use Parsed::{Fallthrough, Res};

impl<T, E> Parsed<T, E> {
    pub fn or_parse(self, other: impl FnOnce() -> Parsed<T, E>) -> Parsed<T, E> {
        match self {
            Fallthrough => other(),
            found => found,
        }
    }

    pub fn or_give_up(self, error: impl FnOnce() -> E) -> Result<T, E> {
        match self {
            Res(result) => result,
            Fallthrough => Err(error()),
        }
    }

    pub fn optional(self) -> Result<Option<T>, E> {
        match self {
            Res(result) => result.map(Some),
            Fallthrough => Ok(None),
        }
    }

    pub fn and_then<U>(self, next: impl FnOnce(T) -> Result<U, E>) -> Parsed<U, E> {
        match self {
            Res(result) => Res(result.and_then(next)),
            Fallthrough => Fallthrough,
        }
    }

    pub fn and_also(self, test: impl FnOnce(&mut T) -> Result<(), E>) -> Parsed<T, E> {
        self.and_then(|mut value| test(&mut value).map(|()| value))
    }

    pub fn map_err<F>(self, change: impl FnOnce(E) -> F) -> Parsed<T, F> {
        match self {
            Res(result) => Res(result.map_err(change)),
            Fallthrough => Fallthrough,
        }
    }
}
