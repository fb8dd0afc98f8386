//! The crate flussab-aiger 0.1.1: its six files as modules, and `probed`, the copy of aig.rs that
//! notes how high the walk's stack grows.
#![allow(unknown_lints, mismatched_lifetime_syntaxes, dead_code)]

include!(concat!(env!("OUT_DIR"), "/modules.rs"));

pub use error::{Error, InnerParseError, ParseError};
pub use lit::Lit;

use std::cell::Cell;

thread_local! {
    /// The highest stack that `probed` has had since this was last set to 0.
    pub static DEEPEST: Cell<usize> = const { Cell::new(0) };
}

/// Called by `probed` with the height that the stack is about to have.
pub fn probe(height: usize) {
    DEEPEST.with(|deepest| deepest.set(deepest.get().max(height)));
}
