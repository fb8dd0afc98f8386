//! A STAND-IN for the crate flussab, which Debian does not carry and which was not given: the names that
//! token.rs, binary.rs and ascii.rs use, over bytes that lie in memory, in our own words.
//!
//! Compared through it is what those three files decide. NOT compared: flussab's digit scanner (here the
//! longest run of digits, with no value if it does not fit), its buffering and what it does when reading
//! fails (here all bytes are read at once), its line and column numbers, and its messages. A syntax
//! error here also keeps the place that it names, counted in bytes from the start.
mod parsed;
mod reader;
pub mod text;
pub mod write;

pub use parsed::Parsed;
pub use reader::DeferredReader;
pub use write::DeferredWriter;
