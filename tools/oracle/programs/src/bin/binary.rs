//! The judge's answers about binary files, which come one a line in hexadecimal (`-` for no bytes): the crate's, and document 02's where a line of
//! docs/DIFFERENCES.md says that the crate's is another. Standard error says how many of each there were.
//!
//!     binary < files
//!
//! An answer is the file again, the refusal's number or 0, and the eleven words that `imdagluz_read_aig` answers with; for a file that is taken next states,
//! resets, gates (two words each), justice sizes and roots follow.
use judge::{
    file_compare::compare,
    file_line,
    file_words::{Ordered, AMPLE},
};

fn main() -> std::io::Result<()> {
    file_line::answer(|bytes| compare(bytes, AMPLE), |circuit: &Ordered, used| [&circuit.answer(used), &circuit.lists().concat()[..]].concat())
}
