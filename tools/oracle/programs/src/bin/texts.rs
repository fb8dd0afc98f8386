//! The judge's answers about text files, which come one a line in hexadecimal (`-` for no bytes): the crate's, and document 02's where a line of
//! docs/DIFFERENCES.md says that the crate's is another. Standard error says how many of each there were.
//!
//!     texts < files
//!
//! An answer is the file again, the refusal's number or 0, and the eleven words that `imdagluz_read_aag` answers with; for a text that is taken inputs, states,
//! next states, resets, gates (three words each), justice sizes and roots follow.
use judge::{
    file_compare::compare_text,
    file_line,
    text_words::{Text, AMPLE},
};

fn main() -> std::io::Result<()> {
    file_line::answer(|bytes| compare_text(bytes, AMPLE), |text: &Text, used| [&text.answer(used), &text.lists().concat()[..]].concat())
}
