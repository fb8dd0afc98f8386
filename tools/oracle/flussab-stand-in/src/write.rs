//! A writer that passes its bytes on at once and keeps the first error.
use std::io::{self, Write};

pub struct DeferredWriter<'a> {
    write: Box<dyn Write + 'a>,
    error: Option<io::Error>,
}

impl<'a> DeferredWriter<'a> {
    pub fn from_write(write: impl Write + 'a) -> Self {
        DeferredWriter {
            write: Box::new(write),
            error: None,
        }
    }

    pub fn write_all_defer_err(&mut self, bytes: &[u8]) {
        if self.error.is_none() {
            self.error = self.write.write_all(bytes).err();
        }
    }

    pub fn check_io_error(&mut self) -> io::Result<()> {
        self.error.take().map_or(Ok(()), Err)
    }
}

pub mod text {
    pub fn ascii_digits(writer: &mut crate::DeferredWriter, value: impl std::fmt::Display) {
        writer.write_all_defer_err(value.to_string().as_bytes());
    }
}
