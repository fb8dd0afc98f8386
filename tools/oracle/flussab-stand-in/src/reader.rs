//! All bytes of the input, a place in them and a mark.
use std::{
    io::{self, BufReader, Read},
    marker::PhantomData,
};

pub struct DeferredReader<'a> {
    bytes: Vec<u8>,
    place: usize,
    mark: usize,
    lifetime: PhantomData<&'a ()>,
}

impl<'a> DeferredReader<'a> {
    pub fn from_read(mut read: impl Read + 'a) -> Self {
        let mut bytes = vec![];
        read.read_to_end(&mut bytes).expect("the input can be read");
        DeferredReader {
            bytes,
            place: 0,
            mark: 0,
            lifetime: PhantomData,
        }
    }

    pub fn from_buf_reader(read: BufReader<impl Read + 'a>) -> Self {
        Self::from_read(read)
    }

    pub fn from_boxed_dyn_read(read: Box<dyn Read + 'a>) -> Self {
        Self::from_read(read)
    }

    pub fn buf(&self) -> &[u8] {
        &self.bytes[self.place..]
    }

    pub fn buf_len(&self) -> usize {
        self.buf().len()
    }

    pub fn is_at_end(&self) -> bool {
        self.buf().is_empty()
    }

    pub fn request_byte(&mut self) -> Option<u8> {
        self.request_byte_at_offset(0)
    }

    pub fn request_byte_at_offset(&mut self, offset: usize) -> Option<u8> {
        self.buf().get(offset).copied()
    }

    pub fn advance(&mut self, count: usize) {
        self.advance_with_buf(count);
    }

    pub fn advance_with_buf(&mut self, count: usize) -> &[u8] {
        assert!(count <= self.buf_len());
        self.place += count;
        &self.bytes[self.place - count..self.place]
    }

    pub fn io_error(&self) -> Option<&io::Error> {
        None
    }

    pub fn position(&self) -> usize {
        self.place
    }

    pub fn set_mark(&mut self) {
        self.mark = self.place;
    }

    pub fn mark(&self) -> usize {
        self.mark
    }
}
