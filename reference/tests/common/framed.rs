//! Buffers that show a write.

use std::hint::black_box;
use std::ops::Range;

use reference::rng::Rng;

/// A file amid other bytes, at any alignment, with a copy of it all: a write to the file or beside
/// it shows, and so does an answer that hangs on what lies beside it.
pub struct Framed {
    all: Vec<u8>,
    copy: Vec<u8>,
    own: Range<usize>,
}

impl Framed {
    pub fn new(rng: &mut Rng, bytes: &[u8]) -> Framed {
        let before = rng.below(16);
        let mut all = rng.bytes(before);
        all.extend(bytes);
        all.extend(rng.bytes(32));
        Framed { copy: all.clone(), all, own: before..before + bytes.len() }
    }

    pub fn bytes(&self) -> &[u8] {
        &self.all[self.own.clone()]
    }

    #[allow(dead_code, reason = "not every test has a call that writes")]
    pub fn bytes_mut(&mut self) -> &mut [u8] {
        &mut self.all[self.own.clone()]
    }

    /// The file was written as it may be, and beside it nothing.
    #[allow(dead_code, reason = "not every test has a call that writes")]
    pub fn assert_changed_to(&self, expected: &[u8]) {
        let (all, copy) = black_box((&self.all, &self.copy));
        assert_eq!(&all[self.own.clone()], expected, "what the call left");
        let beside = |bytes: &[u8]| [&bytes[..self.own.start], &bytes[self.own.end..]].concat();
        assert_eq!(beside(all), beside(copy), "the call wrote beside its buffer");
    }

    #[allow(dead_code, reason = "not every test has a call that only reads")]
    pub fn assert_unchanged(&self) {
        // Hidden from the compiler, which may otherwise take a shared slice as never written.
        let (all, copy) = black_box((&self.all, &self.copy));
        assert!(all == copy, "the call wrote to its input {copy:02x?}");
    }
}
