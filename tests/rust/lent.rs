//! Buffers lent to both sides.

use super::reference::MAX_EVIDENCE_BYTES;
use super::rng::Rng;

/// Bytes behind each buffer, which are not lent.
const MARGIN: usize = 32;

/// The longest buffer that is lent.
const ROOM: usize = MAX_EVIDENCE_BYTES + 1_024;

/// A buffer lent to both sides with the same bytes in it, and the margin behind it.
#[derive(Default)]
pub struct Lent {
    pub length: usize,
    pub before: Vec<u8>,
    pub expected: Vec<u8>,
    pub actual: Vec<u8>,
}

impl Lent {
    fn fill(&mut self, bytes: &[u8]) {
        self.length = bytes.len() - MARGIN;
        for copy in [&mut self.before, &mut self.expected, &mut self.actual] {
            copy.clear();
            copy.extend_from_slice(bytes);
        }
    }

    pub fn agree(&self) -> bool {
        self.expected == self.actual
    }

    pub fn untouched(&self) -> bool {
        self.actual == self.before
    }
}

/// What a buffer holds when it is lent.
#[derive(Clone, Copy)]
pub enum Fill {
    Byte(u8),
    Random,
}

/// Bytes at random, of which each buffer gets a part.
pub struct Noise(Vec<u8>);

impl Noise {
    pub fn new() -> Noise {
        let mut rng = Rng::new(0);
        Noise((0..2 * ROOM).map(|_| rng.byte()).collect())
    }

    /// Lends so many bytes.
    pub fn lend(&self, lent: &mut Lent, length: usize, fill: Fill, rng: &mut Rng) {
        match fill {
            Fill::Byte(byte) => lent.fill(&[byte; ROOM + MARGIN][..length + MARGIN]),
            Fill::Random => {
                let from = rng.below(self.0.len() - length - MARGIN);
                lent.fill(&self.0[from..from + length + MARGIN]);
            }
        }
    }
}

/// A length of at least what is needed; seldom too short.
pub fn any_length(needed: usize, rng: &mut Rng) -> usize {
    match rng.below(128) {
        0 if needed > 0 => rng.pick(&[0, 1, needed - 1, needed / 2]),
        0..64 => needed,
        _ => needed + rng.below(40),
    }
}
