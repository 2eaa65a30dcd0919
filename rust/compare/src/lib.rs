//! The original beside ours.
extern crate self as fugit;

// The original names these from its crate's root.
pub use original::{dvi, KilohertzU32};

pub mod original;
pub mod sides;

use dvi::tmds::{TmdsPair, TmdsSymbol};

/// The original's symbol as a number: it keeps its field to itself, and hands it out in a pair.
pub fn original_encode(d: i32, byte: u8) -> (u16, i32) {
    let (end, symbol) = TmdsSymbol::encode(d, byte);
    ((TmdsPair::new(symbol, TmdsSymbol::C0).raw() & 0x3ff) as u16, end)
}

/// Numbers that no branch predictor learns (xorshift64*), the same in every run.
pub struct Random(u64);

impl Random {
    pub fn new(seed: u64) -> Self {
        Random(seed | 1)
    }

    pub fn next(&mut self) -> u64 {
        self.0 ^= self.0 >> 12;
        self.0 ^= self.0 << 25;
        self.0 ^= self.0 >> 27;
        self.0.wrapping_mul(0x2545_f491_4f6c_dd1d)
    }

    pub fn below(&mut self, n: u64) -> u64 {
        (self.next() >> 11) % n
    }

    pub fn fill(&mut self, bytes: &mut [u8]) {
        for b in bytes {
            *b = (self.next() >> 56) as u8;
        }
    }
}
