//! docs/PROTOCOL.md, "The noise load": a generator of two words, and what its draws do to one block
//! period of a bench.

use super::bits::{bit_at, set_bit};
use super::block::{block_bits, block_bytes, is_length};
use super::refusal::{Refusal, BLOCK, GENERATOR, SHORT};

pub mod draws;

/// The number of words: to keep a number to 32 bits is to take it modulo this one.
const WORDS: u64 = 1 << 32;
/// What the second word grows by.
const GROWTH: u64 = 362_437;
/// The number of patterns: a draw divided by it gives the place, and what is left is the pattern.
const PATTERNS: u64 = 65_536;
pub const PATTERN_BITS: usize = 16;

/// The two words.
#[derive(Clone, Copy, Debug, PartialEq, Eq)]
pub struct Generator {
    pub first: u32,
    pub second: u32,
}

/// What was done to one block period.
#[derive(Clone, Copy, Debug, PartialEq, Eq)]
pub struct Load {
    /// How many bits of the block were inverted.
    pub inverted: usize,
    /// The reading at the next period's sending call is turned over.
    pub turned: bool,
}

/// The number of places a pattern can begin at.
pub fn places(k: usize) -> usize {
    block_bits(k) - (PATTERN_BITS - 1)
}

/// x xor (x shifted left by so many bits), kept to 32 bits.
fn xor_left(x: u64, bits: u32) -> u64 {
    x ^ (x * 2_u64.pow(bits) % WORDS)
}

/// x xor (x shifted right by so many bits).
fn xor_right(x: u64, bits: u32) -> u64 {
    x ^ (x / 2_u64.pow(bits))
}

impl Generator {
    /// Both words change, and their sum is drawn.
    pub fn draw(&mut self) -> u32 {
        let x = xor_left(u64::from(self.first), 13);
        let x = xor_right(x, 17);
        let x = xor_left(x, 5);
        let y = (u64::from(self.second) + GROWTH) % WORDS;
        self.first = x as u32;
        self.second = y as u32;
        ((x + y) % WORDS) as u32
    }

    /// The noise of one block period; refusals in the order 1, 13, 6.
    pub fn load(&mut self, k: usize, block: &mut [u8]) -> Result<Load, Refusal> {
        if !is_length(k) {
            return Err(BLOCK);
        }
        if self.first == 0 {
            return Err(GENERATOR);
        }
        if block.len() < block_bytes(k) {
            return Err(SHORT);
        }
        let kind = self.draw() % 4;
        let inverted = match kind {
            2 => self.damage(k, block),
            _ => 0,
        };
        let turned = kind == 3;
        Ok(Load { inverted, turned })
    }

    /// One damaged span, by a second draw; how many bits it inverts.
    fn damage(&mut self, k: usize, block: &mut [u8]) -> usize {
        let drawn = u64::from(self.draw());
        let place = (drawn / PATTERNS) as usize % places(k);
        let mut pattern = drawn % PATTERNS;
        let mut inverted = 0;
        // From the pattern's lowest bit, the last, to its top bit.
        for index in (place..place + PATTERN_BITS).rev() {
            if pattern % 2 == 1 {
                set_bit(block, index, !bit_at(block, index));
                inverted += 1;
            }
            pattern /= 2;
        }
        inverted
    }
}

#[cfg(test)]
mod tests;
