//! The noise load out of arbitrary bytes: words that mostly draw something at a border, and a block of
//! any bytes; the next call goes on from the words, or from others.

use super::input::{bounded_length, Input};
use super::CALLS;
use crate::calls::NoiseLoads;
use crate::comparison::noise::{compare_noise, words};
use crate::comparison::{Difference, GuardedBuffer, Tally};
use crate::reference::block::{block_bytes, is_length};
use crate::reference::noise::{places, Generator};
use crate::rng::Rng;

/// Periods while bytes are left.
pub fn calls(
    tested: &impl NoiseLoads,
    input: &mut Input,
    tally: &mut Tally,
) -> Result<(), Difference> {
    let mut left = None;
    for _ in 0..CALLS {
        let k = input.length();
        let words = match left {
            Some(words) if input.flag() => words,
            _ => input.words(k),
        };
        let block = input.lent(block_bytes(bounded_length(k)));
        let place = GuardedBuffer::around(&mut Rng::new(6), &block);
        let answer = compare_noise(tested, k, words, place, tally)?;
        left = answer.ok().map(|period| period.words);
        if input.is_empty() {
            break;
        }
    }
    Ok(())
}

impl Input<'_> {
    /// Any words, words that draw a span, a second word at a border, or a first word of 0.
    fn words(&mut self, k: usize) -> Generator {
        let kind = self.byte();
        let (first, second) = (self.word(), self.word());
        match kind {
            0..=79 => Generator { first, second },
            80..=199 => {
                let drawn = u32::from(self.place(k)) << 16 | u32::from(self.pattern_bits());
                words::of_span(&mut Rng::new(u64::from(first)), drawn)
            }
            200..=219 => Generator {
                first,
                second: u32::MAX - second % words::GROWTH,
            },
            220..=235 => Generator { first, second: 0 },
            _ => Generator { first: 0, second },
        }
    }

    /// The upper half of a draw: often one that gives a place at an end of the block.
    fn place(&mut self, k: usize) -> u16 {
        let end = if is_length(k) { places(k) } else { 1 };
        match self.byte() {
            0..=39 => 0,
            40..=79 => (end - 1) as u16,
            80..=99 => end as u16,
            _ => self.number(),
        }
    }

    /// The lower half: now and then without ones, or with ones alone.
    fn pattern_bits(&mut self) -> u16 {
        match self.byte() {
            0..=31 => 0,
            32..=63 => u16::MAX,
            _ => self.number(),
        }
    }
}
