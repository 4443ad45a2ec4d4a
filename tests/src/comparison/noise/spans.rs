//! Damaged spans, from words that are made for them.

use super::{compare_noise, done, words, Group};
use crate::calls::NoiseLoads;
use crate::comparison::{same, Difference, GuardedBuffer};
use crate::damage::invert;
use crate::reference::bits::{bits_of, unpack};
use crate::reference::block::{block_bytes, LENGTHS};
use crate::reference::noise::{places, Load, PATTERN_BITS};

/// The halves that a draw can have.
const HALVES: usize = 1 << 16;

/// The largest upper half of a draw that gives this place.
fn largest_half(k: usize, place: usize) -> usize {
    let multiples = (HALVES - 1 - place) / places(k);
    place + multiples * places(k)
}

impl<T: NoiseLoads> Group<'_, T> {
    /// At each k every place, by the smallest and the largest number that gives it, with patterns of
    /// no ones, of one at either end, of ones alone, and any; and every pattern at some place.
    pub(super) fn spans(&mut self) -> Result<(), Difference> {
        for k in LENGTHS {
            for place in 0..places(k) {
                for upper in [place, largest_half(k, place)] {
                    let any = self.rng.below(HALVES);
                    for pattern in [0x0000, 0x0001, 0x8000, 0xFFFF, any] {
                        self.span(k, upper, pattern)?;
                    }
                }
            }
            for pattern in 0..HALVES {
                let upper = self.rng.below(HALVES);
                self.span(k, upper, pattern)?;
            }
        }
        Ok(())
    }

    /// A draw of these halves: what it lays over the 16 bits from its place on is the pattern. That no
    /// other bit differs then follows from their number.
    fn span(&mut self, k: usize, upper: usize, pattern: usize) -> Result<(), Difference> {
        let words = words::of_span(&mut self.rng, (HALVES * upper + pattern) as u32);
        let behind = self.rng.below(3);
        let block = GuardedBuffer::random(&mut self.rng, block_bytes(k) + behind);
        let before = block.clone();
        let answer = compare_noise(self.tested, k, words, block, &mut self.tally)?;
        let case = || format!("a span: k {k}, {upper:x} and {pattern:x} drawn");
        let period = done(answer, &case)?;
        let pattern = bits_of(pattern, PATTERN_BITS);
        let expected = Load {
            inverted: pattern.iter().filter(|&&bit| bit).count(),
            turned: false,
        };
        same(&case, &expected, &period.load)?;
        let place = upper % places(k);
        let mut laid = unpack(&period.block, place, PATTERN_BITS);
        invert(&mut laid, &unpack(before.slice(), place, PATTERN_BITS));
        same(&case, &pattern, &laid)
    }
}
