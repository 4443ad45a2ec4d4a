//! Noise that is refused: numbers that are no k, generators with a first word of 0, short blocks.

use super::{expect, words, Group};
use crate::calls::NoiseLoads;
use crate::comparison::block::{multiple_name, multiples_of_8, REFUSED_LENGTHS};
use crate::comparison::{choices, Difference};
use crate::reference::block::{block_bytes, is_length, LENGTHS};
use crate::reference::noise::Generator;
use crate::reference::refusal::{Refusal, BLOCK, GENERATOR, SHORT};

/// The refusals in their order.
const REFUSALS: [Refusal; 3] = [BLOCK, GENERATOR, SHORT];

/// The low two bits of a draw.
const KINDS: [u32; 4] = [0, 1, 2, 3];

impl<T: NoiseLoads> Group<'_, T> {
    pub(super) fn refusals(&mut self) -> Result<(), Difference> {
        self.lengths()?;
        for k in LENGTHS {
            self.first_word_0(k)?;
            self.short_blocks(k)?;
            for refusals in choices(&REFUSALS) {
                for kind in KINDS {
                    self.refused(k, kind, &refusals)?;
                }
            }
        }
        Ok(())
    }

    /// Every multiple of 8 and other numbers as k, with each kind of draw.
    fn lengths(&mut self) -> Result<(), Difference> {
        for kind in KINDS {
            for k in multiples_of_8() {
                let refused = self.is_refused(k, kind)?;
                self.tally.count(multiple_name(refused));
            }
            for k in REFUSED_LENGTHS {
                self.is_refused(k, kind)?;
            }
        }
        Ok(())
    }

    /// Whether this number is refused as k, with a block that would hold so many data bits.
    fn is_refused(&mut self, k: usize, kind: u32) -> Result<bool, Difference> {
        let words = words::of_kind(&mut self.rng, kind);
        let answer = self.noise(k, words, block_bytes(k.min(4_000)))?;
        let refusal = (!is_length(k)).then_some(BLOCK);
        expect(&answer, &|| format!("k {k}, draw {kind}"), refusal)?;
        Ok(answer.is_err())
    }

    /// With second words at the borders; and with some from which each kind would be drawn, beside
    /// blocks of every length.
    fn first_word_0(&mut self, k: usize) -> Result<(), Difference> {
        let whole = block_bytes(k);
        let at_borders = words::SECONDS.map(|second| (Generator { first: 0, second }, whole));
        let mut calls = at_borders.to_vec();
        for bytes in 0..=whole + 4 {
            calls.extend(KINDS.map(|kind| (self.with_first_word_0(kind), bytes)));
        }
        for (words, bytes) in calls {
            let answer = self.noise(k, words, bytes)?;
            let case = || format!("k {k}, {words:?}, {bytes} bytes");
            expect(&answer, &case, Some(GENERATOR))?;
        }
        Ok(())
    }

    /// Words whose first is 0, from which a draw with these low two bits would come.
    fn with_first_word_0(&mut self, kind: u32) -> Generator {
        let drawn = (self.rng.next() as u32) << 2 | kind;
        Generator {
            first: 0,
            second: drawn.wrapping_sub(words::GROWTH),
        }
    }

    /// Blocks of every length, whatever is drawn.
    fn short_blocks(&mut self, k: usize) -> Result<(), Difference> {
        let whole = block_bytes(k);
        for bytes in 0..=whole + 4 {
            for kind in KINDS {
                let words = words::of_kind(&mut self.rng, kind);
                let answer = self.noise(k, words, bytes)?;
                let case = || format!("k {k}, {bytes} bytes, draw {kind}");
                expect(&answer, &case, (bytes < whole).then_some(SHORT))?;
            }
        }
        Ok(())
    }

    /// A call that these refusals are about: the first of them comes.
    fn refused(&mut self, k: usize, kind: u32, refusals: &[Refusal]) -> Result<(), Difference> {
        let has = |refusal| refusals.contains(&refusal);
        let whole = block_bytes(k);
        let bytes = match has(SHORT) {
            true => self.rng.pick(&[0, 1, whole - 2, whole - 1]),
            false => whole,
        };
        let words = match has(GENERATOR) {
            true => self.with_first_word_0(kind),
            false => words::of_kind(&mut self.rng, kind),
        };
        let given = match has(BLOCK) {
            true => self.rng.pick(&REFUSED_LENGTHS),
            false => k,
        };
        let answer = self.noise(given, words, bytes)?;
        let case = || format!("refusals {refusals:?}: k {given}, {words:?}, {bytes} bytes");
        expect(&answer, &case, refusals.first().copied())
    }
}
