//! The noise load: the same rough line at every run, for a bench.

use crate::c;
use crate::numbers::{NOISE, NOISE_TURNED};
use crate::refusal::Refusal;

/// The generator of a noise load: its two words, which change with each number drawn.
///
/// The same words give the same noise, call for call: write down those that a session starts from.
///
/// **It is for a bench.** A noise load damages blocks: no office and no machine in a shop uses it.
#[derive(Clone, Copy, Debug, PartialEq, Eq)]
pub struct Generator {
    /// Any number but 0, and then never 0 again.
    pub first: u32,
    /// Any number.
    pub second: u32,
}

/// The noise of one block period: nothing, or damage to the block, or a turned-over reading.
#[derive(Clone, Copy, Debug, PartialEq, Eq)]
pub struct Noise {
    /// The bits inverted in this block, 0 to 16.
    pub inverted: u32,
    /// The reading given to the next [`Sender::send`](crate::Sender::send) that is not refused is to be turned over: the
    /// next one on the sender itself, not on a copy.
    pub turned: bool,
}

impl Generator {
    /// Draws the noise of one block period and lays it over the block: once for each block that is sent, and not for the
    /// sending call on a copy.
    ///
    /// In one period of four, on average, bits within 16 adjacent ones of the block are inverted, and in another one the
    /// next reading is turned over. Which bits are inverted depends on the words and on k alone, not on the block's bits.
    ///
    /// **Sessions under the load may go wrong**, as on a rough line, and nothing is guaranteed of them: a turned-over reading
    /// may lose a repeat request, and damage to a cancelled block may make it pass, whole or with other data. The machine
    /// may then store and report a wrong order without an alarm: compare what arrived with what was sent.
    pub fn noise(&mut self, k: usize, block: &mut [u8]) -> Result<Noise, Refusal> {
        let word = unsafe {
            c::order_line_noise(
                k,
                &mut self.first,
                &mut self.second,
                block.as_mut_ptr(),
                block.len(),
            )
        };
        if word & NOISE == 0 {
            return Err(Refusal::of(word));
        }
        Ok(Noise {
            inverted: word >> 16,
            turned: word & NOISE_TURNED != 0,
        })
    }
}

#[cfg(test)]
mod tests {
    use super::*;
    use crate::block_bytes;

    const fn words(first: u32, second: u32) -> Generator {
        Generator { first, second }
    }

    /// The first word 1 becomes 270,369 and then 67,634,689. With the second, 632,806 is drawn, whose low two bits are 2,
    /// and then 68,359,563, which is 1,043 * 65,536 + 0x158B; 1,043 is 63 modulo 245. A bit later, at a byte's start, the
    /// pattern is 0x2B16. The block is inverted there, and the byte behind it stays.
    #[test]
    fn a_span_is_damaged() {
        let mut generator = words(1, 0);
        let mut block = [0xFF; block_bytes(240) + 1];
        let noise = Noise {
            inverted: 7,
            turned: false,
        };
        assert_eq!(generator.noise(240, &mut block), Ok(noise));
        assert_eq!(generator, words(67634689, 2 * 362437));
        let mut damaged = [0xFF; block_bytes(240) + 1];
        damaged[8] ^= 0x2B;
        damaged[9] ^= 0x16;
        assert_eq!(block, damaged);
    }

    /// 632,807 is drawn, whose low two bits are 3; and from the greatest second word, 632,805: 1.
    #[test]
    fn a_reading_is_turned_over_or_nothing_happens() {
        for (second, turned) in [(1, true), (u32::MAX, false)] {
            let mut generator = words(1, second);
            let mut block = [0x5A; block_bytes(3840)];
            let noise = Noise {
                inverted: 0,
                turned,
            };
            assert_eq!(generator.noise(3840, &mut block), Ok(noise));
            assert_eq!(generator, words(270369, second.wrapping_add(362437)));
            assert_eq!(block, [0x5A; block_bytes(3840)]);
        }
    }

    #[test]
    fn a_refused_call_leaves_the_words_and_the_block() {
        let refusals = [
            (250, words(0, 5), Refusal::Block),
            (480, words(0, 5), Refusal::Generator),
            (480, words(1, 0), Refusal::Short),
            (480, words(1, 1), Refusal::Short),
        ];
        for (k, start, refusal) in refusals {
            let mut generator = start;
            let mut block = [0x5A; block_bytes(480) - 1];
            assert_eq!(generator.noise(k, &mut block), Err(refusal));
            assert_eq!(generator, start);
            assert_eq!(block, [0x5A; block_bytes(480) - 1]);
        }
    }
}
