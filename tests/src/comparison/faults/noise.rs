//! The faults of the noise load: the call once more, with one fault.

use crate::calls::NoiseLoads;
use crate::interface::encode_noise;
use crate::reference::block::{block_bits, block_bytes, is_length};
use crate::reference::noise::Load;
use crate::reference::refusal::{Refusal, BLOCK, GENERATOR, SHORT};

#[derive(Clone, Copy, Debug, PartialEq, Eq)]
pub enum NoiseFault {
    None,
    /// The first shift is by 12.
    ShiftBy12,
    /// The second shift takes the word as it was before the first.
    OldValue,
    /// The last shift is to the right.
    LastToTheRight,
    /// The second word grows by 362,436.
    Grows362436,
    /// The second word stops at the largest number.
    SecondStops,
    /// The sum stops at the largest number.
    SumStops,
    /// A carry of the sum is added to it.
    CarryAdded,
    /// The number drawn is the sum before the change.
    DrawnBefore,
    /// The last place is none.
    LastPlaceMissing,
    /// A place more is one, so that the first spare bit is inverted too.
    OnePlaceMore,
    /// The last spare bit is inverted beside a span.
    SpareInverted,
    /// The byte behind the block is changed beside a span.
    BehindBlock,
    /// The pattern is laid with its lowest bit first.
    LowestFirst,
    /// The pattern is the upper half, and the place comes from the lower.
    HalvesExchanged,
    /// The place and the pattern are those of the first draw.
    OneDraw,
    /// The pattern's ones are set in the block.
    OnesSet,
    /// The ones of the whole draw are counted.
    DrawCounted,
    /// A second draw is not used up where the pattern has no ones.
    WithoutOnesNotUsed,
    /// 2 turns the reading too.
    TurnedAtTwo,
    /// The second draw of a span turns the reading too.
    TurnedBySecond,
    /// 2 and 3 have each other's meaning.
    KindsExchanged,
    /// 1 brings a span.
    SpanAtOne,
    /// 13 is tested before 1.
    GeneratorFirst,
    /// 13 is tested after 6.
    GeneratorAfterShort,
    /// A second word of 0 is refused too.
    SecondJudged,
    /// The block is judged only where a span is drawn.
    ShortForSpanAlone,
    /// A block that lacks its last byte is not short if the span ends before it.
    ShortForReachAlone,
    /// A refused call changes the words.
    RefusedWords,
    /// A refused call changes the block.
    RefusedBlock,
}

pub const NOISE_FAULTS: [NoiseFault; 29] = [
    NoiseFault::ShiftBy12,
    NoiseFault::OldValue,
    NoiseFault::LastToTheRight,
    NoiseFault::Grows362436,
    NoiseFault::SecondStops,
    NoiseFault::SumStops,
    NoiseFault::CarryAdded,
    NoiseFault::DrawnBefore,
    NoiseFault::LastPlaceMissing,
    NoiseFault::OnePlaceMore,
    NoiseFault::SpareInverted,
    NoiseFault::BehindBlock,
    NoiseFault::LowestFirst,
    NoiseFault::HalvesExchanged,
    NoiseFault::OneDraw,
    NoiseFault::OnesSet,
    NoiseFault::DrawCounted,
    NoiseFault::WithoutOnesNotUsed,
    NoiseFault::TurnedAtTwo,
    NoiseFault::TurnedBySecond,
    NoiseFault::KindsExchanged,
    NoiseFault::SpanAtOne,
    NoiseFault::GeneratorFirst,
    NoiseFault::GeneratorAfterShort,
    NoiseFault::SecondJudged,
    NoiseFault::ShortForSpanAlone,
    NoiseFault::ShortForReachAlone,
    NoiseFault::RefusedWords,
    NoiseFault::RefusedBlock,
];

/// The first and the second word.
type Words = [u32; 2];

/// The call with this fault.
pub struct OfNoise(pub NoiseFault);

impl OfNoise {
    fn has(&self, fault: NoiseFault) -> bool {
        self.0 == fault
    }

    fn first(&self, x: u32) -> u32 {
        let once = x ^ x << (13 - u32::from(self.has(NoiseFault::ShiftBy12)));
        let twice = match self.has(NoiseFault::OldValue) {
            true => once ^ x >> 17,
            false => once ^ once >> 17,
        };
        match self.has(NoiseFault::LastToTheRight) {
            true => twice ^ twice >> 5,
            false => twice ^ twice << 5,
        }
    }

    fn second(&self, y: u32) -> u32 {
        match self.0 {
            NoiseFault::Grows362436 => y.wrapping_add(362_436),
            NoiseFault::SecondStops => y.saturating_add(362_437),
            _ => y.wrapping_add(362_437),
        }
    }

    /// A draw, and the words after it.
    fn draw(&self, words: Words) -> (u32, Words) {
        let after = [self.first(words[0]), self.second(words[1])];
        let [x, y] = match self.has(NoiseFault::DrawnBefore) {
            true => words,
            false => after,
        };
        let (sum, carry) = x.overflowing_add(y);
        let drawn = match self.0 {
            NoiseFault::SumStops if carry => u32::MAX,
            NoiseFault::CarryAdded => sum.wrapping_add(u32::from(carry)),
            _ => sum,
        };
        (drawn, after)
    }

    fn brings_span(&self, drawn: u32) -> bool {
        match (drawn % 4, self.0) {
            (2, fault) => fault != NoiseFault::KindsExchanged,
            (3, fault) => fault == NoiseFault::KindsExchanged,
            (1, fault) => fault == NoiseFault::SpanAtOne,
            _ => false,
        }
    }

    fn turns_reading(&self, drawn: u32) -> bool {
        match (drawn % 4, self.0) {
            (2, fault) => [NoiseFault::KindsExchanged, NoiseFault::TurnedAtTwo].contains(&fault),
            (3, fault) => fault != NoiseFault::KindsExchanged,
            _ => false,
        }
    }

    /// The place and the pattern of a span.
    fn place_and_pattern(&self, k: usize, drawn: u32) -> (usize, u16) {
        let places = match self.0 {
            NoiseFault::LastPlaceMissing => block_bits(k) - 16,
            NoiseFault::OnePlaceMore => block_bits(k) - 14,
            _ => block_bits(k) - 15,
        };
        let halves = [(drawn >> 16) as u16, drawn as u16];
        let [place, pattern] = match self.has(NoiseFault::HalvesExchanged) {
            true => [halves[1], halves[0]],
            false => halves,
        };
        let pattern = match self.has(NoiseFault::LowestFirst) {
            true => pattern.reverse_bits(),
            false => pattern,
        };
        (usize::from(place) % places, pattern)
    }

    /// Which of the refusals comes, if any.
    fn judge(&self, k: usize, words: Words, bytes: usize) -> Result<(), Refusal> {
        let no_generator = words[0] == 0 || self.has(NoiseFault::SecondJudged) && words[1] == 0;
        if self.has(NoiseFault::GeneratorFirst) && no_generator {
            return Err(GENERATOR);
        }
        if !is_length(k) {
            return Err(BLOCK);
        }
        let short = bytes < self.wanted(k, words);
        match (no_generator, short) {
            (true, true) if self.has(NoiseFault::GeneratorAfterShort) => Err(SHORT),
            (true, _) => Err(GENERATOR),
            (false, true) => Err(SHORT),
            (false, false) => Ok(()),
        }
    }

    /// The bytes that a block must have.
    fn wanted(&self, k: usize, words: Words) -> usize {
        let (drawn, words) = self.draw(words);
        let span = self.brings_span(drawn);
        let (place, _) = self.place_and_pattern(k, self.draw(words).0);
        let reached = (place + 16).div_ceil(8);
        match self.0 {
            NoiseFault::ShortForSpanAlone if !span => 0,
            NoiseFault::ShortForReachAlone if span => reached.max(block_bytes(k) - 1),
            _ => block_bytes(k),
        }
    }

    /// The load on a block, which is not judged, and the words after it.
    fn load(&self, k: usize, words: Words, block: &mut [u8]) -> (Load, Words) {
        let (drawn, words) = self.draw(words);
        let mut load = Load {
            inverted: 0,
            turned: self.turns_reading(drawn),
        };
        if !self.brings_span(drawn) {
            return (load, words);
        }
        let (second, after) = self.draw(words);
        let used = match self.has(NoiseFault::OneDraw) {
            true => drawn,
            false => second,
        };
        let (place, pattern) = self.place_and_pattern(k, used);
        self.lay(k, place, pattern, block);
        load.inverted = match self.has(NoiseFault::DrawCounted) {
            true => used.count_ones() as usize,
            false => pattern.count_ones() as usize,
        };
        load.turned |= self.has(NoiseFault::TurnedBySecond) && second % 4 == 3;
        match pattern == 0 && self.has(NoiseFault::WithoutOnesNotUsed) {
            true => (load, words),
            false => (load, after),
        }
    }

    /// Lays the pattern over the block from this place on.
    fn lay(&self, k: usize, place: usize, pattern: u16, block: &mut [u8]) {
        let ones = (0..16).filter(|i| pattern << i & 0x8000 != 0);
        for at in ones.map(|i| place + i) {
            let bit = 0x80 >> (at % 8);
            match self.has(NoiseFault::OnesSet) {
                true => block[at / 8] |= bit,
                false => block[at / 8] ^= bit,
            }
        }
        match (self.0, block.get_mut(block_bytes(k))) {
            (NoiseFault::SpareInverted, _) => block[block_bytes(k) - 1] ^= 1,
            (NoiseFault::BehindBlock, Some(byte)) => *byte ^= 1,
            _ => {}
        }
    }
}

impl NoiseLoads for OfNoise {
    fn noise(&self, k: usize, first: &mut u32, second: &mut u32, block: &mut [u8]) -> u32 {
        let words = [*first, *second];
        let refused = self.judge(k, words, block.len());
        let (loaded, after) = match (refused, self.0) {
            (Ok(()), _) => {
                let (load, after) = self.load(k, words, block);
                (Ok(load), after)
            }
            (Err(number), NoiseFault::RefusedWords) => (Err(number), self.draw(words).1),
            (Err(number), NoiseFault::RefusedBlock) => {
                block.reverse();
                (Err(number), words)
            }
            (Err(number), _) => (Err(number), words),
        };
        [*first, *second] = after;
        encode_noise(loaded)
    }
}
