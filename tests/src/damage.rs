//! What the line does to a block: patterns of inverted bits, as long as the block.

use crate::reference::bits::{bits_of, Bits};
use crate::rng::Rng;

/// The most adjacent places within which demand 3 admits any damage.
pub const ADMITTED_SPAN: usize = 16;

/// x^16 + x^12 + x^5 + 1: what the check cannot see, at any place.
const GENERATOR: usize = 0x1_1021;
const GENERATOR_BITS: usize = 17;

#[derive(Clone, Copy, Debug, PartialEq, Eq)]
pub enum Damage {
    Nothing,
    FirstBit,
    OneBit,
    /// Any odd number of bits.
    OddBits,
    /// Bits within 16 adjacent places.
    Burst,
    /// A burst of 17 to 40 places.
    LongBurst,
    /// Two bits anywhere.
    TwoBits,
    /// A multiple of the generator: the check passes as before.
    Undetected,
    /// Each bit inverted or not.
    Noise,
}

/// The kinds that demand 3 admits.
pub const ADMITTED_KINDS: [Damage; 5] = [
    Damage::Nothing,
    Damage::FirstBit,
    Damage::OneBit,
    Damage::OddBits,
    Damage::Burst,
];

/// Kinds beyond those of demand 3, though a pattern of theirs may happen to be admitted.
pub const OTHER_KINDS: [Damage; 4] = [
    Damage::LongBurst,
    Damage::TwoBits,
    Damage::Undetected,
    Damage::Noise,
];

impl Damage {
    /// A pattern of this kind for a block of n bits.
    pub fn pattern(self, rng: &mut Rng, n: usize) -> Bits {
        match self {
            Damage::Nothing => vec![false; n],
            Damage::FirstBit => single_bit(n, 0),
            Damage::OneBit => single_bit(n, rng.below(n)),
            Damage::OddBits => odd_bits(rng, n),
            Damage::Burst => {
                let width = rng.between(2, ADMITTED_SPAN);
                burst(rng, n, width)
            }
            Damage::LongBurst => {
                let width = rng.between(ADMITTED_SPAN + 1, 40);
                burst(rng, n, width)
            }
            Damage::TwoBits => two_bits(rng, n),
            Damage::Undetected => undetected(rng, n),
            Damage::Noise => (0..n).map(|_| rng.bit()).collect(),
        }
    }
}

/// Whether demand 3 admits the pattern: nothing, an odd number of bits, or bits within 16
/// adjacent places.
pub fn is_admitted(pattern: &[bool]) -> bool {
    let count = pattern.iter().filter(|&&bit| bit).count();
    count == 0 || count % 2 == 1 || span(pattern) <= ADMITTED_SPAN
}

/// The bits at these powers of x; the last bit is at power 0.
pub fn at_powers(n: usize, powers: &[usize]) -> Bits {
    (0..n).rev().map(|power| powers.contains(&power)).collect()
}

/// The remainder of x times a polynomial that has this remainder.
pub fn times_x(remainder: u16) -> u16 {
    match remainder >> 15 {
        0 => remainder << 1,
        _ => remainder << 1 ^ GENERATOR as u16,
    }
}

/// From the first inverted bit to the last, both counted.
fn span(pattern: &[bool]) -> usize {
    let first = pattern.iter().position(|&bit| bit);
    let last = pattern.iter().rposition(|&bit| bit);
    match (first, last) {
        (Some(first), Some(last)) => last - first + 1,
        _ => 0,
    }
}

/// Inverts the bits that the pattern sets.
pub fn invert(bits: &mut [bool], pattern: &[bool]) {
    for (bit, &inverted) in bits.iter_mut().zip(pattern) {
        *bit ^= inverted;
    }
}

fn single_bit(n: usize, place: usize) -> Bits {
    let mut pattern = vec![false; n];
    pattern[place] = true;
    pattern
}

fn two_bits(rng: &mut Rng, n: usize) -> Bits {
    let mut pattern = single_bit(n, rng.below(n));
    let place = rng.below(n);
    pattern[place] ^= true;
    pattern
}

fn odd_bits(rng: &mut Rng, n: usize) -> Bits {
    let mut pattern = vec![false; n];
    let flips = if rng.bit() { 3 } else { rng.below(n) };
    for _ in 0..flips {
        pattern[rng.below(n)] = true;
    }
    if pattern.iter().filter(|&&bit| bit).count() % 2 == 0 {
        let place = rng.below(n);
        pattern[place] ^= true;
    }
    pattern
}

/// A burst of exactly `width` places, 1 to n, its first and last bit inverted.
pub fn burst(rng: &mut Rng, n: usize, width: usize) -> Bits {
    let mut pattern = vec![false; n];
    let first = rng.below(n - width + 1);
    for bit in &mut pattern[first..first + width] {
        *bit = rng.bit();
    }
    pattern[first] = true;
    pattern[first + width - 1] = true;
    pattern
}

/// The generator laid over the block at one to three places.
fn undetected(rng: &mut Rng, n: usize) -> Bits {
    let mut pattern = vec![false; n];
    for _ in 0..rng.between(1, 3) {
        let first = rng.below(n - GENERATOR_BITS + 1);
        let generator = bits_of(GENERATOR, GENERATOR_BITS);
        invert(&mut pattern[first..first + GENERATOR_BITS], &generator);
    }
    pattern
}

#[cfg(test)]
mod tests {
    use super::*;
    use crate::reference::block::passes;

    #[test]
    fn the_admitted_kinds_are_admitted_and_found() {
        let mut rng = Rng::new(2);
        for damage in ADMITTED_KINDS {
            for _ in 0..500 {
                let pattern = damage.pattern(&mut rng, 260);
                assert!(is_admitted(&pattern), "{damage:?}");
                assert_eq!(passes(&pattern), damage == Damage::Nothing);
            }
        }
    }

    #[test]
    fn multiples_of_the_generator_are_not_found() {
        let mut rng = Rng::new(3);
        for _ in 0..500 {
            assert!(passes(&Damage::Undetected.pattern(&mut rng, 260)));
        }
    }

    #[test]
    fn seventeen_places_are_too_many() {
        let mut pattern = vec![false; 260];
        pattern[100] = true;
        pattern[115] = true;
        assert!(is_admitted(&pattern));
        pattern.swap(115, 116);
        assert!(!is_admitted(&pattern));
        pattern[200] = true;
        assert!(is_admitted(&pattern));
    }
}
