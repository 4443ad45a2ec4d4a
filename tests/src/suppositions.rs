//! How likely it is that a block breaks what demand 3 supposes, on a line that inverts each bit with
//! chance p, one independently of the other.

use crate::damage::ADMITTED_SPAN;
use crate::reference::block::{remainder, CHECK_BITS};

/// A cancelled block arrives whole: exactly its last bit is inverted.
pub fn cancelled_whole(n: usize, p: f64) -> f64 {
    p * (1.0 - p).powi(n as i32 - 1)
}

/// A block arrives with at least one bit inverted.
pub fn damaged(bits: usize, p: f64) -> f64 {
    1.0 - (1.0 - p).powi(bits as i32)
}

/// Damage that demand 3 does not admit: an even number of bits, not 0, nor within 16 adjacent
/// places. `chances` has for each place the chance that it differs from the block before
/// cancelling.
pub fn not_admitted(chances: &[f64]) -> f64 {
    let untouched = |places: &[f64]| places.iter().map(|q| 1.0 - q).product::<f64>();
    let parity = |places: &[f64]| places.iter().map(|q| 1.0 - 2.0 * q).product::<f64>();
    let even = (1.0 + parity(chances)) / 2.0;
    let mut near = 0.0;
    // The first place is inverted, an odd number of the next 15, and none behind them.
    for first in 0..chances.len() {
        let end = (first + ADMITTED_SPAN).min(chances.len());
        let odd = (1.0 - parity(&chances[first + 1..end])) / 2.0;
        let others = untouched(&chances[..first]) * untouched(&chances[end..]);
        near += chances[first] * odd * others;
    }
    even - untouched(chances) - near
}

/// The chances of a block that is not cancelled, or is.
pub fn chances(n: usize, p: f64, cancelled: bool) -> Vec<f64> {
    let mut chances = vec![p; n];
    if cancelled {
        chances[n - 1] = 1.0 - p;
    }
    chances
}

/// How many patterns of four inverted bits the check passes: all, and those with the last bit.
/// `None` if a pattern of two passes.
pub fn passing_fours(n: usize) -> Option<(usize, usize)> {
    let remainders: Vec<usize> = (0..n).map(remainder_of_power).collect();
    let mut pairs = vec![0_usize; 1 << CHECK_BITS];
    for (i, first) in remainders.iter().enumerate() {
        for second in &remainders[..i] {
            pairs[first ^ second] += 1;
        }
    }
    if pairs[0] > 0 {
        return None;
    }
    // Each four is three pairs of pairs; each three beside the last bit has three pairs.
    let fours: usize = pairs
        .iter()
        .map(|&count| count * count.saturating_sub(1) / 2)
        .sum();
    let with_last: usize = remainders[1..]
        .iter()
        .map(|other| pairs[other ^ remainders[0]] - 1)
        .sum();
    Some((fours / 3, with_last / 3))
}

/// The remainder of x to this power; the last bit is the power 0.
fn remainder_of_power(power: usize) -> usize {
    let mut row = vec![false; power + 1];
    row[0] = true;
    usize::from(remainder(&row))
}

/// The places, on average, at which a search over so many random bits finds the sequence; no
/// chance is above it.
pub fn found_in_search(bits: usize) -> f64 {
    bits as f64 / (1 << CHECK_BITS) as f64
}

#[cfg(test)]
mod tests {
    use super::*;
    use crate::damage::is_admitted;
    use crate::reference::bits::bits_of;
    use crate::reference::block::passes;

    /// Every pattern of 19 places, weighed by its chance.
    #[test]
    fn the_formula_is_the_sum_over_all_patterns() {
        const N: usize = 19;
        for cancelled in [false, true] {
            let chances = chances(N, 0.1, cancelled);
            let weight = |pattern: &[bool]| -> f64 {
                let places = pattern.iter().zip(&chances);
                places
                    .map(|(&bit, q)| if bit { *q } else { 1.0 - q })
                    .product()
            };
            let patterns = (0..1 << N).map(|pattern| bits_of(pattern, N));
            let sum: f64 = patterns
                .filter(|p| !is_admitted(p))
                .map(|p| weight(&p))
                .sum();
            assert!((sum - not_admitted(&chances)).abs() < 1e-12);
        }
    }

    #[test]
    fn the_fours_that_pass_are_counted() {
        const N: usize = 28;
        let fours = (0..1_usize << N).filter(|pattern| pattern.count_ones() == 4);
        let passing: Vec<usize> = fours
            .filter(|&pattern| passes(&bits_of(pattern, N)))
            .collect();
        let with_last = passing.iter().filter(|&pattern| pattern & 1 == 1).count();
        assert_eq!(passing_fours(N), Some((passing.len(), with_last)));
        assert!(with_last > 0);
    }
}
