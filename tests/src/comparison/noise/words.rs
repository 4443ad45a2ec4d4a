//! Words by what is drawn from them: a draw undone.

use crate::reference::noise::Generator;
use crate::rng::Rng;

/// What the second word grows by.
pub const GROWTH: u32 = 362_437;

/// First words whose shifted bits are lost, or stay alone.
const FIRSTS: [u32; 8] = [
    1,
    1 << 13,
    1 << 17,
    1 << 18,
    1 << 19,
    1 << 27,
    1 << 31,
    u32::MAX,
];

/// Second words on either side of those that the next draw, or the one after it, makes 0.
pub const SECONDS: [u32; 7] = [
    0,
    1,
    u32::MAX - 2 * GROWTH,
    u32::MAX - GROWTH,
    u32::MAX - GROWTH + 1,
    u32::MAX - GROWTH + 2,
    u32::MAX,
];

/// Each of these first words with each of these second ones.
pub fn at_borders() -> impl Iterator<Item = Generator> {
    let with = |second| FIRSTS.map(|first| Generator { first, second });
    SECONDS.into_iter().flat_map(with)
}

/// Any words, the first not 0.
pub fn any(rng: &mut Rng) -> Generator {
    Generator {
        first: rng.between(1, u32::MAX as usize) as u32,
        second: rng.next() as u32,
    }
}

/// Words whose first draw has these low two bits.
pub fn of_kind(rng: &mut Rng, kind: u32) -> Generator {
    loop {
        let words = any(rng);
        if words.clone().draw() % 4 == kind {
            return words;
        }
    }
}

/// Words whose first draw brings a span, and whose second is this number.
pub fn of_span(rng: &mut Rng, drawn: u32) -> Generator {
    loop {
        let first = any(rng).first;
        let second = drawn.wrapping_sub(first);
        let words = before(before(Generator { first, second }));
        if words.clone().draw() % 4 == 2 {
            return words;
        }
    }
}

/// The words from which a draw leaves these.
fn before(after: Generator) -> Generator {
    let first = undo_left(after.first, 5);
    let first = undo_right(first, 17);
    Generator {
        first: undo_left(first, 13),
        second: after.second.wrapping_sub(GROWTH),
    }
}

/// The x for which x xor (x shifted left by so many bits) is the word. Each turn finds as many more of
/// its bits.
fn undo_left(word: u32, bits: u32) -> u32 {
    (0..32 / bits).fold(word, |x, _| word ^ x << bits)
}

fn undo_right(word: u32, bits: u32) -> u32 {
    (0..32 / bits).fold(word, |x, _| word ^ x >> bits)
}

#[cfg(test)]
mod tests {
    use super::*;

    #[test]
    fn a_draw_is_undone() {
        let mut rng = Rng::new(19);
        let some: Vec<Generator> = (0..1_000).map(|_| any(&mut rng)).collect();
        for words in at_borders().chain(some) {
            let mut after = words;
            after.draw();
            assert_eq!(before(after), words);
        }
    }

    #[test]
    fn words_draw_what_they_are_made_for() {
        let mut rng = Rng::new(20);
        for kind in 0..4 {
            assert_eq!(of_kind(&mut rng, kind).draw() % 4, kind);
        }
        for drawn in [0, 1, 0xFFFF, 0x1_0000, 0x8000_0001, u32::MAX] {
            let mut words = of_span(&mut rng, drawn);
            assert_ne!(words.first, 0);
            assert_eq!(words.draw() % 4, 2);
            assert_eq!(words.draw(), drawn);
        }
    }
}
