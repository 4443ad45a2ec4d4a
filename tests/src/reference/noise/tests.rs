//! Draws that another program found, spans worked by hand from such draws, and the refusals.

use super::draws::STATED;
use super::*;
use crate::reference::block::LENGTHS;

/// These words, the second 0.
fn from(first: u32) -> Generator {
    Generator { first, second: 0 }
}

/// After the second draw from a second word of 0.
const SECOND_AFTER_TWO: u32 = 2 * 362_437;

/// Spans: k, the first word, the second of two draws, the byte from which three are inverted, these
/// three, and the number of ones in them. At each k one at the first place, one at the last, which
/// begins in the middle of a byte, and one between. In a draw the upper half modulo n - 15 is the
/// place, and the lower half the pattern: 2,938,345,271 is AF23 9737, AF23 is 183 times 245, so the
/// place is 0.
const SPANS: [(usize, u32, u32, usize, [u8; 3], usize); 12] = [
    (240, 1_123, 2_938_345_271, 0, [0x97, 0x37, 0x00], 10),
    (480, 10_859, 45_747, 0, [0xB2, 0xB3, 0x00], 9),
    (960, 8_897, 316_255_519, 0, [0xAD, 0x1F, 0x00], 10),
    (3840, 10_859, 45_747, 0, [0xB2, 0xB3, 0x00], 9),
    (240, 88, 1_653_798_049, 30, [0x0F, 0x4A, 0x10], 8),
    (480, 754, 3_750_594_699, 60, [0x08, 0x88, 0xB0], 6),
    (960, 23_339, 1_960_497_261, 120, [0x0D, 0x06, 0xD0], 8),
    (3840, 70_273, 2_519_858_245, 480, [0x0F, 0xC4, 0x50], 9),
    // Places 195, 203, 315 and 1043: the fourth bit of a byte.
    (240, 73, 639_022_799, 24, [0x16, 0xD9, 0xE0], 11),
    (480, 28, 1_888_648_169, 25, [0x0F, 0x7D, 0x20], 11),
    (960, 5, 336_866_703, 39, [0x05, 0xB1, 0xE0], 9),
    (3840, 1, 68_359_563, 130, [0x02, 0xB1, 0x60], 7),
];

#[test]
fn the_stated_numbers_are_drawn() {
    for (words, draws) in STATED {
        let mut generator = words;
        assert_eq!(draws.map(|_| generator.draw()), draws, "{words:?}");
    }
}

/// Over bytes of zeros, of ones and of both; what follows the block stays.
#[test]
fn spans_are_inverted_where_the_draw_says() {
    for (k, first, drawn, from_byte, pattern, ones) in SPANS {
        for fill in [0x00, 0xFF, 0xA5] {
            let mut generator = from(first);
            let mut block = vec![fill; block_bytes(k) + 3];
            let loaded = generator.load(k, &mut block);
            let expected = Load {
                inverted: ones,
                turned: false,
            };
            assert_eq!(loaded, Ok(expected), "k {k}, {first}");
            let mut inverted = vec![fill; block_bytes(k) + 3];
            for (byte, pattern) in inverted[from_byte..].iter_mut().zip(pattern) {
                *byte ^= pattern;
            }
            assert_eq!(block, inverted, "k {k}, {first}");
            assert_eq!(generator.second, SECOND_AFTER_TWO);
            assert_eq!(generator.first.wrapping_add(SECOND_AFTER_TWO), drawn);
        }
    }
}

/// The second draw from 68,828 is 10F7 0000: it is used up all the same.
#[test]
fn a_pattern_without_ones_inverts_nothing() {
    for k in LENGTHS {
        let mut generator = from(68_828);
        let mut block = vec![0x5A; block_bytes(k)];
        let expected = Load {
            inverted: 0,
            turned: false,
        };
        assert_eq!(generator.load(k, &mut block), Ok(expected));
        assert_eq!(block, vec![0x5A; block_bytes(k)]);
        assert_eq!(generator.second, SECOND_AFTER_TWO);
        assert_eq!(
            generator.first.wrapping_add(SECOND_AFTER_TWO),
            4_343 * 65_536
        );
    }
}

/// The second draw from 1,142,936 is A7F7 FFFF: place 124 at k 240.
#[test]
fn a_pattern_of_ones_inverts_sixteen() {
    let mut block = vec![0; block_bytes(240)];
    let loaded = from(1_142_936).load(240, &mut block);
    assert_eq!(loaded.map(|load| load.inverted), Ok(16));
    let mut expected = vec![0; block_bytes(240)];
    expected[15..18].copy_from_slice(&[0x0F, 0xFF, 0xF0]);
    assert_eq!(block, expected);
}

/// From 2, 3 and 4 the draws are 903,175, 1,173,544 and 1,443,913.
#[test]
fn other_draws_leave_the_block() {
    for (first, drawn, turned) in [
        (2, 903_175, true),
        (3, 1_173_544, false),
        (4, 1_443_913, false),
    ] {
        for k in LENGTHS {
            let mut generator = from(first);
            let mut block = vec![0x3C; block_bytes(k)];
            let expected = Load {
                inverted: 0,
                turned,
            };
            assert_eq!(generator.load(k, &mut block), Ok(expected), "{first}");
            assert_eq!(block, vec![0x3C; block_bytes(k)]);
            assert_eq!(generator.second, 362_437);
            assert_eq!(generator.first.wrapping_add(362_437), drawn);
        }
    }
}

/// With a block that is short by one byte, whatever is drawn, and with none.
#[test]
fn refusals_in_the_order_1_13_6() {
    for k in LENGTHS {
        for bytes in [0, block_bytes(k) - 1, block_bytes(k), block_bytes(k) + 1] {
            for first in 0..=4 {
                let mut generator = from(first);
                let mut block = vec![0x99; bytes];
                assert_eq!(generator.load(k + 8, &mut block), Err(1));
                let refusal = match (first, bytes < block_bytes(k)) {
                    (0, _) => 13,
                    (_, true) => 6,
                    (_, false) => continue,
                };
                assert_eq!(generator.load(k, &mut block), Err(refusal), "{first}");
                assert_eq!((generator, block), (from(first), vec![0x99; bytes]));
            }
        }
    }
}

/// A second word of 0 is one like any other.
#[test]
fn the_first_word_alone_is_judged() {
    let mut block = [0; 33];
    let mut generator = Generator {
        first: 0,
        second: 5,
    };
    assert_eq!(generator.load(240, &mut block), Err(13));
    generator = Generator {
        first: u32::MAX,
        second: u32::MAX,
    };
    assert!(generator.load(240, &mut block).is_ok());
    assert_eq!(generator.second, 362_436);
}
