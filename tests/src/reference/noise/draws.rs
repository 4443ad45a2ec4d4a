//! The first draws from three pairs of words, as numbers.
//!
//! Another program found them, in Python, from the rules: whole numbers, kept to 32 bits by a mask. Two
//! more found the same, in awk and in bc, with products and quotients for the shifts and xor digit by
//! digit. The first of all by hand: 1 xor 8,192 is 8,193; shifted right by 17 nothing is left of it;
//! 8,193 xor 262,176 is 270,369; and with 362,437 that is 632,806.

use super::Generator;

pub const COUNT: usize = 20;

/// The words to begin with, and the numbers that are then drawn. In the third the second to ninth sums
/// drop a carry, and at the tenth draw the second word drops its own and is 0.
pub const STATED: [(Generator, [u32; COUNT]); 3] = [
    (
        Generator {
            first: 1,
            second: 0,
        },
        [
            632_806,
            68_359_563,
            2_648_522_772,
            309_049_443,
            2_400_501_418,
            747_670_126,
            634_972_541,
            438_655_706,
            2_008_626_962,
            2_919_723_302,
            2_661_079_106,
            1_499_395_187,
            3_036_688_523,
            87_123_316,
            92_906_624,
            3_390_902_785,
            897_555_741,
            3_329_713_890,
            327_894_832,
            4_291_148_157,
        ],
    ),
    (
        Generator {
            first: 1_968,
            second: 41,
        },
        [
            507_283_097,
            4_255_597_773,
            484_896_669,
            764_873_097,
            704_831_018,
            795_440_208,
            3_640_553_313,
            3_600_361_380,
            600_111_366,
            4_238_762_161,
            3_637_197_292,
            2_503_771_412,
            3_527_557_074,
            3_483_063_566,
            1_004_210_924,
            285_660_664,
            2_887_337_885,
            3_123_454_042,
            3_278_844_670,
            493_474_579,
        ],
    ),
    (
        Generator {
            first: u32::MAX,
            second: 4_291_342_926,
        },
        [
            4_291_959_346,
            4_225_482_711,
            1_955_914_208,
            4_054_538_812,
            2_047_690_680,
            2_559_521_240,
            1_704_028_257,
            279_081_585,
            2_998_861_869,
            1_700_793_103,
            3_829_432_500,
            3_755_670_150,
            1_890_559_107,
            3_054_997_436,
            2_595_180_475,
            513_649_187,
            2_965_744_070,
            2_966_578_562,
            4_263_033_065,
            1_422_677_202,
        ],
    ),
];
