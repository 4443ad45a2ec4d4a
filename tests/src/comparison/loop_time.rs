//! Loop times: every block length with every speed and every loop up to beyond the longest of the
//! table; refused lengths and speeds with a few loops each; every multiple of 8 without a loop.

use super::block::{multiples_of_8, REFUSED_LENGTHS};
use super::{same, Difference, GroupFailure, Tally};
use crate::calls::{LoopTimes, Reference};
use crate::reference::block::LENGTHS;
use crate::reference::loop_time::SPEEDS;

/// Speeds that no table has.
pub const REFUSED_SPEEDS: [usize; 9] = [
    0,
    1,
    199,
    201,
    300,
    3601,
    9600,
    (1 << 16) + 200,
    u32::MAX as usize,
];

/// Above the table's longest loop, 19,210.
const LOOPS: u32 = 20_000;
const FAR_LOOPS: [u32; 4] = [(1 << 16) + 14, 1 << 24, 1 << 31, u32::MAX];

/// What the group must have met.
const KINDS: [&str; 4] = ["allowed", "refused 1", "refused 2", "refused 3"];

/// Runs the whole group.
pub fn compare(tested: &impl LoopTimes) -> Result<Tally, GroupFailure> {
    let mut tally = Tally::default();
    for k in LENGTHS.into_iter().chain(REFUSED_LENGTHS) {
        for speed in SPEEDS.into_iter().chain(REFUSED_SPEEDS) {
            let known = LENGTHS.contains(&k) && SPEEDS.contains(&speed);
            let most = if known { LOOPS } else { 20 };
            for loop_ms in (0..=most).chain(FAR_LOOPS) {
                compare_loop(tested, k, speed as u32, loop_ms, &mut tally)?;
            }
        }
    }
    for k in multiples_of_8() {
        for speed in SPEEDS {
            compare_loop(tested, k, speed as u32, 0, &mut tally)?;
        }
    }
    tally.require(&KINDS)?;
    Ok(tally)
}

/// One loop-time test.
pub fn compare_loop(
    tested: &impl LoopTimes,
    k: usize,
    speed: u32,
    loop_ms: u32,
    tally: &mut Tally,
) -> Result<(), Difference> {
    let case = || format!("loop time: k {k}, speed {speed}, loop {loop_ms}");
    let expected = Reference.loop_time(k, speed, loop_ms);
    same(&case, &expected, &tested.loop_time(k, speed, loop_ms))?;
    tally.count(match expected {
        0 => "allowed",
        1 => "refused 1",
        2 => "refused 2",
        _ => "refused 3",
    });
    Ok(())
}

#[cfg(test)]
mod tests {
    use super::super::{agreed, assert_different};
    use super::*;

    /// A test that allows one millisecond too many is found.
    #[test]
    fn a_difference_is_reported() {
        struct Late;
        impl LoopTimes for Late {
            fn loop_time(&self, k: usize, speed: u32, loop_ms: u32) -> u8 {
                let late = k == 960 && speed == 4800 && loop_ms == 115;
                Reference.loop_time(k, speed, loop_ms - u32::from(late))
            }
        }
        assert_different(compare(&Late), "one millisecond too many");
        let tally = agreed(compare(&Reference));
        // The sum of the 22 entries, and a loop of 0 for each, twice.
        assert_eq!(tally.number_of("allowed"), 44_942 + 2 * 22);
    }
}
