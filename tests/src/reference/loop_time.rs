//! docs/PROTOCOL.md, "Loop time": the longest loop for each block length and speed, and its test.

use super::block::{block_bits, is_length};
use super::refusal::{Refusal, BLOCK, LOOP, SPEED};

/// The six speeds, in bits a second.
pub const SPEEDS: [usize; 6] = [200, 600, 1200, 2400, 3600, 4800];

const ALLOWANCE_MS: usize = 90;

/// n times 1000 divided by the speed, less 90, rounded down; `None` where that is below 0 and the
/// table has no entry.
pub fn longest_loop(k: usize, speed: usize) -> Option<usize> {
    let block_ms = block_bits(k) * 1000 / speed;
    block_ms.checked_sub(ALLOWANCE_MS)
}

/// The loop-time test; refusals in the order 1, 2, 3.
pub fn test_loop(k: usize, speed: usize, loop_ms: usize) -> Result<(), Refusal> {
    if !is_length(k) {
        return Err(BLOCK);
    }
    if !SPEEDS.contains(&speed) {
        return Err(SPEED);
    }
    match longest_loop(k, speed) {
        Some(longest) if loop_ms <= longest => Ok(()),
        _ => Err(LOOP),
    }
}
