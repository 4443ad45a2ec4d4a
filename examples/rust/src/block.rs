//! The loop-time test and the calls on one block.

use crate::c;
use crate::numbers::{FAILED, PASSED};
use crate::refusal::{Refusal, done};

/// The loop-time test: whether a loop of so many milliseconds and 90 ms together last no longer than a block. Round a
/// measured loop up.
pub fn loop_time(k: usize, speed: u32, loop_ms: u32) -> Result<(), Refusal> {
    done(unsafe { c::order_line_loop_time(k, speed, loop_ms) })
}

/// Builds a block of four service bits, 0 to 15, and the first k bits of `payload`.
pub fn build_block(k: usize, service: u8, payload: &[u8], block: &mut [u8]) -> Result<(), Refusal> {
    done(unsafe {
        c::order_line_build_block(
            k,
            service,
            payload.as_ptr(),
            payload.len(),
            block.as_mut_ptr(),
            block.len(),
        )
    })
}

/// What reading a block found.
#[derive(Clone, Copy, Debug, PartialEq, Eq)]
pub enum Read {
    /// The check passed: the data were written.
    Passed {
        /// The four service bits.
        service: u8,
    },
    /// The check failed: nothing was written.
    Failed {
        /// The remainder of the block's bits, never 0; of a block that was cancelled and is otherwise unharmed, 1.
        remainder: u16,
    },
}

/// Reads a block: its k data bits go to `payload` if its check passes.
pub fn read_block(k: usize, block: &[u8], payload: &mut [u8]) -> Result<Read, Refusal> {
    let mut remainder = 0;
    let answer = unsafe {
        c::order_line_read_block(
            k,
            block.as_ptr(),
            block.len(),
            payload.as_mut_ptr(),
            payload.len(),
            &mut remainder,
        )
    };
    match answer {
        FAILED => Ok(Read::Failed { remainder }),
        passed if passed & !15 == PASSED => Ok(Read::Passed {
            service: (passed & 15) as u8,
        }),
        refusal => Err(Refusal::of(refusal.into())),
    }
}
