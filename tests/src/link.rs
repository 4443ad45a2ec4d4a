//! The library under test, as other languages link it: `crates/line_c/out/libline_c.a`.
//!
//! The declarations are those of the wrapper in Rust, so that they stand once; its safe functions
//! are not used here, since what is compared are the numbers.

#[path = "../../examples/rust/src/c.rs"]
mod c;

use crate::calls::{Blocks, Line, LoopTimes, NoiseLoads, Opening, ReceivingEnd};
use crate::calls::{SendingEnd, Tints};
use crate::interface::Counts;

/// The linked library. What the benchmark measures is inlined there, so that it is the call alone.
pub struct Library;

// SAFETY, of every call below: each pointer comes with the length of the slice it was taken from,
// and no slice that is written overlaps another.

pub fn version() -> u32 {
    unsafe { c::order_line_version() }
}

impl LoopTimes for Library {
    fn loop_time(&self, k: usize, speed: u32, loop_ms: u32) -> u8 {
        unsafe { c::order_line_loop_time(k, speed, loop_ms) }
    }
}

impl Blocks for Library {
    #[inline]
    fn build_block(&self, k: usize, service: u8, payload: &[u8], block: &mut [u8]) -> u8 {
        unsafe {
            c::order_line_build_block(
                k,
                service,
                payload.as_ptr(),
                payload.len(),
                block.as_mut_ptr(),
                block.len(),
            )
        }
    }

    #[inline]
    fn read_block(&self, k: usize, block: &[u8], payload: &mut [u8], remainder: &mut u16) -> u16 {
        unsafe {
            c::order_line_read_block(
                k,
                block.as_ptr(),
                block.len(),
                payload.as_mut_ptr(),
                payload.len(),
                remainder,
            )
        }
    }
}

impl SendingEnd for Library {
    fn open_sender(&self, opening: Opening, order: &[u8], state: &mut [u8]) -> u8 {
        let Opening {
            k,
            speed,
            loop_ms,
            length,
            code_size,
        } = opening;
        let (order, order_bytes) = (order.as_ptr(), order.len());
        let (state, state_bytes) = (state.as_mut_ptr(), state.len());
        match code_size {
            None => unsafe {
                c::order_line_open_sender(
                    k,
                    speed,
                    loop_ms,
                    length,
                    order,
                    order_bytes,
                    state,
                    state_bytes,
                )
            },
            Some(size) => unsafe {
                c::order_line_open_sender_with_marks(
                    k,
                    speed,
                    loop_ms,
                    length,
                    size,
                    order,
                    order_bytes,
                    state,
                    state_bytes,
                )
            },
        }
    }

    #[inline]
    fn send(&self, state: &mut [u8], order: &[u8], reading: bool, block: &mut [u8]) -> u32 {
        unsafe {
            c::order_line_send(
                state.as_mut_ptr(),
                state.len(),
                order.as_ptr(),
                order.len(),
                reading,
                block.as_mut_ptr(),
                block.len(),
            )
        }
    }

    fn sender_rest(&self, state: &[u8]) -> u8 {
        unsafe { c::order_line_sender_rest(state.as_ptr(), state.len()) }
    }
}

impl ReceivingEnd for Library {
    fn open_receiver(&self, k: usize, code_size: Option<usize>, state: &mut [u8]) -> u8 {
        let (state, bytes) = (state.as_mut_ptr(), state.len());
        match code_size {
            None => unsafe { c::order_line_open_receiver(k, state, bytes) },
            Some(size) => unsafe { c::order_line_open_receiver_with_marks(k, size, state, bytes) },
        }
    }

    #[inline]
    fn receive(
        &self,
        state: &mut [u8],
        line: Line,
        ready: bool,
        store: &mut [u8],
        counts: &mut Counts,
    ) -> u8 {
        unsafe {
            c::order_line_receive(
                state.as_mut_ptr(),
                state.len(),
                line.bytes.as_ptr(),
                line.bytes.len(),
                line.bits,
                ready,
                store.as_mut_ptr(),
                store.len(),
                &mut counts.used,
                &mut counts.length,
                &mut counts.remainder,
            )
        }
    }

    fn return_bit(&self, state: &[u8]) -> u8 {
        unsafe { c::order_line_return_bit(state.as_ptr(), state.len()) }
    }
}

impl Tints for Library {
    #[inline]
    fn write_tint(&self, doses: &[u16], count: usize, order: &mut [u8], bytes: &mut usize) -> u8 {
        unsafe {
            c::order_line_write_tint(
                doses.as_ptr(),
                doses.len(),
                count,
                order.as_mut_ptr(),
                order.len(),
                bytes,
            )
        }
    }

    #[inline]
    fn read_tint(&self, order: &[u8], doses: &mut [u16], count: &mut usize) -> u8 {
        unsafe {
            c::order_line_read_tint(
                order.as_ptr(),
                order.len(),
                doses.as_mut_ptr(),
                doses.len(),
                count,
            )
        }
    }
}

impl NoiseLoads for Library {
    fn noise(&self, k: usize, first: &mut u32, second: &mut u32, block: &mut [u8]) -> u32 {
        unsafe { c::order_line_noise(k, first, second, block.as_mut_ptr(), block.len()) }
    }
}
