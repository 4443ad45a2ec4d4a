//! The order line's library (`include/order_line.h`) as Rust calls it, without `std` and without allocation: every call
//! of the header. It wants `libline_c.a`, which is for x86-64 and the System V calling convention; `build.rs` links it.
//!
//! **A new order needs both ends opened anew**, also after a session that broke off: see [`Receiver::open`]. Both have
//! the same k, and both use start-of-message marks or neither does: see [`Receiver::open_with_marks`].
//!
//! [`Generator::noise`] is for a bench: it damages blocks, and no office and no machine in a shop makes this call.

#![no_std]

mod block;
mod c;
mod noise;
mod numbers;
mod receiver;
mod refusal;
mod sender;
mod tint;

pub use block::{Read, build_block, loop_time, read_block};
pub use noise::{Generator, Noise};
pub use numbers::{LONGEST_ORDER, MOST_DOSES, MOST_ITEMS, RECEIVER_BYTES, SENDER_BYTES, VERSION};
pub use receiver::{Event, Receiver};
pub use refusal::Refusal;
pub use sender::{Rest, Sender, Sent};
pub use tint::{Dose, read_tint, write_tint};

// SAFETY, of every call of a function of `c`: each pointer comes with the length of the slice that it was taken from, or
// is a borrow of one number, and the borrows keep what is written apart from everything else that is lent. Doses pass as
// 16-bit numbers, two for each.

/// The version of the linked library; [`VERSION`] is the one that this wrapper was written for. A later one with the same
/// major number, the upper half, does as well.
pub fn version() -> u32 {
    unsafe { c::order_line_version() }
}

/// Bytes of the data of a block with k data bits.
pub const fn payload_bytes(k: usize) -> usize {
    k / 8
}

/// Bytes of a packed block with k data bits.
pub const fn block_bytes(k: usize) -> usize {
    k / 8 + 3
}

/// Bytes of a tint order of so many doses.
pub const fn tint_bytes(count: usize) -> usize {
    3 + 3 * count
}

/// Bytes of a store with room for any order in blocks of k data bits, k being one of the four.
pub const fn store_bytes(k: usize) -> usize {
    LONGEST_ORDER.div_ceil(k) * payload_bytes(k)
}
