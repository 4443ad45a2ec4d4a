//! The second implementation of the order line: the rules of docs/PROTOCOL.md alone, in their
//! order, bit by bit.
//!
//! Nothing here is fast and nothing is shared with the library under test. Where the rules leave a
//! state's layout free, the layout is the one that docs/DECISIONS.md writes down.

pub mod bits;
pub mod block;
pub mod loop_time;
pub mod marks;
pub mod noise;
pub mod order;
pub mod receiver;
pub mod refusal;
pub mod sender;
pub mod session;
pub mod tint;

#[cfg(test)]
mod corner_cases;
#[cfg(test)]
mod examples;
#[cfg(test)]
mod remainders;
#[cfg(test)]
mod waiting;
