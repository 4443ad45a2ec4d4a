//! The numbers of "What the ends turn away".

pub type Refusal = u8;

/// k is not one of the four.
pub const BLOCK: Refusal = 1;
/// Not one of the six speeds.
pub const SPEED: Refusal = 2;
/// A loop above the table's entry, or no entry.
pub const LOOP: Refusal = 3;
/// L is 0.
pub const EMPTY: Refusal = 4;
/// L is above that of the longest order.
pub const LONG: Refusal = 5;
/// A lent slice cannot hold what the call reads or writes.
pub const SHORT: Refusal = 6;
/// A state field outside its range, or service bits to be built above 15.
pub const SPOILED: Refusal = 7;
/// A sender finished or given up.
pub const REST: Refusal = 8;
/// A code size other than 5 to 8.
pub const CODE_SIZE: Refusal = 9;
/// No tint order: too few bytes, its version or its length. Or no doses to write.
pub const FORMAT: Refusal = 10;
/// A dose out of range or order.
pub const ENTRY: Refusal = 11;
/// More pump steps than a tint order may have.
pub const STEPS: Refusal = 12;
/// A noise generator whose first word is 0.
pub const GENERATOR: Refusal = 13;
