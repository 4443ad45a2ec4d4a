//! The numbers of `include/order_line.h`, by its names without `ORDER_LINE_`. The order line's tests compare the two files.

/// 5.1.1: major * 65536 + minor * 256 + patch.
pub const VERSION: u32 = 0x050101;

pub const REFUSED_BLOCK: u32 = 1;
pub const REFUSED_SPEED: u32 = 2;
pub const REFUSED_LOOP: u32 = 3;
pub const REFUSED_EMPTY: u32 = 4;
pub const REFUSED_LONG: u32 = 5;
pub const REFUSED_SHORT: u32 = 6;
pub const REFUSED_SPOILED: u32 = 7;
pub const REFUSED_REST: u32 = 8;
pub const REFUSED_CODE_SIZE: u32 = 9;
pub const REFUSED_FORMAT: u32 = 10;
pub const REFUSED_ENTRY: u32 = 11;
pub const REFUSED_STEPS: u32 = 12;
pub const REFUSED_GENERATOR: u32 = 13;

/// Bits of the longest order.
pub const LONGEST_ORDER: usize = 262144;
/// Data items of the longest order in the shortest blocks.
pub const MOST_ITEMS: usize = LONGEST_ORDER.div_ceil(240);
/// Doses of a tint order at most.
pub const MOST_DOSES: usize = 12;
/// Bytes of a sender's state.
pub const SENDER_BYTES: usize = 18;
/// Bytes of a receiver's state.
pub const RECEIVER_BYTES: usize = 501;

pub const PASSED: u16 = 0x100;
pub const FAILED: u16 = 0x200;

pub const SENT: u32 = 0x100;
pub const SENT_ITEM: u32 = 0x200;
pub const SENT_END: u32 = 0x400;
pub const SENT_USED: u32 = 0x800;
pub const SENT_CANCELLED: u32 = 0x1000;

pub const GOING_ON: u8 = 80;
pub const FINISHED: u8 = 81;
pub const GAVE_UP: u8 = 82;

pub const EVENT_NONE: u8 = 64;
pub const EVENT_SYNC: u8 = 65;
pub const EVENT_BAD: u8 = 66;
pub const EVENT_ACCEPTED: u8 = 67;
pub const EVENT_PREVIOUS: u8 = 68;
pub const EVENT_SEQUENCE_ALARM: u8 = 69;
pub const EVENT_LENGTH_ALARM: u8 = 70;
pub const EVENT_ENDED: u8 = 71;
pub const EVENT_WAIT: u8 = 72;

pub const RETURN_0: u8 = 96;
pub const RETURN_1: u8 = 97;

pub const NOISE: u32 = 0x100;
pub const NOISE_TURNED: u32 = 0x200;
