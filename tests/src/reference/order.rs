//! docs/PROTOCOL.md, "The order as items": data items with their service bits and filling, and end
//! blocks.

use super::bits::{bit_at, bits_of, number, Bits};
use super::block::{assemble, A, B, C, END};
use super::marks::{is_mark, mark, Marks};

/// The longest order, in bits.
pub const LONGEST: usize = 262_144;
/// The most data items that an order makes: the longest one at k 240.
pub const MOST_ITEMS: usize = LONGEST.div_ceil(240);

const VERSION: usize = 1;
const VERSION_BITS: usize = 8;
const LENGTH_BITS: usize = 32;

pub fn is_order_length(length: usize) -> bool {
    (1..=LONGEST).contains(&length)
}

/// N: L divided by k, rounded up.
pub fn items(k: usize, length: usize) -> usize {
    length.div_ceil(k)
}

/// A, B or C as i leaves 0, 1 or 2 when divided by 3.
pub fn letter(item: usize) -> u8 {
    [A, B, C][item % 3]
}

pub fn is_letter(service: u8) -> bool {
    [A, B, C].contains(&service)
}

/// The service bits of data item i: its letter. With marks, item 0 carries the mark of the code
/// size, and items 1, 2, 3 carry A, B, C and so on.
pub fn data_service(marks: Marks, item: usize) -> u8 {
    match (marks.in_use, item) {
        (false, _) => letter(item),
        (true, 0) => mark(marks.size),
        (true, _) => letter(item - 1),
    }
}

/// Whether a receiver takes these service bits for those of item i. With marks, any of the four is
/// item 0's.
pub fn is_service_of(marks: Marks, item: usize, service: u8) -> bool {
    match (marks.in_use, item) {
        (true, 0) => is_mark(service),
        _ => service == data_service(marks, item),
    }
}

/// The k data bits of item i below N; behind the order's L bits the filling is zero.
pub fn item_payload(k: usize, length: usize, order: &[u8], item: usize) -> Bits {
    let first = item * k;
    (first..first + k)
        .map(|i| i < length && bit_at(order, i))
        .collect()
}

/// The k data bits of an end block: version byte 1, L in 32 bits, zeros.
pub fn end_payload(k: usize, length: usize) -> Bits {
    let mut payload = bits_of(VERSION, VERSION_BITS);
    payload.extend(bits_of(length, LENGTH_BITS));
    payload.resize(k, false);
    payload
}

/// The version and the L that an end block's data bits give.
pub fn end_fields(payload: &[bool]) -> (usize, usize) {
    let (version, rest) = payload.split_at(VERSION_BITS);
    (number(version), number(&rest[..LENGTH_BITS]))
}

/// Rule 6 of "Receiving": version 1, and an L in range that makes `taken` items.
pub fn fits_end(k: usize, version: usize, length: usize, taken: usize) -> bool {
    version == VERSION && is_order_length(length) && items(k, length) == taken
}

/// All n bits of item i, 0 to N + 1.
pub fn item_block(marks: Marks, k: usize, length: usize, order: &[u8], item: usize) -> Bits {
    if item < items(k, length) {
        let payload = item_payload(k, length, order, item);
        assemble(data_service(marks, item), &payload)
    } else {
        assemble(END, &end_payload(k, length))
    }
}
