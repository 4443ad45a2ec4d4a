//! The table-driven sibling: building, reading, sending and receiving, written for speed in the usual
//! way, with the 256-entry table of the cyclic check. The benchmark measures the library against it.

mod calls;
pub mod receiver;
pub mod sender;

pub use calls::TableDriven;

use crate::reference::block::Read;
use crate::reference::marks::Marks;
use crate::reference::order::{LONGEST, MOST_ITEMS};

const BLOCK: u8 = 1;
const SHORT: u8 = 6;
const SPOILED: u8 = 7;

/// The service bits of the data items in turn, and of an end block.
const LETTERS: [u8; 3] = [0b0011, 0b1001, 0b1100];
const END: u8 = 0b1000;
/// The marks of the code sizes from this one on.
const MARKS: [u8; 4] = [0b0001, 0b1010, 0b1011, 0b0010];
const FIRST_SIZE: usize = 5;
/// The version of an end block.
const VERSION: u8 = 1;

/// For each byte, the remainder of that byte times x to the 16th.
static TABLE: [u16; 256] = table();

const fn table() -> [u16; 256] {
    let mut table = [0; 256];
    let mut byte = 0;
    while byte < 256 {
        let mut register = (byte as u16) << 8;
        let mut step = 0;
        while step < 8 {
            let carry = register >> 15;
            register = (register << 1) ^ (carry * 0x1021);
            step += 1;
        }
        table[byte] = register;
        byte += 1;
    }
    table
}

#[inline]
fn update_register(register: u16, byte: u8) -> u16 {
    register << 8 ^ TABLE[usize::from((register >> 8) as u8 ^ byte)]
}

#[inline]
fn is_length(k: usize) -> bool {
    matches!(k, 240 | 480 | 960 | 3840)
}

#[inline]
fn are_spoiled(marks: Marks) -> bool {
    marks.in_use && marks.size.wrapping_sub(FIRST_SIZE) >= MARKS.len()
}

/// Builds one block; refusals in the order 1, 7, 6.
#[inline(never)]
pub fn build_block(k: usize, service: u8, payload: &[u8], block: &mut [u8]) -> Result<(), u8> {
    if !is_length(k) {
        return Err(BLOCK);
    }
    if service > 15 {
        return Err(SPOILED);
    }
    let bytes = k / 8;
    if payload.len() < bytes || block.len() < bytes + 3 {
        return Err(SHORT);
    }
    let (payload, block) = (&payload[..bytes], &mut block[..bytes + 3]);
    let mut register = update_register(0, service);
    let mut last = service;
    for (out, &byte) in block.iter_mut().zip(payload) {
        *out = last << 4 | byte >> 4;
        register = update_register(register, byte);
        last = byte;
    }
    block[bytes] = last << 4 | (register >> 12) as u8;
    block[bytes + 1] = (register >> 4) as u8;
    block[bytes + 2] = (register << 4) as u8;
    Ok(())
}

/// Reads one block; refusals in the order 1, 6.
#[inline(never)]
pub fn read_block(k: usize, block: &[u8], payload: &mut [u8]) -> Read {
    if !is_length(k) {
        return Read::Refused(BLOCK);
    }
    let bytes = k / 8;
    if block.len() < bytes + 3 || payload.len() < bytes {
        return Read::Refused(SHORT);
    }
    let block = &block[..bytes + 3];
    let remainder = remainder(block);
    if remainder != 0 {
        return Read::Failed(remainder);
    }
    copy_payload(block, &mut payload[..bytes]);
    Read::Passed(block[0] >> 4)
}

/// The remainder of a packed block: what is received as check bits is added to the check bits that
/// belong to the bits before them.
#[inline]
fn remainder(block: &[u8]) -> u16 {
    register(block) ^ check_bits(block)
}

/// The register over the service bits and data of a packed block.
#[inline]
fn register(block: &[u8]) -> u16 {
    let message = &block[..block.len() - 2];
    let mut register = update_register(0, message[0] >> 4);
    for pair in message.windows(2) {
        register = update_register(register, pair[0] << 4 | pair[1] >> 4);
    }
    register
}

/// The last sixteen bits of a packed block, before its spare ones.
#[inline]
fn check_bits(block: &[u8]) -> u16 {
    let tail = &block[block.len() - 3..];
    u16::from(tail[0]) << 12 | u16::from(tail[1]) << 4 | u16::from(tail[2]) >> 4
}

/// Copies the data of a packed block, which stand half a byte late.
#[inline]
fn copy_payload(block: &[u8], payload: &mut [u8]) {
    for (out, pair) in payload.iter_mut().zip(block.windows(2)) {
        *out = pair[0] << 4 | pair[1] >> 4;
    }
}
