//! docs/PROTOCOL.md, "The block": lengths, check bits, building, reading, and the synchronising block.

use super::bits::{bits_of, number, pack, unpack, Bits};
use super::refusal::{Refusal, BLOCK, SHORT, SPOILED};

/// The four numbers k of data bits.
pub const LENGTHS: [usize; 4] = [240, 480, 960, 3840];

pub const SERVICE_BITS: usize = 4;
pub const CHECK_BITS: usize = 16;

/// The letters, service bits of the data items in turn.
pub const A: u8 = 0b0011;
pub const B: u8 = 0b1001;
pub const C: u8 = 0b1100;
pub const SYNCHRONISING: u8 = 0b0101;
pub const END: u8 = 0b1000;

/// The last sixteen bits of a synchronising block.
pub const SEQUENCE: usize = 0b0101_0000_1010_0101;

/// x^16 + x^12 + x^5 + 1, highest power first.
const GENERATOR: usize = 0b1_0001_0000_0010_0001;

/// What `read_block` answers.
#[derive(Clone, Copy, Debug, PartialEq, Eq)]
pub enum Read {
    /// The check passes; the service bits.
    Passed(u8),
    /// The check fails; the remainder.
    Failed(u16),
    Refused(Refusal),
}

pub fn is_length(k: usize) -> bool {
    LENGTHS.contains(&k)
}

/// The whole length n.
pub fn block_bits(k: usize) -> usize {
    SERVICE_BITS + k + CHECK_BITS
}

/// The bytes of a packed block; the last four bits are spare.
pub fn block_bytes(k: usize) -> usize {
    block_bits(k).div_ceil(8)
}

pub fn payload_bytes(k: usize) -> usize {
    k / 8
}

/// The remainder of a polynomial, highest power first, divided by the generator: long division.
pub fn remainder(polynomial: &[bool]) -> u16 {
    let generator = bits_of(GENERATOR, CHECK_BITS + 1);
    let mut dividend = polynomial.to_vec();
    let quotient_bits = dividend.len().saturating_sub(CHECK_BITS);
    for i in 0..quotient_bits {
        if dividend[i] {
            for (j, &coefficient) in generator.iter().enumerate() {
                dividend[i + j] ^= coefficient;
            }
        }
    }
    number(&dividend[quotient_bits..]) as u16
}

/// The remainder of the polynomial times x to the 16th.
pub fn check_bits(message: &[bool]) -> Bits {
    let mut shifted = message.to_vec();
    shifted.extend([false; CHECK_BITS]);
    bits_of(usize::from(remainder(&shifted)), CHECK_BITS)
}

/// A received block passes if the polynomial of all its bits divides evenly.
pub fn passes(block: &[bool]) -> bool {
    remainder(block) == 0
}

/// All n bits of the block with these service bits and data.
pub fn assemble(service: u8, payload: &[bool]) -> Bits {
    let mut block = bits_of(usize::from(service), SERVICE_BITS);
    block.extend(payload);
    block.extend(check_bits(&block));
    block
}

/// "The order as items": 0101, then 10 repeated over k bits, then the sequence.
pub fn synchronising_block(k: usize) -> Bits {
    let mut block = bits_of(usize::from(SYNCHRONISING), SERVICE_BITS);
    block.extend((0..k).map(|i| i % 2 == 0));
    block.extend(bits_of(SEQUENCE, CHECK_BITS));
    block
}

/// Rule 1 of "Receiving": first four bits 0101 and last sixteen the sequence.
pub fn is_synchronising(block: &[bool]) -> bool {
    number(&block[..SERVICE_BITS]) == usize::from(SYNCHRONISING)
        && number(&block[block.len() - CHECK_BITS..]) == SEQUENCE
}

/// "Sending": the last bit is inverted.
pub fn cancel(block: &mut [bool]) {
    if let Some(last) = block.last_mut() {
        *last = !*last;
    }
}

/// Builds one block; refusals in the order 1, 7, 6.
pub fn build_block(k: usize, service: u8, payload: &[u8], block: &mut [u8]) -> Result<(), Refusal> {
    if !is_length(k) {
        return Err(BLOCK);
    }
    if service > 15 {
        return Err(SPOILED);
    }
    if payload.len() < payload_bytes(k) || block.len() < block_bytes(k) {
        return Err(SHORT);
    }
    let bits = assemble(service, &unpack(payload, 0, k));
    block[..block_bytes(k)].copy_from_slice(&pack(&bits));
    Ok(())
}

/// Reads one block; refusals in the order 1, 6, both slices judged first.
pub fn read_block(k: usize, block: &[u8], payload: &mut [u8]) -> Read {
    if !is_length(k) {
        return Read::Refused(BLOCK);
    }
    if block.len() < block_bytes(k) || payload.len() < payload_bytes(k) {
        return Read::Refused(SHORT);
    }
    let bits = unpack(block, 0, block_bits(k));
    let remainder = remainder(&bits);
    if remainder != 0 {
        return Read::Failed(remainder);
    }
    let (service, rest) = bits.split_at(SERVICE_BITS);
    payload[..payload_bytes(k)].copy_from_slice(&pack(&rest[..k]));
    Read::Passed(number(service) as u8)
}
