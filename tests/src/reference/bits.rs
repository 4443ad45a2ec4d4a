//! Rows of bits and the bytes that hold them ("The block": the earliest bit is the top bit).

pub type Bits = Vec<bool>;

/// The bit at `index` of packed bytes.
pub fn bit_at(bytes: &[u8], index: usize) -> bool {
    (bytes[index / 8] >> (7 - index % 8)) & 1 == 1
}

/// Sets the bit at `index` of packed bytes and leaves every other one.
pub fn set_bit(bytes: &mut [u8], index: usize, bit: bool) {
    let mask = 1 << (7 - index % 8);
    if bit {
        bytes[index / 8] |= mask;
    } else {
        bytes[index / 8] &= !mask;
    }
}

/// `count` bits of packed bytes, from bit `from` on.
pub fn unpack(bytes: &[u8], from: usize, count: usize) -> Bits {
    (from..from + count).map(|i| bit_at(bytes, i)).collect()
}

/// The bits in as few bytes as hold them; what is spare in the last byte is zero.
pub fn pack(bits: &[bool]) -> Vec<u8> {
    let mut bytes = vec![0; bits.len().div_ceil(8)];
    for (i, &bit) in bits.iter().enumerate() {
        set_bit(&mut bytes, i, bit);
    }
    bytes
}

/// A number's lowest `width` bits, the highest first.
pub fn bits_of(number: usize, width: usize) -> Bits {
    (0..width).rev().map(|i| (number >> i) & 1 == 1).collect()
}

/// The number that the bits write, the highest first.
pub fn number(bits: &[bool]) -> usize {
    bits.iter()
        .fold(0, |number, &bit| number << 1 | usize::from(bit))
}
