//! State bytes that no session leaves: fields, flags and enum bytes out of their range, odd ones
//! within it, any bytes at all, and slices of another length.

use super::block::{multiples_of_8, REFUSED_LENGTHS};
use super::marks::{FLAG_BYTES, SIZE_BYTES};
use crate::interface::{load_receiver, load_sender, store_word};
use crate::interface::{MARKS_BYTES, RECEIVER_BYTES, SENDER_BYTES};
use crate::reference::block::{block_bits, LENGTHS};
use crate::reference::order::{LONGEST, MOST_ITEMS};
use crate::rng::Rng;

/// The largest number that four bytes hold.
const LARGEST: usize = u32::MAX as usize;

/// Where k and the four single bytes stand in both layouts.
pub const K: usize = 0;
const COUNT: usize = 12;
const FLAGS: usize = 13;

/// Any k that a field holds, one of the four or not, now and then any multiple of 8.
fn any_length(rng: &mut Rng) -> usize {
    match rng.below(8) {
        0 => rng.pick(&multiples_of_8().collect::<Vec<_>>()),
        1..=3 => rng.pick(&REFUSED_LENGTHS).min(LARGEST),
        _ => rng.pick(&LENGTHS),
    }
}

/// A state's bytes with one to three of these changes, seldom in a slice of another length.
fn changed(rng: &mut Rng, state: &[u8], change: fn(&mut Rng, &mut [u8])) -> Vec<u8> {
    let mut bytes = state.to_vec();
    for _ in 0..rng.between(1, 3) {
        change(rng, &mut bytes);
    }
    with_length(rng, bytes)
}

/// A sender's bytes, changed.
pub fn sender(rng: &mut Rng, state: &[u8]) -> Vec<u8> {
    changed(rng, &state[..SENDER_BYTES], spoil_sender)
}

fn spoil_sender(rng: &mut Rng, bytes: &mut [u8]) {
    let items = load_sender(bytes).map_or(1, |sender| sender.length.div_ceil(sender.k.max(1)));
    match rng.below(9) {
        0 => store_word(bytes, K, any_length(rng)),
        1 => {
            let near = rng.between(1, LONGEST);
            let length = rng.pick(&[0, 1, near, LONGEST, LONGEST + 1, LARGEST]);
            store_word(bytes, 4, length);
        }
        2 => {
            let newer = rng.pick(&[0, 1, items, items + 1, items + 2, LARGEST]);
            store_word(bytes, 8, newer);
        }
        3 => bytes[COUNT] = rng.pick(&[0, 3, 4, 62, 63, 64, 65, 255]),
        4 => spoil_marks(rng, bytes),
        _ => spoil_flags(rng, bytes),
    }
}

/// A receiver's bytes, changed.
pub fn receiver(rng: &mut Rng, state: &[u8]) -> Vec<u8> {
    changed(rng, &state[..RECEIVER_BYTES], spoil_receiver)
}

fn spoil_receiver(rng: &mut Rng, bytes: &mut [u8]) {
    let n = load_receiver(bytes).map_or(260, |receiver| block_bits(receiver.k));
    match rng.below(9) {
        0 => store_word(bytes, K, any_length(rng)),
        1 => {
            let held = rng.pick(&[0, 1, 15, 16, 17, n - 1, n, n + 1, 3859, 3860, LARGEST]);
            store_word(bytes, 4, held);
        }
        2 => {
            let near = rng.below(MOST_ITEMS);
            let taken = rng.pick(&[0, near, MOST_ITEMS, MOST_ITEMS + 1, LARGEST]);
            store_word(bytes, 8, taken);
        }
        3 => bytes[COUNT] = rng.pick(&[0, 6, 7, 8, 9, 255]),
        4 => spoil_marks(rng, bytes),
        _ => spoil_flags(rng, bytes),
    }
}

/// Changes whether marks are in use, or the code size.
fn spoil_marks(rng: &mut Rng, bytes: &mut [u8]) {
    let place = bytes.len() - MARKS_BYTES;
    match rng.bit() {
        true => bytes[place] = rng.pick(&FLAG_BYTES),
        false => bytes[place + 1] = rng.pick(&SIZE_BYTES),
    }
}

/// Changes one of the last three bytes of the head, or any byte, or now and then every byte.
fn spoil_flags(rng: &mut Rng, bytes: &mut [u8]) {
    match rng.below(12) {
        0 => rng.fill(bytes),
        1 | 2 => {
            let place = rng.below(bytes.len());
            bytes[place] = rng.below(256) as u8;
        }
        _ => bytes[FLAGS + rng.below(3)] = rng.pick(&[0, 1, 1, 2, 3, 4, 128, 255]),
    }
}

/// Now and then the slice is cut, or goes on behind the state.
fn with_length(rng: &mut Rng, mut bytes: Vec<u8>) -> Vec<u8> {
    let whole = bytes.len();
    match rng.below(12) {
        0 => bytes.truncate(whole - 1),
        1 => bytes.truncate(rng.below(whole)),
        2 => {
            let count = rng.between(1, 9);
            bytes.extend(rng.bytes(count));
        }
        _ => {}
    }
    bytes
}
