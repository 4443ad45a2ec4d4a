//! Random orders: lengths on either side of every border, contents that try the filling and the
//! search.

use crate::reference::block::LENGTHS;
use crate::reference::order::{items, LONGEST};
use crate::rng::Rng;

/// An order with the k it is sent at. The bytes hold at least L bits; what stands behind them
/// must not matter.
#[derive(Clone, Debug)]
pub struct Order {
    pub k: usize,
    pub length: usize,
    pub bytes: Vec<u8>,
}

impl Order {
    /// An order of any length, most often a short one.
    pub fn random(rng: &mut Rng) -> Order {
        let k = rng.pick(&LENGTHS);
        let length = match rng.below(40) {
            0 => LONGEST,
            1 => rng.between(1, LONGEST),
            _ => short_length(rng, k),
        };
        Order::with_length(rng, k, length)
    }

    /// An order of a few items, most often at the smaller k.
    pub fn short(rng: &mut Rng) -> Order {
        let k = rng.pick(&[240, 240, 240, 240, 240, 480, 480, 960, 3840]);
        let length = short_length(rng, k);
        Order::with_length(rng, k, length)
    }

    pub fn with_length(rng: &mut Rng, k: usize, length: usize) -> Order {
        let further = if rng.chance(20) { rng.below(70) } else { 0 };
        let count = length.div_ceil(8) + further;
        let bytes = match rng.below(8) {
            0 => vec![0xFF; count],
            1 => vec![0x00; count],
            2 => sequences(rng, count),
            _ => rng.bytes(count),
        };
        Order { k, length, bytes }
    }

    /// N, the number of data items.
    pub fn items(&self) -> usize {
        items(self.k, self.length)
    }
}

/// One to nine items, often exactly filled or one bit to either side.
fn short_length(rng: &mut Rng, k: usize) -> usize {
    let whole = k * rng.between(1, 8);
    match rng.below(6) {
        0 => whole,
        1 => whole + 1,
        2 => whole - 1,
        3 => rng.between(1, 9),
        _ => rng.between(1, whole),
    }
}

/// Random bytes with synchronising sequences among them, for a search to find.
fn sequences(rng: &mut Rng, count: usize) -> Vec<u8> {
    let mut bytes = rng.bytes(count);
    for place in 0..count / 2 {
        if rng.chance(10) {
            bytes[2 * place..2 * place + 2].copy_from_slice(&[0x50, 0xA5]);
        }
    }
    bytes
}
