//! The fault of a block length: a multiple of 8 that is none of the four is taken as 240.

use super::super::spoil::K;
use crate::interface::store_word;
use crate::reference::block::LENGTHS;

/// None of `REFUSED_LENGTHS`: what finds them are the cases of every multiple of 8.
pub const FURTHER_LENGTHS: [usize; 4] = [16, 256, 1_920, 3_848];

/// Where it is taken so: an argument of one of these calls, or a state that an end steps from.
#[derive(Clone, Copy, Debug, PartialEq, Eq)]
pub enum Place {
    LoopTime,
    Building,
    Reading,
    Noise,
    Opening,
    State,
}

/// The second implementation takes this number so in this place.
#[derive(Clone, Copy, Debug, PartialEq, Eq)]
pub struct LengthFault(pub Place, pub usize);

impl LengthFault {
    /// k as it is seen in a place.
    pub fn seen(self, place: Place, k: usize) -> usize {
        match self == LengthFault(place, k) {
            true => LENGTHS[0],
            false => k,
        }
    }

    /// A step from a state, which has its own k again afterwards.
    pub fn step<T>(self, state: &mut [u8], step: impl FnOnce(&mut [u8]) -> T) -> T {
        let LengthFault(place, k) = self;
        let own = (k as u32).to_le_bytes();
        if place != Place::State || !state[K..].starts_with(&own) {
            return step(state);
        }
        store_word(state, K, LENGTHS[0]);
        let answer = step(state);
        store_word(state, K, k);
        answer
    }
}
