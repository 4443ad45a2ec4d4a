//! The errors of a session's line and of its return channel.

use crate::damage::{invert, Damage, ADMITTED_KINDS, OTHER_KINDS};
use crate::reference::bits::{unpack, Bits};
use crate::reference::block::{assemble, block_bits, cancel, synchronising_block};
use crate::reference::sender::Sent;
use crate::rng::Rng;

/// The error rates of the line and its return channel for a while, in percent.
#[derive(Clone, Copy)]
pub struct ErrorRates {
    damaged: usize,
    /// Of the damaged, those that demand 3 does not admit.
    not_admitted: usize,
    /// Cancelled blocks that arrive whole.
    cancelled_whole: usize,
    /// Return bits of 1 read as 0.
    lost_requests: usize,
    /// Return bits of 0 read as 1.
    false_requests: usize,
}

/// Which errors the channel of a session has at all.
#[derive(Clone, Copy)]
pub struct ChannelModel {
    /// Requests may be lost.
    loses_requests: bool,
    /// Damage may be of any kind.
    any_damage: bool,
    /// Every return bit of 0 is read as 1.
    pub stuck_at_1: bool,
}

impl ChannelModel {
    pub fn random(rng: &mut Rng) -> ChannelModel {
        ChannelModel {
            loses_requests: rng.chance(40),
            any_damage: rng.chance(20),
            stuck_at_1: rng.chance(2),
        }
    }

    pub fn rates(self, rng: &mut Rng) -> ErrorRates {
        let false_requests = rng.pick(&[0, 0, 0, 10, 30, 100]);
        ErrorRates {
            damaged: rng.pick(&[0, 0, 5, 20, 20, 50, 90]),
            not_admitted: if self.any_damage { 40 } else { 0 },
            cancelled_whole: if self.any_damage { 20 } else { 0 },
            lost_requests: if self.loses_requests {
                rng.pick(&[5, 20, 60])
            } else {
                0
            },
            false_requests: if self.stuck_at_1 { 100 } else { false_requests },
        }
    }
}

impl ErrorRates {
    /// The reading of a return bit.
    pub fn reading(self, rng: &mut Rng, return_bit: bool) -> bool {
        match return_bit {
            true => !rng.chance(self.lost_requests),
            false => rng.chance(self.false_requests),
        }
    }

    /// The copy of a sent block that arrives.
    pub fn arriving(self, rng: &mut Rng, k: usize, block: &[bool], sent: Sent) -> Bits {
        let mut bits = block.to_vec();
        let cancelled = sent.is_cancelled();
        if cancelled && rng.chance(self.cancelled_whole) {
            cancel(&mut bits);
            return bits;
        }
        if !rng.chance(self.damaged) {
            return bits;
        }
        if rng.chance(self.not_admitted) {
            return not_admitted(rng, k, bits);
        }
        // Damage counts against the block before cancelling, which then may not arrive whole.
        let damage = rng.pick(&ADMITTED_KINDS);
        if damage != Damage::Nothing {
            if cancelled {
                cancel(&mut bits);
            }
            invert(&mut bits, &damage.pattern(rng, block.len()));
        }
        bits
    }
}

/// A copy with damage that demand 3 does not admit, or another block altogether.
fn not_admitted(rng: &mut Rng, k: usize, mut bits: Bits) -> Bits {
    match rng.below(4) {
        0 => synchronising_block(k),
        1 => {
            let service = rng.below(16) as u8;
            assemble(service, &unpack(&rng.bytes(k / 8), 0, k))
        }
        _ => {
            let damage = rng.pick(&OTHER_KINDS);
            invert(&mut bits, &damage.pattern(rng, block_bits(k)));
            bits
        }
    }
}
