//! Cases out of arbitrary bytes, for a fuzzer: the first byte picks the call, the others give its
//! arguments, and calls on a state follow while bytes are left and the state is not refused; after a
//! tint order or a period's noise follow others.

mod input;
mod line;
mod noise;
mod states;
mod tint;

use super::{Difference, Tally};
use crate::calls::{Blocks, LoopTimes, NoiseLoads, ReceivingEnd, SendingEnd, Tints};
use input::Input;

/// The most calls of one case.
const CALLS: usize = 8;
/// A first byte from here on picks the noise load.
const NOISE_LOAD: u8 = 192;
/// A first byte from here on picks tint orders.
const TINT_ORDERS: u8 = 216;

/// Compares one case.
pub fn compare<T>(tested: &T, bytes: &[u8], tally: &mut Tally) -> Result<(), Difference>
where
    T: LoopTimes + Blocks + SendingEnd + ReceivingEnd + Tints + NoiseLoads,
{
    let mut input = Input::new(bytes);
    match input.byte() {
        TINT_ORDERS.. => tint::calls(tested, &mut input, tally),
        NOISE_LOAD.. => noise::calls(tested, &mut input, tally),
        call => line::calls(tested, call, &mut input, tally),
    }
}

#[cfg(test)]
mod tests {
    use super::super::lockstep::TRIED;
    use super::super::{block, noise, tint, EVENTS};
    use super::*;
    use crate::calls::Reference;
    use crate::rng::Rng;

    #[test]
    fn random_bytes_bring_every_kind_of_answer() {
        let mut tally = Tally::default();
        for case in 0..20_000 {
            let mut rng = Rng::for_case(14, case);
            let count = rng.below(600);
            if let Err(difference) = compare(&Reference, &rng.bytes(count), &mut tally) {
                panic!("{difference}");
            }
        }
        tally.assert_above(20, &EVENTS);
        tally.assert_above(20, &TRIED);
        let kinds = [
            "allowed",
            "sender opened",
            "sender opened with marks",
            "sent synchronising",
            "sent item",
            "sent end",
            "sent cancelled",
            "receiver opened",
            "receiver opened with marks",
            "code size refused",
            "refused 6",
            "refused 7",
            "refused 8",
        ];
        tally.assert_above(20, &kinds);
        tally.assert_above(20, &block::KINDS);
        tally.assert_above(20, &tint::ANSWERS);
        tally.assert_above(20, &noise::ANSWERS);
        tally.assert_above(20, &noise::SPANS);
    }
}
