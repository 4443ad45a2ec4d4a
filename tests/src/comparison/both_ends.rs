//! Random sessions of both ends over a line with errors, with marks and without, the machine ready or
//! busy. Along those that meet the suppositions of demand 3, its claims are checked too.

use super::lockstep::Lockstep;
use super::orders::Order;
use super::random_session::outcomes::{WITHOUT_MARKS, WITH_MARKS};
use super::random_session::Session;
use super::{GroupFailure, Tally, EVENTS};
use crate::calls::{ReceivingEnd, SendingEnd};
use crate::reference::order::LONGEST;
use crate::rng::Rng;

/// What the group must have met besides the events, the sessions of either kind and what every group
/// with receiving calls must.
const KINDS: [&str; 6] = [
    "finished",
    "gave up",
    "sessions not opened alike",
    "refused 6",
    "refused 7",
    "never ready, gave up",
];

/// Runs this many sessions, one in a thousand with the longest order.
pub fn compare<S: SendingEnd, R: ReceivingEnd>(
    sending: &S,
    receiving: &R,
    seed: u64,
    sessions: usize,
) -> Result<Tally, GroupFailure> {
    let ends = Lockstep::new(sending, receiving);
    let mut tally = Tally::default();
    for number in 0..sessions {
        let mut rng = Rng::for_case(seed, number);
        let order = match number % 1000 {
            7 => Order::with_length(&mut rng, 240, LONGEST),
            _ => Order::short(&mut rng),
        };
        let session = Session::open(&ends, rng, order, &mut tally);
        let run = session.and_then(|mut session| session.run());
        run.map_err(|difference| format!("session {number}: {difference}"))?;
    }
    for kinds in [&EVENTS[..], &KINDS, &WITHOUT_MARKS, &WITH_MARKS] {
        tally.require(kinds)?;
    }
    ends.with_tried(tally)
}

#[cfg(test)]
mod tests {
    use super::super::agreed;
    use super::super::lockstep::TRIED;
    use super::*;
    use crate::calls::Reference;

    #[test]
    fn demand_3_holds_along_random_sessions_of_the_reference() {
        let tally = agreed(compare(&Reference, &Reference, 6, 3_000));
        for kinds in [&EVENTS[..], &TRIED, &KINDS, &WITHOUT_MARKS, &WITH_MARKS] {
            tally.assert_above(20, kinds);
        }
    }
}
