//! Ends that were opened with different k, on a line without errors. The synchronising blocks of all k
//! end alike, so that the machine is in step, but at none of the office's blocks.
//!
//! What the machine takes for a block passes the check by chance alone: one in 65,536, and more often
//! where the order's filling or an end block gives it n zeros.

use super::ends::{Ends, Office, Outcome};
use super::lockstep::{Lockstep, BAD_WITH_0, BAD_WITH_ANOTHER};
use super::marks::KINDS;
use super::{same, Difference, GroupFailure, Tally};
use crate::calls::{ReceivingEnd, SendingEnd};
use crate::reference::block::LENGTHS;
use crate::reference::order::LONGEST;
use crate::rng::Rng;
use Office::{Finished, GaveUp};

/// The seed of the orders: the cases below are theirs.
const SEED: u64 = 77;
/// The items that the machine has room for.
const STORE_ITEMS: usize = 16;

/// What becomes of an order.
const FINISHED_UNSEEN: &str = "office's k smaller: finished, nothing taken, no alarm";
const GAVE_UP: &str = "office's k larger: gave up, nothing taken, no alarm";
const BY_CHANCE: &str = "a misread block passed the check: taken, or an alarm";

/// Orders in which a misread block passes the check by chance: the office's k, the machine's, the
/// number of the order, the event and how the office ends.
const CHANCES: [(usize, usize, usize, &str, Office); 3] = [
    (480, 960, 14_042, "accepted", Finished),
    (480, 960, 658, "sequence alarm", GaveUp),
    (240, 480, 4_107, "length alarm", GaveUp),
];

/// Runs orders of every pair of different k, with marks and without in turn: so many where the
/// office's k is the smaller one, and fewer where it is the larger, since those sessions are long.
pub fn compare<S: SendingEnd, R: ReceivingEnd>(
    sending: &S,
    receiving: &R,
    orders: usize,
) -> Result<Tally, GroupFailure> {
    let calls = Lockstep::new(sending, receiving);
    let mut tally = Tally::default();
    let pairs = LENGTHS
        .into_iter()
        .flat_map(|k| LENGTHS.map(|other| (k, other)));
    for (office, machine) in pairs.filter(|(office, machine)| office != machine) {
        let orders = match office < machine {
            true => orders,
            false => (100 * orders).div_ceil(office),
        };
        for number in 0..orders {
            let sizes = KINDS[number % 2];
            let run = Ends::new(&calls, office, sizes).and_then(|mut ends| {
                ends.session_with(machine, number)?;
                ends.judge_different_k(machine, &mut tally)
            });
            run.map_err(|difference| {
                format!("k {office} and {machine}, order {number}, {sizes:?}: {difference}")
            })?;
        }
    }
    chances(&calls, &mut tally)?;
    calls.with_met(
        tally,
        &[
            FINISHED_UNSEEN,
            GAVE_UP,
            BY_CHANCE,
            BAD_WITH_0,
            BAD_WITH_ANOTHER,
        ],
    )
}

/// One event each that is not of a misread block which fails the check or fits nowhere, and no end.
fn chances<S: SendingEnd, R: ReceivingEnd>(
    calls: &Lockstep<S, R>,
    tally: &mut Tally,
) -> Result<(), Difference> {
    for (office, machine, number, event, rests) in CHANCES {
        let mut ends = Ends::new(calls, office, KINDS[0])?;
        ends.session_with(machine, number)?;
        let case = || format!("k {office} and {machine}, order {number}");
        same(&case, &rests, &ends.office())?;
        let mut events = ends.take_events();
        events.retain(|event| !is_of_a_misread_block(event));
        same(&case, &vec![event], &events)?;
        tally.count(BY_CHANCE);
    }
    Ok(())
}

/// What such a block brings, and a synchronising one.
fn is_of_a_misread_block(event: &str) -> bool {
    event == "sync" || event.starts_with("bad")
}

/// The random order of this number: one to forty items, or as many as an order may fill, the last one
/// not whole.
fn order(k: usize, number: usize) -> Vec<u8> {
    let mut rng = Rng::for_case(SEED, number);
    let most = rng.pick(&[2, 4, 9, 40]);
    let items = rng.between(1, most).min(LONGEST / k);
    let missing = rng.below(k / 8);
    rng.bytes(items * k / 8 - missing)
}

impl<S: SendingEnd, R: ReceivingEnd> Ends<'_, S, R> {
    /// A session with the order of this number, to a machine with this k.
    fn session_with(&mut self, machine: usize, number: usize) -> Outcome {
        self.open_machine_with(machine, STORE_ITEMS)?;
        self.open_office_with(order(self.k, number))?;
        self.until_rest()
    }

    fn judge_different_k(&mut self, machine: usize, tally: &mut Tally) -> Outcome {
        let events = self.take_events();
        if !events.iter().all(|event| is_of_a_misread_block(event)) {
            tally.count(BY_CHANCE);
            return same(
                &|| String::from("ended"),
                &false,
                &events.contains(&"ended"),
            );
        }
        let (outcome, office) = match self.k < machine {
            true => (FINISHED_UNSEEN, Finished),
            false => (GAVE_UP, GaveUp),
        };
        tally.count(outcome);
        same(&|| String::from("the office"), &office, &self.office())
    }
}

#[cfg(test)]
mod tests {
    use super::super::agreed;
    use super::*;
    use crate::calls::Reference;

    #[test]
    fn each_session_ends_as_it_is_named() {
        let tally = agreed(compare(&Reference, &Reference, 100));
        tally.assert_above(500, &[FINISHED_UNSEEN]);
        tally.assert_above(20, &[GAVE_UP]);
    }
}
