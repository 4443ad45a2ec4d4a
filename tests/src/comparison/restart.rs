//! An office that is stopped at any bit of a session and started again with another order, at once or
//! behind idle bits. The machine opens itself when n + 3 equal bits in a row have come, and at no other
//! time (docs/INTEGRATION.md, "Sessions"). A tin is wrong if the machine reports the end and its store
//! does not hold the new order.

use super::ends::{Ends, Office, Outcome};
use super::lockstep::Lockstep;
use super::marks::KINDS;
use super::{same, GroupFailure, Tally};
use crate::calls::{ReceivingEnd, SendingEnd};
use crate::reference::block::block_bits;
use crate::rng::Rng;
use Office::Finished;

const SEED: u64 = 24;
/// Trials at each k, without marks and with them, of each kind of start: sessions at a long k take
/// longer.
const TRIALS: [(usize, usize); 4] = [(240, 75), (480, 50), (960, 25), (3840, 8)];
/// The most items of an order.
const MOST_ITEMS: usize = 4;

/// What the line carries between the stop and the first block.
#[derive(Clone, Copy, Debug, PartialEq, Eq)]
enum Start {
    AtOnce,
    /// 4n steady bits.
    Behind(bool),
}
const STARTS: [Start; 3] = [Start::AtOnce, Start::Behind(false), Start::Behind(true)];

/// What becomes of the new order where the office starts at once.
const WRONG_TIN: &str = "started at once: a wrong tin";
const ARRIVED: &str = "started at once: the new order arrived";
const NOT_DELIVERED: &str = "started at once: the new order was not delivered";
/// Behind idle bits nothing else becomes of it.
const ARRIVED_BEHIND_IDLE: &str = "started behind 4n idle bits: the new order arrived";

/// Runs all trials.
pub fn compare<S: SendingEnd, R: ReceivingEnd>(
    sending: &S,
    receiving: &R,
) -> Result<Tally, GroupFailure> {
    let calls = Lockstep::new(sending, receiving);
    let mut tally = Tally::default();
    for (k, trials) in TRIALS {
        for (sizes, number) in KINDS
            .into_iter()
            .flat_map(|s| (0..trials).map(move |i| (s, i)))
        {
            for start in STARTS {
                let run = Ends::new(&calls, k, sizes).and_then(|mut ends| {
                    ends.restart(Rng::for_case(SEED, number), start, &mut tally)
                });
                run.map_err(|difference| {
                    format!("k {k}, {sizes:?}, trial {number}, {start:?}: {difference}")
                })?;
            }
        }
    }
    tally.require(&[WRONG_TIN, ARRIVED, NOT_DELIVERED, ARRIVED_BEHIND_IDLE])?;
    calls.with_tried(tally)
}

/// The latest bit of the line, and how many equal ones in a row it ends.
#[derive(Default)]
struct Row {
    bit: bool,
    count: usize,
}

impl<S: SendingEnd, R: ReceivingEnd> Ends<'_, S, R> {
    /// Lends bits to the machine, which opens itself where n + 3 equal ones in a row have come.
    fn receive_watching(&mut self, bits: &[bool], row: &mut Row) -> Outcome {
        let told = block_bits(self.k) + 3;
        let mut lent = 0;
        for (place, &bit) in bits.iter().enumerate() {
            let count = if bit == row.bit { row.count + 1 } else { 1 };
            *row = Row { bit, count };
            if count == told {
                self.receive_all(bits[lent..=place].to_vec())?;
                self.open_machine()?;
                lent = place + 1;
            }
        }
        self.receive_all(bits[lent..].to_vec())
    }

    /// The next block of the office, or its first bits; the reading is as the return bit stands.
    fn block_watched(&mut self, most: usize, row: &mut Row) -> Outcome {
        let bits = self.send(self.receiver().return_bit)?;
        self.receive_watching(&bits[..most.min(bits.len())], row)
    }

    /// The old order up to some bit, and the new one to its end.
    fn restart(&mut self, mut rng: Rng, start: Start, tally: &mut Tally) -> Outcome {
        let (n, row) = (block_bits(self.k), &mut Row::default());
        let mut order = || {
            let items = rng.between(1, MOST_ITEMS);
            rng.bytes(items * self.k / 8)
        };
        let (old, new) = (order(), order());
        // A synchronising block, the items and two end blocks.
        let stop = rng.below((8 * old.len() / self.k + 3) * n);
        self.open_office_with(old.clone())?;
        for at in (0..stop).step_by(n) {
            self.block_watched(stop - at, row)?;
        }
        if let Start::Behind(bit) = start {
            self.receive_watching(&vec![bit; 4 * n], row)?;
        }
        if self.take_events().contains(&"ended") {
            let case = || String::from("an end before the new session is of the old order");
            same(&case, &true, &self.store().starts_with(&old))?;
        }
        self.open_office_with(new.clone())?;
        while !self.sender().rests() {
            self.block_watched(n, row)?;
        }
        self.judge_new_order(start, &new, tally)
    }

    fn judge_new_order(&mut self, start: Start, new: &[u8], tally: &mut Tally) -> Outcome {
        let ended = self.take_events().contains(&"ended");
        let arrived = ended && self.store().starts_with(new);
        tally.count(match (start, ended) {
            (Start::Behind(_), _) => {
                let case = || String::from("ended with the new order, and the office");
                same(&case, &(true, Finished), &(arrived, self.office()))?;
                ARRIVED_BEHIND_IDLE
            }
            (Start::AtOnce, true) if !arrived => WRONG_TIN,
            (Start::AtOnce, true) => ARRIVED,
            (Start::AtOnce, false) => NOT_DELIVERED,
        });
        Ok(())
    }
}

#[cfg(test)]
mod tests {
    use super::super::agreed;
    use super::*;
    use crate::calls::Reference;

    #[test]
    fn no_tin_is_wrong_behind_idle_bits_and_some_are_without() {
        let tally = agreed(compare(&Reference, &Reference));
        assert_eq!(tally.number_of(WRONG_TIN), 50);
    }
}
