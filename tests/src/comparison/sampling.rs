//! When the office samples the return channel. Just before a block's last bit the answer to the block
//! before it is back; as the block begins it is not, and the reading is one block old. Each case is
//! named by what becomes of the order.

use super::ends::{cases, run_cases, Ends, Office, Outcome};
use super::lockstep::{Lockstep, BAD_WITH_1, BAD_WITH_ANOTHER, WAIT_WITHOUT_ROOM};
use super::marks::KINDS;
use super::{GroupFailure, Tally};
use crate::calls::{ReceivingEnd, SendingEnd};
use crate::reference::block::LENGTHS;
use Office::{Finished, GaveUp};

const ITEMS: [u8; 3] = [0xA0, 0xA1, 0xA2];
const DELIVERED: [&str; 6] = [
    "sync", "accepted", "accepted", "accepted", "ended", "previous",
];

/// When a reading is taken.
#[derive(Clone, Copy, PartialEq, Eq)]
enum Sampled {
    AtTheLastBit,
    AsTheBlockBegins,
}
use Sampled::{AsTheBlockBegins, AtTheLastBit};

/// Runs each case at each k, without marks and with them.
pub fn compare<S: SendingEnd, R: ReceivingEnd>(
    sending: &S,
    receiving: &R,
) -> Result<Tally, GroupFailure> {
    let calls = Lockstep::new(sending, receiving);
    let mut tally = Tally::default();
    let cases = cases![
        at_the_last_bit_a_damaged_item_comes_again_and_the_order_arrives,
        as_the_block_begins_an_undisturbed_order_arrives,
        as_the_block_begins_a_damaged_item_is_an_alarm,
        as_the_block_begins_the_last_item_damaged_is_a_length_alarm,
    ];
    for k in LENGTHS {
        for sizes in KINDS {
            run_cases(&calls, k, sizes, &cases, &mut tally)?;
        }
    }
    calls.with_met(tally, &[WAIT_WITHOUT_ROOM, BAD_WITH_1, BAD_WITH_ANOTHER])
}

impl<S: SendingEnd, R: ReceivingEnd> Ends<'_, S, R> {
    /// A whole session from two ends opened anew, the first bit inverted in the blocks of these
    /// periods.
    fn session_sampled(&mut self, sampled: Sampled, damaged: &[usize]) -> Outcome {
        self.open_machine()?;
        self.open_office(&ITEMS)?;
        let mut as_it_begins = self.receiver().return_bit;
        for period in 0.. {
            if self.sender().rests() {
                break;
            }
            let at_the_last_bit = self.receiver().return_bit;
            let reading = match sampled {
                AtTheLastBit => at_the_last_bit,
                AsTheBlockBegins => as_it_begins,
            };
            as_it_begins = at_the_last_bit;
            let mut bits = self.send(reading)?;
            bits[0] ^= damaged.contains(&period);
            self.receive_all(bits)?;
        }
        Ok(())
    }

    fn at_the_last_bit_a_damaged_item_comes_again_and_the_order_arrives(&mut self) -> Outcome {
        self.session_sampled(AtTheLastBit, &[2])?;
        let again = ["sync", "accepted", BAD_WITH_ANOTHER, BAD_WITH_1];
        self.expect(&[&again[..], &DELIVERED[2..]].concat(), Finished, &ITEMS)
    }

    /// So a line without errors does not show it.
    fn as_the_block_begins_an_undisturbed_order_arrives(&mut self) -> Outcome {
        self.session_sampled(AsTheBlockBegins, &[])?;
        self.expect(&DELIVERED, Finished, &ITEMS)
    }

    /// The request is read as 0 with the item behind, which is the one behind the one that is awaited.
    fn as_the_block_begins_a_damaged_item_is_an_alarm(&mut self) -> Outcome {
        for taken in 0..ITEMS.len() - 1 {
            self.session_sampled(AsTheBlockBegins, &[1 + taken])?;
            let events = [
                &DELIVERED[..1 + taken],
                &[BAD_WITH_ANOTHER, "sequence alarm"],
            ];
            self.expect(&events.concat(), GaveUp, &ITEMS[..taken])?;
        }
        Ok(())
    }

    /// What is behind it is the end.
    fn as_the_block_begins_the_last_item_damaged_is_a_length_alarm(&mut self) -> Outcome {
        self.session_sampled(AsTheBlockBegins, &[3])?;
        let events = [&DELIVERED[..3], &[BAD_WITH_ANOTHER, "length alarm"]].concat();
        self.expect(&events, GaveUp, &ITEMS[..2])
    }
}

#[cfg(test)]
mod tests {
    use super::super::agreed;
    use super::*;
    use crate::calls::Reference;

    #[test]
    fn each_case_ends_as_its_name_says() {
        agreed(compare(&Reference, &Reference));
    }
}
