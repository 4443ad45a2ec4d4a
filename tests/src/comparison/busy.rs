//! A machine that is busy for some blocks of an order, or from some block on. Each case is named by
//! what becomes of the order.

use super::ends::{cases, run_cases, Ends, Office, Outcome, Period};
use super::lockstep::{Lockstep, BAD_WITH_0, BAD_WITH_1, BAD_WITH_ANOTHER};
use super::marks::KINDS;
use super::{same, GroupFailure, Tally};
use crate::calls::{ReceivingEnd, SendingEnd};
use crate::reference::block::{block_bits, LENGTHS};
use crate::reference::receiver::BAD_ROW_LIMIT;
use crate::reference::sender::{GIVE_UP, RESYNCHRONISE};
use Office::{Finished, GaveUp, GoingOn};
use Period::{Reads0, Reads1, Undisturbed};

const ITEMS: [u8; 3] = [0xA0, 0xA1, 0xA2];

/// Runs each case at each k, without marks and with them.
pub fn compare<S: SendingEnd, R: ReceivingEnd>(
    sending: &S,
    receiving: &R,
) -> Result<Tally, GroupFailure> {
    let calls = Lockstep::new(sending, receiving);
    let mut tally = Tally::default();
    let cases = cases![
        busy_at_item_0_it_waits_twice_and_the_order_arrives,
        busy_in_mid_order_the_pair_is_repeated_and_the_order_arrives,
        busy_at_the_end_it_waits_twice_and_is_taken,
        busy_for_63_cancels_the_order_arrives,
        never_ready_the_office_gives_up_and_nothing_is_stored,
        never_ready_after_item_0_the_office_gives_up_and_it_is_stored,
        never_ready_at_the_end_the_office_gives_up_and_all_items_are_stored,
        busy_at_the_item_before_and_at_the_end_again_nothing_waits,
        busy_between_bad_blocks_the_search_is_put_off,
        busy_and_zeros_between_two_blocks_the_order_arrives,
        busy_and_the_request_lost_the_next_item_is_an_alarm,
        busy_at_the_end_and_the_request_lost_the_office_is_finished_without_it,
    ];
    for k in LENGTHS {
        for sizes in KINDS {
            run_cases(&calls, k, sizes, &cases, &mut tally)?;
        }
    }
    calls.with_tried(tally)
}

/// What the pair brings so many times while its older item waits and its newer one is cancelled:
/// without synchronising first for the second to fourth time, unless opening lasts.
fn rounds(opening: bool, times: usize) -> Vec<&'static str> {
    let without = if opening { 1 } else { times.min(RESYNCHRONISE) };
    let with = ["sync", "wait", BAD_WITH_1].repeat(times - without);
    [["wait", BAD_WITH_1].repeat(without), with].concat()
}

impl<S: SendingEnd, R: ReceivingEnd> Ends<'_, S, R> {
    /// The machine is ready for so many periods, and busy from then on.
    fn busy_after(&mut self, periods: usize) -> Outcome {
        self.open_office(&ITEMS)?;
        self.periods(periods)?;
        self.busy = true;
        Ok(())
    }

    /// The machine is ready again, and the order arrives.
    fn arrives(&mut self, events: Vec<&str>) -> Outcome {
        self.busy = false;
        self.until_rest()?;
        self.expect(&events, Finished, &ITEMS)
    }

    /// So many times, and is taken behind the next synchronising block.
    fn item_0_waits(&mut self, times: usize) -> Outcome {
        self.busy_after(1)?;
        self.periods(3 * times - 1)?;
        let waits = [vec!["sync"], rounds(true, times), vec!["sync"]].concat();
        let taken = vec!["accepted", "accepted", "accepted", "ended", "previous"];
        self.arrives([waits, taken].concat())
    }

    fn busy_at_item_0_it_waits_twice_and_the_order_arrives(&mut self) -> Outcome {
        self.item_0_waits(2)
    }

    /// One cancel more, and the office would have given up.
    fn busy_for_63_cancels_the_order_arrives(&mut self) -> Outcome {
        self.item_0_waits(GIVE_UP - 1)
    }

    fn busy_in_mid_order_the_pair_is_repeated_and_the_order_arrives(&mut self) -> Outcome {
        self.busy_after(2)?;
        self.periods(2)?;
        let waits = vec!["sync", "accepted", "wait", BAD_WITH_1];
        let taken = vec!["accepted", "accepted", "ended", "previous"];
        self.arrives([waits, taken].concat())
    }

    fn busy_at_the_end_it_waits_twice_and_is_taken(&mut self) -> Outcome {
        self.busy_after(4)?;
        self.periods(4)?;
        let taken = vec!["sync", "accepted", "accepted", "accepted"];
        self.arrives([taken, rounds(false, 2), vec!["ended", "previous"]].concat())
    }

    fn never_ready_the_office_gives_up_and_nothing_is_stored(&mut self) -> Outcome {
        self.busy_after(0)?;
        self.until_rest()?;
        let events = [vec!["sync"], rounds(true, GIVE_UP)].concat();
        self.expect(&events, GaveUp, &[])
    }

    fn never_ready_after_item_0_the_office_gives_up_and_it_is_stored(&mut self) -> Outcome {
        self.busy_after(2)?;
        self.until_rest()?;
        let events = [vec!["sync", "accepted"], rounds(false, GIVE_UP)].concat();
        self.expect(&events, GaveUp, &ITEMS[..1])
    }

    /// The machine does not report the end.
    fn never_ready_at_the_end_the_office_gives_up_and_all_items_are_stored(&mut self) -> Outcome {
        self.busy_after(4)?;
        self.until_rest()?;
        let accepted = vec!["accepted"; ITEMS.len()];
        let events = [vec!["sync"], accepted, rounds(false, GIVE_UP)].concat();
        self.expect(&events, GaveUp, &ITEMS)
    }

    /// The reading of item 2 is turned over, and item 1 comes again; so is that of the second end
    /// block, and the first comes again.
    fn busy_at_the_item_before_and_at_the_end_again_nothing_waits(&mut self) -> Outcome {
        self.busy_after(3)?;
        self.period(Reads1)?;
        self.period(Undisturbed)?;
        self.busy = false;
        self.until("ended")?;
        self.busy = true;
        self.period(Reads1)?;
        self.until_rest()?;
        let again = ["sync", "accepted", "accepted", BAD_WITH_1, "previous"];
        let end = ["accepted", "ended", BAD_WITH_1, "previous", "previous"];
        self.expect(&[again, end].concat(), Finished, &ITEMS)
    }

    /// Ones fail the check. Eight times in a row they start a search, and a wait begins the row anew.
    fn busy_between_bad_blocks_the_search_is_put_off(&mut self) -> Outcome {
        self.busy_after(2)?;
        let bad = vec![true; (BAD_ROW_LIMIT - 1) * block_bits(self.k)];
        self.receive_all(bad.clone())?;
        self.period(Reads0)?;
        self.receive_all(bad)?;
        same(&|| String::from("search"), &false, &self.receiver().search)?;
        self.receive_all(vec![true; block_bits(self.k)])?;
        same(&|| String::from("search"), &true, &self.receiver().search)?;
        let row = |times| vec![BAD_WITH_ANOTHER; times];
        let first = [vec!["sync", "accepted"], row(BAD_ROW_LIMIT - 1)].concat();
        let events = [first, vec!["wait"], row(BAD_ROW_LIMIT)].concat();
        self.expect(&events, GoingOn, &ITEMS[..1])
    }

    /// Zeros pass the check and fit nowhere. The office reads the return bit 1 and cancels item 1.
    fn busy_and_zeros_between_two_blocks_the_order_arrives(&mut self) -> Outcome {
        self.busy_after(2)?;
        self.receive_all(vec![false; block_bits(self.k)])?;
        let again = vec![
            "sync", "accepted", BAD_WITH_0, BAD_WITH_1, "sync", "previous",
        ];
        let taken = vec!["accepted", "accepted", "ended", "previous"];
        self.arrives([again, taken].concat())
    }

    /// Item 1 waits, its request is read as 0, and item 2 is the one behind the one that is awaited.
    fn busy_and_the_request_lost_the_next_item_is_an_alarm(&mut self) -> Outcome {
        self.busy_after(2)?;
        self.period(Undisturbed)?;
        self.period(Reads0)?;
        let events = ["sync", "accepted", "wait", "sequence alarm"];
        self.expect(&events, GoingOn, &ITEMS[..1])
    }

    /// Both end blocks wait, and the request for the first is read as 0.
    fn busy_at_the_end_and_the_request_lost_the_office_is_finished_without_it(
        &mut self,
    ) -> Outcome {
        self.busy_after(4)?;
        self.period(Undisturbed)?;
        self.period(Reads0)?;
        let taken = vec!["sync", "accepted", "accepted", "accepted"];
        self.expect(&[taken, vec!["wait", "wait"]].concat(), Finished, &ITEMS)
    }
}

#[cfg(test)]
mod tests {
    use super::super::agreed;
    use super::*;
    use crate::calls::Reference;

    #[test]
    fn each_case_ends_as_its_name_says() {
        agreed(compare(&Reference, &Reference));
    }
}
