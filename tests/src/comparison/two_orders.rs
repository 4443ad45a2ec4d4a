//! Two orders in a row over one line, by when the machine is opened anew. The theorem on delivery
//! speaks of two ends that were opened together; most cases here are outside it, and each shows
//! what then becomes of the orders.

use super::ends::{cases, run_cases, Ends, Office, Outcome, Period};
use super::lockstep::{Lockstep, BAD_WITH_0, BAD_WITH_1, BAD_WITH_ANOTHER};
use super::marks::KINDS;
use super::{same, GroupFailure, Tally};
use crate::calls::{ReceivingEnd, SendingEnd};
use crate::reference::block::LENGTHS;
use crate::reference::order::{items, LONGEST};
use crate::reference::receiver::{Received, Receiver};
use crate::reference::refusal::SHORT;
use Office::{Finished, GaveUp, GoingOn};
use Period::{Damaged, Reads0, Undisturbed};

/// The items of two orders of the same length.
const OLD: [u8; 2] = [0xA0, 0xA1];
const NEW: [u8; 2] = [0xB0, 0xB1];
/// A longer order.
const LONG: [u8; 9] = [0xB0, 0xB1, 0xB2, 0xB3, 0xB4, 0xB5, 0xB6, 0xB7, 0xB8];

const DELIVERED: [&str; 5] = ["sync", "accepted", "accepted", "ended", "previous"];
const SEQUENCE: &str = "sequence alarm";
const LENGTH: &str = "length alarm";

/// Runs each case at each k, those that end alike in both kinds with marks and without.
pub fn compare<S: SendingEnd, R: ReceivingEnd>(
    sending: &S,
    receiving: &R,
) -> Result<Tally, GroupFailure> {
    let calls = Lockstep::new(sending, receiving);
    let mut tally = Tally::default();
    let in_both_kinds = cases![
        both_opened_anew_both_orders_arrive,
        opened_at_ended_the_office_gives_up_on_a_delivered_order,
        opened_after_one_lost_request_the_alarm_comes_again,
        opened_after_two_lost_requests_each_item_is_bad,
        not_opened_after_item_0_the_end_is_reported_of_two_mixed_orders,
        not_opened_after_item_0_the_end_is_reported_of_an_order_never_taken,
    ];
    let without_marks = cases![
        never_opened_anew_the_second_order_is_not_taken,
        opened_at_an_alarm_after_ended_both_orders_arrive,
        opened_after_three_lost_requests_item_3_is_taken_as_item_0,
        opened_at_an_alarm_in_mid_order_item_6_is_taken_as_item_0,
        not_opened_after_item_2_the_length_alarm_comes_behind_mixed_items,
        not_opened_after_item_2_a_longest_order_finds_no_room,
    ];
    let with_marks = cases![
        with_marks_never_opened_anew_no_alarm_comes,
        with_marks_opened_at_bad_after_ended_both_orders_arrive,
        with_marks_opened_after_three_lost_requests_each_item_is_bad,
        with_marks_opened_at_an_alarm_in_mid_order_nothing_more_is_taken,
        with_marks_not_opened_after_item_2_the_second_order_is_not_taken,
    ];
    let [without, with] = KINDS;
    for k in LENGTHS {
        let mut run = |sizes, cases| run_cases(&calls, k, sizes, cases, &mut tally);
        run(without, &in_both_kinds)?;
        run(without, &without_marks)?;
        run(with, &in_both_kinds)?;
        run(with, &with_marks)?;
    }
    calls.with_tried(tally)
}

impl<S: SendingEnd, R: ReceivingEnd> Ends<'_, S, R> {
    /// The first order arrives, and the office is finished.
    fn deliver_old(&mut self) -> Outcome {
        self.open_office(&OLD)?;
        self.until_rest()?;
        self.expect(&DELIVERED, Finished, &OLD)
    }

    fn both_opened_anew_both_orders_arrive(&mut self) -> Outcome {
        self.deliver_old()?;
        self.open_machine()?;
        self.open_office(&NEW)?;
        self.until_rest()?;
        self.expect(&DELIVERED, Finished, &NEW)
    }

    fn never_opened_anew_the_second_order_is_not_taken(&mut self) -> Outcome {
        self.deliver_old()?;
        self.open_office(&NEW)?;
        self.until_rest()?;
        self.expect(&["sync", SEQUENCE], GaveUp, &OLD)
    }

    /// Item 0 is bad, and so is item 1, which is cancelled.
    fn with_marks_never_opened_anew_no_alarm_comes(&mut self) -> Outcome {
        self.deliver_old()?;
        self.open_office(&NEW)?;
        self.until_rest()?;
        self.expect(&["sync", BAD_WITH_0, BAD_WITH_1].repeat(64), GaveUp, &OLD)
    }

    /// The second end block is not confirmed any more: the machine is in search, and takes the end
    /// block that follows a synchronising block for the end of an order of no items.
    fn opened_at_ended_the_office_gives_up_on_a_delivered_order(&mut self) -> Outcome {
        self.open_office(&OLD)?;
        self.until("ended")?;
        self.expect(&DELIVERED[..4], GoingOn, &OLD)?;
        self.open_machine()?;
        self.until_rest()?;
        self.expect(&["sync", LENGTH], GaveUp, &OLD)
    }

    /// The office's opening still lasts, so that item 0 comes again behind a synchronising block.
    fn opened_at_an_alarm_after_ended_both_orders_arrive(&mut self) -> Outcome {
        self.deliver_old()?;
        self.open_office(&NEW)?;
        self.until(SEQUENCE)?;
        self.open_machine()?;
        self.until_rest()?;
        let events = [&["sync", SEQUENCE], &DELIVERED[..]].concat();
        self.expect(&events, Finished, &NEW)
    }

    fn with_marks_opened_at_bad_after_ended_both_orders_arrive(&mut self) -> Outcome {
        self.deliver_old()?;
        self.open_office(&NEW)?;
        self.until(BAD_WITH_0)?;
        self.open_machine()?;
        self.until_rest()?;
        let events = [&["sync", BAD_WITH_0], &DELIVERED[..]].concat();
        self.expect(&events, Finished, &NEW)
    }

    /// After *ended* item 0 is an alarm, and with marks it is bad and item 1 the alarm. The office
    /// reads so many requests as 0 before the machine is opened: its opening is over, and it
    /// repeats from item `lost` on.
    fn open_after_lost_requests(&mut self, lost: usize) -> Outcome {
        self.deliver_old()?;
        self.open_office(&LONG)?;
        self.period(Undisturbed)?;
        self.period(Undisturbed)?;
        for _ in 0..lost {
            self.period(Reads0)?;
        }
        let events: &[&str] = match self.sender().marks.in_use {
            true => &["sync", BAD_WITH_0, SEQUENCE],
            false => &["sync", SEQUENCE],
        };
        self.expect(events, GoingOn, &OLD)?;
        self.open_machine()?;
        self.until_rest()
    }

    /// Item 1 is the one behind the one that is awaited.
    fn opened_after_one_lost_request_the_alarm_comes_again(&mut self) -> Outcome {
        self.open_after_lost_requests(1)?;
        self.expect(&["sync", SEQUENCE], GaveUp, &OLD)
    }

    /// Item 2 carries C, with marks B, which at r 0 starts a search, after each of the 60
    /// synchronising blocks.
    fn opened_after_two_lost_requests_each_item_is_bad(&mut self) -> Outcome {
        self.open_after_lost_requests(2)?;
        self.expect(&["sync", BAD_WITH_0].repeat(60), GaveUp, &OLD)
    }

    /// Item 3 carries A, as item 0 does. The length alarm at the end tells that items are missing.
    fn opened_after_three_lost_requests_item_3_is_taken_as_item_0(&mut self) -> Outcome {
        self.open_after_lost_requests(3)?;
        let events = [vec!["sync"], vec!["accepted"; 6], vec![LENGTH]].concat();
        self.expect(&events, GaveUp, &LONG[3..])
    }

    /// Only a mark is taken as item 0.
    fn with_marks_opened_after_three_lost_requests_each_item_is_bad(&mut self) -> Outcome {
        self.open_after_lost_requests(3)?;
        self.expect(&["sync", BAD_WITH_0].repeat(60), GaveUp, &OLD)
    }

    /// Item 5 is damaged and its request lost, item 6 brings the alarm, and the machine is opened
    /// while the office goes on.
    fn open_at_an_alarm_in_mid_order(&mut self) -> Outcome {
        self.open_office(&LONG)?;
        for _ in 0..6 {
            self.period(Undisturbed)?;
        }
        self.period(Damaged)?;
        self.period(Reads0)?;
        let events = [
            vec!["sync"],
            vec!["accepted"; 5],
            vec![BAD_WITH_ANOTHER, SEQUENCE],
        ]
        .concat();
        self.expect(&events, GoingOn, &LONG[..5])?;
        self.open_machine()?;
        self.until_rest()
    }

    /// What was stored before is overwritten.
    fn opened_at_an_alarm_in_mid_order_item_6_is_taken_as_item_0(&mut self) -> Outcome {
        self.open_at_an_alarm_in_mid_order()?;
        let events = [vec!["sync"], vec!["accepted"; 3], vec![LENGTH]].concat();
        let items = [&LONG[6..], &LONG[3..5]].concat();
        self.expect(&events, GaveUp, &items)
    }

    fn with_marks_opened_at_an_alarm_in_mid_order_nothing_more_is_taken(&mut self) -> Outcome {
        self.open_at_an_alarm_in_mid_order()?;
        self.expect(&["sync", BAD_WITH_0].repeat(60), GaveUp, &LONG[..5])
    }

    /// The first order breaks off behind so many of its items.
    fn break_off(&mut self, order: &[u8], taken: usize) -> Outcome {
        self.open_office(order)?;
        for _ in 0..=taken {
            self.period(Undisturbed)?;
        }
        let events = [vec!["sync"], vec!["accepted"; taken]].concat();
        self.expect(&events, GoingOn, &order[..taken])
    }

    fn not_opened_after_item_0_the_end_is_reported_of_two_mixed_orders(&mut self) -> Outcome {
        self.break_off(&OLD, 1)?;
        self.open_office(&NEW)?;
        self.until("ended")?;
        let events = ["sync", "previous", "accepted", "ended"];
        self.expect(&events, GoingOn, &[OLD[0], NEW[1]])?;
        self.until_rest()?;
        self.expect(&["previous"], Finished, &[OLD[0], NEW[1]])
    }

    /// The new order has one item, and the store holds none of it.
    fn not_opened_after_item_0_the_end_is_reported_of_an_order_never_taken(&mut self) -> Outcome {
        self.break_off(&OLD, 1)?;
        self.open_office(&NEW[..1])?;
        self.until_rest()?;
        let events = ["sync", "previous", "ended", "previous"];
        self.expect(&events, Finished, &OLD[..1])
    }

    /// Three items are taken: item 0 of the new order is taken as item 3.
    fn not_opened_after_item_2_the_length_alarm_comes_behind_mixed_items(&mut self) -> Outcome {
        self.break_off(&LONG, 3)?;
        self.open_office(&OLD)?;
        self.until_rest()?;
        let items = [&LONG[..3], &OLD[..]].concat();
        self.expect(&["sync", "accepted", "accepted", LENGTH], GaveUp, &items)
    }

    /// The store has room for the longest order and no more. Three items are taken, and so the new
    /// order's last three find none. At k 240 no receiver takes so many: rule 7. At the other k the
    /// call is refused, the return bit is 0, no alarm stands, and no bit is used, however often the same
    /// bits are lent.
    fn not_opened_after_item_2_a_longest_order_finds_no_room(&mut self) -> Outcome {
        let most = items(self.k, LONGEST);
        self.open_machine_with(self.k, most)?;
        self.break_off(&LONG, 3)?;
        let long: Vec<u8> = (0..most).map(|item| item as u8).collect();
        let mut order = self.filled(&long);
        order.truncate(LONGEST / 8);
        self.open_office_with(order)?;
        self.periods(1 + most - 3)?;
        let stored = [&LONG[..3], &long[..most - 3]].concat();
        let events = [vec!["sync"], vec!["accepted"; most - 3]].concat();
        self.expect(&events, GoingOn, &stored)?;
        if self.k == LENGTHS[0] {
            self.period(Undisturbed)?;
            return self.expect(&[BAD_WITH_0], GoingOn, &stored);
        }
        let bits = self.send(self.receiver().return_bit)?;
        for _ in 0..3 {
            let case = || String::from("no room");
            same(&case, &Received::Refused(SHORT), &self.lend(&bits, true)?)?;
            let Receiver {
                taken,
                return_bit,
                alarm,
                ..
            } = self.receiver();
            same(&case, &(most, false, None), &(taken, return_bit, alarm))?;
        }
        self.expect(&[], GoingOn, &stored)
    }

    /// Item 0 of the new order carries a mark, which is bad where three items are taken.
    fn with_marks_not_opened_after_item_2_the_second_order_is_not_taken(&mut self) -> Outcome {
        self.break_off(&LONG, 3)?;
        self.open_office(&OLD)?;
        self.until_rest()?;
        self.expect(
            &["sync", BAD_WITH_0, BAD_WITH_1].repeat(64),
            GaveUp,
            &LONG[..3],
        )
    }
}

#[cfg(test)]
mod tests {
    use super::super::agreed;
    use super::*;
    use crate::calls::Reference;

    #[test]
    fn each_case_ends_as_its_name_says() {
        agreed(compare(&Reference, &Reference));
    }
}
