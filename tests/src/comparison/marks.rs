//! Sessions with marks at both ends, of every two code sizes, and at one end alone. Each case is
//! named by what becomes of the order.

use super::ends::{cases, run_cases, Ends, Office, Outcome, Period};
use super::lockstep::{Lockstep, BAD_WITH_0, BAD_WITH_1, BAD_WITH_ANOTHER};
use super::{same, GroupFailure, Tally};
use crate::calls::{ReceivingEnd, SendingEnd};
use crate::interface::MARKS_BYTES;
use crate::reference::block::LENGTHS;
use crate::reference::marks::CODE_SIZES;
use crate::reference::receiver::BAD_ROW_LIMIT;
use crate::rng::Rng;
use Office::{Finished, GaveUp, GoingOn};
use Period::{Damaged, Reads0, Reads1, Undisturbed};

/// Sizes beside 5 to 8, and some whose lowest byte or word is one of these.
pub const REFUSED_SIZES: [usize; 7] = [0, 4, 9, 255, 256 + 5, (1 << 32) + 8, usize::MAX];

/// What a state's last two bytes are tried as: whether marks are in use, and the code size.
pub const FLAG_BYTES: [u8; 4] = [0, 1, 2, 255];
pub const SIZE_BYTES: [u8; 8] = [0, 4, 5, 6, 7, 8, 9, 255];

/// Each of these with each.
pub fn state_bytes() -> impl Iterator<Item = [u8; MARKS_BYTES]> {
    let with = |flag| SIZE_BYTES.map(|size| [flag, size]);
    FLAG_BYTES.into_iter().flat_map(with)
}

/// The code sizes with which two ends are opened; without one an end uses no marks.
#[derive(Clone, Copy, Debug)]
pub struct CodeSizes {
    pub sender: Option<usize>,
    pub receiver: Option<usize>,
}

impl CodeSizes {
    /// Most often the ends are opened alike, with marks or without.
    pub fn random(rng: &mut Rng) -> CodeSizes {
        let sender = rng.pick(&CODE_SIZES.map(Some));
        let receiver = rng.pick(&CODE_SIZES.map(Some));
        let (sender, receiver) = match rng.below(20) {
            0 => (sender, None),
            1 => (None, receiver),
            2..=10 => (None, None),
            _ => (sender, receiver),
        };
        CodeSizes { sender, receiver }
    }

    /// Both ends use marks, or neither does.
    pub fn are_alike(self) -> bool {
        self.sender.is_some() == self.receiver.is_some()
    }
}

/// The two kinds of sessions, without marks and with them.
pub const KINDS: [CodeSizes; 2] = [
    CodeSizes {
        sender: None,
        receiver: None,
    },
    CodeSizes {
        sender: Some(5),
        receiver: Some(8),
    },
];

const ITEMS: [u8; 3] = [0xA0, 0xA1, 0xA2];

/// Runs each case at each k, with each code size at an end that uses marks.
pub fn compare<S: SendingEnd, R: ReceivingEnd>(
    sending: &S,
    receiving: &R,
) -> Result<Tally, GroupFailure> {
    let calls = Lockstep::new(sending, receiving);
    let mut tally = Tally::default();
    let alike = cases![
        at_both_ends_the_order_arrives,
        at_both_ends_item_0_again_is_previous,
        at_both_ends_item_0_damaged_comes_again_and_the_order_arrives,
    ];
    let office = cases![
        at_the_office_alone_nothing_is_stored,
        at_the_office_alone_and_a_request_lost_item_1_is_taken_as_item_0,
        at_the_office_alone_and_the_sequence_in_the_order_item_1_is_taken_as_item_0,
    ];
    let machine = cases![at_the_machine_alone_item_0_is_an_alarm];
    let mut run = |k, sender, receiver, cases| {
        run_cases(&calls, k, CodeSizes { sender, receiver }, cases, &mut tally)
    };
    for k in LENGTHS {
        for size in CODE_SIZES.map(Some) {
            for other in CODE_SIZES.map(Some) {
                run(k, size, other, &alike)?;
            }
            run(k, size, None, &office)?;
            run(k, None, size, &machine)?;
        }
    }
    // At each k, 16 pairs of sizes, or 4 sizes at one end.
    tally.require_number("at_both_ends_the_order_arrives", 4 * 16)?;
    tally.require_number("at_the_office_alone_nothing_is_stored", 4 * 4)?;
    tally.require_number("at_the_machine_alone_item_0_is_an_alarm", 4 * 4)?;
    calls.with_tried(tally)
}

impl<S: SendingEnd, R: ReceivingEnd> Ends<'_, S, R> {
    /// The sizes need not agree.
    fn at_both_ends_the_order_arrives(&mut self) -> Outcome {
        self.open_office(&ITEMS)?;
        self.until_rest()?;
        let events = [
            "sync", "accepted", "accepted", "accepted", "ended", "previous",
        ];
        self.expect(&events, Finished, &ITEMS)
    }

    /// The reading of item 1 is turned over: it is cancelled, and while opening lasts a
    /// synchronising block and item 0 come again.
    fn at_both_ends_item_0_again_is_previous(&mut self) -> Outcome {
        self.open_office(&ITEMS)?;
        self.period(Undisturbed)?;
        self.period(Undisturbed)?;
        self.period(Reads1)?;
        self.until_rest()?;
        let again = ["sync", "accepted", BAD_WITH_1, "sync", "previous"];
        let rest = ["accepted", "accepted", "ended", "previous"];
        self.expect(&[&again[..], &rest].concat(), Finished, &ITEMS)
    }

    /// Item 1 is cancelled behind it.
    fn at_both_ends_item_0_damaged_comes_again_and_the_order_arrives(&mut self) -> Outcome {
        self.open_office(&ITEMS)?;
        self.period(Undisturbed)?;
        self.period(Damaged)?;
        self.until_rest()?;
        let damaged = ["sync", BAD_WITH_ANOTHER, BAD_WITH_1, "sync"];
        let rest = ["accepted", "accepted", "accepted", "ended", "previous"];
        self.expect(&[&damaged[..], &rest].concat(), Finished, &ITEMS)
    }

    /// A machine that uses no marks answers item 0 by rule 7, each time.
    fn at_the_office_alone_nothing_is_stored(&mut self) -> Outcome {
        self.open_office(&ITEMS)?;
        self.until_rest()?;
        self.expect(&["sync", BAD_WITH_0].repeat(64), GaveUp, &[])
    }

    /// The request for item 0 is lost: item 1 carries A, and the machine takes it as item 0. The
    /// length alarm at the end tells that an item is missing.
    fn at_the_office_alone_and_a_request_lost_item_1_is_taken_as_item_0(&mut self) -> Outcome {
        self.open_office(&ITEMS)?;
        self.period(Undisturbed)?;
        self.period(Undisturbed)?;
        self.period(Reads0)?;
        self.until_rest()?;
        let events = [
            "sync",
            BAD_WITH_0,
            "sync",
            "accepted",
            "accepted",
            "length alarm",
        ];
        self.expect(&events, GaveUp, &ITEMS[1..])
    }

    /// Every period is undisturbed and no request is lost. The machine, back in search, finds the
    /// sequence in item 1, which is cancelled, reads eight blocks from there, and finds it again in item
    /// 0, in period 10: the return bit is 0 for an item that was not taken, and in period 11 item 1 is
    /// confirmed. Eight blocks later it comes behind a synchronising block, and it carries A.
    fn at_the_office_alone_and_the_sequence_in_the_order_item_1_is_taken_as_item_0(
        &mut self,
    ) -> Outcome {
        let item_bytes = self.k / 8;
        let mut order = vec![0; 2 * item_bytes];
        for place in [20, item_bytes + 2] {
            order[place..place + 2].copy_from_slice(&[0x50, 0xA5]);
        }
        let item_1 = order[item_bytes..].to_vec();
        let row = vec![BAD_WITH_ANOTHER; BAD_ROW_LIMIT];
        self.open_office_with(order)?;
        self.periods(11)?;
        let events = [vec!["sync", BAD_WITH_0, "sync"], row.clone(), vec!["sync"]];
        self.expect(&events.concat(), GoingOn, &[])?;
        self.period(Undisturbed)?;
        same(&|| String::from("the pair"), &2, &self.sender().newer)?;
        self.periods(9)?;
        let events = [row, vec!["sync", "accepted"]].concat();
        self.expect_stored(&events, GoingOn, item_1.clone())?;
        self.period(Undisturbed)?;
        self.expect_stored(&["length alarm"], GoingOn, item_1.clone())?;
        self.until_rest()?;
        self.expect_stored(&[], GaveUp, item_1)
    }

    /// To a machine that uses marks, item 0 without a mark is item 1.
    fn at_the_machine_alone_item_0_is_an_alarm(&mut self) -> Outcome {
        self.open_office(&ITEMS)?;
        self.until_rest()?;
        self.expect(&["sync", "sequence alarm"], GaveUp, &[])
    }
}

#[cfg(test)]
mod tests {
    use super::super::agreed;
    use super::*;
    use crate::calls::Reference;

    #[test]
    fn each_case_ends_as_it_says() {
        agreed(compare(&Reference, &Reference));
    }
}
