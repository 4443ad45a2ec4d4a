//! What becomes of a random session, and the names under which it is counted.

use super::Session;
use crate::calls::{ReceivingEnd, SendingEnd};
use crate::comparison::{same, Difference, Tally};
use crate::delivery::Delivery;
use crate::reference::receiver::Receiver;

/// The names under which sessions are counted: all, those within demand 3 along the whole list, and
/// of these those with a lost request and those to the end.
type Names = [&'static str; 4];

pub const WITHOUT_MARKS: Names = [
    "sessions without marks",
    "within demand 3",
    "within demand 3 with a loss",
    "within demand 3 to the end",
];
pub const WITH_MARKS: Names = [
    "sessions with marks",
    "with marks within demand 3",
    "with marks within demand 3 with a loss",
    "with marks within demand 3 to the end",
];

impl<S: SendingEnd, R: ReceivingEnd> Session<'_, S, R> {
    pub(super) fn count_session(&mut self) {
        let sender = self.sender();
        match (&self.delivery, sender.marks.in_use) {
            (None, _) => self.tally.count("sessions not opened alike"),
            (Some(delivery), true) => count_delivery(delivery, &WITH_MARKS, self.tally),
            (Some(delivery), false) => count_delivery(delivery, &WITHOUT_MARKS, self.tally),
        }
        if sender.finished {
            self.tally.count("finished");
        } else if sender.gave_up() {
            self.tally.count("gave up");
        }
    }

    /// Of a machine that is never ready. That the store is as first lent, and that no alarm stands
    /// unless a request was lost, is claimed along the session.
    pub(super) fn nothing_is_taken(&mut self) -> Result<(), Difference> {
        let Receiver {
            taken, end_taken, ..
        } = self.receiver();
        let case = || String::from("a machine that is never ready");
        same(&case, &(0, false), &(taken, end_taken))?;
        self.tally.count(match self.sender().gave_up() {
            true => "never ready, gave up",
            false => "never ready, broken off",
        });
        Ok(())
    }
}

fn count_delivery(delivery: &Delivery, names: &Names, tally: &mut Tally) {
    let [session, within, with_loss, to_end] = names;
    tally.count(session);
    if delivery.broken().is_some() {
        return;
    }
    tally.count(within);
    if delivery.lost_requests() > 0 {
        tally.count(with_loss);
    }
    if delivery.ended() {
        tally.count(to_end);
    }
}
