//! Sessions over a line with errors that carry a tint order: it is written at the office, and read
//! at the machine from the bytes of its store that the end reports.

use super::{compare_read, compare_write, doses, Group, NUMBERS};
use crate::calls::{ReceivingEnd, SendingEnd, Tints};
use crate::comparison::orders::Order;
use crate::comparison::random_session::Session;
use crate::comparison::{hex, same, Difference, GuardedBuffer, Tally};
use crate::reference::block::LENGTHS;
use crate::reference::refusal::FORMAT;
use crate::reference::tint::{tint_bytes, to_numbers, MOST_DOSES};
use crate::rng::Rng;

/// The names of what becomes of an order.
pub const OUTCOMES: [&str; 3] = [
    "tint orders that arrived",
    "tint orders beyond demand 3",
    "tint orders whose end was not reported",
];

impl<T: Tints + SendingEnd + ReceivingEnd> Group<'_, T> {
    /// An order of as many doses as the session's number says.
    pub(super) fn session(&mut self, seed: u64, number: usize) -> Result<(), Difference> {
        let mut rng = Rng::for_case(seed, number);
        let count = 1 + number % MOST_DOSES;
        let doses = to_numbers(&doses::valid(&mut rng, count));
        let place = GuardedBuffer::random(&mut rng, tint_bytes(MOST_DOSES));
        let written = compare_write(self.tested, &doses, count, place, &mut self.tally)?;
        let mut bytes = written.done(&|| format!("{doses:?}"))?;
        let length = 8 * bytes.len();
        let further = rng.pick(&[0, 0, 1, 5]);
        bytes.extend(rng.bytes(further));
        let k = rng.pick(&LENGTHS);
        self.carry(rng, Order { k, length, bytes }, &doses)
    }

    /// A session with this order. If the end is reported, the machine reads its store, cut to that
    /// length; within demand 3 these are the doses.
    fn carry(&mut self, rng: Rng, order: Order, doses: &[u16]) -> Result<(), Difference> {
        let [arrived, beyond, not_reported] = OUTCOMES;
        let mut events = Tally::default();
        let mut session = Session::open(&self.ends, rng, order, &mut events)?;
        session.run()?;
        let (ended, within) = (session.ended(), session.is_within_demand_3());
        let store = session.store().to_vec();
        let Some(length) = ended else {
            self.tally.count(not_reported);
            return Ok(());
        };
        let order = &store[..length / 8];
        let place = GuardedBuffer::filled(0xEEEE, NUMBERS);
        let read = compare_read(self.tested, order, place.clone(), &mut self.tally)?;
        let whole_store = compare_read(self.tested, &store, place, &mut self.tally)?;
        if !within {
            self.tally.count(beyond);
            return Ok(());
        }
        let read = read.done(&|| hex(order))?;
        same(&|| hex(order), &doses, &&read[..])?;
        if order.len() < store.len() {
            let case = || String::from("the store not cut");
            whole_store.expect(&case, Some(FORMAT))?;
        }
        self.tally.count(arrived);
        Ok(())
    }
}
