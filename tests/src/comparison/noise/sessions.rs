//! Sessions on a line whose noise is the load, at every period.

use super::{compare_noise, done, words, Group};
use crate::calls::{NoiseLoads, ReceivingEnd, SendingEnd};
use crate::comparison::orders::Order;
use crate::comparison::random_session::Session;
use crate::comparison::{Difference, GuardedBuffer, Tally};
use crate::reference::bits::{pack, unpack, Bits};
use crate::reference::noise::Generator;
use crate::rng::Rng;

/// The names of what becomes of an order.
pub const OUTCOMES: [&str; 4] = [
    "orders that arrived within demand 3",
    "orders that arrived beyond demand 3",
    "orders with an alarm",
    "orders whose end was not reported",
];

/// What no session within demand 3 brings.
const ARRIVED_OTHERWISE: &str = "orders that arrived otherwise than sent";

/// A line under the load.
pub struct NoisyLine<'a> {
    tested: &'a dyn NoiseLoads,
    words: Generator,
    /// The reading of the next period's sending call is turned over.
    turned: bool,
}

impl NoisyLine<'_> {
    /// How a return bit is read until the next period begins: a sending call that is refused begins none.
    pub fn reading(&self, return_bit: bool) -> bool {
        return_bit ^ self.turned
    }

    /// The copy of a sent block that arrives.
    pub fn arriving(
        &mut self,
        k: usize,
        block: &[bool],
        tally: &mut Tally,
    ) -> Result<Bits, Difference> {
        let place = GuardedBuffer::around(&mut Rng::new(0), &pack(block));
        let answer = compare_noise(self.tested, k, self.words, place, tally)?;
        let period = done(answer, &|| String::from("a session's block"))?;
        self.words = period.words;
        self.turned = period.load.turned;
        Ok(unpack(&period.block, 0, block.len()))
    }
}

impl<T: NoiseLoads + SendingEnd + ReceivingEnd> Group<'_, T> {
    /// A session with a short order, from any words. Demand 3 is checked along it, as far as it goes.
    pub(super) fn session(&mut self, seed: u64, number: usize) -> Result<(), Difference> {
        let mut rng = Rng::for_case(seed, number);
        let order = Order::short(&mut rng);
        let sent = unpack(&order.bytes, 0, order.length);
        let line = NoisyLine {
            tested: self.tested,
            words: words::any(&mut rng),
            turned: false,
        };
        let session = Session::open(&self.ends, rng, order, &mut self.tally)?;
        let mut session = session.on(line);
        session.run()?;
        let arrived = session
            .ended()
            .map(|length| unpack(session.store(), 0, length));
        let alarm = session.receiver().alarm.is_some();
        let within = session.is_within_demand_3();
        let [arrived_within, arrived_beyond, with_alarm, not_reported] = OUTCOMES;
        self.tally.count(match arrived {
            Some(arrived) if arrived != sent => ARRIVED_OTHERWISE,
            Some(_) if within => arrived_within,
            Some(_) => arrived_beyond,
            None if alarm => with_alarm,
            None => not_reported,
        });
        Ok(())
    }
}
