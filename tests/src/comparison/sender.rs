//! Opening a sender, and random sessions of sending calls on state bytes of every kind.

use super::block::{multiple_name, multiples_of_8, require_multiples};
use super::lockstep::{BufferPair, Lockstep};
use super::marks::state_bytes;
use super::openings::{open_refused, open_with_every_multiple, open_with_every_size, opening};
use super::orders::Order;
use super::{spoil, Difference, GroupFailure, GuardedBuffer, Tally};
use crate::calls::SendingEnd;
use crate::interface::{load_sender, MARKS_BYTES, SENDER_BYTES};
use crate::reference::bits::bit_at;
use crate::reference::block::block_bytes;
use crate::reference::order::LONGEST;
use crate::reference::refusal::Refusal;
use crate::reference::sender::{Sender, Sent};
use crate::rng::Rng;

/// Where the layout has the newer item and the cancel run.
const NEWER: usize = 8;
const CANCEL_RUN: usize = 12;

/// What the group must have met.
const KINDS: [&str; 23] = [
    "synchronising",
    "cancelled",
    "end blocks",
    "items",
    "finished",
    "gave up",
    "refused 6",
    "refused 7",
    "refused 8",
    "opening refused 1",
    "opening refused 2",
    "opening refused 3",
    "opening refused 4",
    "opening refused 5",
    "opening refused 6",
    "opening refused 9",
    "opened",
    "states too short",
    "flags and enums out of range",
    "fields changed",
    "orders of 1 bit",
    "orders of the most bits",
    "orders with ones behind L",
];

/// Runs the whole group.
pub fn compare(
    tested: &impl SendingEnd,
    seed: u64,
    sessions: usize,
) -> Result<Tally, GroupFailure> {
    let ends = Lockstep::new(tested, &());
    let mut tally = Tally::default();
    open_with_every_size(&ends, &mut Rng::new(seed), &mut tally)?;
    open_with_every_multiple(&ends, &mut Rng::new(seed), &mut tally)?;
    send_with_every_marks(&ends, &mut Rng::new(seed), &mut tally)?;
    send_with_every_multiple(&ends, &mut Rng::new(seed), &mut tally)?;
    for session in 0..sessions {
        let rng = Rng::for_case(seed, session);
        let run = Session::open(&ends, rng, &mut tally).and_then(Session::run);
        run.map_err(|difference| format!("session {session}: {difference}"))?;
        tally.count("sessions");
    }
    tally.require(&KINDS)?;
    // Three calls for each size byte without marks, and for 5 to 8 with them.
    tally.require_number("marks not refused", 3 * (8 + 4))?;
    tally.require_number("marks refused", 3 * (4 + 8 + 8))?;
    require_multiples(&tally, 1)?;
    Ok(tally)
}

struct Session<'a, S> {
    ends: &'a Lockstep<'a, S, ()>,
    rng: Rng,
    tally: &'a mut Tally,
    order: Order,
    /// The sender's bytes, and some behind them.
    state: BufferPair,
    /// Readings of 1, in percent.
    request_percent: usize,
}

impl<'a, S: SendingEnd> Session<'a, S> {
    fn open(
        ends: &'a Lockstep<'a, S, ()>,
        mut rng: Rng,
        tally: &'a mut Tally,
    ) -> Result<Session<'a, S>, Difference> {
        let order = Order::random(&mut rng);
        count_order(&order, tally);
        open_refused(ends, &mut rng, &order, tally)?;
        let further = rng.below(4);
        let state = opened(ends, &mut rng, &order, SENDER_BYTES + further)?;
        let request_percent = rng.pick(&[0, 5, 20, 50, 90, 100]);
        let mut session = Session {
            ends,
            rng,
            tally,
            order,
            state,
            request_percent,
        };
        session.start_midway();
        Ok(session)
    }

    /// Now and then the session begins in the middle of the order, or of a run of cancels.
    fn start_midway(&mut self) {
        let items = self.order.items();
        let newer = match self.rng.below(10) {
            0..=3 => self.rng.between(1, items + 1),
            4 => items,
            _ => 1,
        };
        self.state.write_word(NEWER, newer);
        if self.rng.chance(10) {
            let cancel_run = self.rng.below(64) as u8;
            self.state.write(CANCEL_RUN, &[cancel_run]);
        }
    }

    fn sender(&self) -> Sender {
        load_sender(self.state.slice()).expect("a state that a call handed back")
    }

    fn run(mut self) -> Result<(), Difference> {
        let most = if self.request_percent == 100 { 250 } else { 40 };
        let calls = self.rng.between(1, most);
        for _ in 0..calls {
            if self.request_percent < 100 && self.rng.chance(5) {
                self.request_percent = self.rng.pick(&[0, 20, 50, 100]);
            }
            match self.rng.below(20) {
                0 => self.spoiled_call()?,
                1 => self.short_call()?,
                _ => self.call()?,
            }
            if self.sender().rests() && self.rng.bit() {
                break;
            }
        }
        Ok(())
    }

    /// A call that is refused only at rest; the session goes on from it.
    fn call(&mut self) -> Result<(), Difference> {
        let further = self.rng.below(4);
        let bytes = block_bytes(self.order.k) + further;
        let was_at_rest = self.sender().rests();
        let mut state = self.state.clone();
        self.send(&mut state, self.order.bytes.len(), bytes)?;
        self.state = state;
        let sender = self.sender();
        if !was_at_rest && sender.rests() {
            self.tally.count(match sender.finished {
                true => "finished",
                false => "gave up",
            });
        }
        Ok(())
    }

    /// A call on changed bytes, from which the session does not go on.
    fn spoiled_call(&mut self) -> Result<(), Difference> {
        let bytes = spoil::sender(&mut self.rng, self.state.slice());
        self.tally.count(match load_sender(&bytes) {
            _ if bytes.len() < SENDER_BYTES => "states too short",
            None => "flags and enums out of range",
            Some(_) => "fields changed",
        });
        let mut state = BufferPair::new(GuardedBuffer::around(&mut self.rng, &bytes));
        let needed = block_bytes(self.order.k);
        let bytes = self.rng.pick(&[needed, needed - 1, 0, 483]);
        self.send(&mut state, self.order.bytes.len(), bytes)
    }

    /// A call with the order or the block's place too short, or just not.
    fn short_call(&mut self) -> Result<(), Difference> {
        let (order, block) = (self.order.length.div_ceil(8), block_bytes(self.order.k));
        let order = self.rng.pick(&[order, order - 1, 0]);
        let bytes = self.rng.pick(&[block, block - 1, 0]);
        let mut state = self.state.clone();
        self.send(&mut state, order, bytes)
    }

    fn send(
        &mut self,
        state: &mut BufferPair,
        order: usize,
        bytes: usize,
    ) -> Result<(), Difference> {
        let reading = self.rng.chance(self.request_percent);
        let mut block = BufferPair::random(&mut self.rng, bytes);
        let order = &self.order.bytes[..order];
        let sent = self.ends.send(state, order, reading, &mut block)?;
        self.count(sent);
        Ok(())
    }

    fn count(&mut self, sent: Sent) {
        self.tally.count(match sent {
            Sent::Synchronising => "synchronising",
            Sent::Item {
                cancelled: true, ..
            } => "cancelled",
            Sent::Item { end: true, .. } => "end blocks",
            Sent::Item { .. } => "items",
            Sent::Refused(number) => refusal_name(number),
        });
    }
}

fn count_order(order: &Order, tally: &mut Tally) {
    match order.length {
        1 => tally.count("orders of 1 bit"),
        LONGEST => tally.count("orders of the most bits"),
        _ => {}
    }
    let behind = order.length..order.length.next_multiple_of(8);
    if behind.into_iter().any(|place| bit_at(&order.bytes, place)) {
        tally.count("orders with ones behind L");
    }
}

/// The state of a sender that was opened as the rules accept, in so many bytes.
fn opened<S: SendingEnd>(
    ends: &Lockstep<S, ()>,
    rng: &mut Rng,
    order: &Order,
    bytes: usize,
) -> Result<BufferPair, Difference> {
    let mut state = BufferPair::random(rng, bytes);
    let refused = ends.open_sender(opening(rng, order), &order.bytes, &mut state)?;
    assert_eq!(refused, 0, "an opening that the rules accept");
    Ok(state)
}

/// A session's first three blocks with each pair of bytes that says whether marks are in use and
/// which code size was given.
fn send_with_every_marks<S: SendingEnd>(
    ends: &Lockstep<S, ()>,
    rng: &mut Rng,
    tally: &mut Tally,
) -> Result<(), Difference> {
    let order = Order::with_length(rng, 240, 500);
    for marks in state_bytes() {
        let mut state = opened(ends, rng, &order, SENDER_BYTES)?;
        state.write(SENDER_BYTES - MARKS_BYTES, &marks);
        for _ in 0..3 {
            let mut block = BufferPair::random(rng, block_bytes(order.k));
            let sent = ends.send(&mut state, &order.bytes, false, &mut block)?;
            tally.count(match sent {
                Sent::Refused(_) => "marks refused",
                _ => "marks not refused",
            });
        }
    }
    Ok(())
}

/// A session's first block with every multiple of 8 as the state's k.
fn send_with_every_multiple<S: SendingEnd>(
    ends: &Lockstep<S, ()>,
    rng: &mut Rng,
    tally: &mut Tally,
) -> Result<(), Difference> {
    let order = Order::with_length(rng, 240, 500);
    for k in multiples_of_8() {
        let mut state = opened(ends, rng, &order, SENDER_BYTES)?;
        state.write_word(spoil::K, k);
        let mut block = BufferPair::random(rng, block_bytes(k));
        let sent = ends.send(&mut state, &order.bytes, rng.bit(), &mut block)?;
        tally.count(multiple_name(matches!(sent, Sent::Refused(_))));
    }
    Ok(())
}

/// The name under which a refused step is counted.
pub fn refusal_name(number: Refusal) -> &'static str {
    match number {
        6 => "refused 6",
        7 => "refused 7",
        8 => "refused 8",
        _ => "refused otherwise",
    }
}

#[cfg(test)]
mod tests {
    use super::super::agreed;
    use super::*;
    use crate::calls::Reference;

    #[test]
    fn every_kind_of_answer_comes() {
        agreed(compare(&Reference, 5, 3_000)).assert_above(10, &KINDS);
    }
}
