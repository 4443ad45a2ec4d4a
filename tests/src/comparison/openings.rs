//! Openings of a sender, good and refused.

use super::block::{multiples_of_8, REFUSED_LENGTHS};
use super::lockstep::{BufferPair, Lockstep};
use super::loop_time::REFUSED_SPEEDS;
use super::marks::REFUSED_SIZES;
use super::orders::Order;
use super::{Difference, Tally};
use crate::calls::{Opening, SendingEnd};
use crate::interface::SENDER_BYTES;
use crate::reference::loop_time::{longest_loop, SPEEDS};
use crate::reference::marks::CODE_SIZES;
use crate::reference::order::LONGEST;
use crate::reference::refusal::Refusal;
use crate::reference::refusal::{BLOCK, CODE_SIZE, EMPTY, LONG, LOOP, SHORT, SPEED};
use crate::rng::Rng;

/// The refusals of an opening, in their order.
const REFUSALS: [Refusal; 7] = [BLOCK, SPEED, LOOP, EMPTY, LONG, CODE_SIZE, SHORT];

/// An opening that the rules accept, its loop often the longest, with marks or without.
pub fn opening(rng: &mut Rng, order: &Order) -> Opening {
    let entry = |speed| longest_loop(order.k, speed).map(|longest| (speed, longest));
    let entries: Vec<_> = SPEEDS.into_iter().filter_map(entry).collect();
    let (speed, longest) = rng.pick(&entries);
    let loop_ms = rng.pick(&[0, longest]);
    Opening {
        k: order.k,
        speed: speed as u32,
        loop_ms: loop_ms as u32,
        length: order.length,
        code_size: rng.bit().then(|| rng.pick(&CODE_SIZES)),
    }
}

/// An opening with one or two arguments changed, most often to refused ones.
pub fn open_refused<S: SendingEnd>(
    ends: &Lockstep<S, ()>,
    rng: &mut Rng,
    order: &Order,
    tally: &mut Tally,
) -> Result<(), Difference> {
    let mut arguments = Arguments::new(rng, order);
    for _ in 0..rng.between(1, 2) {
        let refusal = rng.pick(&REFUSALS);
        arguments.change(rng, refusal);
    }
    arguments.open(ends, rng, tally)
}

/// Every code size, good and refused, with every other argument good, and with each one changed.
pub fn open_with_every_size<S: SendingEnd>(
    ends: &Lockstep<S, ()>,
    rng: &mut Rng,
    tally: &mut Tally,
) -> Result<(), Difference> {
    let order = Order::with_length(rng, 240, 500);
    for size in CODE_SIZES.into_iter().chain(REFUSED_SIZES) {
        for changed in [None].into_iter().chain(REFUSALS.map(Some)) {
            let mut arguments = Arguments::new(rng, &order);
            if let Some(refusal) = changed {
                arguments.change(rng, refusal);
            }
            arguments.opening.code_size = Some(size);
            arguments.open(ends, rng, tally)?;
        }
    }
    Ok(())
}

/// Every multiple of 8 as k, with every other argument good.
pub fn open_with_every_multiple<S: SendingEnd>(
    ends: &Lockstep<S, ()>,
    rng: &mut Rng,
    tally: &mut Tally,
) -> Result<(), Difference> {
    for k in multiples_of_8() {
        let order = Order::with_length(rng, k, 500);
        Arguments::new(rng, &order).open(ends, rng, tally)?;
    }
    Ok(())
}

/// What an opening is given.
struct Arguments<'a> {
    opening: Opening,
    order: &'a Order,
    order_bytes: usize,
    state_bytes: usize,
}

impl Arguments<'_> {
    fn new<'a>(rng: &mut Rng, order: &'a Order) -> Arguments<'a> {
        Arguments {
            opening: opening(rng, order),
            order,
            order_bytes: order.bytes.len(),
            state_bytes: SENDER_BYTES,
        }
    }

    /// Changes an argument that is judged by this refusal.
    fn change(&mut self, rng: &mut Rng, refusal: Refusal) {
        let opening = &mut self.opening;
        match refusal {
            BLOCK => opening.k = rng.pick(&REFUSED_LENGTHS),
            SPEED => opening.speed = rng.pick(&REFUSED_SPEEDS) as u32,
            LOOP if rng.bit() => opening.loop_ms += 1,
            LOOP => opening.loop_ms = rng.below(20_000) as u32,
            EMPTY => opening.length = 0,
            LONG => opening.length = rng.pick(&[LONGEST + 1, usize::MAX]),
            CODE_SIZE => opening.code_size = Some(rng.pick(&REFUSED_SIZES)),
            _ => match rng.below(3) {
                0 => opening.length = 8 * self.order_bytes + 1,
                1 => self.order_bytes = rng.pick(&[0, self.order.length.div_ceil(8) - 1]),
                _ => self.state_bytes = rng.pick(&[0, SENDER_BYTES - 1]),
            },
        }
    }

    fn open<S: SendingEnd>(
        &self,
        ends: &Lockstep<S, ()>,
        rng: &mut Rng,
        tally: &mut Tally,
    ) -> Result<(), Difference> {
        let mut state = BufferPair::random(rng, self.state_bytes);
        let order = &self.order.bytes[..self.order_bytes];
        let answer = ends.open_sender(self.opening, order, &mut state)?;
        tally.count(opening_name(answer));
        Ok(())
    }
}

/// The name under which the answer of an opening is counted.
pub fn opening_name(answer: u8) -> &'static str {
    match answer {
        0 => "opened",
        BLOCK => "opening refused 1",
        SPEED => "opening refused 2",
        LOOP => "opening refused 3",
        EMPTY => "opening refused 4",
        LONG => "opening refused 5",
        SHORT => "opening refused 6",
        CODE_SIZE => "opening refused 9",
        _ => "opening refused otherwise",
    }
}
