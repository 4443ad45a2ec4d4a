//! Single receiving calls on states of every kind: each rule at each edge, a search at each point
//! of the sequence, and states out of range.

use super::block::{multiples_of_8, require_multiples, REFUSED_LENGTHS};
use super::lockstep::{BufferPair, Lockstep, ReceivingCall};
use super::marks::REFUSED_SIZES;
use super::openings::opening_name;
use super::sender::refusal_name;
use super::services::receive_with_every_multiple;
use super::services::{receive_every_service, receive_with_every_marks};
use super::{spoil, Difference, GroupFailure, GuardedBuffer, Tally, EVENTS};
use crate::calls::{Line, ReceivingEnd};
use crate::damage::{invert, Damage};
use crate::interface::{load_receiver, store_receiver, RECEIVER_BYTES};
use crate::reference::bits::{bits_of, pack, set_bit, unpack, Bits};
use crate::reference::block::{assemble, block_bits, cancel, synchronising_block};
use crate::reference::block::{END, LENGTHS, SEQUENCE};
use crate::reference::marks::{Marks, CODE_SIZES, MARKS};
use crate::reference::order::{end_payload, letter, LONGEST, MOST_ITEMS};
use crate::reference::receiver::{self, Alarm, Received, Receiver};
use crate::rng::Rng;

/// What the group must have met besides the events and what every group with receiving calls must.
const KINDS: [&str; 5] = [
    "refused 6",
    "refused 7",
    "states too short",
    "flags and enums out of range",
    "fields out of range",
];
const OPENINGS: [&str; 4] = [
    "opened",
    "opening refused 1",
    "opening refused 6",
    "opening refused 9",
];

/// Runs the whole group.
pub fn compare(tested: &impl ReceivingEnd, seed: u64, cases: usize) -> Result<Tally, GroupFailure> {
    let ends = Lockstep::new(&(), tested);
    let mut tally = Tally::default();
    let rng = &mut Rng::new(seed);
    open(&ends, rng, &mut tally)?;
    receive_every_service(&ends, rng, &mut tally)?;
    receive_with_every_marks(&ends, rng, &mut tally)?;
    receive_with_every_multiple(&ends, rng, &mut tally)?;
    for number in 0..cases {
        let mut case = Case::random(Rng::for_case(seed, number));
        tally.count(case.kind());
        let received = case.call(&ends);
        let received = received.map_err(|difference| format!("case {number}: {difference}"))?;
        tally.count(received_name(received));
    }
    require_all(&tally)?;
    ends.with_tried(tally)
}

fn require_all(tally: &Tally) -> Result<(), GroupFailure> {
    for kinds in [&EVENTS[..], &KINDS, &OPENINGS] {
        tally.require(kinds)?;
    }
    // Four k, five kinds of marks, r 0 to 3, before the end and after it, three kinds of calls.
    tally.require_number("service values", 4 * 5 * 4 * 2 * 3 * 16)?;
    // Four marks and A, for each size byte without marks, and for 5 to 8 with them.
    tally.require_number("marks not refused", 5 * (8 + 4))?;
    tally.require_number("marks refused", 5 * (4 + 8 + 8))?;
    // In search and in step.
    require_multiples(tally, 2)
}

/// The name under which a receiving call is counted.
pub fn received_name(received: Received) -> &'static str {
    match received {
        Received::Reported { event, .. } => event.name(),
        Received::Refused(number) => refusal_name(number),
    }
}

/// Every k and code size, good and refused, into slices that are empty, short by one, right and
/// long; every multiple of 8 without a code size and with one.
fn open<R: ReceivingEnd>(
    ends: &Lockstep<(), R>,
    rng: &mut Rng,
    tally: &mut Tally,
) -> Result<(), Difference> {
    let given = CODE_SIZES.into_iter().chain(REFUSED_SIZES).map(Some);
    let sizes: Vec<Option<usize>> = given.chain([None]).collect();
    let mut open_into = |k, size, length| -> Result<(), Difference> {
        let mut state = BufferPair::random(rng, length);
        let answer = ends.open_receiver(k, size, &mut state)?;
        tally.count(opening_name(answer));
        Ok(())
    };
    for k in LENGTHS.into_iter().chain(REFUSED_LENGTHS) {
        for &size in &sizes {
            for length in [0, RECEIVER_BYTES - 1, RECEIVER_BYTES, RECEIVER_BYTES + 5] {
                open_into(k, size, length)?;
            }
        }
    }
    for k in multiples_of_8() {
        for size in [None, Some(CODE_SIZES[0])] {
            open_into(k, size, RECEIVER_BYTES)?;
        }
    }
    Ok(())
}

/// Random bits on the line behind those that a case is about.
const BITS_BEHIND: usize = 96;

/// A state, its bytes, which may be spoiled, and the bits that come next on the line.
struct Case {
    rng: Rng,
    state: Receiver,
    bytes: Vec<u8>,
    line: Bits,
}

impl Case {
    fn random(mut rng: Rng) -> Case {
        let k = rng.pick(&[240, 240, 240, 480, 480, 960, 3840]);
        let mut state = receiver::open(k, None).expect("one of the four");
        state.marks = marks(&mut rng);
        state.taken = taken(&mut rng);
        state.bad_row = rng.pick(&[0, 0, 1, 6, 7, 7]);
        state.return_bit = rng.bit();
        state.end_taken = rng.chance(25);
        state.alarm = match rng.below(20) {
            0 => Some(Alarm::Sequence),
            1 => Some(Alarm::Length),
            _ => None,
        };
        rng.fill(&mut state.array);
        state.search = rng.chance(25);
        let pending = match state.search {
            true => near_sequence(&mut rng),
            false => block(&mut rng, &state),
        };
        let most = if state.search { 15 } else { block_bits(k) - 1 };
        hold(&mut rng, &mut state, &pending, most);
        let mut line = pending[state.held..].to_vec();
        let behind = rng.bytes(BITS_BEHIND / 8);
        line.extend(unpack(&behind, 0, BITS_BEHIND));
        let mut bytes = vec![0; RECEIVER_BYTES];
        store_receiver(&state, &mut bytes);
        if rng.chance(15) {
            bytes = spoil::receiver(&mut rng, &bytes);
        }
        Case {
            rng,
            state,
            bytes,
            line,
        }
    }

    fn kind(&self) -> &'static str {
        match load_receiver(&self.bytes) {
            _ if self.bytes.len() < RECEIVER_BYTES => "states too short",
            None => "flags and enums out of range",
            Some(state) if state.is_spoiled() => "fields out of range",
            Some(_) => "states",
        }
    }

    /// One call with some number of bits, a line of some length, some part of the store and some
    /// number in the remainder's place, the machine ready or not.
    fn call<R: ReceivingEnd>(&mut self, ends: &Lockstep<(), R>) -> Result<Received, Difference> {
        let rng = &mut self.rng;
        let whole = self.line.len() - BITS_BEHIND;
        let bits = match rng.below(12) {
            0 => 0,
            1 => 1,
            2 => whole - 1,
            3 => rng.below(self.line.len() + 1),
            4 => self.line.len(),
            5 => rng.pick(&[self.line.len() + 8, usize::MAX]),
            _ => whole,
        };
        let mut bytes = pack(&self.line);
        match rng.below(10) {
            0 => bytes.truncate(bits.div_ceil(8).saturating_sub(1)),
            1 => bytes.truncate(bits.div_ceil(8)),
            _ => {}
        }
        let bytes = &bytes[..];
        let needed = (self.state.taken + 1) * self.state.k / 8;
        let byte = rng.below(256) as u8;
        let mut store = BufferPair::new(GuardedBuffer::filled(byte, needed + 3));
        let short = needed.saturating_sub(1);
        let lengths = [needed, needed, needed, needed, needed, needed + 3, short, 0];
        let mut state = BufferPair::new(GuardedBuffer::around(rng, &self.bytes));
        let call = ReceivingCall {
            line: Line { bytes, bits },
            ready: rng.bit(),
            lent: rng.pick(&lengths),
            remainder: rng.number(),
        };
        ends.receive(&mut state, &mut store, call)
    }
}

/// In use, with any of the sizes; or not, with any size at all.
fn marks(rng: &mut Rng) -> Marks {
    let in_use = rng.bit();
    let size = match in_use {
        true => rng.pick(&CODE_SIZES),
        false => rng.pick(&[0, 0, 4, 5, 8, 9, 255]),
    };
    Marks { in_use, size }
}

/// r: small, near the most, or between. Seldom large, since the store is as long.
fn taken(rng: &mut Rng) -> usize {
    match rng.below(10) {
        0 => rng.pick(&[MOST_ITEMS - 1, MOST_ITEMS, MOST_ITEMS - 2]),
        1 => rng.below(MOST_ITEMS),
        2..=4 => 0,
        _ => rng.between(1, 7),
    }
}

/// Makes the state hold the first of the pending bits; the array behind them stays random.
fn hold(rng: &mut Rng, state: &mut Receiver, pending: &[bool], most: usize) {
    let most = most.min(pending.len() - 1);
    state.held = match rng.below(4) {
        0 => 0,
        1 => most,
        _ => rng.between(0, most),
    };
    for (i, &bit) in pending[..state.held].iter().enumerate() {
        set_bit(&mut state.array, i, bit);
    }
}

/// Bits in which the sequence may be found, once, twice or never. Its last fifteen bits alone
/// do not count: all sixteen must come since the search began.
fn near_sequence(rng: &mut Rng) -> Bits {
    if rng.chance(15) {
        return bits_of(SEQUENCE, 15);
    }
    let before = rng.bytes(8);
    let count = rng.below(60);
    let mut bits = unpack(&before, 0, count);
    let mut sequence = bits_of(SEQUENCE, 16);
    if rng.chance(30) {
        let place = rng.below(16);
        sequence[place] ^= true;
    }
    bits.extend(&sequence);
    if rng.chance(30) {
        bits.extend(bits_of(SEQUENCE, 16));
    }
    bits
}

/// A whole block that some rule is about, now and then damaged.
fn block(rng: &mut Rng, state: &Receiver) -> Bits {
    let (k, taken) = (state.k, state.taken);
    let data = rng.bytes(k / 8);
    let payload = unpack(&data, 0, k);
    let mut bits = match rng.below(12) {
        0 => synchronising_block(k),
        1 => assemble(rng.below(16) as u8, &payload),
        2..=4 => assemble(END, &end_data(rng, k, taken)),
        5 => assemble(rng.pick(&MARKS), &payload),
        _ => assemble(letter(rng.between(taken, taken + 2)), &payload),
    };
    match rng.below(10) {
        0 => cancel(&mut bits),
        1 => invert(&mut bits, &Damage::Burst.pattern(rng, block_bits(k))),
        2 => invert(&mut bits, &Damage::Undetected.pattern(rng, block_bits(k))),
        _ => {}
    }
    bits
}

/// An end block's data: a length that makes r items, or one at or across a border.
fn end_data(rng: &mut Rng, k: usize, taken: usize) -> Bits {
    let last = taken * k;
    let first = last.saturating_sub(k);
    let within = rng.between(first, last);
    let choices = [
        within,
        within,
        within,
        first,
        first + 1,
        last,
        last + 1,
        0,
        1,
        LONGEST,
        LONGEST + 1,
        u32::MAX as usize,
    ];
    let mut payload = end_payload(k, rng.pick(&choices));
    if rng.chance(10) {
        let place = rng.below(8);
        payload[place] ^= true;
    }
    if rng.chance(10) {
        payload[k - 1] = true;
    }
    payload
}

#[cfg(test)]
mod tests {
    use super::super::agreed;
    use super::super::lockstep::TRIED;
    use super::*;
    use crate::calls::Reference;

    #[test]
    fn every_kind_of_answer_comes() {
        let tally = agreed(compare(&Reference, 8, 20_000));
        for kinds in [&EVENTS[..], &TRIED, &KINDS] {
            tally.assert_above(100, kinds);
        }
        tally.assert_above(20, &OPENINGS);
    }
}
