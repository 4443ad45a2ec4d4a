//! Calls of the line out of arbitrary bytes: loop times, blocks and the two ends.

use super::input::{bounded_length, Input};
use super::CALLS;
use crate::calls::{Blocks, Line, LoopTimes, ReceivingEnd, SendingEnd};
use crate::comparison::lockstep::{BufferPair, Lockstep};
use crate::comparison::receiver::received_name;
use crate::comparison::sender::refusal_name;
use crate::comparison::{block, loop_time, Difference, GuardedBuffer, Tally};
use crate::reference::bits::{pack, Bits};
use crate::reference::block::{block_bytes, payload_bytes};
use crate::reference::order::{LONGEST, MOST_ITEMS};
use crate::reference::receiver::Received;
use crate::reference::refusal::{CODE_SIZE, REST, SPOILED};
use crate::reference::sender::Sent;
use crate::rng::Rng;

/// The call that the first byte picks, and on a state others while bytes are left.
pub fn calls<T>(
    tested: &T,
    call: u8,
    input: &mut Input,
    tally: &mut Tally,
) -> Result<(), Difference>
where
    T: LoopTimes + Blocks + SendingEnd + ReceivingEnd,
{
    let ends = Lockstep::new(tested, tested);
    match call % 8 {
        0 => {
            let (k, speed, loop_ms) = input.loop_arguments();
            loop_time::compare_loop(tested, k, speed, loop_ms, tally)
        }
        1 => build(tested, input, tally),
        2 => read(tested, input, tally),
        3 | 4 => send(&ends, input, tally),
        _ => receive(&ends, input, tally),
    }
}

fn build(tested: &impl Blocks, input: &mut Input, tally: &mut Tally) -> Result<(), Difference> {
    let (k, service) = (input.length(), input.byte());
    let payload = input.lent(payload_bytes(bounded_length(k)));
    let bytes = input.lent(block_bytes(bounded_length(k)));
    let place = GuardedBuffer::around(&mut Rng::new(1), &bytes);
    block::compare_build(tested, k, service, &payload, place, tally)
}

fn read(tested: &impl Blocks, input: &mut Input, tally: &mut Tally) -> Result<(), Difference> {
    let k = input.length();
    let mut bytes = pack(&input.line_bits(k, 0));
    bytes.resize(input.near(block_bytes(bounded_length(k))), 0x55);
    let payload = input.lent(payload_bytes(bounded_length(k)));
    let place = GuardedBuffer::around(&mut Rng::new(1), &payload);
    block::compare_read(tested, k, &bytes, place, input.number(), tally)?;
    Ok(())
}

/// A sender, opened or out of the bytes, and calls on it.
fn send<S: SendingEnd, R>(
    ends: &Lockstep<S, R>,
    input: &mut Input,
    tally: &mut Tally,
) -> Result<(), Difference> {
    let (bytes, length) = input.sender();
    let order = input.pattern(length.min(LONGEST + 8).div_ceil(8));
    let mut state = BufferPair::new(GuardedBuffer::around(&mut Rng::new(2), &bytes));
    if input.byte().is_multiple_of(2) {
        let opening = input.opening(length);
        let lent = &order[..input.near(order.len()).min(order.len())];
        let answer = ends.open_sender(opening, lent, &mut state)?;
        tally.count(match (answer, opening.code_size) {
            (0, None) => "sender opened",
            (0, Some(_)) => "sender opened with marks",
            (CODE_SIZE, _) => "code size refused",
            _ => "sender not opened",
        });
    }
    ends.sender_rest(&state)?;
    for _ in 0..CALLS {
        let k = bounded_length(number(state.slice(), 0));
        let reading = input.byte() % 2 == 1;
        let lent = &order[..input.near(order.len()).min(order.len())];
        let mut place = BufferPair::new(GuardedBuffer::filled(
            input.byte(),
            input.near(block_bytes(k)),
        ));
        let sent = ends.send(&mut state, lent, reading, &mut place)?;
        tally.count(sent_name(sent));
        if input.is_empty() || matches!(sent, Sent::Refused(SPOILED | REST)) {
            break;
        }
    }
    Ok(())
}

fn sent_name(sent: Sent) -> &'static str {
    match sent {
        Sent::Synchronising => "sent synchronising",
        Sent::Item { end: true, .. } => "sent end",
        Sent::Item {
            cancelled: true, ..
        } => "sent cancelled",
        Sent::Item { .. } => "sent item",
        Sent::Refused(number) => refusal_name(number),
    }
}

/// A receiver, opened or out of the bytes, and calls on it with the line cut anywhere, the machine
/// ready or not.
fn receive<S, R: ReceivingEnd>(
    ends: &Lockstep<S, R>,
    input: &mut Input,
    tally: &mut Tally,
) -> Result<(), Difference> {
    let bytes = input.receiver();
    let mut state = BufferPair::new(GuardedBuffer::around(&mut Rng::new(3), &bytes));
    if input.byte().is_multiple_of(4) {
        open_receiver(ends, input, &mut state, tally)?;
    }
    ends.return_bit(&state)?;
    let mut pending = Bits::new();
    for _ in 0..CALLS {
        let k = bounded_length(number(state.slice(), 0));
        let taken = number(state.slice(), 8).min(MOST_ITEMS + 1);
        let whole = payload_bytes((taken + 1) * k);
        if pending.is_empty() {
            pending = input.line_bits(k, taken);
        }
        let bits = input.bits(pending.len());
        let mut line = pack(&pending);
        line.resize(input.near(line.len()), 0xA5);
        let call = input.receiving_call(Line { bytes: &line, bits }, whole);
        let mut store = BufferPair::new(GuardedBuffer::filled(input.byte(), call.lent.max(whole)));
        let received = ends.receive(&mut state, &mut store, call)?;
        if let Received::Reported { used, .. } = received {
            pending.drain(..used.min(pending.len()));
        }
        tally.count(received_name(received));
        if input.is_empty() || received == Received::Refused(SPOILED) {
            break;
        }
    }
    ends.add_tried(tally);
    Ok(())
}

fn open_receiver<S, R: ReceivingEnd>(
    ends: &Lockstep<S, R>,
    input: &mut Input,
    state: &mut BufferPair,
    tally: &mut Tally,
) -> Result<(), Difference> {
    let (k, code_size) = (input.length(), input.code_size());
    let answer = ends.open_receiver(k, code_size, state)?;
    tally.count(match (answer, code_size) {
        (0, None) => "receiver opened",
        (0, Some(_)) => "receiver opened with marks",
        (CODE_SIZE, _) => "code size refused",
        _ => "receiver not opened",
    });
    Ok(())
}

/// A number of four bytes of a state, or 0 if it is too short.
fn number(state: &[u8], at: usize) -> usize {
    let four = state.get(at..at + 4).and_then(|four| four.try_into().ok());
    four.map_or(0, u32::from_le_bytes) as usize
}
