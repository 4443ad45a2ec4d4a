//! Receiving calls on one whole block, most in step: every service value at the first items and
//! after the end, the service values of item 0 to every state of marks, and A at every multiple of
//! 8.

use super::block::{multiple_name, multiples_of_8};
use super::lockstep::{BufferPair, Lockstep, ReceivingCall};
use super::marks::state_bytes;
use super::{Difference, GuardedBuffer, Tally};
use crate::calls::{Line, ReceivingEnd};
use crate::interface::{store_receiver, MARKS_BYTES, RECEIVER_BYTES};
use crate::reference::bits::pack;
use crate::reference::block::{assemble, block_bits, payload_bytes, A, LENGTHS};
use crate::reference::marks::{CODE_SIZES, MARKS};
use crate::reference::order::end_payload;
use crate::reference::receiver::{self, Received, Receiver};
use crate::rng::Rng;

/// Whether the machine is ready, and whether the store has room for the next item.
const CALLS: [(bool, bool); 3] = [(true, true), (false, true), (false, false)];

/// All 16 service values, to each of the states, in each of these calls.
pub fn receive_every_service<R: ReceivingEnd>(
    ends: &Lockstep<(), R>,
    rng: &mut Rng,
    tally: &mut Tally,
) -> Result<(), Difference> {
    for state in states() {
        for (service, call) in (0..16).flat_map(|service| CALLS.map(|call| (service, call))) {
            let received = receive_block(ends, rng, &state, state_of(&state), service, call)?;
            let Received::Reported { event, .. } = received else {
                panic!("{received:?}");
            };
            tally.count(event.name());
            tally.count("service values");
        }
    }
    Ok(())
}

/// The four marks and A, to a state with each pair of bytes that says whether marks are in use and
/// which code size was given.
pub fn receive_with_every_marks<R: ReceivingEnd>(
    ends: &Lockstep<(), R>,
    rng: &mut Rng,
    tally: &mut Tally,
) -> Result<(), Difference> {
    let state = in_step(LENGTHS[0], None);
    for marks in state_bytes() {
        for service in MARKS.into_iter().chain([A]) {
            let mut bytes = state_of(&state);
            bytes[RECEIVER_BYTES - MARKS_BYTES..].copy_from_slice(&marks);
            let call = rng.pick(&CALLS);
            let received = receive_block(ends, rng, &state, bytes, service, call)?;
            tally.count(match received {
                Received::Refused(_) => "marks refused",
                Received::Reported { .. } => "marks not refused",
            });
        }
    }
    Ok(())
}

/// A, with every multiple of 8 as the state's k, in search and in step.
pub fn receive_with_every_multiple<R: ReceivingEnd>(
    ends: &Lockstep<(), R>,
    rng: &mut Rng,
    tally: &mut Tally,
) -> Result<(), Difference> {
    for (k, search) in multiples_of_8().flat_map(|k| [(k, true), (k, false)]) {
        let state = Receiver {
            k,
            search,
            ..in_step(LENGTHS[0], None)
        };
        let received = receive_block(ends, rng, &state, state_of(&state), A, CALLS[0])?;
        tally.count(multiple_name(matches!(received, Received::Refused(_))));
    }
    Ok(())
}

/// r 0 to 3, before the end and after it, without marks and with each size, at each k.
fn states() -> impl Iterator<Item = Receiver> {
    let sizes = [None].into_iter().chain(CODE_SIZES.map(Some));
    let with_sizes = move |k| sizes.clone().map(move |size| in_step(k, size));
    LENGTHS.into_iter().flat_map(with_sizes).flat_map(|state| {
        (0..8).map(move |number| Receiver {
            taken: number / 2,
            end_taken: number % 2 == 1,
            ..state.clone()
        })
    })
}

fn in_step(k: usize, code_size: Option<usize>) -> Receiver {
    Receiver {
        search: false,
        return_bit: false,
        ..receiver::open(k, code_size).expect("an opening that the rules accept")
    }
}

fn state_of(receiver: &Receiver) -> Vec<u8> {
    let mut bytes = vec![0; RECEIVER_BYTES];
    store_receiver(receiver, &mut bytes);
    bytes
}

/// A block whose data are those of an end after the items taken.
fn receive_block<R: ReceivingEnd>(
    ends: &Lockstep<(), R>,
    rng: &mut Rng,
    receiver: &Receiver,
    bytes: Vec<u8>,
    service: u8,
    (ready, room): (bool, bool),
) -> Result<Received, Difference> {
    let (k, taken) = (receiver.k, receiver.taken);
    let block = pack(&assemble(service, &end_payload(k, taken * k)));
    let lent = (taken + 1) * payload_bytes(k) - usize::from(!room);
    let mut store = BufferPair::random(rng, lent);
    let mut state = BufferPair::new(GuardedBuffer::around(rng, &bytes));
    let line = Line {
        bytes: &block,
        bits: block_bits(k),
    };
    let call = ReceivingCall {
        line,
        ready,
        lent,
        remainder: rng.number(),
    };
    ends.receive(&mut state, &mut store, call)
}
