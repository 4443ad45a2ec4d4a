//! Both implementations call by call: every answer and every lent byte, those of the states too,
//! of one is compared with that of the other.

use super::{hex, same, Difference, GroupFailure, GuardedBuffer, Tally};
use crate::calls::{Line, Opening, ReceivingEnd, Reference, SendingEnd};
use crate::interface::{decode_received, decode_sent, store_word, Counts};
use crate::reference::receiver::{Event, Received};
use crate::reference::refusal::SHORT;
use crate::reference::sender::Sent;
use crate::rng::Rng;
use std::cell::RefCell;

/// The names under which waiting blocks are counted.
const WAIT_WITH_ROOM: &str = "wait with room in the store";
pub const WAIT_WITHOUT_ROOM: &str = "wait with too short a store";

/// The names under which *bad* blocks are counted, by their remainder: by rule 7; cancelled and
/// otherwise unharmed, for instance; otherwise.
pub const BAD_WITH_0: &str = "bad with 0";
pub const BAD_WITH_1: &str = "bad with 1";
pub const BAD_WITH_ANOTHER: &str = "bad with another remainder";

/// What a group with receiving calls must have tried, if its cases can bring it. Were no block to wait
/// with too short a store, that the store is not judged would be untried.
pub const TRIED: [&str; 4] = [WAIT_WITHOUT_ROOM, BAD_WITH_0, BAD_WITH_1, BAD_WITH_ANOTHER];

pub fn bad_name(remainder: u16) -> &'static str {
    match remainder {
        0 => BAD_WITH_0,
        1 => BAD_WITH_1,
        _ => BAD_WITH_ANOTHER,
    }
}

/// What a receiving call is given besides the state and the store.
#[derive(Clone, Copy)]
pub struct ReceivingCall<'a> {
    pub line: Line<'a>,
    pub ready: bool,
    /// The bytes lent of the store, its first.
    pub lent: usize,
    /// What stands in the remainder's place before the call.
    pub remainder: u16,
}

impl ReceivingCall<'_> {
    /// On this state.
    fn describe(self, state: &[u8]) -> String {
        let (state, line, bits) = (hex(state), hex(self.line.bytes), self.line.bits);
        let (ready, lent, remainder) = (self.ready, self.lent, self.remainder);
        format!(
            "receive: {state}, {bits} bits, ready {ready}, line {line}, {lent} bytes of store, \
             {remainder:x} in the remainder's place"
        )
    }
}

/// The same bytes, lent to both.
#[derive(Clone)]
pub struct BufferPair {
    expected: GuardedBuffer,
    got: GuardedBuffer,
}

impl BufferPair {
    pub fn random(rng: &mut Rng, length: usize) -> BufferPair {
        BufferPair::new(GuardedBuffer::random(rng, length))
    }

    pub fn new(buffer: GuardedBuffer) -> BufferPair {
        BufferPair {
            expected: buffer.clone(),
            got: buffer,
        }
    }

    /// The bytes as the tested implementation left them.
    pub fn slice(&self) -> &[u8] {
        self.got.slice()
    }

    /// Writes into both.
    pub fn write(&mut self, at: usize, bytes: &[u8]) {
        for buffer in [&mut self.expected, &mut self.got] {
            buffer.slice_mut()[at..at + bytes.len()].copy_from_slice(bytes);
        }
    }

    /// Writes a number of a state into both.
    pub fn write_word(&mut self, at: usize, number: usize) {
        for buffer in [&mut self.expected, &mut self.got] {
            store_word(buffer.slice_mut(), at, number);
        }
    }

    fn same(&self, case: &dyn Fn() -> String) -> Result<(), Difference> {
        same(case, &self.expected, &self.got)
    }

    /// That nothing was written, as in every refused call.
    fn unchanged(&self, before: &BufferPair, case: &dyn Fn() -> String) -> Result<(), Difference> {
        same(case, &before.got, &self.got)
    }
}

/// The answer of an opening: 0 or the refusal's number, expected and got.
fn same_opening(
    case: &dyn Fn() -> String,
    (expected, got): (u8, u8),
    before: &BufferPair,
    state: &BufferPair,
) -> Result<u8, Difference> {
    same(case, &expected, &got)?;
    state.same(case)?;
    if got != 0 {
        state.unchanged(before, case)?;
    }
    Ok(got)
}

/// The tested sending and receiving ends, beside the second implementation's.
pub struct Lockstep<'a, S, R> {
    sending: &'a S,
    receiving: &'a R,
    tried: RefCell<Tally>,
}

impl<'a, S, R> Lockstep<'a, S, R> {
    pub fn new(sending: &'a S, receiving: &'a R) -> Lockstep<'a, S, R> {
        Lockstep {
            sending,
            receiving,
            tried: RefCell::default(),
        }
    }

    /// Adds the waiting and the bad blocks to what was counted.
    pub fn add_tried(&self, tally: &mut Tally) {
        tally.add(&self.tried.borrow());
    }

    /// What a group counted, with the waiting and the bad blocks; an error if it has not tried all that
    /// it must.
    pub fn with_tried(&self, tally: Tally) -> Result<Tally, GroupFailure> {
        self.with_met(tally, &TRIED)
    }

    /// The same for a group that must have met these kinds.
    pub fn with_met(&self, mut tally: Tally, kinds: &[&str]) -> Result<Tally, GroupFailure> {
        self.add_tried(&mut tally);
        tally.require(kinds)?;
        Ok(tally)
    }
}

impl<S: SendingEnd, R> Lockstep<'_, S, R> {
    /// 0 or the refusal's number.
    pub fn open_sender(
        &self,
        opening: Opening,
        order: &[u8],
        state: &mut BufferPair,
    ) -> Result<u8, Difference> {
        let before = state.clone();
        let case = || {
            let (order, bytes) = (order.len(), before.slice().len());
            format!("open sender: {opening:?}, {order} bytes of order, {bytes} for the state")
        };
        let expected = Reference.open_sender(opening, order, state.expected.slice_mut());
        let got = self
            .sending
            .open_sender(opening, order, state.got.slice_mut());
        same_opening(&case, (expected, got), &before, state)
    }

    /// A sending call, and whether the sender rests after it.
    pub fn send(
        &self,
        state: &mut BufferPair,
        order: &[u8],
        reading: bool,
        block: &mut BufferPair,
    ) -> Result<Sent, Difference> {
        let (before, place) = (state.clone(), block.clone());
        let case = || {
            let (state, lent, order) = (hex(before.slice()), place.slice().len(), hex(order));
            format!("send: {state}, reading {reading}, {lent} bytes for the block, order {order}")
        };
        let (bytes, out) = (state.expected.slice_mut(), block.expected.slice_mut());
        let expected = Reference.send(bytes, order, reading, out);
        let (bytes, out) = (state.got.slice_mut(), block.got.slice_mut());
        let got = self.sending.send(bytes, order, reading, out);
        same(&case, &expected, &got)?;
        state.same(&case)?;
        block.same(&case)?;
        let sent = decode_sent(got);
        if let Sent::Refused(_) = sent {
            state.unchanged(&before, &case)?;
            block.unchanged(&place, &case)?;
        }
        self.sender_rest(state)?;
        Ok(sent)
    }

    /// Whether the sender rests.
    pub fn sender_rest(&self, state: &BufferPair) -> Result<(), Difference> {
        let case = || format!("sender rest: {}", hex(state.slice()));
        let expected = Reference.sender_rest(state.slice());
        same(&case, &expected, &self.sending.sender_rest(state.slice()))
    }
}

impl<S, R: ReceivingEnd> Lockstep<'_, S, R> {
    /// 0 or the refusal's number.
    pub fn open_receiver(
        &self,
        k: usize,
        code_size: Option<usize>,
        state: &mut BufferPair,
    ) -> Result<u8, Difference> {
        let before = state.clone();
        let case = || {
            let bytes = before.slice().len();
            format!("open receiver: k {k}, code size {code_size:?}, {bytes} bytes for the state")
        };
        let expected = Reference.open_receiver(k, code_size, state.expected.slice_mut());
        let got = self
            .receiving
            .open_receiver(k, code_size, state.got.slice_mut());
        same_opening(&case, (expected, got), &before, state)
    }

    /// A receiving call, and the return bit after it.
    pub fn receive(
        &self,
        state: &mut BufferPair,
        store: &mut BufferPair,
        call: ReceivingCall,
    ) -> Result<Received, Difference> {
        let before = state.clone();
        let received = self.receive_alike(&before, state, store, call)?;
        match received {
            Received::Reported { event, .. } => self.count_event(event, &before, store, call),
            Received::Refused(_) => {}
        }
        self.return_bit(state)?;
        Ok(received)
    }

    /// The call by both, on a state that was so before it.
    fn receive_alike(
        &self,
        before: &BufferPair,
        state: &mut BufferPair,
        store: &mut BufferPair,
        call: ReceivingCall,
    ) -> Result<Received, Difference> {
        let case = || call.describe(before.slice());
        let ReceivingCall {
            line, ready, lent, ..
        } = call;
        let unwritten = Counts {
            used: !line.bits,
            length: !lent,
            remainder: call.remainder,
        };
        let (mut expected_counts, mut counts) = (unwritten, unwritten);
        let (bytes, place) = (state.expected.slice_mut(), store.expected.slice_mut());
        let place = &mut place[..lent];
        let expected = Reference.receive(bytes, line, ready, place, &mut expected_counts);
        let (bytes, place) = (state.got.slice_mut(), store.got.slice_mut());
        let place = &mut place[..lent];
        let got = self
            .receiving
            .receive(bytes, line, ready, place, &mut counts);
        same(&case, &(expected, expected_counts), &(got, counts))?;
        state.same(&case)?;
        store.same(&case)?;
        let received = decode_received(got, counts);
        if let Received::Refused(_) = received {
            state.unchanged(before, &case)?;
            same(&case, &unwritten, &counts)?;
        }
        Ok(received)
    }

    /// A wait by whether the call would be refused for its store if the machine were ready, a bad block
    /// by its remainder.
    fn count_event(
        &self,
        event: Event,
        before: &BufferPair,
        store: &BufferPair,
        call: ReceivingCall,
    ) {
        let kind = match event {
            Event::Bad(remainder) => bad_name(remainder),
            Event::Wait => {
                let mut state = before.slice().to_vec();
                let mut store = store.slice()[..call.lent].to_vec();
                let counts = &mut Counts::default();
                match Reference.receive(&mut state, call.line, true, &mut store, counts) {
                    SHORT => WAIT_WITHOUT_ROOM,
                    _ => WAIT_WITH_ROOM,
                }
            }
            _ => return,
        };
        self.tried.borrow_mut().count(kind);
    }

    /// The return bit.
    pub fn return_bit(&self, state: &BufferPair) -> Result<(), Difference> {
        let case = || format!("return bit: {}", hex(state.slice()));
        let expected = Reference.return_bit(state.slice());
        same(&case, &expected, &self.receiving.return_bit(state.slice()))
    }
}

#[cfg(test)]
mod tests {
    use super::*;

    #[test]
    fn a_group_that_has_not_tried_all_that_it_must_fails() {
        let ends = Lockstep::new(&(), &Reference);
        for untried in TRIED {
            let mut tally = Tally::default();
            for kind in TRIED.into_iter().filter(|&kind| kind != untried) {
                tally.count(kind);
            }
            let failure = ends.with_tried(tally).err();
            let expected = GroupFailure::Untried(format!("{untried}: none"));
            assert_eq!(failure, Some(expected));
        }
        let mut tally = Tally::default();
        TRIED.into_iter().for_each(|kind| tally.count(kind));
        assert!(ends.with_tried(tally).is_ok());
    }
}
