//! The faults of marks and code sizes.

use super::{bits_so_far, Fault};
use crate::calls::{Line, Opening, ReceivingEnd, Reference, SendingEnd};
use crate::interface::{load_receiver, Counts, EVENT_BAD, EVENT_PREVIOUS, EVENT_SEQUENCE_ALARM};
use crate::interface::{MARKS_BYTES, RECEIVER_BYTES, SENDER_BYTES};
use crate::reference::bits::number;
use crate::reference::block::SERVICE_BITS;
use crate::reference::marks::{is_mark, mark};
use crate::reference::receiver::Receiver;
use crate::reference::refusal::{CODE_SIZE, SHORT, SPOILED};

/// Where a receiver's bytes have the bad row, the lowest byte of r, whether the end is taken, the
/// phase and whether marks are in use.
const BAD_ROW: usize = 12;
pub const TAKEN: usize = 8;
const END_TAKEN: usize = 14;
const PHASE: usize = 15;
const MARKS_IN_USE: usize = RECEIVER_BYTES - MARKS_BYTES;

/// The phase of a standing sequence alarm.
const SEQUENCE_ALARM: u8 = 2;

/// The second implementation with this fault, if it is one of these.
pub struct OfMarks(pub Fault);

impl OfMarks {
    /// A code size as an opening sees it.
    fn seen(&self, code_size: Option<usize>) -> Option<usize> {
        match self.0 {
            Fault::SizeInByte => code_size.map(|size| size % 256),
            _ => code_size,
        }
    }

    /// An opening's answer, by what it answers without a code size.
    fn opened(&self, answer: u8, without_size: impl FnOnce() -> u8) -> u8 {
        match answer {
            CODE_SIZE if self.0 == Fault::SizeAfterShort && without_size() == SHORT => SHORT,
            _ => answer,
        }
    }

    /// The code size of a state of so many bytes that uses no marks.
    fn unused_size<'a>(&self, bytes: usize, state: &'a mut [u8]) -> Option<&'a mut u8> {
        match state.get_mut(bytes - MARKS_BYTES..bytes)? {
            [0, size] => Some(size),
            _ => None,
        }
    }

    /// Whether a step on this state is refused.
    fn refuses(&self, bytes: usize, state: &mut [u8]) -> bool {
        let size = self.unused_size(bytes, state);
        self.0 == Fault::SizeJudged && size.is_some_and(|size| *size != 0)
    }

    fn lose_size(&self, bytes: usize, state: &mut [u8]) {
        if let (Fault::SizeLost, Some(size)) = (self.0, self.unused_size(bytes, state)) {
            *size = 0;
        }
    }

    fn exchange_sizes(&self, state: &mut [u8]) {
        let size = state.get_mut(SENDER_BYTES - 1);
        match size {
            Some(size @ (6 | 7)) if self.0 == Fault::MarksExchanged => *size = 13 - *size,
            _ => {}
        }
    }
}

impl SendingEnd for OfMarks {
    fn open_sender(&self, opening: Opening, order: &[u8], state: &mut [u8]) -> u8 {
        let opening = Opening {
            code_size: self.seen(opening.code_size),
            ..opening
        };
        let without_size = Opening {
            code_size: None,
            ..opening
        };
        let mut copy = state.to_vec();
        let answer = Reference.open_sender(opening, order, state);
        self.opened(answer, || {
            Reference.open_sender(without_size, order, &mut copy)
        })
    }

    fn send(&self, state: &mut [u8], order: &[u8], reading: bool, block: &mut [u8]) -> u32 {
        if self.refuses(SENDER_BYTES, state) {
            return u32::from(SPOILED);
        }
        self.exchange_sizes(state);
        let word = Reference.send(state, order, reading, block);
        self.exchange_sizes(state);
        self.lose_size(SENDER_BYTES, state);
        word
    }

    fn sender_rest(&self, state: &[u8]) -> u8 {
        Reference.sender_rest(state)
    }
}

impl ReceivingEnd for OfMarks {
    fn open_receiver(&self, k: usize, code_size: Option<usize>, state: &mut [u8]) -> u8 {
        let mut copy = state.to_vec();
        let answer = Reference.open_receiver(k, self.seen(code_size), state);
        self.opened(answer, || Reference.open_receiver(k, None, &mut copy))
    }

    fn receive(
        &self,
        state: &mut [u8],
        line: Line,
        ready: bool,
        store: &mut [u8],
        counts: &mut Counts,
    ) -> u8 {
        if self.refuses(RECEIVER_BYTES, state) {
            return SPOILED;
        }
        let receiver = load_receiver(state).filter(|receiver| !receiver.is_spoiled());
        let block = receiver.and_then(|receiver| Some((mark_of_block(&receiver, line)?, receiver)));
        let mut receive = |state: &mut [u8]| Reference.receive(state, line, ready, store, counts);
        let number = match (self.0, block) {
            (Fault::MarkAtTwo, Some((_, receiver)))
                if receiver.taken == 2 && !receiver.end_taken =>
            {
                with_byte(state, TAKEN, 1, receive)
            }
            (Fault::OwnMarkAlone, Some((service, receiver)))
                if service != mark(receiver.marks.size) =>
            {
                with_byte(state, MARKS_IN_USE, 0, receive)
            }
            (Fault::MarkAfterEnd, Some((_, receiver))) if receiver.end_taken => {
                let mut copy = state.to_vec();
                (copy[TAKEN], copy[END_TAKEN]) = (1, 0);
                let passes = receive(&mut copy) == EVENT_PREVIOUS;
                match receive(state) {
                    EVENT_BAD if passes => raise_alarm(state),
                    number => number,
                }
            }
            _ => receive(state),
        };
        self.lose_size(RECEIVER_BYTES, state);
        number
    }

    fn return_bit(&self, state: &[u8]) -> u8 {
        Reference.return_bit(state)
    }
}

/// The mark that a block in step begins with, if it does and marks are in use.
fn mark_of_block(receiver: &Receiver, line: Line) -> Option<u8> {
    let service = number(bits_so_far(receiver, line).get(..SERVICE_BITS)?) as u8;
    let in_step = !receiver.search && receiver.alarm.is_none();
    (in_step && receiver.marks.in_use && is_mark(service)).then_some(service)
}

/// A call with another byte in this place of the state, which has its own again afterwards.
fn with_byte(state: &mut [u8], place: usize, byte: u8, call: impl FnOnce(&mut [u8]) -> u8) -> u8 {
    let own = std::mem::replace(&mut state[place], byte);
    let number = call(state);
    state[place] = own;
    number
}

fn raise_alarm(state: &mut [u8]) -> u8 {
    (state[PHASE], state[BAD_ROW]) = (SEQUENCE_ALARM, 0);
    EVENT_SEQUENCE_ALARM
}
