//! The second implementation with one fault at a time; `found.rs` shows that the groups find each.

mod busy;
mod found;
mod lengths;
mod marks;
mod noise;
mod remainder;
mod tint;

use crate::calls::{Blocks, Line, LoopTimes, NoiseLoads, Opening, ReceivingEnd, Reference};
use crate::calls::{SendingEnd, Tints};
use crate::interface::{decode_sent, is_event, load_receiver, store_word};
use crate::interface::{Counts, EVENT_ACCEPTED, EVENT_NONE};
use crate::interface::{FINISHED, GAVE_UP, MARKS_BYTES, RECEIVER_BYTES, SENDER_BYTES};
use crate::reference::bits::{unpack, Bits};
use crate::reference::receiver::Receiver;
use crate::reference::refusal::SHORT;
use crate::reference::sender::Sent;
use busy::{BusyFault, OfBusy};
use lengths::{LengthFault, Place};
use marks::{OfMarks, TAKEN};
use noise::{NoiseFault, OfNoise};
use remainder::{OfRemainder, RemainderFault};
use std::cell::Cell;
use tint::{OfTints, TintFault};

#[derive(Clone, Copy, Debug, PartialEq, Eq)]
enum Fault {
    None,
    /// A refused call writes into the state.
    RefusedState,
    /// A call writes behind the state.
    BehindState,
    /// A call that sends or stores nothing changes the last byte lent for it.
    LastByte,
    /// Any flag but 0 is true.
    NonzeroFlags,
    /// A state that is too short is refused 6 in stepping.
    ShortState,
    /// A sender that gave up is reported as finished.
    GaveUpAsFinished,
    /// A refused call writes the number of bits used.
    RefusedCount,
    /// L is written without the end.
    LengthAlways,
    /// A search leaves the return bit as it was.
    ReturnBit,
    /// A code size is judged after the lent slices.
    SizeAfterShort,
    /// Only the lowest byte of a code size is judged.
    SizeInByte,
    /// Without marks a state's code size other than 0 is refused 7.
    SizeJudged,
    /// Without marks a state's code size becomes 0.
    SizeLost,
    /// A sending call uses the reading of the call before.
    ReadingBefore,
    /// Opening a receiver over one leaves the items taken as they were.
    ItemsKept,
    /// Code sizes 6 and 7 have each other's mark.
    MarksExchanged,
    /// A mark is the previous item at r 2 too.
    MarkAtTwo,
    /// A mark after the end brings the alarm, as a letter does.
    MarkAfterEnd,
    /// Only the mark of the receiver's own code size is taken.
    OwnMarkAlone,
    /// One of a block length.
    Length(LengthFault),
    /// One of the remainder that reading a block writes.
    Reading(RemainderFault),
    /// One of the remainder that a receiving call writes.
    Receiving(RemainderFault),
    /// One of a machine that is not ready.
    Busy(BusyFault),
    /// One of a tint call.
    Tint(TintFault),
    /// One of the noise load.
    Noise(NoiseFault),
}

const FAULTS_OF_EITHER_END: [Fault; 9] = [
    Fault::RefusedState,
    Fault::BehindState,
    Fault::LastByte,
    Fault::NonzeroFlags,
    Fault::ShortState,
    Fault::SizeAfterShort,
    Fault::SizeInByte,
    Fault::SizeJudged,
    Fault::SizeLost,
];
const FAULTS_OF_A_SENDER: [Fault; 2] = [Fault::GaveUpAsFinished, Fault::MarksExchanged];
const FAULTS_OF_A_RECEIVER: [Fault; 6] = [
    Fault::RefusedCount,
    Fault::LengthAlways,
    Fault::ReturnBit,
    Fault::MarkAtTwo,
    Fault::MarkAfterEnd,
    Fault::OwnMarkAlone,
];

/// The second implementation with this fault, and what the fault remembers: whether the machine was
/// ready in the call that began the latest block, or the latest reading.
struct Faulty(Fault, Cell<bool>);

impl Faulty {
    fn with(fault: Fault) -> Faulty {
        Faulty(fault, Cell::new(true))
    }

    fn spoil_state(&self, refused: bool, size: usize, state: &mut [u8]) {
        match self.0 {
            Fault::RefusedState if refused && !state.is_empty() => state[0] ^= 1,
            Fault::BehindState if !refused && state.len() > size => state[size] ^= 1,
            _ => {}
        }
    }

    fn spoil_data(&self, unwritten: bool, data: &mut [u8]) {
        match data.last_mut() {
            Some(byte) if unwritten && self.0 == Fault::LastByte => *byte ^= 1,
            _ => {}
        }
    }

    fn tints(&self) -> OfTints {
        match self.0 {
            Fault::Tint(fault) => OfTints(fault),
            _ => OfTints(TintFault::None),
        }
    }

    fn noises(&self) -> OfNoise {
        match self.0 {
            Fault::Noise(fault) => OfNoise(fault),
            _ => OfNoise(NoiseFault::None),
        }
    }

    /// k as it is seen in a place.
    fn seen(&self, place: Place, k: usize) -> usize {
        match self.0 {
            Fault::Length(fault) => fault.seen(place, k),
            _ => k,
        }
    }

    fn limit_flags(&self, flags: &[usize], state: &mut [u8]) {
        for &place in flags {
            if self.0 == Fault::NonzeroFlags && place < state.len() {
                state[place] = state[place].min(1);
            }
        }
    }
}

impl LoopTimes for Faulty {
    fn loop_time(&self, k: usize, speed: u32, loop_ms: u32) -> u8 {
        Reference.loop_time(self.seen(Place::LoopTime, k), speed, loop_ms)
    }
}

impl Blocks for Faulty {
    fn build_block(&self, k: usize, service: u8, payload: &[u8], block: &mut [u8]) -> u8 {
        Reference.build_block(self.seen(Place::Building, k), service, payload, block)
    }

    fn read_block(&self, k: usize, block: &[u8], payload: &mut [u8], remainder: &mut u16) -> u16 {
        match self.0 {
            Fault::Reading(fault) => OfRemainder(fault).read_block(k, block, payload, remainder),
            _ => {
                let k = self.seen(Place::Reading, k);
                Reference.read_block(k, block, payload, remainder)
            }
        }
    }
}

impl SendingEnd for Faulty {
    fn open_sender(&self, opening: Opening, order: &[u8], state: &mut [u8]) -> u8 {
        let k = self.seen(Place::Opening, opening.k);
        OfMarks(self.0).open_sender(Opening { k, ..opening }, order, state)
    }

    fn send(&self, state: &mut [u8], order: &[u8], reading: bool, block: &mut [u8]) -> u32 {
        if self.0 == Fault::ShortState && state.len() < SENDER_BYTES {
            return u32::from(SHORT);
        }
        let reading = match self.0 {
            Fault::ReadingBefore => self.1.replace(reading),
            _ => reading,
        };
        self.limit_flags(&[13, 15, SENDER_BYTES - MARKS_BYTES], state);
        let word = match self.0 {
            Fault::Length(fault) => {
                fault.step(state, |state| Reference.send(state, order, reading, block))
            }
            fault => OfMarks(fault).send(state, order, reading, block),
        };
        let refused = matches!(decode_sent(word), Sent::Refused(_));
        self.spoil_state(refused, SENDER_BYTES, state);
        self.spoil_data(refused, block);
        word
    }

    fn sender_rest(&self, state: &[u8]) -> u8 {
        match Reference.sender_rest(state) {
            GAVE_UP if self.0 == Fault::GaveUpAsFinished => FINISHED,
            answer => answer,
        }
    }
}

impl ReceivingEnd for Faulty {
    fn open_receiver(&self, k: usize, code_size: Option<usize>, state: &mut [u8]) -> u8 {
        let before = load_receiver(state);
        let answer = OfMarks(self.0).open_receiver(self.seen(Place::Opening, k), code_size, state);
        match before {
            Some(before) if answer == 0 && self.0 == Fault::ItemsKept => {
                store_word(state, TAKEN, before.taken);
            }
            _ => {}
        }
        answer
    }

    fn receive(
        &self,
        state: &mut [u8],
        line: Line,
        ready: bool,
        store: &mut [u8],
        counts: &mut Counts,
    ) -> u8 {
        if self.0 == Fault::ShortState && state.len() < RECEIVER_BYTES {
            return SHORT;
        }
        self.limit_flags(&[13, 14, RECEIVER_BYTES - MARKS_BYTES], state);
        let searching = state.get(15) == Some(&0);
        let return_bit = state.get(13).copied();
        let number = match self.0 {
            Fault::Busy(fault) => OfBusy(fault, &self.1).receive(state, line, ready, store, counts),
            Fault::Receiving(fault) => {
                OfRemainder(fault).receive(state, line, ready, store, counts)
            }
            Fault::Length(fault) => fault.step(state, |state| {
                Reference.receive(state, line, ready, store, counts)
            }),
            fault => OfMarks(fault).receive(state, line, ready, store, counts),
        };
        let refused = !is_event(number);
        self.spoil_state(refused, RECEIVER_BYTES, state);
        self.spoil_data(number != EVENT_ACCEPTED, store);
        match self.0 {
            Fault::RefusedCount if refused => counts.used = 0,
            Fault::LengthAlways => counts.length = 0,
            Fault::ReturnBit if searching && number == EVENT_NONE => {
                state[13] = return_bit.unwrap_or(0);
            }
            _ => {}
        }
        number
    }

    fn return_bit(&self, state: &[u8]) -> u8 {
        Reference.return_bit(state)
    }
}

impl Tints for Faulty {
    fn write_tint(&self, doses: &[u16], count: usize, order: &mut [u8], bytes: &mut usize) -> u8 {
        self.tints().write_tint(doses, count, order, bytes)
    }

    fn read_tint(&self, order: &[u8], doses: &mut [u16], count: &mut usize) -> u8 {
        self.tints().read_tint(order, doses, count)
    }
}

impl NoiseLoads for Faulty {
    fn noise(&self, k: usize, first: &mut u32, second: &mut u32, block: &mut [u8]) -> u32 {
        let k = self.seen(Place::Noise, k);
        self.noises().noise(k, first, second, block)
    }
}

/// The bits that a receiver in step holds, and those of the line behind them.
fn bits_so_far(receiver: &Receiver, line: Line) -> Bits {
    let mut bits = unpack(&receiver.array, 0, receiver.held);
    bits.extend(unpack(line.bytes, 0, line.bits.min(8 * line.bytes.len())));
    bits
}
