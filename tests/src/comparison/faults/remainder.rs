//! The faults of the remainder, in reading a block and in a receiving call.

use super::bits_so_far;
use crate::calls::{Blocks, Line, ReceivingEnd, Reference};
use crate::interface::{decode_read, load_receiver, Counts, EVENT_ACCEPTED, EVENT_BAD};
use crate::interface::{is_event, EVENT_ENDED, EVENT_LENGTH_ALARM, EVENT_NONE, EVENT_PREVIOUS};
use crate::interface::{EVENT_SEQUENCE_ALARM, EVENT_SYNC, EVENT_WAIT};
use crate::reference::bits::{number, unpack, Bits};
use crate::reference::block::{block_bits, check_bits, remainder, Read, CHECK_BITS};

#[derive(Clone, Copy, Debug, PartialEq, Eq)]
pub enum RemainderFault {
    /// The register over all n bits, which takes each at x^16.
    Register,
    /// The remainder of the first k + 4 bits.
    FirstBits,
    /// The upper byte is lost.
    LowerByte,
    BytesExchanged,
    /// 0 if the check fails.
    ZeroIfFailed,
    /// Nothing is written if the check fails.
    NotIfFailed,
    /// 1 by rule 7.
    OneByRule7,
    /// Nothing is written by rule 7.
    NotByRule7,
    /// Nothing is written while the machine is not ready.
    NotWhileBusy,
    /// 0 is written by a refused call.
    IfRefused,
    /// 0 is written if the block passes.
    IfPassed,
    /// 0 is written with this event, which is not *bad*.
    With(u8),
}

use RemainderFault::*;

/// Those of a block whose check fails, in reading and in receiving.
const FAULTS_IF_FAILED: [RemainderFault; 6] = [
    Register,
    FirstBits,
    LowerByte,
    BytesExchanged,
    ZeroIfFailed,
    NotIfFailed,
];

pub fn reading_faults() -> impl Iterator<Item = RemainderFault> {
    FAULTS_IF_FAILED.into_iter().chain([IfRefused, IfPassed])
}

/// Those that every group with receiving calls finds.
pub fn receiving_faults() -> impl Iterator<Item = RemainderFault> {
    let others = [OneByRule7, NotByRule7, NotWhileBusy, With(EVENT_SYNC)];
    FAULTS_IF_FAILED.into_iter().chain(others)
}

/// Those that take a refused call or an event that not every group has.
pub const FURTHER_RECEIVING_FAULTS: [RemainderFault; 8] = [
    IfRefused,
    With(EVENT_NONE),
    With(EVENT_ACCEPTED),
    With(EVENT_PREVIOUS),
    With(EVENT_ENDED),
    With(EVENT_SEQUENCE_ALARM),
    With(EVENT_LENGTH_ALARM),
    With(EVENT_WAIT),
];

impl RemainderFault {
    pub fn is_of_rule_7(self) -> bool {
        matches!(self, OneByRule7 | NotByRule7)
    }
}

/// What a call answers.
#[derive(Clone, Copy)]
enum Answer {
    Refused,
    Passed,
    Failed,
    Rule7,
    Event(u8),
}

/// The second implementation with this fault.
pub struct OfRemainder(pub RemainderFault);

impl OfRemainder {
    pub fn read_block(
        &self,
        k: usize,
        block: &[u8],
        payload: &mut [u8],
        remainder: &mut u16,
    ) -> u16 {
        let before = *remainder;
        let answer = Reference.read_block(k, block, payload, remainder);
        let kind = match decode_read(answer, *remainder) {
            Read::Refused(_) => Answer::Refused,
            Read::Passed(_) => Answer::Passed,
            Read::Failed(_) => Answer::Failed,
        };
        *remainder = self.left(kind, before, *remainder, || unpack(block, 0, block_bits(k)));
        answer
    }

    pub fn receive(
        &self,
        state: &mut [u8],
        line: Line,
        ready: bool,
        store: &mut [u8],
        counts: &mut Counts,
    ) -> u8 {
        let (before, receiver) = (counts.remainder, load_receiver(state));
        let answer = Reference.receive(state, line, ready, store, counts);
        let kind = match answer {
            EVENT_BAD if counts.remainder == 0 => Answer::Rule7,
            EVENT_BAD => Answer::Failed,
            _ if is_event(answer) => Answer::Event(answer),
            _ => Answer::Refused,
        };
        let block = || {
            let receiver = receiver.expect("the state of a call that is not refused");
            let mut bits = bits_so_far(&receiver, line);
            bits.truncate(block_bits(receiver.k));
            bits
        };
        counts.remainder = match self.0 {
            NotWhileBusy if !ready => before,
            _ => self.left(kind, before, counts.remainder, block),
        };
        answer
    }

    /// What stands in the remainder's place after a call, by what stood there before it and what should.
    fn left(&self, kind: Answer, before: u16, after: u16, block: impl FnOnce() -> Bits) -> u16 {
        match (self.0, kind) {
            (Register, Answer::Failed) => number(&check_bits(&block())) as u16,
            (FirstBits, Answer::Failed) => {
                let block = block();
                remainder(&block[..block.len() - CHECK_BITS])
            }
            (LowerByte, Answer::Failed) => after & 0xFF,
            (BytesExchanged, Answer::Failed) => after.swap_bytes(),
            (ZeroIfFailed, Answer::Failed) => 0,
            (NotIfFailed, Answer::Failed) => before,
            (OneByRule7, Answer::Rule7) => 1,
            (NotByRule7, Answer::Rule7) => before,
            (IfRefused, Answer::Refused) => 0,
            (IfPassed, Answer::Passed) => 0,
            (With(event), Answer::Event(answer)) if event == answer => 0,
            _ => after,
        }
    }
}
