//! The faults of a receiving call while the machine is not ready.

use crate::calls::{Line, ReceivingEnd, Reference};
use crate::interface::{load_receiver, Counts, EVENT_ACCEPTED, EVENT_ENDED, EVENT_LENGTH_ALARM};
use crate::interface::{EVENT_PREVIOUS, EVENT_SEQUENCE_ALARM, EVENT_WAIT, HEAD_BYTES};
use crate::reference::receiver::HELD_BYTES;
use crate::reference::refusal::SHORT;
use std::cell::Cell;

/// Where a receiver's bytes have the number of bits held, the lowest byte of r, the bad row, the
/// return bit, the phase and the bits held.
const HELD: [usize; 4] = [4, 5, 6, 7];
const TAKEN: usize = 8;
const BAD_ROW: usize = 12;
const RETURN_BIT: usize = 13;
const PHASE: usize = 15;
const ARRAY: std::ops::Range<usize> = HEAD_BYTES..HEAD_BYTES + HELD_BYTES;

/// Phases.
const SEARCH: u8 = 0;
const IN_STEP: u8 = 1;

#[derive(Clone, Copy, Debug, PartialEq, Eq)]
pub enum BusyFault {
    /// A wait leaves return bit 0.
    Returns0,
    /// A wait counts in the bad row.
    CountsAsBad,
    /// A wait does not clear the bad row.
    KeepsBadRow,
    /// The end is taken.
    TakesEnd,
    /// The data of a block that waits are stored.
    Stores,
    /// A block that waits counts as taken.
    CountsAsTaken,
    /// The store is judged first.
    StoreFirst,
    /// A length alarm waits.
    HidesLengthAlarm,
    /// A sequence alarm waits.
    HidesSequenceAlarm,
    /// The item before waits, and so does the end again.
    HidesPrevious,
    /// A wait leaves bits held.
    LeavesHeld,
    /// A wait goes back to search.
    Searches,
    /// The call that begins a block decides, not the one that brings its last bit.
    FirstCallDecides,
}

pub const BUSY_FAULTS: [BusyFault; 13] = [
    BusyFault::Returns0,
    BusyFault::CountsAsBad,
    BusyFault::KeepsBadRow,
    BusyFault::TakesEnd,
    BusyFault::Stores,
    BusyFault::CountsAsTaken,
    BusyFault::StoreFirst,
    BusyFault::HidesLengthAlarm,
    BusyFault::HidesSequenceAlarm,
    BusyFault::HidesPrevious,
    BusyFault::LeavesHeld,
    BusyFault::Searches,
    BusyFault::FirstCallDecides,
];

/// The second implementation with this fault, and whether the machine was ready in the call that
/// began the latest block.
pub struct OfBusy<'a>(pub BusyFault, pub &'a Cell<bool>);

impl OfBusy<'_> {
    pub fn receive(
        &self,
        state: &mut [u8],
        line: Line,
        ready: bool,
        store: &mut [u8],
        counts: &mut Counts,
    ) -> u8 {
        let ready = self.deciding(state, line, ready);
        let (before, mut copy) = (state.to_vec(), store.to_vec());
        let if_ready =
            Reference.receive(&mut before.clone(), line, true, &mut copy, &mut { *counts });
        let as_if_ready = match self.0 {
            BusyFault::TakesEnd => if_ready == EVENT_ENDED,
            BusyFault::StoreFirst => if_ready == SHORT,
            _ => false,
        };
        let number = Reference.receive(state, line, ready || as_if_ready, store, counts);
        if ready {
            return number;
        }
        if self.0 == BusyFault::Stores && if_ready == EVENT_ACCEPTED {
            store.copy_from_slice(&copy);
        }
        match number {
            EVENT_WAIT => self.after_wait(&before, state),
            _ => self.hidden(&before, state, number),
        }
    }

    /// Whether the machine is ready, as the fault sees it.
    fn deciding(&self, state: &[u8], line: Line, ready: bool) -> bool {
        let begins = line.bits > 0 && load_receiver(state).is_some_and(|state| state.held == 0);
        if begins {
            self.1.set(ready);
        }
        match self.0 {
            BusyFault::FirstCallDecides => self.1.get(),
            _ => ready,
        }
    }

    fn after_wait(&self, before: &[u8], state: &mut [u8]) -> u8 {
        match self.0 {
            BusyFault::Returns0 => state[RETURN_BIT] = 0,
            BusyFault::CountsAsBad => state[BAD_ROW] = before[BAD_ROW] + 1,
            BusyFault::KeepsBadRow => state[BAD_ROW] = before[BAD_ROW],
            BusyFault::CountsAsTaken => state[TAKEN] = state[TAKEN].wrapping_add(1),
            BusyFault::LeavesHeld => {
                for place in HELD.into_iter().chain(ARRAY) {
                    state[place] = before[place];
                }
            }
            BusyFault::Searches => state[PHASE] = SEARCH,
            _ => {}
        }
        EVENT_WAIT
    }

    /// An event of a block in step that should not wait.
    fn hidden(&self, before: &[u8], state: &mut [u8], number: u8) -> u8 {
        let hides = match self.0 {
            BusyFault::HidesLengthAlarm => number == EVENT_LENGTH_ALARM,
            BusyFault::HidesSequenceAlarm => number == EVENT_SEQUENCE_ALARM,
            BusyFault::HidesPrevious => number == EVENT_PREVIOUS,
            _ => false,
        };
        if !hides || before[PHASE] != IN_STEP {
            return number;
        }
        (state[PHASE], state[RETURN_BIT]) = (IN_STEP, 1);
        EVENT_WAIT
    }
}
