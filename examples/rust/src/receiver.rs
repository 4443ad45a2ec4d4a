//! The receiving end.

use crate::c;
use crate::numbers::*;
use crate::refusal::{Refusal, done};

/// What a receiving call found.
#[derive(Clone, Copy, Debug, PartialEq, Eq)]
pub enum Event {
    /// All bits were used without an event.
    None,
    /// A synchronising block; in search, its sequence of 16 bits anywhere.
    Sync,
    /// The check failed, or the block fits nowhere; the remainder of the bits that were read as a block.
    ///
    /// It is for service staff. A block that was cancelled, and that is otherwise unharmed and read in step, shows 1; but
    /// damage on the line can leave 1 as well. It is 0 exactly where the check passes and the block fits nowhere. Decide
    /// nothing about the order by it.
    Bad(u16),
    /// The next data item: its data are in the store.
    Accepted,
    /// The item before, or the end again: nothing stored.
    Previous,
    /// An item was missed, or comes after the end; stands until a receiver is opened anew.
    SequenceAlarm,
    /// An end block with another length; stands likewise.
    LengthAlarm,
    /// The end, with its length in bits: the whole order is in the store, if both ends were opened anew.
    Ended(usize),
    /// The machine is not ready for the next item or the end: nothing taken.
    Wait,
}

/// The receiving end.
#[derive(Clone, Debug, PartialEq, Eq)]
pub struct Receiver {
    state: [u8; RECEIVER_BYTES],
}

impl Receiver {
    /// Without marks, in search, with return bit 1.
    ///
    /// **A new order needs both ends opened anew.** Nothing in the blocks tells one order from the next. A machine that is
    /// not opened anew after a session that broke off may join the new order's items to the old ones and report the end.
    pub fn open(k: usize) -> Result<Receiver, Refusal> {
        let mut state = [0; RECEIVER_BYTES];
        done(unsafe { c::order_line_open_receiver(k, state.as_mut_ptr(), state.len()) })?;
        Ok(Receiver { state })
    }

    /// With start-of-message marks: item 0 carries the mark of the sender's code size, 5 to 8.
    ///
    /// **Open both ends alike**, with the same k and both with marks or both without: otherwise nothing is guaranteed. The
    /// sizes may differ: a receiver takes any mark.
    pub fn open_with_marks(k: usize, size: usize) -> Result<Receiver, Refusal> {
        let mut state = [0; RECEIVER_BYTES];
        done(unsafe {
            c::order_line_open_receiver_with_marks(k, size, state.as_mut_ptr(), state.len())
        })?;
        Ok(Receiver { state })
    }

    /// Takes the first `bits` bits of `line`, up to the next event; the event, and the number of bits taken: at least one
    /// if `bits` is above 0, and all under a standing alarm, which is reported again. The store is the same at each call;
    /// [`store_bytes`](crate::store_bytes) of them hold any order.
    ///
    /// `ready` says whether the machine can take a block now: false while it is busy. The call that brings a block's last
    /// bit decides, whatever the calls before it said. If it is false there, a block that would be accepted, or the end
    /// that would be reported, is [`Event::Wait`] instead: nothing is stored, nothing is taken, the return bit is 1, and
    /// the store is not judged. The sender repeats a block that waits; if the machine stays busy, it gives up after 64
    /// cancels.
    ///
    /// **A refused call uses no bit**: a loop that lends the same bits again does not end. A receiver that was not opened
    /// anew may be refused [`Refusal::Short`] even with a store of [`store_bytes`](crate::store_bytes). Then lend it no
    /// more bits, hold the return channel at 1, and open a new one before the next order.
    pub fn receive(
        &mut self,
        line: &[u8],
        bits: usize,
        ready: bool,
        store: &mut [u8],
    ) -> Result<(Event, usize), Refusal> {
        let (mut used, mut length, mut remainder) = (0, 0, 0);
        let answer = unsafe {
            c::order_line_receive(
                self.state.as_mut_ptr(),
                self.state.len(),
                line.as_ptr(),
                line.len(),
                bits,
                ready,
                store.as_mut_ptr(),
                store.len(),
                &mut used,
                &mut length,
                &mut remainder,
            )
        };
        let event = match answer {
            EVENT_NONE => Event::None,
            EVENT_SYNC => Event::Sync,
            EVENT_BAD => Event::Bad(remainder),
            EVENT_ACCEPTED => Event::Accepted,
            EVENT_PREVIOUS => Event::Previous,
            EVENT_SEQUENCE_ALARM => Event::SequenceAlarm,
            EVENT_LENGTH_ALARM => Event::LengthAlarm,
            EVENT_ENDED => Event::Ended(length),
            EVENT_WAIT => Event::Wait,
            refusal => return Err(Refusal::of(refusal.into())),
        };
        Ok((event, used))
    }

    /// What the return channel is to be held at: true asks for a repeat.
    pub fn return_bit(&self) -> Result<bool, Refusal> {
        match unsafe { c::order_line_return_bit(self.state.as_ptr(), self.state.len()) } {
            RETURN_0 => Ok(false),
            RETURN_1 => Ok(true),
            refusal => Err(Refusal::of(refusal.into())),
        }
    }
}
