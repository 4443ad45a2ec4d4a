//! The sending end.

use crate::c;
use crate::numbers::*;
use crate::refusal::{Refusal, done};

/// What a sending call sent.
#[derive(Clone, Copy, Debug, PartialEq, Eq)]
pub enum Sent {
    /// A synchronising block.
    Synchronising,
    /// An item of the order, or an end block.
    Item {
        /// The item's number; the two end blocks come after the data.
        number: usize,
        /// It is an end block.
        end: bool,
        /// Its reading was used.
        used: bool,
        /// It was cancelled: its last bit is inverted.
        cancelled: bool,
    },
}

/// Whether a sender sends on.
#[derive(Clone, Copy, Debug, PartialEq, Eq)]
pub enum Rest {
    /// It has a block to send.
    GoingOn,
    /// All items are confirmed. That alone is no delivery: [`Event::Ended`](crate::Event::Ended) at the machine is.
    Finished,
    /// It gave up, after 64 cancels in a row.
    GaveUp,
}

/// The sending end. It is plain bytes: a copy is a sender of its own.
#[derive(Clone, Debug, PartialEq, Eq)]
pub struct Sender {
    state: [u8; SENDER_BYTES],
}

impl Sender {
    /// Without marks, for an order of `length` bits. **A new order needs both ends opened anew**: see
    /// [`Receiver::open`](crate::Receiver::open). An office that starts, or that stopped for any reason, has the machine
    /// opened before its first block.
    pub fn open(
        k: usize,
        speed: u32,
        loop_ms: u32,
        length: usize,
        order: &[u8],
    ) -> Result<Sender, Refusal> {
        let mut state = [0; SENDER_BYTES];
        done(unsafe {
            c::order_line_open_sender(
                k,
                speed,
                loop_ms,
                length,
                order.as_ptr(),
                order.len(),
                state.as_mut_ptr(),
                state.len(),
            )
        })?;
        Ok(Sender { state })
    }

    /// With start-of-message marks of this code size, 5 to 8: see
    /// [`Receiver::open_with_marks`](crate::Receiver::open_with_marks).
    pub fn open_with_marks(
        k: usize,
        speed: u32,
        loop_ms: u32,
        length: usize,
        size: usize,
        order: &[u8],
    ) -> Result<Sender, Refusal> {
        let mut state = [0; SENDER_BYTES];
        done(unsafe {
            c::order_line_open_sender_with_marks(
                k,
                speed,
                loop_ms,
                length,
                size,
                order.as_ptr(),
                order.len(),
                state.as_mut_ptr(),
                state.len(),
            )
        })?;
        Ok(Sender { state })
    }

    /// Sends one block: the order whole, the same at each call of a session, and the reading of the return channel.
    ///
    /// **The reading is taken just before this block's last bit goes out**: true if a repeat was asked for. One that is
    /// taken when the block begins is one block old, and the request for a damaged item is lost. The bits before the last
    /// do not depend on it: until then they are had from a call on a copy of the sender, which is dropped.
    pub fn send(&mut self, order: &[u8], reading: bool, block: &mut [u8]) -> Result<Sent, Refusal> {
        let word = unsafe {
            c::order_line_send(
                self.state.as_mut_ptr(),
                self.state.len(),
                order.as_ptr(),
                order.len(),
                reading,
                block.as_mut_ptr(),
                block.len(),
            )
        };
        if word & SENT == 0 {
            return Err(Refusal::of(word));
        }
        if word & SENT_ITEM == 0 {
            return Ok(Sent::Synchronising);
        }
        Ok(Sent::Item {
            number: (word >> 16) as usize,
            end: word & SENT_END != 0,
            used: word & SENT_USED != 0,
            cancelled: word & SENT_CANCELLED != 0,
        })
    }

    /// Whether it sends on.
    pub fn rest(&self) -> Result<Rest, Refusal> {
        match unsafe { c::order_line_sender_rest(self.state.as_ptr(), self.state.len()) } {
            GOING_ON => Ok(Rest::GoingOn),
            FINISHED => Ok(Rest::Finished),
            GAVE_UP => Ok(Rest::GaveUp),
            refusal => Err(Refusal::of(refusal.into())),
        }
    }
}
