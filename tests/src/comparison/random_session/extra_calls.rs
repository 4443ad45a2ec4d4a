//! Calls between the periods of a random session that change nothing: refused ones, one with no bits,
//! and ones on a copy of a state, spoiled or not.

use super::{receiving, Session};
use crate::calls::{Line, ReceivingEnd, SendingEnd};
use crate::comparison::lockstep::{BufferPair, ReceivingCall};
use crate::comparison::sender::refusal_name;
use crate::comparison::{spoil, Difference, GuardedBuffer};
use crate::reference::bits::pack;
use crate::reference::block::{assemble, block_bits, block_bytes};
use crate::reference::order::data_service;
use crate::reference::receiver::{Received, Receiver};
use crate::reference::sender::Sent;

impl<S: SendingEnd, R: ReceivingEnd> Session<'_, S, R> {
    /// Now and then one of them.
    pub(super) fn extra_call(&mut self) -> Result<(), Difference> {
        match self.rng.below(40) {
            0 => self.receive(&[]).map(|_| ()),
            1 => self.short_sending(),
            2 => self.short_receiving(),
            3 => self.spoiled_sending(),
            4 => self.spoiled_receiving(),
            _ => Ok(()),
        }
    }

    /// The order or the block's place is short by one byte.
    fn short_sending(&mut self) -> Result<(), Difference> {
        let (mut order, mut bytes) = (self.order.length.div_ceil(8), block_bytes(self.order.k));
        match self.rng.bit() {
            true => order -= 1,
            false => bytes -= 1,
        }
        let reading = self.rng.bit();
        self.send(order, bytes, reading).map(|_| ())
    }

    /// The line is shorter than its number of bits, or the store too short for the next item, which
    /// may wait.
    fn short_receiving(&mut self) -> Result<(), Difference> {
        let Receiver {
            k, taken, marks, ..
        } = self.receiver();
        let mut bytes = pack(&assemble(data_service(marks, taken), &vec![false; k]));
        if self.rng.bit() {
            bytes.pop();
        }
        let (mut state, mut store) = (self.receiver.clone(), self.store.clone());
        let call = ReceivingCall {
            line: Line {
                bytes: &bytes,
                bits: block_bits(k),
            },
            ready: self.rng.bit(),
            lent: ((taken + 1) * k / 8 - 1).min(store.slice().len()),
            remainder: self.rng.number(),
        };
        let received = self.ends.receive(&mut state, &mut store, call)?;
        let Received::Refused(number) = received else {
            return Ok(());
        };
        self.tally.count(refusal_name(number));
        match &mut self.delivery {
            None => Ok(()),
            Some(delivery) => delivery.after_receiving(&receiving(received, call, store.slice())),
        }
    }

    fn spoiled_sending(&mut self) -> Result<(), Difference> {
        let bytes = spoil::sender(&mut self.rng, self.sender.slice());
        let mut state = BufferPair::new(GuardedBuffer::around(&mut self.rng, &bytes));
        let mut block = BufferPair::random(&mut self.rng, 483);
        let reading = self.rng.bit();
        let order = &self.order.bytes;
        let sent = self.ends.send(&mut state, order, reading, &mut block)?;
        if let Sent::Refused(number) = sent {
            self.tally.count(refusal_name(number));
        }
        Ok(())
    }

    fn spoiled_receiving(&mut self) -> Result<(), Difference> {
        let bytes = spoil::receiver(&mut self.rng, self.receiver.slice());
        let mut state = BufferPair::new(GuardedBuffer::around(&mut self.rng, &bytes));
        let line = self.rng.bytes(90);
        let mut store = self.store.clone();
        let call = ReceivingCall {
            line: Line {
                bytes: &line,
                bits: self.rng.below(721),
            },
            ready: self.rng.bit(),
            lent: store.slice().len(),
            remainder: self.rng.number(),
        };
        let received = self.ends.receive(&mut state, &mut store, call)?;
        if let Received::Refused(number) = received {
            self.tally.count(refusal_name(number));
        }
        Ok(())
    }
}
