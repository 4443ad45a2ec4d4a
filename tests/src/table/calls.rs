//! The sibling's calls behind the traits: those that the benchmark measures, and what a sending and a
//! receiving end needs beside them, which is the second implementation's.

use super::{build_block, read_block, receiver, sender};
use crate::calls::{Blocks, Line, Opening, ReceivingEnd, Reference, SendingEnd};
use crate::interface::{self, Counts};

pub struct TableDriven;

impl Blocks for TableDriven {
    fn build_block(&self, k: usize, service: u8, payload: &[u8], block: &mut [u8]) -> u8 {
        let built = build_block(k, service, payload, block);
        built.err().unwrap_or(0)
    }

    fn read_block(&self, k: usize, block: &[u8], payload: &mut [u8], remainder: &mut u16) -> u16 {
        interface::encode_read(read_block(k, block, payload), remainder)
    }
}

impl SendingEnd for TableDriven {
    fn open_sender(&self, opening: Opening, order: &[u8], state: &mut [u8]) -> u8 {
        Reference.open_sender(opening, order, state)
    }

    fn send(&self, state: &mut [u8], order: &[u8], reading: bool, block: &mut [u8]) -> u32 {
        interface::send(state, |sender| sender::send(sender, order, reading, block))
    }

    fn sender_rest(&self, state: &[u8]) -> u8 {
        Reference.sender_rest(state)
    }
}

impl ReceivingEnd for TableDriven {
    fn open_receiver(&self, k: usize, code_size: Option<usize>, state: &mut [u8]) -> u8 {
        Reference.open_receiver(k, code_size, state)
    }

    fn receive(
        &self,
        state: &mut [u8],
        line: Line,
        ready: bool,
        store: &mut [u8],
        counts: &mut Counts,
    ) -> u8 {
        interface::receive(state, counts, |receiver| {
            let receiver = receiver::Receiver::from(receiver);
            let (receiver, received) = receiver.receive(line.bytes, line.bits, ready, store);
            (receiver.into(), received)
        })
    }

    fn return_bit(&self, state: &[u8]) -> u8 {
        Reference.return_bit(state)
    }
}

/// The speed of a wrong answer is worth nothing: every group of these calls.
#[cfg(test)]
mod tests {
    use super::TableDriven;
    use crate::comparison::{block, both_ends, busy, idle, marks, receiver, sender, two_orders};

    #[test]
    fn the_calls_agree() {
        let compared = [
            ("block", block::compare(&TableDriven, 11, 20_000)),
            ("sender", sender::compare(&TableDriven, 5, 3_000)),
            ("receiver", receiver::compare(&TableDriven, 8, 20_000)),
        ];
        for (group, compared) in compared {
            assert!(compared.is_ok(), "{group}: {:?}", compared.err());
        }
    }

    #[test]
    fn the_ends_agree() {
        let ends = (&TableDriven, &TableDriven);
        let compared = [
            ("both_ends", both_ends::compare(ends.0, ends.1, 7, 3_000)),
            ("busy", busy::compare(ends.0, ends.1)),
            ("two_orders", two_orders::compare(ends.0, ends.1)),
            ("idle", idle::compare(ends.0, ends.1)),
            ("marks", marks::compare(ends.0, ends.1)),
        ];
        for (group, compared) in compared {
            assert!(compared.is_ok(), "{group}: {:?}", compared.err());
        }
    }
}
