//! The state of a sender or of a receiver out of arbitrary bytes: its fields mostly in range, its bytes as
//! they are or spoiled.

use super::input::{bounded_length, Input};
use crate::interface::{store_receiver, store_sender};
use crate::interface::{HEAD_BYTES, MARKS_BYTES, RECEIVER_BYTES, SENDER_BYTES};
use crate::reference::block::{block_bits, CHECK_BITS, LENGTHS};
use crate::reference::marks::{Marks, CODE_SIZES};
use crate::reference::order::{items, LONGEST, MOST_ITEMS};
use crate::reference::receiver::{Alarm, Receiver, BAD_ROW_LIMIT, HELD_BYTES};
use crate::reference::sender::{Next, Sender, GIVE_UP};

impl Input<'_> {
    /// A sender's bytes, and the order's length.
    pub fn sender(&mut self) -> (Vec<u8>, usize) {
        let kind = self.byte();
        let k = self.length();
        let length = match self.byte() {
            0..=199 => 1 + self.below(5 * LENGTHS[3]),
            200..=230 => self.below(LONGEST + 1),
            _ => self.word() as usize,
        };
        let sender = Sender {
            k,
            length,
            newer: self.below(items(k.max(1), length) + 3),
            cancel_run: usize::from(self.byte()) % (GIVE_UP + 2),
            opening: self.flag(),
            next: [Next::Synchronising, Next::Older, Next::Newer][self.below(3)],
            finished: self.byte() % 8 == 7,
            marks: self.marks(),
        };
        let mut bytes = vec![0; SENDER_BYTES];
        store_sender(&sender, &mut bytes);
        (self.spoil(kind, bytes), length)
    }

    /// A receiver's bytes.
    pub fn receiver(&mut self) -> Vec<u8> {
        let kind = self.byte();
        let k = self.length();
        let search = self.byte().is_multiple_of(4);
        let most = if search {
            CHECK_BITS
        } else {
            block_bits(bounded_length(k))
        };
        let mut receiver = Receiver {
            k,
            search,
            array: [0; HELD_BYTES],
            held: match self.byte() {
                0..=127 => 0,
                _ => self.below(most + 1),
            },
            bad_row: usize::from(self.byte()) % (BAD_ROW_LIMIT + 1),
            return_bit: self.flag(),
            taken: match self.byte() {
                byte @ 0..=239 => usize::from(byte) % 9,
                _ => self.below(MOST_ITEMS + 2),
            },
            end_taken: self.byte() % 4 == 3,
            alarm: match self.byte() {
                254 => Some(Alarm::Sequence),
                255 => Some(Alarm::Length),
                _ => None,
            },
            marks: self.marks(),
        };
        receiver.array.copy_from_slice(&self.pattern(HELD_BYTES));
        let mut bytes = vec![0; RECEIVER_BYTES];
        store_receiver(&receiver, &mut bytes);
        self.spoil(kind, bytes)
    }

    /// What a state says of marks, the size mostly one of the four.
    fn marks(&mut self) -> Marks {
        Marks {
            in_use: self.flag(),
            size: match self.byte() {
                byte @ 0..=219 => CODE_SIZES[usize::from(byte) % 4],
                byte => usize::from(byte) - 220,
            },
        }
    }

    /// A state's bytes as they are, with some changed, with another length, or any bytes.
    fn spoil(&mut self, kind: u8, mut bytes: Vec<u8>) -> Vec<u8> {
        match kind {
            0..=179 => {}
            180..=219 => {
                // In the head, or in what follows all else, the marks.
                let place = self.below(HEAD_BYTES + MARKS_BYTES);
                let marks = bytes.len() - MARKS_BYTES;
                let place = place.checked_sub(HEAD_BYTES).map_or(place, |i| marks + i);
                bytes[place] = self.byte();
            }
            220..=239 => {
                let length = self.near(bytes.len());
                bytes.resize(length, 0x3C);
            }
            _ => bytes = self.lent(bytes.len()),
        }
        bytes
    }
}
