//! docs/PROTOCOL.md, "Sending": opening a sender and one sending call.

use super::bits::pack;
use super::block::{block_bytes, cancel, is_length, synchronising_block};
use super::loop_time::test_loop;
use super::marks::Marks;
use super::order::{is_order_length, item_block, items, LONGEST};
use super::refusal::{Refusal, EMPTY, LONG, REST, SHORT, SPOILED};

/// The run of cancels at which the sender gives up.
pub const GIVE_UP: usize = 64;
/// The run of cancels from which on a synchronising block comes next.
pub const RESYNCHRONISE: usize = 4;

/// What the next call sends, if the sender is not at rest.
#[derive(Clone, Copy, Debug, PartialEq, Eq)]
pub enum Next {
    Synchronising,
    Older,
    Newer,
}

/// A sender's state. The older item is the one before `newer`.
#[derive(Clone, Debug, PartialEq, Eq)]
pub struct Sender {
    pub k: usize,
    pub length: usize,
    pub marks: Marks,
    pub newer: usize,
    /// The run of cancels; 64 is how a sender has given up.
    pub cancel_run: usize,
    pub opening: bool,
    pub next: Next,
    pub finished: bool,
}

/// What a sending call answers.
#[derive(Clone, Copy, Debug, PartialEq, Eq)]
pub enum Sent {
    Synchronising,
    Item {
        item: usize,
        end: bool,
        /// Whether the reading was used.
        used: bool,
        cancelled: bool,
    },
    Refused(Refusal),
}

impl Sent {
    pub fn is_cancelled(self) -> bool {
        matches!(
            self,
            Sent::Item {
                cancelled: true,
                ..
            }
        )
    }
}

/// Opens a sender; refusals in the order 1, 2, 3, 4, 5, 9, 6.
pub fn open(
    k: usize,
    speed: usize,
    loop_ms: usize,
    length: usize,
    code_size: Option<usize>,
    order: &[u8],
) -> Result<Sender, Refusal> {
    test_loop(k, speed, loop_ms)?;
    if length == 0 {
        return Err(EMPTY);
    }
    if length > LONGEST {
        return Err(LONG);
    }
    let marks = Marks::open(code_size)?;
    if 8 * order.len() < length {
        return Err(SHORT);
    }
    Ok(Sender {
        k,
        length,
        marks,
        newer: 1,
        cancel_run: 0,
        opening: true,
        next: Next::Synchronising,
        finished: false,
    })
}

impl Sender {
    /// Sends one block; refusals in the order 7, 8, 6.
    pub fn send(mut self, order: &[u8], reading: bool, block: &mut [u8]) -> (Sender, Sent) {
        if let Err(refusal) = self.judge(order, block) {
            return (self, Sent::Refused(refusal));
        }
        let (k, length, marks) = (self.k, self.length, self.marks);
        let item = match self.next {
            Next::Older => self.newer - 1,
            _ => self.newer,
        };
        let sent = self.step(item, reading);
        let mut bits = match sent {
            Sent::Synchronising => synchronising_block(k),
            _ => item_block(marks, k, length, order, item),
        };
        if sent.is_cancelled() {
            cancel(&mut bits);
        }
        block[..block_bytes(k)].copy_from_slice(&pack(&bits));
        (self, sent)
    }

    /// Whether no further block will be sent.
    pub fn rests(&self) -> bool {
        self.finished || self.gave_up()
    }

    pub fn gave_up(&self) -> bool {
        self.cancel_run == GIVE_UP
    }

    fn judge(&self, order: &[u8], block: &[u8]) -> Result<(), Refusal> {
        if self.is_spoiled() {
            return Err(SPOILED);
        }
        if self.rests() {
            return Err(REST);
        }
        if 8 * order.len() < self.length || block.len() < block_bytes(self.k) {
            return Err(SHORT);
        }
        Ok(())
    }

    /// Whether a field is outside its range.
    pub fn is_spoiled(&self) -> bool {
        !is_length(self.k)
            || !is_order_length(self.length)
            || self.marks.are_spoiled()
            || self.newer < 1
            || self.newer > items(self.k, self.length) + 1
            || self.cancel_run > GIVE_UP
    }

    /// One step of the sender, whose next block is a synchronising one or `item`.
    fn step(&mut self, item: usize, reading: bool) -> Sent {
        let used = self.next == Next::Newer;
        if self.next == Next::Synchronising {
            self.next = Next::Older;
            return Sent::Synchronising;
        }
        let end = item >= items(self.k, self.length);
        match (used, reading) {
            (false, _) => self.next = Next::Newer,
            (true, false) => self.move_pair_up(),
            (true, true) => self.count_cancel(),
        }
        Sent::Item {
            item,
            end,
            used,
            cancelled: used && reading,
        }
    }

    /// Newer, reading 0.
    fn move_pair_up(&mut self) {
        self.cancel_run = 0;
        self.opening = false;
        if self.newer == items(self.k, self.length) + 1 {
            self.finished = true;
        } else {
            self.newer += 1;
        }
    }

    /// Newer, reading 1.
    fn count_cancel(&mut self) {
        self.cancel_run += 1;
        self.next = match self.opening || self.cancel_run >= RESYNCHRONISE {
            true => Next::Synchronising,
            false => Next::Older,
        };
    }
}
