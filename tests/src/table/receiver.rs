//! The table-driven sibling of the receiving call: bytes are moved, not bits, while it is in step.

use super::{are_spoiled, check_bits, copy_payload, is_length, remainder};
use super::{END, LETTERS, LONGEST, MARKS, MOST_ITEMS, SHORT, SPOILED, VERSION};
use crate::reference::marks::Marks;
use crate::reference::receiver::{self, Alarm, Event, Received};

const HELD_BYTES: usize = 483;
const BAD_ROW_LIMIT: usize = 8;
const SYNCHRONISING: u8 = 0b0101;
const SEQUENCE: u16 = 0x50A5;

#[derive(Clone, Copy, Debug, PartialEq, Eq)]
pub struct Receiver {
    pub k: usize,
    pub marks: Marks,
    pub held: usize,
    pub bad_row: usize,
    pub taken: usize,
    pub search: bool,
    pub return_bit: bool,
    pub end_taken: bool,
    pub alarm: Option<Alarm>,
    pub array: [u8; HELD_BYTES],
}

/// Whose service bits a block has: those of item r, of the item before it or behind it, or of none.
enum Place {
    Expected,
    Last,
    Behind,
    Nowhere,
}

impl From<receiver::Receiver> for Receiver {
    fn from(state: receiver::Receiver) -> Receiver {
        Receiver {
            k: state.k,
            marks: state.marks,
            held: state.held,
            bad_row: state.bad_row,
            taken: state.taken,
            search: state.search,
            return_bit: state.return_bit,
            end_taken: state.end_taken,
            alarm: state.alarm,
            array: state.array,
        }
    }
}

impl From<Receiver> for receiver::Receiver {
    fn from(state: Receiver) -> receiver::Receiver {
        receiver::Receiver {
            k: state.k,
            marks: state.marks,
            search: state.search,
            array: state.array,
            held: state.held,
            bad_row: state.bad_row,
            return_bit: state.return_bit,
            taken: state.taken,
            end_taken: state.end_taken,
            alarm: state.alarm,
        }
    }
}

impl Receiver {
    /// Takes in line bits up to the next event or to the last; the state is taken by value and
    /// handed back, as the rules have each step.
    #[inline(never)]
    pub fn receive(
        mut self,
        line: &[u8],
        bits: usize,
        ready: bool,
        store: &mut [u8],
    ) -> (Receiver, Received) {
        let received = self.receive_in_place(line, bits, ready, store);
        (self, received)
    }

    /// The same on a state that stays where it is. Refusals in the order 7, 6.
    #[inline(never)]
    pub fn receive_in_place(
        &mut self,
        line: &[u8],
        bits: usize,
        ready: bool,
        store: &mut [u8],
    ) -> Received {
        if self.is_spoiled() {
            return Received::Refused(SPOILED);
        }
        if line.len() < bits.div_ceil(8) {
            return Received::Refused(SHORT);
        }
        if bits == 0 || self.alarm.is_some() {
            return self.alarm_or_none(bits);
        }
        if self.search {
            return self.search_bits(line, bits);
        }
        let missing = self.k + 20 - self.held;
        if bits < missing {
            copy_bits(&mut self.array, self.held, line, bits);
            self.held += bits;
            return reported(Event::None, bits);
        }
        match self.finish(line, missing, ready, store) {
            Ok(event) => reported(event, missing),
            Err(refusal) => Received::Refused(refusal),
        }
    }

    /// The missing bits are in the line. A block that is whole there is judged there; another is
    /// finished in a copy, since a refusal leaves the array as it was.
    fn finish(
        &mut self,
        line: &[u8],
        missing: usize,
        ready: bool,
        store: &mut [u8],
    ) -> Result<Event, u8> {
        let bytes = self.k / 8 + 3;
        if self.held == 0 {
            return self.judge(&line[..bytes], ready, store);
        }
        let mut block = self.array;
        copy_bits(&mut block, self.held, line, missing);
        self.judge(&block[..bytes], ready, store)
    }

    fn is_spoiled(&self) -> bool {
        let limit = if self.search { 16 } else { self.k + 20 };
        !is_length(self.k)
            || are_spoiled(self.marks)
            || self.held >= limit
            || self.bad_row >= BAD_ROW_LIMIT
            || self.taken > MOST_ITEMS
    }

    /// No bits, or an alarm that stands.
    fn alarm_or_none(&mut self, bits: usize) -> Received {
        let event = match self.alarm {
            None => Event::None,
            Some(alarm) => alarm.event(),
        };
        if bits > 0 {
            self.return_bit = true;
            self.bad_row = 0;
        }
        reported(event, bits)
    }

    /// Search over a 16-bit window.
    fn search_bits(&mut self, line: &[u8], bits: usize) -> Received {
        let start = u32::from(self.array[0]) << 8 | u32::from(self.array[1]);
        let mut window = (start >> (16 - self.held)) as u16;
        let mut count = self.held;
        for i in 0..bits {
            window = window << 1 | u16::from(line[i / 8] >> (7 - i % 8) & 1);
            count += 1;
            if count >= 16 && window == SEQUENCE {
                self.search = false;
                let event = self.return_zero(Event::Sync);
                return reported(event, i + 1);
            }
        }
        self.held = count.min(15);
        let latest = window << (16 - self.held);
        self.array[..2].copy_from_slice(&latest.to_be_bytes());
        self.return_bit = true;
        reported(Event::None, bits)
    }

    /// Rules 1 to 7 on a whole packed block. A refusal leaves the state as it was.
    fn judge(&mut self, block: &[u8], ready: bool, store: &mut [u8]) -> Result<Event, u8> {
        let service = block[0] >> 4;
        if service == SYNCHRONISING && check_bits(block) == SEQUENCE {
            return Ok(self.return_zero(Event::Sync));
        }
        let remainder = remainder(block);
        if remainder != 0 {
            return Ok(self.bad(remainder));
        }
        if service == END {
            return Ok(self.end(block, ready));
        }
        match self.place(service) {
            Place::Expected if !ready => Ok(self.return_one(Event::Wait)),
            Place::Expected => self.accept(block, store),
            Place::Last => Ok(self.return_zero(Event::Previous)),
            Place::Behind => Ok(self.raise_alarm(Alarm::Sequence)),
            Place::Nowhere => Ok(self.fits_nowhere()),
        }
    }

    /// By the distance from item r, in threes; with marks the letters begin one item later.
    #[inline]
    fn place(&self, service: u8) -> Place {
        let first = usize::from(self.marks.in_use);
        let Some(letter) = LETTERS.iter().position(|&letter| letter == service) else {
            return self.place_of_mark(service);
        };
        match (letter + first + 3 - self.taken % 3) % 3 {
            _ if self.end_taken => Place::Behind,
            0 if self.taken >= first && self.taken < MOST_ITEMS => Place::Expected,
            1 => Place::Behind,
            2 if self.taken > first => Place::Last,
            _ => Place::Nowhere,
        }
    }

    #[inline]
    fn place_of_mark(&self, service: u8) -> Place {
        let known = self.marks.in_use && MARKS.contains(&service);
        match self.taken {
            0 if known && !self.end_taken => Place::Expected,
            1 if known && !self.end_taken => Place::Last,
            _ => Place::Nowhere,
        }
    }

    fn fits_nowhere(&mut self) -> Event {
        let event = self.bad(0);
        if self.taken == 0 {
            self.start_search();
        }
        event
    }

    fn accept(&mut self, block: &[u8], store: &mut [u8]) -> Result<Event, u8> {
        let bytes = self.k / 8;
        let first = self.taken * bytes;
        let Some(place) = store.get_mut(first..first + bytes) else {
            return Err(SHORT);
        };
        copy_payload(block, place);
        self.taken += 1;
        Ok(self.return_zero(Event::Accepted))
    }

    fn end(&mut self, block: &[u8], ready: bool) -> Event {
        if self.end_taken {
            return self.return_zero(Event::Previous);
        }
        let mut fields = [0; 5];
        copy_payload(block, &mut fields);
        let [version, a, b, c, d] = fields;
        let length = u32::from_be_bytes([a, b, c, d]) as usize;
        let fits = (1..=LONGEST).contains(&length) && length.div_ceil(self.k) == self.taken;
        if version != VERSION || !fits {
            return self.raise_alarm(Alarm::Length);
        }
        if !ready {
            return self.return_one(Event::Wait);
        }
        self.end_taken = true;
        self.return_zero(Event::Ended(length))
    }

    fn bad(&mut self, remainder: u16) -> Event {
        self.clear_held();
        self.return_bit = true;
        self.bad_row += 1;
        if self.bad_row == BAD_ROW_LIMIT {
            self.start_search();
        }
        Event::Bad(remainder)
    }

    fn start_search(&mut self) {
        (self.search, self.bad_row) = (true, 0);
    }

    /// An event with return bit 0.
    fn return_zero(&mut self, event: Event) -> Event {
        self.clear_held();
        self.bad_row = 0;
        self.return_bit = false;
        event
    }

    /// An event other than *bad* with return bit 1.
    fn return_one(&mut self, event: Event) -> Event {
        self.clear_held();
        self.bad_row = 0;
        self.return_bit = true;
        event
    }

    fn raise_alarm(&mut self, alarm: Alarm) -> Event {
        self.alarm = Some(alarm);
        self.return_one(alarm.event())
    }

    fn clear_held(&mut self) {
        self.array = [0; HELD_BYTES];
        self.held = 0;
    }
}

#[inline]
fn reported(event: Event, used: usize) -> Received {
    Received::Reported { event, used }
}

/// Writes the first `count` bits of `line` over the bits of `array` from `at` on.
#[inline]
fn copy_bits(array: &mut [u8], at: usize, line: &[u8], count: usize) {
    let (whole, rest) = (count / 8, count % 8);
    let (first, shift) = (at / 8, at % 8);
    if shift == 0 {
        array[first..first + whole].copy_from_slice(&line[..whole]);
    } else if whole > 0 {
        copy_shifted(&mut array[first..=first + whole], shift, &line[..whole]);
    }
    if rest > 0 {
        copy_rest(array, at + 8 * whole, line[whole], rest);
    }
}

/// Writes bytes from bit `shift`, 1 to 7, on; the target has one byte more than they.
#[inline]
fn copy_shifted(target: &mut [u8], shift: usize, bytes: &[u8]) {
    let below = 0xFF >> shift;
    let mut above = target[0] & !below;
    for (out, &byte) in target.iter_mut().zip(bytes) {
        *out = above | byte >> shift;
        above = byte << (8 - shift);
    }
    let last = &mut target[bytes.len()];
    *last = above | *last & below;
}

/// Writes the first `count` bits, 1 to 7, of a byte over the bits from `at` on.
#[inline]
fn copy_rest(array: &mut [u8], at: usize, byte: u8, count: usize) {
    let (place, shift) = (at / 8, at % 8);
    let mask = 0xFFFF << (16 - count) >> shift;
    let bits = u16::from(byte) << 8 >> shift & mask;
    let ([near, far], [high, low]) = (mask.to_be_bytes(), bits.to_be_bytes());
    array[place] = array[place] & !near | high;
    if far != 0 {
        array[place + 1] = array[place + 1] & !far | low;
    }
}
