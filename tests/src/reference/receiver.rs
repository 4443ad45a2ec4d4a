//! docs/PROTOCOL.md, "Receiving": opening a receiver and one receiving call, bit by bit.

use super::bits::{bit_at, bits_of, number, pack, set_bit, unpack};
use super::block::{block_bits, is_length, is_synchronising, remainder};
use super::block::{CHECK_BITS, END, SEQUENCE, SERVICE_BITS};
use super::marks::Marks;
use super::order::{end_fields, fits_end, is_letter, is_service_of, MOST_ITEMS};
use super::refusal::{Refusal, BLOCK, SHORT, SPOILED};

/// The bytes that hold one unfinished block, at most 3,860 bits.
pub const HELD_BYTES: usize = 483;
/// The bad row, the number of *bad* in a row, that starts a search.
pub const BAD_ROW_LIMIT: usize = 8;

#[derive(Clone, Copy, Debug, PartialEq, Eq)]
pub enum Alarm {
    Sequence,
    Length,
}

impl Alarm {
    /// The event that reports it.
    pub fn event(self) -> Event {
        match self {
            Alarm::Sequence => Event::SequenceAlarm,
            Alarm::Length => Event::LengthAlarm,
        }
    }
}

/// A receiver's state.
#[derive(Clone, Debug, PartialEq, Eq)]
pub struct Receiver {
    pub k: usize,
    pub marks: Marks,
    pub search: bool,
    /// The bits held come first in the array.
    pub array: [u8; HELD_BYTES],
    pub held: usize,
    /// The number of *bad* in a row.
    pub bad_row: usize,
    pub return_bit: bool,
    /// r, the number of items taken so far.
    pub taken: usize,
    pub end_taken: bool,
    pub alarm: Option<Alarm>,
}

#[derive(Clone, Copy, Debug, PartialEq, Eq)]
pub enum Event {
    None,
    Sync,
    /// The remainder of the n bits: 0 by rule 7.
    Bad(u16),
    Accepted,
    Previous,
    /// The end, with the L reported.
    Ended(usize),
    SequenceAlarm,
    LengthAlarm,
    /// The block would be accepted or ended, and the machine is not ready.
    Wait,
}

impl Event {
    /// Its name in docs/PROTOCOL.md.
    pub fn name(self) -> &'static str {
        match self {
            Event::None => "none",
            Event::Sync => "sync",
            Event::Bad(_) => "bad",
            Event::Accepted => "accepted",
            Event::Previous => "previous",
            Event::Ended(_) => "ended",
            Event::SequenceAlarm => "sequence alarm",
            Event::LengthAlarm => "length alarm",
            Event::Wait => "wait",
        }
    }
}

/// What a receiving call answers.
#[derive(Clone, Copy, Debug, PartialEq, Eq)]
pub enum Received {
    Reported { event: Event, used: usize },
    Refused(Refusal),
}

/// Opens a receiver; refusals in the order 1, 9.
pub fn open(k: usize, code_size: Option<usize>) -> Result<Receiver, Refusal> {
    if !is_length(k) {
        return Err(BLOCK);
    }
    let marks = Marks::open(code_size)?;
    Ok(Receiver {
        k,
        marks,
        search: true,
        array: [0; HELD_BYTES],
        held: 0,
        bad_row: 0,
        return_bit: true,
        taken: 0,
        end_taken: false,
        alarm: None,
    })
}

impl Receiver {
    /// Takes in line bits up to the next event or to the last; refusals in the order 7, 6. `ready` says
    /// whether the machine can take a block that these bits complete.
    pub fn receive(
        self,
        line: &[u8],
        bits: usize,
        ready: bool,
        store: &mut [u8],
    ) -> (Receiver, Received) {
        if self.is_spoiled() {
            return (self, Received::Refused(SPOILED));
        }
        if 8 * line.len() < bits {
            return (self, Received::Refused(SHORT));
        }
        if bits == 0 || self.alarm.is_some() {
            return self.alarm_or_none(bits);
        }
        let mut state = self.clone();
        for i in 0..bits {
            match state.take_bit(bit_at(line, i), ready, store) {
                Ok(Event::None) => {}
                Ok(event) => return (state, Received::Reported { event, used: i + 1 }),
                Err(refusal) => return (self, Received::Refused(refusal)),
            }
        }
        let event = Event::None;
        (state, Received::Reported { event, used: bits })
    }

    /// Whether a field is outside its range.
    pub fn is_spoiled(&self) -> bool {
        !is_length(self.k)
            || self.marks.are_spoiled()
            || self.bad_row >= BAD_ROW_LIMIT
            || self.held >= block_bits(self.k)
            || (self.search && self.held >= CHECK_BITS)
            || self.taken > MOST_ITEMS
    }

    /// No bits, or a standing alarm, under which all bits are used and the return bit is 1.
    fn alarm_or_none(mut self, bits: usize) -> (Receiver, Received) {
        let event = self.alarm.map_or(Event::None, Alarm::event);
        if bits > 0 {
            self.return_bit = true;
            self.bad_row = 0;
        }
        (self, Received::Reported { event, used: bits })
    }

    /// One bit, with no alarm standing. The state after a refusal is not used.
    fn take_bit(&mut self, bit: bool, ready: bool, store: &mut [u8]) -> Result<Event, Refusal> {
        if self.search {
            return Ok(self.search_bit(bit));
        }
        set_bit(&mut self.array, self.held, bit);
        self.held += 1;
        if self.held < block_bits(self.k) {
            return Ok(Event::None);
        }
        self.judge(ready, store)
    }

    /// *Search:* the latest bits, at most 15, are held at the array's start, zero behind them.
    fn search_bit(&mut self, bit: bool) -> Event {
        let mut latest = unpack(&self.array, 0, self.held);
        latest.push(bit);
        if latest == bits_of(SEQUENCE, CHECK_BITS) {
            return self.synchronise();
        }
        if latest.len() == CHECK_BITS {
            latest.remove(0);
        }
        self.held = latest.len();
        latest.resize(CHECK_BITS, false);
        self.array[..2].copy_from_slice(&pack(&latest));
        self.return_bit = true;
        Event::None
    }

    /// *In step,* at the n-th bit: rules 1 to 7.
    fn judge(&mut self, ready: bool, store: &mut [u8]) -> Result<Event, Refusal> {
        let block = unpack(&self.array, 0, block_bits(self.k));
        let service = number(&block[..SERVICE_BITS]) as u8;
        let payload = &block[SERVICE_BITS..SERVICE_BITS + self.k];
        let marks = self.marks;
        let is_item = |item| is_service_of(marks, item, service);
        let may_accept = self.taken < MOST_ITEMS && !self.end_taken;
        let may_repeat = self.taken >= 1 && !self.end_taken;
        if is_synchronising(&block) {
            return Ok(self.synchronise());
        }
        let remainder = remainder(&block);
        Ok(if remainder != 0 {
            self.bad(remainder)
        } else if may_accept && is_item(self.taken) {
            return self.accept(payload, ready, store);
        } else if may_repeat && is_item(self.taken - 1) {
            self.return_zero(Event::Previous)
        } else if is_item(self.taken + 1) || self.end_taken && is_letter(service) {
            self.raise_alarm(Alarm::Sequence)
        } else if service == END {
            self.end(payload, ready)
        } else {
            self.anything_else()
        })
    }

    /// Rule 1, and the end of a search.
    fn synchronise(&mut self) -> Event {
        self.search = false;
        self.return_zero(Event::Sync)
    }

    /// Rule 2, and the first half of rule 7.
    fn bad(&mut self, remainder: u16) -> Event {
        self.clear_held();
        self.return_bit = true;
        self.bad_row += 1;
        if self.bad_row == BAD_ROW_LIMIT {
            self.start_search();
        }
        Event::Bad(remainder)
    }

    /// Rule 3. The store is judged here alone, and only if the machine is ready.
    fn accept(
        &mut self,
        payload: &[bool],
        ready: bool,
        store: &mut [u8],
    ) -> Result<Event, Refusal> {
        if !ready {
            return Ok(self.return_one(Event::Wait));
        }
        let first = self.taken * self.k;
        if 8 * store.len() < first + self.k {
            return Err(SHORT);
        }
        for (i, &bit) in payload.iter().enumerate() {
            set_bit(store, first + i, bit);
        }
        self.taken += 1;
        Ok(self.return_zero(Event::Accepted))
    }

    /// Rule 6.
    fn end(&mut self, payload: &[bool], ready: bool) -> Event {
        if self.end_taken {
            return self.return_zero(Event::Previous);
        }
        let (version, length) = end_fields(payload);
        if !fits_end(self.k, version, length, self.taken) {
            return self.raise_alarm(Alarm::Length);
        }
        if !ready {
            return self.return_one(Event::Wait);
        }
        self.end_taken = true;
        self.return_zero(Event::Ended(length))
    }

    /// Rule 7.
    fn anything_else(&mut self) -> Event {
        let event = self.bad(0);
        if self.taken == 0 {
            self.start_search();
        }
        event
    }

    fn start_search(&mut self) {
        self.search = true;
        self.bad_row = 0;
    }

    /// An event with return bit 0.
    fn return_zero(&mut self, event: Event) -> Event {
        self.clear_held();
        self.bad_row = 0;
        self.return_bit = false;
        event
    }

    /// An event other than *bad* with return bit 1.
    fn return_one(&mut self, event: Event) -> Event {
        self.clear_held();
        self.bad_row = 0;
        self.return_bit = true;
        event
    }

    fn raise_alarm(&mut self, alarm: Alarm) -> Event {
        self.alarm = Some(alarm);
        self.return_one(alarm.event())
    }

    /// A block is finished: nothing is held.
    fn clear_held(&mut self) {
        self.array = [0; HELD_BYTES];
        self.held = 0;
    }
}
