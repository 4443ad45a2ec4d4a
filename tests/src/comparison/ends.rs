//! Both ends of one line, period by period, in lockstep with the second implementation, and what
//! came of it: the machine's events, how the office ended and what the store holds.
//!
//! Every item of an order is filled with one byte, so that an order and a store are written as a
//! byte for each item.

use super::lockstep::{bad_name, BufferPair, Lockstep, ReceivingCall};
use super::marks::CodeSizes;
use super::{same, Difference, GuardedBuffer, Tally};
use crate::calls::{Line, Opening, ReceivingEnd, SendingEnd};
use crate::interface::{load_receiver, load_sender, RECEIVER_BYTES, SENDER_BYTES};
use crate::reference::bits::{pack, unpack, Bits};
use crate::reference::block::{block_bits, block_bytes, CHECK_BITS};
use crate::reference::receiver::{Event, Received, Receiver};
use crate::reference::sender::{Sender, Sent};
use crate::rng::Rng;
use std::mem;

/// What the store's bytes are before anything is stored.
const EMPTY: u8 = 0xEE;
/// The items that the store has room for.
const STORE_ITEMS: usize = 16;
/// More periods than any case here takes.
const MOST_PERIODS: usize = 1_000;

/// A step's, or a difference between what is expected and what came.
pub type Outcome = Result<(), Difference>;

pub type Course<'a, S, R> = fn(&mut Ends<'a, S, R>) -> Outcome;
/// A case: its name and its course.
pub type Case<'a, S, R> = (&'static str, Course<'a, S, R>);

/// Cases with the names of their functions.
macro_rules! cases {
    ($($case:ident),* $(,)?) => {
        [$((stringify!($case), Ends::$case as $crate::comparison::ends::Course<S, R>)),*]
    };
}
pub(super) use cases;

/// Runs each case on two ends of its own.
pub fn run_cases<'a, S: SendingEnd, R: ReceivingEnd>(
    calls: &'a Lockstep<'a, S, R>,
    k: usize,
    sizes: CodeSizes,
    cases: &[Case<'a, S, R>],
    tally: &mut Tally,
) -> Outcome {
    for (name, course) in cases {
        let run = Ends::new(calls, k, sizes).and_then(|mut ends| course(&mut ends));
        run.map_err(|difference| format!("{name}, k {k}, {sizes:?}: {difference}"))?;
        tally.count(name);
    }
    Ok(())
}

#[derive(Clone, Copy, Debug, PartialEq, Eq)]
pub enum Office {
    GoingOn,
    Finished,
    GaveUp,
}

/// What happens to a period.
#[derive(Clone, Copy, PartialEq, Eq)]
pub enum Period {
    Undisturbed,
    /// The first of the block's last sixteen bits is inverted.
    Damaged,
    /// The reading is 0 whatever the return bit is.
    Reads0,
    /// The reading is 1 whatever the return bit is.
    Reads1,
}

pub struct Ends<'a, S, R> {
    calls: &'a Lockstep<'a, S, R>,
    rng: Rng,
    /// The office's, and the machine's unless `machine_k` says otherwise.
    pub k: usize,
    machine_k: usize,
    /// The office is the sender, the machine the receiver.
    sizes: CodeSizes,
    order: Vec<u8>,
    sender: BufferPair,
    receiver: BufferPair,
    store: BufferPair,
    /// The machine is not ready. If it is, calls are tried as busy ones first, at random.
    pub busy: bool,
    /// All but *none*, *bad* by its remainder; an alarm that stands once.
    events: Vec<&'static str>,
}

impl<'a, S: SendingEnd, R: ReceivingEnd> Ends<'a, S, R> {
    /// The machine is opened, the office is not yet.
    pub fn new(
        calls: &'a Lockstep<'a, S, R>,
        k: usize,
        sizes: CodeSizes,
    ) -> Result<Ends<'a, S, R>, Difference> {
        let bytes = |length| BufferPair::new(GuardedBuffer::filled(EMPTY, length));
        let mut ends = Ends {
            calls,
            rng: Rng::new(k as u64),
            k,
            machine_k: k,
            sizes,
            order: Vec::new(),
            sender: bytes(SENDER_BYTES),
            receiver: bytes(RECEIVER_BYTES),
            store: bytes(STORE_ITEMS * k / 8),
            busy: false,
            events: Vec::new(),
        };
        ends.open_machine()?;
        Ok(ends)
    }

    /// The machine is opened with a k of its own, and has a store of so many of its items.
    pub fn open_machine_with(&mut self, k: usize, items: usize) -> Outcome {
        self.machine_k = k;
        self.store = BufferPair::new(GuardedBuffer::filled(EMPTY, items * k / 8));
        self.open_machine()
    }

    /// The bytes of these items, each filled with its own byte.
    pub fn filled(&self, items: &[u8]) -> Vec<u8> {
        let bytes = items.iter().flat_map(|&byte| vec![byte; self.k / 8]);
        bytes.collect()
    }

    /// The office is opened with an order of these items.
    pub fn open_office(&mut self, items: &[u8]) -> Outcome {
        self.open_office_with(self.filled(items))
    }

    /// The office is opened with these bytes as its order.
    pub fn open_office_with(&mut self, order: Vec<u8>) -> Outcome {
        self.order = order;
        let opening = Opening {
            k: self.k,
            speed: 200,
            loop_ms: 0,
            length: 8 * self.order.len(),
            code_size: self.sizes.sender,
        };
        let refused = self
            .calls
            .open_sender(opening, &self.order, &mut self.sender)?;
        same(&|| String::from("opening the office"), &0, &refused)
    }

    /// The machine is opened, the store stays as it is.
    pub fn open_machine(&mut self) -> Outcome {
        let size = self.sizes.receiver;
        let k = self.machine_k;
        let refused = self.calls.open_receiver(k, size, &mut self.receiver)?;
        same(&|| String::from("opening the machine"), &0, &refused)
    }

    pub fn sender(&self) -> Sender {
        load_sender(self.sender.slice()).expect("a state that a call handed back")
    }

    pub fn receiver(&self) -> Receiver {
        load_receiver(self.receiver.slice()).expect("a state that a call handed back")
    }

    /// A sending call, and receiving calls until all bits of its block are used.
    pub fn period(&mut self, period: Period) -> Outcome {
        let reading = match period {
            Period::Reads0 => false,
            Period::Reads1 => true,
            Period::Undisturbed | Period::Damaged => self.receiver().return_bit,
        };
        let mut bits = self.send(reading)?;
        let first_check_bit = bits.len() - CHECK_BITS;
        bits[first_check_bit] ^= period == Period::Damaged;
        self.receive_all(bits)
    }

    /// So many undisturbed periods.
    pub fn periods(&mut self, count: usize) -> Outcome {
        (0..count).try_for_each(|_| self.period(Period::Undisturbed))
    }

    /// A sending call; the bits of its block.
    pub fn send(&mut self, reading: bool) -> Result<Bits, Difference> {
        let mut place = BufferPair::new(GuardedBuffer::filled(EMPTY, block_bytes(self.k)));
        let sent = self
            .calls
            .send(&mut self.sender, &self.order, reading, &mut place)?;
        assert!(!matches!(sent, Sent::Refused(_)), "{sent:?}");
        Ok(unpack(place.slice(), 0, block_bits(self.k)))
    }

    /// Receiving calls until all these bits are used.
    pub fn receive_all(&mut self, mut bits: Bits) -> Outcome {
        while !bits.is_empty() {
            let used = self.receive(&bits)?;
            bits.drain(..used);
        }
        Ok(())
    }

    /// One receiving call; the number of bits used. A block that waits where the machine was only
    /// tried as busy is lent again, to the machine as it was.
    pub fn receive(&mut self, bits: &[bool]) -> Result<usize, Difference> {
        let stood = self.receiver().alarm.is_some();
        let before = (self.receiver.clone(), self.store.clone());
        let ready = !self.busy && self.rng.bit();
        let (mut event, mut used) = self.call(bits, ready)?;
        if event == Event::Wait && !self.busy {
            (self.receiver, self.store) = before;
            (event, used) = self.call(bits, true)?;
        }
        if !stood && event != Event::None {
            self.events.push(match event {
                Event::Bad(remainder) => bad_name(remainder),
                _ => event.name(),
            });
        }
        Ok(used)
    }

    /// One receiving call that is not refused.
    fn call(&mut self, bits: &[bool], ready: bool) -> Result<(Event, usize), Difference> {
        match self.lend(bits, ready)? {
            Received::Reported { event, used } => Ok((event, used)),
            received @ Received::Refused(_) => panic!("{received:?}"),
        }
    }

    /// One receiving call with the whole store or, if the machine is busy, with any part of it.
    pub fn lend(&mut self, bits: &[bool], ready: bool) -> Result<Received, Difference> {
        let whole = self.store.slice().len();
        let short = (self.receiver().taken + 1) * self.machine_k / 8 - 1;
        let lent = match ready {
            true => whole,
            false => self.rng.pick(&[whole, short.min(whole), 0]),
        };
        let call = ReceivingCall {
            line: Line {
                bytes: &pack(bits),
                bits: bits.len(),
            },
            ready,
            lent,
            remainder: self.rng.number(),
        };
        self.calls
            .receive(&mut self.receiver, &mut self.store, call)
    }

    /// Undisturbed periods until this event has come.
    pub fn until(&mut self, event: &str) -> Outcome {
        let before = self.events.len();
        for _ in 0..MOST_PERIODS {
            if self.events[before..].contains(&event) {
                return Ok(());
            }
            self.period(Period::Undisturbed)?;
        }
        Err(format!("no {event} in {MOST_PERIODS} periods"))
    }

    /// Undisturbed periods until the office rests.
    pub fn until_rest(&mut self) -> Outcome {
        for _ in 0..MOST_PERIODS {
            if self.sender().rests() {
                return Ok(());
            }
            self.period(Period::Undisturbed)?;
        }
        Err(format!("no rest in {MOST_PERIODS} periods"))
    }

    /// How the office stands.
    pub fn office(&self) -> Office {
        let sender = self.sender();
        match (sender.finished, sender.gave_up()) {
            (true, _) => Office::Finished,
            (_, true) => Office::GaveUp,
            _ => Office::GoingOn,
        }
    }

    /// The events since the last time.
    pub fn take_events(&mut self) -> Vec<&'static str> {
        mem::take(&mut self.events)
    }

    pub fn store(&self) -> &[u8] {
        self.store.slice()
    }

    /// What came since the last time: the events, how the office stands, the items stored.
    pub fn expect(&mut self, events: &[&str], office: Office, items: &[u8]) -> Outcome {
        self.expect_stored(events, office, self.filled(items))
    }

    /// The same with the bytes stored.
    pub fn expect_stored(&mut self, events: &[&str], office: Office, bytes: Vec<u8>) -> Outcome {
        let case = || String::from("what came of it");
        let came = self.take_events();
        same(&case, &events, &&came[..])?;
        same(&case, &office, &self.office())?;
        let mut stored = bytes;
        stored.resize(self.store().len(), EMPTY);
        same(&case, &&stored[..], &self.store())
    }
}
