//! Demand 3 along one list of calls: what it supposes of the line, and what it then claims.
//!
//! The list is given call by call. While every supposition has held so far, every claim is checked
//! after each call; from the first one that breaks, nothing is claimed.

use crate::damage::{invert, is_admitted};
use crate::reference::bits::{pack, Bits};
use crate::reference::block::{block_bits, block_bytes, cancel, passes};
use crate::reference::order::{item_payload, items};
use crate::reference::receiver::{Event, Received, Receiver};
use crate::reference::refusal::{REST, SHORT};
use crate::reference::sender::{Sender, Sent};

/// What demand 3 supposes of a list.
#[derive(Clone, Copy, Debug, PartialEq, Eq)]
pub enum Supposition {
    /// Damage is nothing, an odd number of bits, or bits within 16 adjacent places, against the
    /// block before cancelling.
    Damage,
    /// No cancelled block arrives whole.
    CancelledWhole,
    /// Nothing else passes for a synchronising block.
    OnlySynchronising,
    /// Nor a synchronising block for data or end.
    NeverData,
    /// Between two lost requests the machine reads at least one good block; a waiting block is none.
    GoodBlock,
}

/// A claim that does not hold, as demand 3 states it.
pub type Failure = String;

/// A sending call; `block` and `arrives` are empty if it is refused.
pub struct Sending<'a> {
    pub before: &'a Sender,
    pub after: &'a Sender,
    pub sent: Sent,
    /// The bytes lent: the order's and the block's.
    pub order_bytes: usize,
    pub block_bytes: usize,
    pub reading: bool,
    /// The receiver at this call.
    pub receiver: &'a Receiver,
    pub block: &'a [bool],
    /// The block's copy with its damage.
    pub arrives: &'a [bool],
}

/// A receiving call.
pub struct Receiving<'a> {
    pub received: Received,
    pub bits: usize,
    pub line_bytes: usize,
    /// Whether the machine is ready.
    pub ready: bool,
    /// The store lent, as the call left it.
    pub store: &'a [u8],
}

/// A block period.
struct Period {
    synchronising: bool,
    undisturbed: bool,
    /// Whether the block is read in step if its bits are all used.
    in_step: bool,
    passes: bool,
    used: usize,
    /// It brought a new block or the end.
    progress: bool,
    /// Its block waits.
    waits: bool,
}

/// A list of calls so far.
pub struct Delivery {
    k: usize,
    length: usize,
    /// The order with its zero filling.
    filled_order: Vec<u8>,
    /// The store as first lent.
    initial_store: Vec<u8>,
    /// r: the number of *accepted* in the list.
    accepted: usize,
    ended: bool,
    alarmed: bool,
    finished: bool,
    gave_up: bool,
    lost_requests: usize,
    /// Whether a good block was read since the last loss.
    good_since_loss: bool,
    /// Undisturbed periods in a row that brought neither a new block nor the end.
    without_progress: usize,
    period: Option<Period>,
    broken: Option<Supposition>,
}

impl Delivery {
    /// Both ends have just been opened, and alike: with the same k, and with marks at both or at
    /// neither. The code sizes need not agree.
    pub fn new(sender: &Sender, receiver: &Receiver, order: &[u8], store: &[u8]) -> Delivery {
        assert_eq!(sender.k, receiver.k);
        assert_eq!(sender.marks.in_use, receiver.marks.in_use);
        let (k, length) = (sender.k, sender.length);
        let filled_order: Bits = (0..items(k, length))
            .flat_map(|item| item_payload(k, length, order, item))
            .collect();
        assert!(
            8 * store.len() >= filled_order.len(),
            "a store of N times k bits"
        );
        Delivery {
            k,
            length,
            filled_order: pack(&filled_order),
            initial_store: store.to_vec(),
            accepted: 0,
            ended: false,
            alarmed: false,
            finished: false,
            gave_up: false,
            lost_requests: 0,
            good_since_loss: false,
            without_progress: 0,
            period: None,
            broken: None,
        }
    }

    /// The supposition that broke first, if any did.
    pub fn broken(&self) -> Option<Supposition> {
        self.broken
    }

    /// The number of lost requests.
    pub fn lost_requests(&self) -> usize {
        self.lost_requests
    }

    /// Whether the end was reported.
    pub fn ended(&self) -> bool {
        self.ended
    }

    pub fn after_sending(&mut self, call: &Sending) -> Result<(), Failure> {
        if self.broken.is_some() {
            return Ok(());
        }
        if let Sent::Refused(number) = call.sent {
            return self.refused_sending(call, number);
        }
        let used = self.period.as_ref().map_or(block_bits(self.k), |p| p.used);
        assert_eq!(used, block_bits(self.k), "all bits used before the next");
        self.broken = self.broken_by_sending(call);
        self.period = Some(self.period_of(call));
        self.finished |= call.after.finished;
        self.gave_up |= call.after.gave_up();
        claim(
            self.broken.is_some() || self.lost_requests > 0 || !self.finished || self.ended,
            "none lost: a finished sender means the machine reported the end",
        )
    }

    /// Also holds of every list: refused only at rest or for a short slice.
    fn refused_sending(&self, call: &Sending, number: u8) -> Result<(), Failure> {
        let short = 8 * call.order_bytes < self.length || call.block_bytes < block_bytes(self.k);
        let allowed = match number {
            REST => call.before.rests(),
            SHORT => short,
            _ => false,
        };
        claim(
            allowed,
            "a sending call is refused at rest or for a short slice",
        )
    }

    fn broken_by_sending(&mut self, call: &Sending) -> Option<Supposition> {
        let (used, cancelled) = match call.sent {
            Sent::Item {
                used, cancelled, ..
            } => (used, cancelled),
            _ => (false, false),
        };
        let lost = used && !call.reading && call.receiver.return_bit;
        if lost {
            let no_good_block = self.lost_requests > 0 && !self.good_since_loss;
            self.lost_requests += 1;
            self.good_since_loss = false;
            if no_good_block && !self.alarmed {
                return Some(Supposition::GoodBlock);
            }
        }
        let mut damage = call.block.to_vec();
        if cancelled {
            cancel(&mut damage);
        }
        invert(&mut damage, call.arrives);
        if cancelled && !damage.contains(&true) {
            return Some(Supposition::CancelledWhole);
        }
        (!is_admitted(&damage)).then_some(Supposition::Damage)
    }

    fn period_of(&self, call: &Sending) -> Period {
        let whole = call.block == call.arrives;
        Period {
            synchronising: call.sent == Sent::Synchronising,
            undisturbed: whole && call.reading == call.receiver.return_bit,
            in_step: !call.receiver.search && call.receiver.alarm.is_none(),
            passes: passes(call.arrives),
            used: 0,
            progress: false,
            waits: false,
        }
    }

    pub fn after_receiving(&mut self, call: &Receiving) -> Result<(), Failure> {
        if self.broken.is_some() {
            return Ok(());
        }
        match call.received {
            Received::Refused(number) => self.refused_receiving(call, number),
            Received::Reported { event, used } => {
                self.use_bits(event, used);
                if self.broken.is_some() {
                    return Ok(());
                }
                self.claim_event(event)?;
                self.claim_store(call.store)?;
                self.claim_progress()
            }
        }
    }

    fn refused_receiving(&self, call: &Receiving, number: u8) -> Result<(), Failure> {
        let next = self.k * (self.accepted + 1);
        let short_store = call.ready && 8 * call.store.len() < next;
        let short = 8 * call.line_bytes < call.bits || short_store;
        claim(
            number == SHORT && short,
            "a receiving call is refused for a short slice alone, the store if the machine is ready",
        )
    }

    /// What one call's used bits and event do to the period, and whether they break anything.
    fn use_bits(&mut self, event: Event, used: usize) {
        let n = block_bits(self.k);
        let Some(period) = &mut self.period else {
            assert_eq!(used, 0, "0 bits are lent before the first period");
            return;
        };
        period.used += used;
        let last = period.used == n;
        let read = used > 0 && period.in_step && last;
        period.progress |= matches!(event, Event::Accepted | Event::Ended(_));
        period.waits |= event == Event::Wait;
        if event == Event::Sync && !(period.synchronising && last) {
            self.broken = Some(Supposition::OnlySynchronising);
        }
        let as_data_or_end = !matches!(event, Event::None | Event::Sync | Event::Bad(_));
        if period.synchronising && as_data_or_end && !self.alarmed {
            self.broken = Some(Supposition::NeverData);
        }
        if read && !period.synchronising && period.passes && !period.waits {
            self.good_since_loss = true;
        }
        if used > 0 && last {
            let without_progress = period.undisturbed && !period.waits && !period.progress;
            self.without_progress = if without_progress {
                self.without_progress + 1
            } else {
                0
            };
        }
    }

    /// Beyond the demand, no alarm follows the end, lost requests or not.
    fn claim_event(&mut self, event: Event) -> Result<(), Failure> {
        match event {
            Event::Accepted => self.accepted += 1,
            Event::Ended(length) => {
                self.ended = true;
                let all = self.accepted == items(self.k, self.length);
                claim(all, "with the end reported, r is N")?;
                claim(length == self.length, "the L reported is the order's")?;
            }
            Event::SequenceAlarm | Event::LengthAlarm => {
                self.alarmed = true;
                claim(!self.ended, "once the end is reported no alarm follows")?;
                claim(
                    self.lost_requests > 0,
                    "an alarm only if a request was lost",
                )?;
            }
            _ => {}
        }
        Ok(())
    }

    fn claim_store(&self, store: &[u8]) -> Result<(), Failure> {
        let taken = self.accepted * self.k / 8;
        claim(
            taken <= self.filled_order.len() && store[..taken] == self.filled_order[..taken],
            "the store holds the beginning of the order",
        )?;
        claim(
            store[taken..] == self.initial_store[taken..],
            "the rest of the store is as first lent",
        )
    }

    fn claim_progress(&self) -> Result<(), Failure> {
        claim(
            self.lost_requests > 0 || self.gave_up || self.ended || self.without_progress < 6,
            "six undisturbed periods bring a new block or the end",
        )
    }
}

fn claim(holds: bool, statement: &str) -> Result<(), Failure> {
    match holds {
        true => Ok(()),
        false => Err(format!("demand 3 fails: {statement}")),
    }
}

#[cfg(test)]
mod tests;
