//! One random session of both ends, call by call, over a line with errors or under the noise load, the
//! machine ready or busy. While the suppositions of demand 3 hold, its claims are checked too.

mod channel;
mod extra_calls;
pub mod outcomes;
mod readiness;

use super::lockstep::{BufferPair, Lockstep, ReceivingCall};
use super::marks::CodeSizes;
use super::noise::sessions::NoisyLine;
use super::orders::Order;
use super::sender::refusal_name;
use super::{Difference, Tally};
use crate::calls::{Line, Opening, ReceivingEnd, SendingEnd};
use crate::delivery::{Delivery, Receiving, Sending};
use crate::interface::{load_receiver, load_sender, RECEIVER_BYTES, SENDER_BYTES};
use crate::reference::bits::{bits_of, pack, unpack, Bits};
use crate::reference::block::{block_bits, block_bytes};
use crate::reference::receiver::{Event, Received, Receiver};
use crate::reference::sender::{Sender, Sent};
use crate::rng::Rng;
use channel::{ChannelModel, ErrorRates};
use readiness::Readiness;

pub struct Session<'a, S, R> {
    ends: &'a Lockstep<'a, S, R>,
    rng: Rng,
    tally: &'a mut Tally,
    order: Order,
    sender: BufferPair,
    receiver: BufferPair,
    store: BufferPair,
    /// The length that was reported with the end.
    ended: Option<usize>,
    /// Of ends that were opened alike.
    delivery: Option<Delivery>,
    channel: ChannelModel,
    rates: ErrorRates,
    /// A line of its own, in the place of these.
    noise: Option<NoisyLine<'a>>,
    readiness: Readiness,
}

impl<'a, S: SendingEnd, R: ReceivingEnd> Session<'a, S, R> {
    pub fn open(
        ends: &'a Lockstep<'a, S, R>,
        mut rng: Rng,
        order: Order,
        tally: &'a mut Tally,
    ) -> Result<Session<'a, S, R>, Difference> {
        let mut sender = BufferPair::random(&mut rng, SENDER_BYTES);
        let mut receiver = BufferPair::random(&mut rng, RECEIVER_BYTES);
        let sizes = CodeSizes::random(&mut rng);
        let opening = opening(&order, sizes.sender);
        let refused = ends.open_sender(opening, &order.bytes, &mut sender)?;
        assert_eq!(refused, 0, "an opening that the rules accept");
        let refused = ends.open_receiver(order.k, sizes.receiver, &mut receiver)?;
        assert_eq!(refused, 0, "the same k");
        let further = rng.pick(&[0, 0, 1, 40]);
        let store = BufferPair::random(&mut rng, order.items() * order.k / 8 + further);
        let channel = ChannelModel::random(&mut rng);
        let rates = channel.rates(&mut rng);
        let readiness = Readiness::random(&mut rng);
        let mut session = Session {
            ends,
            rng,
            tally,
            order,
            sender,
            receiver,
            store,
            ended: None,
            delivery: None,
            channel,
            rates,
            noise: None,
            readiness,
        };
        if sizes.are_alike() {
            session.delivery = Some(session.new_delivery());
        }
        Ok(session)
    }

    /// On a line under the noise load.
    pub fn on(mut self, line: NoisyLine<'a>) -> Session<'a, S, R> {
        self.noise = Some(line);
        self
    }

    fn new_delivery(&self) -> Delivery {
        let (order, store) = (&self.order.bytes, self.store.slice());
        Delivery::new(&self.sender(), &self.receiver(), order, store)
    }

    pub fn run(&mut self) -> Result<(), Difference> {
        let never_ready = self.readiness.is_never();
        let may_give_up = self.channel.stuck_at_1 || never_ready || self.delivery.is_none();
        let most = 3 * self.order.items() + if may_give_up { 400 } else { 40 };
        for _ in 0..self.rng.between(most / 4, most) {
            if self.rng.chance(4) {
                self.rates = self.channel.rates(&mut self.rng);
            }
            if self.rng.chance(4) {
                self.readiness.change(&mut self.rng);
            }
            self.extra_call()?;
            let over = self.sender().rests() || self.receiver().alarm.is_some();
            if over && self.rng.chance(30) {
                break;
            }
            self.period()?;
        }
        self.count_session();
        match never_ready {
            true => self.nothing_is_taken(),
            false => Ok(()),
        }
    }

    /// The store as the machine has it.
    pub fn store(&self) -> &[u8] {
        self.store.slice()
    }

    /// The length in bits that was reported with the end.
    pub fn ended(&self) -> Option<usize> {
        self.ended
    }

    /// The ends were opened alike, and every supposition of demand 3 has held.
    pub fn is_within_demand_3(&self) -> bool {
        let delivery = self.delivery.as_ref();
        delivery.is_some_and(|delivery| delivery.broken().is_none())
    }

    fn sender(&self) -> Sender {
        load_sender(self.sender.slice()).expect("a state that a call handed back")
    }

    pub fn receiver(&self) -> Receiver {
        load_receiver(self.receiver.slice()).expect("a state that a call handed back")
    }

    /// A sending call, and receiving calls until the block's bits are all used.
    fn period(&mut self) -> Result<(), Difference> {
        let reading = self.reading();
        let bytes = block_bytes(self.order.k) + self.rng.below(3);
        let order = self.order.bytes.len();
        let arrives = self.send(order, bytes, reading)?;
        self.deliver(&arrives)
    }

    /// A sending call, lent this much of the order and of a block; the copy that arrives, empty
    /// if the call is refused.
    fn send(&mut self, order: usize, bytes: usize, reading: bool) -> Result<Bits, Difference> {
        let before = self.sender();
        let mut place = BufferPair::random(&mut self.rng, bytes);
        let lent = &self.order.bytes[..order];
        let sent = self
            .ends
            .send(&mut self.sender, lent, reading, &mut place)?;
        let (mut block, mut arrives) = (Bits::new(), Bits::new());
        if let Sent::Refused(number) = sent {
            self.tally.count(refusal_name(number));
        } else {
            block = unpack(place.slice(), 0, block_bits(self.order.k));
            arrives = self.arriving(&block, sent)?;
        }
        let (after, receiver) = (self.sender(), self.receiver());
        if let Some(delivery) = &mut self.delivery {
            delivery.after_sending(&Sending {
                before: &before,
                after: &after,
                sent,
                order_bytes: order,
                block_bytes: bytes,
                reading,
                receiver: &receiver,
                block: &block,
                arrives: &arrives,
            })?;
        }
        Ok(arrives)
    }

    /// The reading of the return bit, as the line lets it through.
    fn reading(&mut self) -> bool {
        let return_bit = self.receiver().return_bit;
        match &self.noise {
            Some(line) => line.reading(return_bit),
            None => self.rates.reading(&mut self.rng, return_bit),
        }
    }

    /// The copy of a sent block that arrives.
    fn arriving(&mut self, block: &[bool], sent: Sent) -> Result<Bits, Difference> {
        let k = self.order.k;
        match &mut self.noise {
            Some(line) => line.arriving(k, block, self.tally),
            None => Ok(self.rates.arriving(&mut self.rng, k, block, sent)),
        }
    }

    /// Lends a block's bits, in one call or in many, until all are used.
    fn deliver(&mut self, arrives: &[bool]) -> Result<(), Difference> {
        let n = arrives.len();
        let most = match self.rng.below(60) {
            0 => 1,
            1..=3 => 9,
            4..=10 => 60,
            11..=25 => n / 2,
            _ => n,
        };
        let mut used = 0;
        while used < n {
            let bits = match most == n {
                true => n - used,
                false => self.rng.below(most + 1).min(n - used),
            };
            used += self.receive(&arrives[used..used + bits])?;
        }
        Ok(())
    }

    /// One receiving call on all of these bits; the number used.
    fn receive(&mut self, bits: &[bool]) -> Result<usize, Difference> {
        let bytes = self.line(bits);
        let alarm_stood = self.receiver().alarm.is_some();
        let call = ReceivingCall {
            line: Line {
                bytes: &bytes,
                bits: bits.len(),
            },
            ready: self.readiness.next(&mut self.rng),
            lent: self.store.slice().len(),
            remainder: self.rng.number(),
        };
        let received = self
            .ends
            .receive(&mut self.receiver, &mut self.store, call)?;
        if let Some(delivery) = &mut self.delivery {
            delivery.after_receiving(&receiving(received, call, self.store.slice()))?;
        }
        match received {
            Received::Reported { event, used } => {
                self.count_event(event, alarm_stood);
                Ok(used)
            }
            // Only where demand 3 claims nothing: an item that the store has no room for.
            Received::Refused(number) => {
                self.tally.count(refusal_name(number));
                Ok(bits.len())
            }
        }
    }

    fn count_event(&mut self, event: Event, alarm_stood: bool) {
        if let Event::Ended(length) = event {
            self.ended = Some(length);
        }
        self.tally.count(match alarm_stood {
            true => "alarm again",
            false => event.name(),
        });
    }

    /// The bits packed, with random bits and bytes behind them.
    fn line(&mut self, bits: &[bool]) -> Vec<u8> {
        let mut bits = bits.to_vec();
        let spare = bits.len().next_multiple_of(8) - bits.len();
        bits.extend(bits_of(self.rng.below(256), spare));
        let mut line = pack(&bits);
        let further = if self.rng.chance(10) { 5 } else { 0 };
        line.extend(self.rng.bytes(further));
        line
    }
}

/// A call as demand 3 sees it, and the store as it left it.
fn receiving<'a>(received: Received, call: ReceivingCall, store: &'a [u8]) -> Receiving<'a> {
    Receiving {
        received,
        bits: call.line.bits,
        line_bytes: call.line.bytes.len(),
        ready: call.ready,
        store: &store[..call.lent],
    }
}

fn opening(order: &Order, code_size: Option<usize>) -> Opening {
    Opening {
        k: order.k,
        speed: 200,
        loop_ms: 0,
        length: order.length,
        code_size,
    }
}
