//! A machine that is busy for a while: how late it may be ready again, and how much noise that
//! bears. docs/INTEGRATION.md, "While the nozzle runs".

use super::{is_event, open, ITEMS};
use crate::calls::{Line, ReceivingEnd, Reference, SendingEnd};
use crate::interface::{decode_received, decode_sent, Counts};
use crate::interface::{RECEIVER_BYTES, RETURN_1, SENDER_BYTES};
use crate::reference::block::{block_bits, block_bytes, LENGTHS};
use crate::reference::receiver::{Event, Received};
use crate::reference::refusal::REST;
use crate::reference::sender::Sent;
use crate::rng::Rng;
use crate::table::TableDriven;

/// The block periods that docs/INTEGRATION.md has an engineer plan with, and the damaged blocks or
/// misread answers that they bear.
const PLANNED: usize = 120;
const BORNE: usize = 22;

#[derive(Clone, Copy, PartialEq)]
enum Noise {
    None,
    /// A bit of the block is inverted.
    Damage,
    /// An answer of 0 is read as 1.
    Misread,
}

/// Both ends of a session.
struct Ends<'a, T> {
    tested: &'a T,
    k: usize,
    order: Vec<u8>,
    sender: [u8; SENDER_BYTES],
    receiver: [u8; RECEIVER_BYTES],
    store: Vec<u8>,
    block: Vec<u8>,
}

impl<T: SendingEnd + ReceivingEnd> Ends<'_, T> {
    fn open(tested: &T, k: usize) -> Ends<'_, T> {
        let (order, sender) = open(tested, k);
        let mut receiver = [0; RECEIVER_BYTES];
        assert_eq!(tested.open_receiver(k, None, &mut receiver), 0);
        Ends {
            tested,
            k,
            sender,
            receiver,
            store: vec![0; order.len()],
            block: vec![0; block_bytes(k)],
            order,
        }
    }

    fn return_bit(&self) -> bool {
        self.tested.return_bit(&self.receiver) == RETURN_1
    }

    fn send(&mut self, reading: bool) -> Sent {
        let (sender, block) = (&mut self.sender, &mut self.block);
        decode_sent(self.tested.send(sender, &self.order, reading, block))
    }

    /// Whether the return bit as it stands brings an item that is not cancelled.
    fn item_is_next(&self) -> bool {
        let (mut sender, mut block) = (self.sender, self.block.clone());
        let reading = self.return_bit();
        let word = self
            .tested
            .send(&mut sender, &self.order, reading, &mut block);
        let sent = decode_sent(word);
        matches!(sent, Sent::Item { .. }) && !sent.is_cancelled()
    }

    fn receive(&mut self, damaged: bool, ready: bool) -> Received {
        let bits = block_bits(self.k);
        if damaged {
            self.block[(bits - 2) / 8] ^= 0x80 >> ((bits - 2) % 8);
        }
        let line = Line {
            bytes: &self.block,
            bits,
        };
        let mut counts = Counts::default();
        let (receiver, store) = (&mut self.receiver, &mut self.store);
        let number = self
            .tested
            .receive(receiver, line, ready, store, &mut counts);
        decode_received(number, counts)
    }
}

/// Whether the whole order arrives at a machine that takes so many items, and is ready again so many
/// block periods after the last of them; with none taken, after the session's first bit. The noise is
/// asked for by the period, and by whether its block is the one that waited and would now be taken.
fn arrives<T: SendingEnd + ReceivingEnd>(
    tested: &T,
    k: usize,
    taken: usize,
    busy: usize,
    mut noise: impl FnMut(usize, bool) -> Noise,
) -> bool {
    let mut ends = Ends::open(tested, k);
    let mut ready_from = if taken == 0 { busy - 1 } else { 0 };
    let mut accepted = 0;
    let mut ended = false;
    for period in 0.. {
        let ready = period >= ready_from;
        let waited = ready && accepted == taken && ends.item_is_next();
        let noise = noise(period, waited);
        if ends.send(ends.return_bit() || noise == Noise::Misread) == Sent::Refused(REST) {
            break;
        }
        let received = ends.receive(noise == Noise::Damage, ready);
        if is_event(received, Event::Accepted) {
            accepted += 1;
            if accepted == taken {
                ready_from = period + busy;
            }
        }
        ended |= is_event(received, Event::Ended(8 * ends.order.len()));
    }
    assert!(!ended || ends.store == ends.order);
    ended
}

/// Ready again at the last chance and one block period later, on a line without noise.
#[test]
fn up_to_187_block_periods_after_an_item_and_191_after_the_first_bit() {
    for k in LENGTHS {
        for taken in 0..=ITEMS {
            let last = if taken == 0 { 191 } else { 187 };
            let none = |_, _| Noise::None;
            assert!(arrives(&TableDriven, k, taken, last, none));
            assert!(!arrives(&TableDriven, k, taken, last + 1, none));
        }
    }
    assert!(arrives(&Reference, 240, 1, 187, |_, _| Noise::None));
    assert!(!arrives(&Reference, 240, 1, 188, |_, _| Noise::None));
}

/// The block that waited is damaged as soon as the machine is ready, so many times.
#[test]
fn the_planned_time_bears_22_damaged_blocks_and_not_23() {
    let damaged = |taken: usize, times: usize| {
        let mut left = times;
        arrives(&TableDriven, 240, taken, PLANNED, |_, waited| {
            if !waited || left == 0 {
                return Noise::None;
            }
            left -= 1;
            Noise::Damage
        })
    };
    for taken in 1..=ITEMS {
        assert!(damaged(taken, BORNE));
    }
    assert!(damaged(0, BORNE));
    assert!(!damaged(1, BORNE + 1));
}

/// The same number of disturbed periods at random places.
#[test]
fn the_planned_time_bears_22_disturbances_anywhere() {
    for case in 0..2_000 {
        let mut rng = Rng::for_case(22, case);
        let mut disturbed = [Noise::None; 200];
        let first = rng.below(170);
        for _ in 0..BORNE {
            let place = rng.between(first, disturbed.len() - 1);
            disturbed[place] = rng.pick(&[Noise::Damage, Noise::Misread]);
        }
        let taken = rng.below(ITEMS + 1);
        let busy = rng.between(1, PLANNED);
        let noise = |period: usize, _| disturbed.get(period).copied().unwrap_or(Noise::None);
        assert!(
            arrives(&TableDriven, 240, taken, busy, noise),
            "case {case}"
        );
    }
}
