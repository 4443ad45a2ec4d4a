//! Bits that are no blocks: idle bits, lent to a machine in search and in step, and an order's data
//! that hold the sequence that a search looks for.

use super::ends::{run_cases, Case, Ends, Office, Outcome, Period};
use super::lockstep::{Lockstep, BAD_WITH_0, BAD_WITH_1, BAD_WITH_ANOTHER};
use super::marks::KINDS;
use super::{same, Difference, GroupFailure, Tally};
use crate::calls::{ReceivingEnd, SendingEnd};
use crate::reference::bits::{bits_of, Bits};
use crate::reference::block::{block_bits, cancel, CHECK_BITS, LENGTHS, SEQUENCE};
use crate::reference::order::item_block;
use crate::reference::receiver::BAD_ROW_LIMIT;
use Office::{Finished, GaveUp, GoingOn};
use Period::{Damaged, Undisturbed};

const ITEMS: [u8; 2] = [0xA0, 0xA1];
const SECOND: [u8; 2] = [0xB0, 0xB1];
const DELIVERED: [&str; 5] = ["sync", "accepted", "accepted", "ended", "previous"];

#[derive(Clone, Copy, Debug, PartialEq, Eq)]
enum Idle {
    Zeros,
    Ones,
    /// 1 and 0 in turn.
    ReversalsFrom1,
    ReversalsFrom0,
}

const IDLE_KINDS: [Idle; 4] = [
    Idle::Zeros,
    Idle::Ones,
    Idle::ReversalsFrom1,
    Idle::ReversalsFrom0,
];

impl Idle {
    /// What n idle bits bring in step where they fit nowhere. Zeros pass the check, the others fail it.
    fn bad(self) -> &'static str {
        match self {
            Idle::Zeros => BAD_WITH_0,
            _ => BAD_WITH_ANOTHER,
        }
    }

    /// So many idle bits, from bit `from` on.
    fn bits(self, from: usize, count: usize) -> Bits {
        let bit = |i| match self {
            Idle::Zeros => false,
            Idle::Ones => true,
            Idle::ReversalsFrom1 => i % 2 == 0,
            Idle::ReversalsFrom0 => i % 2 == 1,
        };
        (from..from + count).map(bit).collect()
    }
}

type IdleCase<'a, S, R> = fn(&mut Ends<'a, S, R>, Idle) -> Outcome;

/// Runs each case at each k, without marks and with them, those of idle bits with each kind.
pub fn compare<S: SendingEnd, R: ReceivingEnd>(
    sending: &S,
    receiving: &R,
) -> Result<Tally, GroupFailure> {
    let calls = Lockstep::new(sending, receiving);
    let mut tally = Tally::default();
    let idle_cases: [(&str, IdleCase<S, R>); 7] = [
        ("search finds nothing", Ends::idle_in_search),
        ("sequence begun before idle", Ends::idle_completes_sequence),
        ("in step before item 0", Ends::idle_before_item_0),
        ("in step in mid-order", Ends::idle_in_mid_order),
        ("in step in mid-block", Ends::idle_in_mid_block),
        ("in step after the end", Ends::idle_after_end),
        ("opened while idle", Ends::opened_while_idle),
    ];
    let cases: [Case<S, R>; 2] = [
        ("sequence in the older item", Ends::sequence_in_older),
        ("sequence in the newer item", Ends::sequence_in_newer),
    ];
    for (k, sizes) in LENGTHS
        .into_iter()
        .flat_map(|k| KINDS.map(|sizes| (k, sizes)))
    {
        for (name, case) in idle_cases {
            for idle in IDLE_KINDS {
                let run = Ends::new(&calls, k, sizes).and_then(|mut ends| case(&mut ends, idle));
                run.map_err(|difference| {
                    format!("{name}, {idle:?}, k {k}, {sizes:?}: {difference}")
                })?;
                tally.count(name);
            }
        }
        run_cases(&calls, k, sizes, &cases, &mut tally)?;
    }
    calls.with_tried(tally)
}

impl<S: SendingEnd, R: ReceivingEnd> Ends<'_, S, R> {
    /// The bits of a block.
    fn n(&self) -> usize {
        block_bits(self.k)
    }

    /// Idle bits until the machine is in search; their number.
    fn idle_until_search(&mut self, idle: Idle) -> Result<usize, Difference> {
        let mut bits = 0;
        while !self.receiver().search {
            assert!(bits < 10 * self.n(), "no search");
            bits += self.receive(&idle.bits(bits, self.n()))?;
        }
        Ok(bits)
    }

    /// The office is opened, and so many periods are over.
    fn begin(&mut self, periods: usize) -> Outcome {
        self.open_office(&ITEMS)?;
        self.periods(periods)
    }

    /// However many idle bits come first, the synchronising block leaves the machine as it does
    /// without them, whether it arrives whole or damaged.
    fn idle_in_search(&mut self, idle: Idle) -> Outcome {
        for (period, events) in [(Damaged, &[][..]), (Undisturbed, &["sync"])] {
            let mut without = None;
            for count in (0..40).chain([8 * self.n()]) {
                self.open_machine()?;
                self.receive_all(idle.bits(0, count))?;
                self.begin(0)?;
                self.period(period)?;
                self.expect(events, GoingOn, &[])?;
                let without = without.get_or_insert(self.receiver());
                same(&|| format!("{count} idle bits"), without, &self.receiver())?;
            }
        }
        self.until_rest()?;
        self.expect(&DELIVERED[1..], Finished, &ITEMS)
    }

    /// Between two orders the line is idle for two blocks; the machine is opened when it can tell
    /// steady bits from a session's.
    fn opened_while_idle(&mut self, idle: Idle) -> Outcome {
        self.begin(0)?;
        self.until_rest()?;
        self.expect(&DELIVERED, Finished, &ITEMS)?;
        let told = self.n() + 3;
        self.receive_all(idle.bits(0, told))?;
        self.expect(&[idle.bad()], Finished, &ITEMS)?;
        self.open_machine()?;
        self.receive_all(idle.bits(told, 2 * self.n() - told))?;
        self.open_office(&SECOND)?;
        self.until_rest()?;
        self.expect(&DELIVERED, Finished, &SECOND)
    }

    /// A search that began before the last block's end may find the sequence in that block's last
    /// bits and the first idle bits: never with zeros, and in the first 4 idle bits at most.
    fn idle_completes_sequence(&mut self, idle: Idle) -> Outcome {
        let sequence = bits_of(SEQUENCE, CHECK_BITS);
        self.begin(0)?;
        for count in 1..=CHECK_BITS {
            self.open_machine()?;
            self.receive_all(sequence[..CHECK_BITS - count].to_vec())?;
            self.receive(&idle.bits(0, 3 * CHECK_BITS))?;
            let found = match idle {
                Idle::Zeros => false,
                Idle::Ones => count == 1,
                Idle::ReversalsFrom1 => count == 1 || count == 3,
                Idle::ReversalsFrom0 => count == 2 || count == 4,
            };
            let events = if found { &["sync"][..] } else { &[] };
            self.expect(events, GoingOn, &[])?;
        }
        Ok(())
    }

    /// Zeros: rule 7, and at r 0 a search.
    fn idle_before_item_0(&mut self, idle: Idle) -> Outcome {
        self.begin(1)?;
        let rows = if idle == Idle::Zeros {
            1
        } else {
            BAD_ROW_LIMIT
        };
        let bits = self.idle_until_search(idle)?;
        same(&|| String::from("idle bits"), &(rows * self.n()), &bits)?;
        let events = [vec!["sync"], vec![idle.bad(); rows]].concat();
        self.expect(&events, GoingOn, &[])
    }

    /// Each n idle bits are *bad*; the eighth starts a search.
    fn idle_in_mid_order(&mut self, idle: Idle) -> Outcome {
        self.begin(2)?;
        let bits = self.idle_until_search(idle)?;
        let expected = BAD_ROW_LIMIT * self.n();
        same(&|| String::from("idle bits"), &expected, &bits)?;
        let events = [vec!["sync", "accepted"], vec![idle.bad(); BAD_ROW_LIMIT]].concat();
        self.expect(&events, GoingOn, &ITEMS[..1])?;
        same(&|| String::from("items taken"), &1, &self.receiver().taken)
    }

    /// The session stops in mid-block. If the idle bits are the block's own, it is accepted; if they are
    /// those of the block when it is cancelled, it is bad with 1. Zeros alone pass the check.
    fn idle_in_mid_block(&mut self, idle: Idle) -> Outcome {
        let n = self.n();
        let order = ITEMS.map(|byte| vec![byte; self.k / 8]).concat();
        let mut stored = 1;
        let last = [20, 16, 5, 4, 3, 2, 1].map(|missing| n - missing);
        for held in [1, 3, 4, 5, n / 2].into_iter().chain(last) {
            self.open_machine()?;
            self.begin(2)?;
            let marks = self.sender().marks;
            let block = item_block(marks, self.k, 8 * order.len(), &order, 1);
            let mut cancelled = block.clone();
            cancel(&mut cancelled);
            self.receive_all(block[..held].to_vec())?;
            let bits = self.idle_until_search(idle)?;
            let (event, taken) = match [&block[..held], &idle.bits(0, n - held)].concat() {
                bits if bits == block => ("accepted", 2),
                bits if bits == cancelled => (BAD_WITH_1, 1),
                bits if !bits.contains(&true) => (BAD_WITH_0, 1),
                _ => (BAD_WITH_ANOTHER, 1),
            };
            let rows = BAD_ROW_LIMIT - 2 + taken;
            let case = || format!("{held} held");
            same(&case, &((1 + rows) * n - held), &bits)?;
            same(&case, &taken, &self.receiver().taken)?;
            stored = taken.max(stored);
            let events = [vec!["sync", "accepted", event], vec![idle.bad(); rows]].concat();
            self.expect(&events, GoingOn, &ITEMS[..stored])?;
        }
        Ok(())
    }

    /// The search that follows is no opening: the end stays taken, and item 0 of a new order is an
    /// alarm, with marks bad.
    fn idle_after_end(&mut self, idle: Idle) -> Outcome {
        self.begin(0)?;
        self.until_rest()?;
        self.expect(&DELIVERED, Finished, &ITEMS)?;
        let bits = self.idle_until_search(idle)?;
        let expected = BAD_ROW_LIMIT * self.n();
        same(&|| String::from("idle bits"), &expected, &bits)?;
        self.expect(&[idle.bad(); BAD_ROW_LIMIT], Finished, &ITEMS)?;
        self.begin(2)?;
        let answer = match self.sender().marks.in_use {
            true => BAD_WITH_0,
            false => "sequence alarm",
        };
        self.expect(&["sync", answer], GoingOn, &ITEMS)
    }

    /// An order of two items, one of which holds the sequence in its middle, behind a damaged
    /// synchronising block: the machine is still in search.
    fn damaged_synchronising(&mut self, holder: usize) -> Outcome {
        let item_bytes = self.k / 8;
        let mut order = ITEMS.map(|byte| vec![byte; item_bytes]).concat();
        let middle = holder * item_bytes + item_bytes / 2;
        order[middle..middle + 2].copy_from_slice(&[0x50, 0xA5]);
        self.open_office_with(order)?;
        self.period(Damaged)
    }

    /// The return bit is 0 behind the older item, which was not taken, and the office goes on to
    /// the next pair. Eight bad rows later its older item is the one behind the missing one.
    fn sequence_in_older(&mut self) -> Outcome {
        self.damaged_synchronising(0)?;
        self.until_rest()?;
        let bad = vec![BAD_WITH_ANOTHER; BAD_ROW_LIMIT];
        let events = [vec!["sync"], bad, vec!["sync", "sequence alarm"]].concat();
        self.expect(&events, GaveUp, &[])
    }

    /// Eight bad rows later the search begins within the older item, and finds the same place in
    /// the newer one again, until the office gives up.
    fn sequence_in_newer(&mut self) -> Outcome {
        self.damaged_synchronising(1)?;
        self.until_rest()?;
        let round = [vec!["sync"], vec![BAD_WITH_ANOTHER; BAD_ROW_LIMIT]].concat();
        let events = [round.repeat(21), vec!["sync"]].concat();
        self.expect(&events, GaveUp, &[])
    }
}

#[cfg(test)]
mod tests {
    use super::super::agreed;
    use super::*;
    use crate::calls::Reference;
    use crate::reference::block::synchronising_block;
    use crate::reference::marks::{Marks, CODE_SIZES};

    #[test]
    fn each_case_ends_as_it_says() {
        agreed(compare(&Reference, &Reference));
    }
    /// Every n + 3 bits in a row hold the service bits of a block, which are never all the same.
    #[test]
    fn steady_bits_of_a_session_are_fewer_than_a_block_and_three() {
        for (k, byte) in LENGTHS.into_iter().flat_map(|k| [(k, 0x00), (k, 0xFF)]) {
            let order = vec![byte; 4 * k / 8];
            let of_size = |size| Marks::open(Some(size)).unwrap();
            let with_marks = CODE_SIZES.map(|size| (of_size(size), 0));
            let items = (0..6)
                .map(|item| (Marks::NOT_IN_USE, item))
                .chain(with_marks);
            let items = items.map(|(marks, item)| item_block(marks, k, 4 * k, &order, item));
            let mut blocks = vec![synchronising_block(k)];
            for item in items {
                let mut cancelled = item.clone();
                cancel(&mut cancelled);
                blocks.extend([item, cancelled]);
            }
            for (first, second) in blocks
                .iter()
                .flat_map(|a| blocks.iter().map(move |b| (a, b)))
            {
                let bits = [&first[..], second].concat();
                let longest = bits.chunk_by(|a, b| a == b).map(<[bool]>::len).max();
                assert!(longest < Some(block_bits(k) + 3), "{longest:?}");
            }
        }
    }
}
