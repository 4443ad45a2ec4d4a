//! That each supposition can break and each claim can fail.

use super::*;
use crate::reference::bits::unpack;
use crate::reference::receiver;
use crate::reference::sender;

const K: usize = 240;
const N: usize = 260;

/// Both ends, with the list of their calls so far.
struct Ends {
    order: Vec<u8>,
    sender: Sender,
    receiver: Receiver,
    store: Vec<u8>,
    list: Delivery,
}

/// The code sizes of the sender and of the receiver.
type Kind = (Option<usize>, Option<usize>);

/// Without marks, and with marks of two sizes.
const KINDS: [Kind; 2] = [(None, None), (Some(7), Some(5))];

impl Ends {
    fn open(kind: Kind, items: usize) -> Ends {
        let order: Vec<u8> = (0..items * K / 8).map(|i| i as u8).collect();
        let store = vec![0xEE; order.len()];
        let sender = sender::open(K, 200, 0, 8 * order.len(), kind.0, &order).unwrap();
        let receiver = receiver::open(K, kind.1).unwrap();
        Ends {
            list: Delivery::new(&sender, &receiver, &order, &store),
            sender,
            receiver,
            order,
            store,
        }
    }

    /// A sending call with this reading, its block damaged in these places.
    fn send(&mut self, reading: u8, damage: &[usize]) -> (Bits, Result<(), Failure>) {
        let reading = reading == 1;
        let mut packed = vec![0; block_bytes(K)];
        let before = self.sender.clone();
        let (after, sent) = before.clone().send(&self.order, reading, &mut packed);
        let block = unpack(&packed, 0, N);
        let mut arrives = block.clone();
        for &place in damage {
            arrives[place] ^= true;
        }
        let claims = self.list.after_sending(&Sending {
            before: &before,
            after: &after,
            sent,
            order_bytes: self.order.len(),
            block_bytes: packed.len(),
            reading,
            receiver: &self.receiver,
            block: &block,
            arrives: &arrives,
        });
        self.sender = after;
        (arrives, claims)
    }

    /// A whole period, the machine ready.
    fn period(&mut self, reading: u8, damage: &[usize]) -> Result<(), Failure> {
        self.period_if(true, reading, damage)
    }

    /// A whole period, the machine ready or not.
    fn period_if(&mut self, ready: bool, reading: u8, damage: &[usize]) -> Result<(), Failure> {
        let (arrives, claims) = self.send(reading, damage);
        claims?;
        let receiver = self.receiver.clone();
        let (receiver, received) = receiver.receive(&pack(&arrives), N, ready, &mut self.store);
        self.receiver = receiver;
        self.report(ready, received)
    }

    /// A period with this event reported, whatever the receiver would answer.
    fn false_report(&mut self, reading: u8, event: Event) -> Result<(), Failure> {
        self.send(reading, &[]).1?;
        self.report(true, Received::Reported { event, used: N })
    }

    fn report(&mut self, ready: bool, received: Received) -> Result<(), Failure> {
        self.list.after_receiving(&Receiving {
            received,
            bits: N,
            line_bytes: block_bytes(K),
            ready,
            store: &self.store,
        })
    }
}

#[test]
fn two_losses_with_no_good_block_between_break_that_clause() {
    for kind in KINDS {
        let mut ends = Ends::open(kind, 5);
        let script: [(u8, &[usize]); 4] = [(1, &[]), (0, &[]), (0, &[0]), (0, &[0])];
        for (reading, damage) in script {
            ends.period(reading, damage).unwrap();
            assert_eq!(ends.list.broken(), None);
        }
        ends.period(0, &[]).unwrap();
        assert_eq!(ends.list.broken(), Some(Supposition::GoodBlock));
        assert_eq!(ends.list.lost_requests(), 2);
    }
}

/// Item 2 is cancelled on a false request, item 1 damaged, and the request for it lost. Item 2
/// comes whole, and where the machine is ready there is no second loss.
#[test]
fn a_waiting_block_is_no_good_block() {
    for kind in KINDS {
        for ready in [true, false] {
            let mut ends = Ends::open(kind, 5);
            let script: [(u8, &[usize]); 5] = [(1, &[]), (0, &[]), (0, &[]), (1, &[]), (1, &[0])];
            for (reading, damage) in script {
                ends.period(reading, damage).unwrap();
            }
            ends.period_if(ready, 0, &[]).unwrap();
            assert_eq!((ends.list.broken(), ends.list.lost_requests()), (None, 1));
            ends.period(0, &[]).unwrap();
            let broken = (!ready).then_some(Supposition::GoodBlock);
            assert_eq!(ends.list.broken(), broken);
        }
    }
}

#[test]
fn suppositions_on_damage() {
    for kind in KINDS {
        let broken = |reading, damage: &[usize]| {
            let mut ends = Ends::open(kind, 5);
            ends.period(1, &[]).unwrap();
            ends.period(0, &[]).unwrap();
            ends.send(reading, damage).1.unwrap();
            ends.list.broken()
        };
        assert_eq!((broken(0, &[]), broken(1, &[])), (None, None));
        assert_eq!(broken(0, &[3, 18]), None);
        assert_eq!(broken(0, &[3, 19]), Some(Supposition::Damage));
        assert_eq!(broken(1, &[N - 1]), Some(Supposition::CancelledWhole));
        assert_eq!(broken(1, &[N - 16]), None);
        assert_eq!(broken(1, &[N - 17]), Some(Supposition::Damage));
    }
}

#[test]
fn false_reports_fail_their_claims() {
    for kind in KINDS {
        let fails = |event| {
            let mut ends = Ends::open(kind, 2);
            ends.period(1, &[]).unwrap();
            ends.false_report(0, event).unwrap_err()
        };
        assert!(fails(Event::Accepted).contains("beginning of the order"));
        assert!(fails(Event::Ended(480)).contains("r is N"));
        assert!(fails(Event::SequenceAlarm).contains("request was lost"));
        assert!(fails(Event::LengthAlarm).contains("request was lost"));
    }
}

/// Item 2 is cancelled on a false request, item 1 damaged, and the request for it lost. Item 2 is the one
/// that is awaited, and the order arrives.
#[test]
fn an_alarm_after_the_end_fails_its_claim_though_a_request_was_lost() {
    for kind in KINDS {
        for alarm in [Event::SequenceAlarm, Event::LengthAlarm] {
            let mut ends = Ends::open(kind, 3);
            let script: [(u8, &[usize]); 5] = [(1, &[]), (0, &[]), (0, &[]), (1, &[]), (1, &[0])];
            for (reading, damage) in script {
                ends.period(reading, damage).unwrap();
            }
            for _ in 0..2 {
                assert!(!ends.list.ended());
                ends.period(0, &[]).unwrap();
            }
            assert_eq!((ends.list.broken(), ends.list.lost_requests()), (None, 1));
            assert!(ends.list.ended());
            let failure = ends.false_report(0, alarm).unwrap_err();
            assert!(failure.contains("no alarm follows"), "{failure}");
        }
    }
}

#[test]
fn a_changed_store_fails_its_claim() {
    for kind in KINDS {
        let mut ends = Ends::open(kind, 2);
        ends.period(1, &[]).unwrap();
        ends.store[59] = 0;
        let failure = ends.period(0, &[]).unwrap_err();
        assert!(failure.contains("as first lent"), "{failure}");
    }
}

#[test]
fn a_machine_that_never_accepts_fails_after_six_periods() {
    for kind in KINDS {
        let mut ends = Ends::open(kind, 2);
        for _ in 0..5 {
            ends.false_report(1, Event::None).unwrap();
        }
        let failure = ends.false_report(1, Event::None).unwrap_err();
        assert!(failure.contains("six undisturbed"), "{failure}");
    }
}

/// Item 0 waits in each third period; otherwise nothing comes of any.
#[test]
fn a_period_with_a_wait_is_not_undisturbed() {
    for kind in KINDS {
        let mut ends = Ends::open(kind, 2);
        for _ in 0..4 {
            for event in [Event::None, Event::Wait, Event::None] {
                ends.false_report(1, event).unwrap();
            }
        }
        assert_eq!(ends.list.broken(), None);
        for _ in 0..4 {
            ends.false_report(1, Event::None).unwrap();
        }
        let failure = ends.false_report(1, Event::None).unwrap_err();
        assert!(failure.contains("six undisturbed"), "{failure}");
    }
}

#[test]
fn a_machine_that_is_never_ready_makes_the_sender_give_up() {
    for kind in KINDS {
        let mut ends = Ends::open(kind, 2);
        let mut cancels = 0;
        while !ends.sender.rests() {
            let reading = u8::from(ends.receiver.return_bit);
            let before = ends.sender.cancel_run;
            ends.period_if(false, reading, &[]).unwrap();
            cancels += usize::from(ends.sender.cancel_run > before);
        }
        assert!(ends.sender.gave_up() && cancels == 64);
        assert_eq!((ends.list.broken(), ends.list.lost_requests()), (None, 0));
        assert_eq!((ends.receiver.alarm, ends.receiver.taken), (None, 0));
        assert!(ends.store.iter().all(|&byte| byte == 0xEE));
    }
}

#[test]
fn a_finished_sender_without_the_end_fails() {
    for kind in KINDS {
        let mut ends = Ends::open(kind, 1);
        ends.period(1, &[]).unwrap();
        ends.period(0, &[]).unwrap();
        ends.false_report(0, Event::Bad(1)).unwrap();
        let failure = ends.false_report(0, Event::Bad(1)).unwrap_err();
        assert!(failure.contains("reported the end"), "{failure}");
    }
}

#[test]
fn refusals_are_for_short_slices_alone() {
    for kind in KINDS {
        let mut ends = Ends::open(kind, 1);
        let failure = ends.report(true, Received::Refused(7)).unwrap_err();
        assert!(failure.contains("short slice"), "{failure}");
        ends.store.clear();
        ends.report(true, Received::Refused(6)).unwrap();
        let failure = ends.report(false, Received::Refused(6)).unwrap_err();
        assert!(failure.contains("short slice"), "{failure}");
        ends.sender.cancel_run = 70;
        let failure = ends.send(0, &[]).1.unwrap_err();
        assert!(failure.contains("at rest or for a short"), "{failure}");
    }
}

#[test]
fn a_sync_inside_a_data_block_breaks_its_clause() {
    for kind in KINDS {
        let mut ends = Ends::open(kind, 2);
        ends.period(1, &[]).unwrap();
        ends.false_report(0, Event::Sync).unwrap();
        assert_eq!(ends.list.broken(), Some(Supposition::OnlySynchronising));
        for event in [Event::Previous, Event::Wait] {
            let mut ends = Ends::open(kind, 2);
            ends.false_report(1, event).unwrap();
            assert_eq!(ends.list.broken(), Some(Supposition::NeverData));
        }
    }
}

#[test]
#[should_panic]
fn ends_that_are_not_opened_alike_make_no_list() {
    Ends::open((Some(5), None), 1);
}
