//! Sessions with marks, and the corners of the rules about them.

use super::*;
use crate::reference::bits::{number, pack, unpack};
use crate::reference::block::{assemble, A, B, C, END, SYNCHRONISING};
use crate::reference::order::{end_payload, item_block, LONGEST};
use crate::reference::receiver::{self, Event, Received, Receiver};
use crate::reference::remainders::FIRST_OF_260;
use crate::reference::sender::{self, Sender, Sent};

const K: usize = 240;
const N: usize = 260;

/// Both ends, and the order's store.
struct Ends {
    order: Vec<u8>,
    store: Vec<u8>,
    sender: Sender,
    receiver: Receiver,
}

impl Ends {
    /// For an order of so many items.
    fn open(items: usize, sender_size: usize, receiver_size: usize) -> Ends {
        let order: Vec<u8> = (1..=items * K / 8).map(|i| i as u8).collect();
        let (length, size) = (8 * order.len(), Some(sender_size));
        Ends {
            sender: sender::open(K, 200, 0, length, size, &order).unwrap(),
            receiver: receiver::open(K, Some(receiver_size)).unwrap(),
            store: vec![0; order.len()],
            order,
        }
    }

    /// A period with this reading, its block's first bit damaged or not: what was sent, the service
    /// bits that arrived, and the event.
    fn period(&mut self, reading: bool, damaged: bool) -> (String, u8, Event) {
        let mut block = [0; 33];
        let (sender, sent) = self.sender.clone().send(&self.order, reading, &mut block);
        self.sender = sender;
        block[0] ^= u8::from(damaged) << 7;
        let receiver = self.receiver.clone();
        let (receiver, received) = receiver.receive(&block, N, true, &mut self.store);
        self.receiver = receiver;
        let Received::Reported { event, used: N } = received else {
            panic!("{received:?}");
        };
        (name(sent), block[0] >> 4, event)
    }

    /// Undisturbed periods, except that these readings are turned over.
    fn run(&mut self, periods: usize, turned: &[usize]) -> Vec<(String, u8, Event)> {
        let period = |number| {
            let reading = self.receiver.return_bit != turned.contains(&number);
            self.period(reading, false)
        };
        (0..periods).map(period).collect()
    }
}

/// As the run program writes it.
fn name(sent: Sent) -> String {
    match sent {
        Sent::Synchronising => "S".into(),
        Sent::Item { end: true, .. } => "E".into(),
        Sent::Item {
            item, cancelled, ..
        } => format!("{}{item}", if cancelled { "!" } else { "" }),
        Sent::Refused(number) => panic!("refused {number}"),
    }
}

fn periods(expected: &[(&str, u8, Event)]) -> Vec<(String, u8, Event)> {
    let owned = |&(sent, service, event): &(&str, u8, Event)| (sent.into(), service, event);
    expected.iter().map(owned).collect()
}

#[test]
fn item_0_carries_the_mark_and_the_letters_begin_behind_it() {
    let examples = [(5, 0b0001), (6, 0b1010), (7, 0b1011), (8, 0b0010)];
    for (size, mark) in examples {
        let marks = Marks::open(Some(size)).unwrap();
        let item = |item| item_block(marks, K, 5 * K, &[0; 150], item);
        let services = (0..7).map(|i| number(&item(i)[..4]) as u8);
        let expected = [mark, A, B, C, A, END, END];
        assert_eq!(services.collect::<Vec<_>>(), expected, "size {size}");
    }
}

#[test]
fn a_session_with_size_5_at_the_office_and_8_at_the_machine() {
    use Event::{Accepted, Ended, Previous, Sync};
    let mut ends = Ends::open(4, 5, 8);
    let expected = [
        ("S", SYNCHRONISING, Sync),
        ("0", 0b0001, Accepted),
        ("1", A, Accepted),
        ("2", B, Accepted),
        ("3", C, Accepted),
        ("E", END, Ended(960)),
        ("E", END, Previous),
    ];
    assert_eq!(ends.run(7, &[]), periods(&expected));
    assert!(ends.sender.finished);
    assert_eq!(ends.store, ends.order);
    let size = |marks: Marks| marks.in_use.then_some(marks.size);
    let sizes = (size(ends.sender.marks), size(ends.receiver.marks));
    assert_eq!(sizes, (Some(5), Some(8)));
}

/// The reading of item 1 is turned over.
#[test]
fn item_0_again_while_one_item_is_taken_is_the_previous_item() {
    use Event::{Accepted, Bad, Ended, Previous, Sync};
    let mut ends = Ends::open(2, 8, 5);
    let expected = [
        ("S", SYNCHRONISING, Sync),
        ("0", 0b0010, Accepted),
        ("!1", A, Bad(1)),
        ("S", SYNCHRONISING, Sync),
        ("0", 0b0010, Previous),
        ("1", A, Accepted),
        ("E", END, Ended(480)),
        ("E", END, Previous),
    ];
    assert_eq!(ends.run(8, &[2]), periods(&expected));
    assert_eq!(ends.store, ends.order);
}

/// The item behind item 1 that carries A too is item 4: "Why one good block between losses is
/// needed", one item later.
#[test]
fn two_losses_with_no_good_block_between() {
    let mut ends = Ends::open(6, 6, 6);
    // The reading and whether the block is damaged: S, 0, 1, 2, then 3 and 4 on lost readings, 5.
    let script = [(1, 0), (0, 0), (0, 0), (0, 1), (0, 1), (0, 0), (0, 0)];
    let events = script.map(|(reading, damaged)| ends.period(reading == 1, damaged == 1).2);
    use Event::{Accepted, Bad, Previous, Sync};
    let bad = Bad(FIRST_OF_260);
    let expected = [Sync, Accepted, Accepted, bad, bad, Previous, Accepted];
    assert_eq!(events, expected);
    assert_eq!(ends.store[..60], ends.order[..60], "items 0 and 1");
    assert_eq!(ends.store[60..90], ends.order[150..], "item 5 as item 2");
}

/// What becomes of a block, by a letter: *accepted*, *previous*, *sequence alarm*, *length alarm*,
/// *ended*, *bad*, or *z*: *bad* and back to search.
fn outcome(receiver: &Receiver, event: Event) -> char {
    match event {
        Event::Bad(0) if receiver.search => 'z',
        event => event.name().chars().next().unwrap(),
    }
}

/// The outcomes of service values 0 to 15; an end's length makes the items taken.
fn outcomes(code_size: Option<usize>, taken: usize, end_taken: bool) -> String {
    let judge = |service| {
        let state = Receiver {
            search: false,
            taken,
            end_taken,
            ..receiver::open(K, code_size).unwrap()
        };
        let block = pack(&assemble(service, &end_payload(K, taken * K)));
        match state.receive(&block, N, true, &mut [0; 150]) {
            (state, Received::Reported { event, used: N }) => outcome(&state, event),
            (_, other) => panic!("{other:?}"),
        }
    };
    (0..16).map(judge).collect()
}

/// A is 0011, the end 1000, B 1001 and C 1100; the marks are 0001, 0010, 1010 and 1011.
#[test]
fn every_service_value_at_the_first_items_and_after_the_end() {
    for size in [None, Some(5), Some(6), Some(7), Some(8)] {
        let expected = match size {
            None => [
                (0, "zzzazzzzlszzzzzz"),
                (1, "bbbpbbbbeabbsbbb"),
                (2, "bbbsbbbbepbbabbb"),
                (3, "bbbabbbbesbbpbbb"),
            ],
            Some(_) => [
                (0, "zaaszzzzlzaazzzz"),
                (1, "bppabbbbesppbbbb"),
                (2, "bbbpbbbbeabbsbbb"),
                (3, "bbbsbbbbepbbabbb"),
            ],
        };
        for (taken, expected) in expected {
            assert_eq!(
                outcomes(size, taken, false),
                expected,
                "{size:?}, r {taken}"
            );
        }
        assert_eq!(outcomes(size, 0, true), "zzzszzzzpszzszzz", "{size:?}");
        for taken in 1..4 {
            let expected = "bbbsbbbbpsbbsbbb";
            assert_eq!(outcomes(size, taken, true), expected, "{size:?}, r {taken}");
        }
    }
}

#[test]
fn opening_a_sender_is_refused_in_the_order_1_2_3_4_5_9_6() {
    let open = |k, speed, loop_ms, length, size, order: &[u8]| {
        sender::open(k, speed, loop_ms, length, Some(size), order).err()
    };
    assert_eq!(open(241, 100, 9999, 0, 4, &[]), Some(1));
    assert_eq!(open(240, 100, 9999, 0, 4, &[]), Some(2));
    assert_eq!(open(240, 200, 9999, 0, 4, &[]), Some(3));
    assert_eq!(open(240, 200, 0, 0, 4, &[]), Some(4));
    assert_eq!(open(240, 200, 0, LONGEST + 1, 4, &[]), Some(5));
    assert_eq!(open(240, 200, 0, 8, 4, &[]), Some(9));
    assert_eq!(open(240, 200, 0, 8, 5, &[]), Some(6));
    assert_eq!(open(240, 200, 0, 8, 5, &[0xA5]), None);
}

#[test]
fn opening_a_receiver_is_refused_in_the_order_1_9() {
    let open = |k, size| receiver::open(k, size).err();
    assert_eq!(open(241, Some(4)), Some(1));
    assert_eq!(open(240, Some(4)), Some(9));
    assert_eq!(open(240, Some(8)), None);
}

/// 0 is a size given, and refused; no size is none.
#[test]
fn sizes_on_either_side() {
    for size in [0, 4, 9, 256 + 5, usize::MAX] {
        assert_eq!(Marks::open(Some(size)), Err(9), "{size}");
    }
    for size in CODE_SIZES {
        assert_eq!(Marks::open(Some(size)), Ok(Marks { in_use: true, size }));
    }
    assert_eq!(Marks::open(None), Ok(Marks::NOT_IN_USE));
}

#[test]
fn with_marks_another_size_is_spoiled_and_without_it_is_carried_along() {
    for size in [0, 4, 9, 255] {
        for in_use in [true, false] {
            let marks = Marks { in_use, size };
            let mut ends = Ends::open(1, 5, 5);
            (ends.sender.marks, ends.receiver.marks) = (marks, marks);
            let (sender, sent) = ends.sender.send(&ends.order, false, &mut [0; 33]);
            assert_eq!(sent == Sent::Refused(7), in_use, "size {size}");
            let (receiver, received) = ends.receiver.receive(&[0], 8, true, &mut []);
            assert_eq!(received == Received::Refused(7), in_use, "size {size}");
            assert_eq!((sender.marks, receiver.marks), (marks, marks));
        }
    }
}

#[test]
fn a_mark_after_the_end_is_bad_and_a_letter_the_alarm() {
    let mut ends = Ends::open(1, 7, 7);
    ends.run(4, &[]);
    assert!(ends.sender.finished && ends.receiver.end_taken);
    for service in MARKS.into_iter().chain([A, B, C]) {
        let block = pack(&assemble(service, &unpack(&[0; 30], 0, K)));
        let (state, received) = ends.receiver.clone().receive(&block, N, true, &mut []);
        let (event, bad_row) = match is_mark(service) {
            true => (Event::Bad(0), 1),
            false => (Event::SequenceAlarm, 0),
        };
        assert_eq!(received, Received::Reported { event, used: N });
        assert_eq!(
            (state.bad_row, state.search, state.return_bit),
            (bad_row, false, true)
        );
    }
}
