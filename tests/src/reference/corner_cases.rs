//! Corners that the rules fix without an example.

use super::bits::pack;
use super::block::{assemble, synchronising_block, A, B, C, END};
use super::order::{end_payload, letter, LONGEST, MOST_ITEMS};
use super::receiver::{self, Alarm, Event, Received, Receiver};
use super::sender::{self, Sent};
use super::session::run;

pub const K: usize = 240;
pub const N: usize = 260;
const HEADING: &str = "period sent read event back\n";

/// A receiver in step with `taken` items taken.
pub fn in_step(taken: usize) -> Receiver {
    Receiver {
        search: false,
        return_bit: false,
        taken,
        ..receiver::open(K, None).unwrap()
    }
}

pub fn block(service: u8) -> Vec<u8> {
    pack(&assemble(service, &[false; K]))
}

/// The remainder of `damaged`.
pub const DAMAGED: u16 = 1 << 11;

/// A block of item 2 with the bit at power 11 inverted.
pub fn damaged() -> Vec<u8> {
    let mut damaged = block(C);
    damaged[31] ^= 0x80;
    damaged
}

pub fn end_block(version: u8, length: usize) -> Vec<u8> {
    let mut payload = end_payload(K, length);
    payload[7] = version & 1 == 1;
    pack(&assemble(END, &payload))
}

/// One whole block to a machine that is ready, with a store that has room for every item.
pub fn receive_block(state: Receiver, block: &[u8]) -> (Receiver, Event) {
    let mut store = vec![0; (MOST_ITEMS + 1) * K / 8];
    match state.receive(block, N, true, &mut store) {
        (state, Received::Reported { event, used: N }) => (state, event),
        (_, other) => panic!("{other:?}"),
    }
}

#[test]
fn no_bits_change_nothing() {
    let state = in_step(3);
    let none = Received::Reported {
        event: Event::None,
        used: 0,
    };
    assert_eq!(state.clone().receive(&[], 0, true, &mut []), (state, none));
    let alarmed = Receiver {
        alarm: Some(Alarm::Length),
        ..in_step(3)
    };
    let again = Received::Reported {
        event: Event::LengthAlarm,
        used: 0,
    };
    assert_eq!(
        alarmed.clone().receive(&[], 0, true, &mut []),
        (alarmed, again)
    );
}

#[test]
fn a_short_line_is_refused_under_an_alarm_too() {
    let alarmed = Receiver {
        alarm: Some(Alarm::Sequence),
        ..in_step(3)
    };
    let refused = Received::Refused(6);
    let answer = alarmed.clone().receive(&[0], 9, true, &mut []);
    assert_eq!(answer, (alarmed.clone(), refused));
    let (after, received) = alarmed.receive(&[0], 8, true, &mut []);
    assert!(after.return_bit);
    let event = Event::SequenceAlarm;
    assert_eq!(received, Received::Reported { event, used: 8 });
}

#[test]
fn a_block_bit_by_bit_is_the_block_at_once() {
    let line = block(A);
    let (whole, event) = receive_block(in_step(0), &line);
    assert_eq!(event, Event::Accepted);
    let mut state = in_step(0);
    let mut store = [0xFF; 30];
    for i in 0..N {
        let bit = [line[i / 8] << (i % 8)];
        let (next, received) = state.receive(&bit, 1, true, &mut store);
        let event = if i == N - 1 { event } else { Event::None };
        assert_eq!(received, Received::Reported { event, used: 1 });
        state = next;
    }
    assert_eq!(state, whole);
    assert_eq!(store, [0; 30]);
}

#[test]
fn a_search_finds_the_sequence_where_it_first_ends() {
    let line = [0x00, 0x50, 0xA5, 0x50, 0xA5];
    let state = receiver::open(K, None).unwrap();
    let (state, received) = state.receive(&line, 23, true, &mut []);
    let event = Event::None;
    assert_eq!(received, Received::Reported { event, used: 23 });
    assert_eq!(
        (state.held, state.array[0], state.array[1]),
        (15, 0x50, 0xA4)
    );
    let (state, received) = state.receive(&[0x80], 1, true, &mut []);
    let event = Event::Sync;
    assert_eq!(received, Received::Reported { event, used: 1 });
    assert!(!state.search && !state.return_bit && state.held == 0);
}

#[test]
fn the_sequence_must_arrive_whole_since_the_search_began() {
    let state = Receiver {
        bad_row: 7,
        ..in_step(0)
    };
    let mut line = [0xFF; 33];
    (line[31], line[32]) = (0xF5, 0x00);
    let (state, event) = receive_block(state, &line);
    let outcome = (event.name(), state.search, state.bad_row);
    assert_eq!(outcome, ("bad", true, 0));
    let (state, received) = state.receive(&[0xA5, 0x00], 10, true, &mut []);
    let event = Event::None;
    assert_eq!(received, Received::Reported { event, used: 10 });
    assert_eq!(state.held, 10);
}

#[test]
fn the_eighth_bad_starts_a_search_and_a_synchronising_block_is_none() {
    let after_bad = |bad_row| Receiver {
        bad_row,
        ..in_step(2)
    };
    let (state, event) = receive_block(after_bad(6), &damaged());
    assert_eq!(
        (event, state.bad_row, state.search),
        (Event::Bad(DAMAGED), 7, false)
    );
    let synchronising = pack(&synchronising_block(K));
    let (state, event) = receive_block(state, &synchronising);
    assert_eq!(
        (event, state.bad_row, state.search),
        (Event::Sync, 0, false)
    );
    let (state, event) = receive_block(after_bad(7), &damaged());
    assert_eq!(
        (event, state.bad_row, state.search),
        (Event::Bad(DAMAGED), 0, true)
    );
}

#[test]
fn rule_seven_at_no_item_goes_back_to_search_and_rule_two_does_not() {
    for service in [C, 0, 0b0101, 0b1111] {
        let (state, event) = receive_block(in_step(0), &block(service));
        let outcome = (event, state.search, state.bad_row);
        assert_eq!(outcome, (Event::Bad(0), true, 0));
        assert!(state.return_bit);
    }
    for (taken, line, remainder) in [(1, block(0), 0), (0, damaged(), DAMAGED)] {
        let (state, event) = receive_block(in_step(taken), &line);
        let outcome = (event, state.search, state.bad_row);
        assert_eq!(outcome, (Event::Bad(remainder), false, 1));
    }
}

#[test]
fn rule_five_holds_at_no_item() {
    let (state, event) = receive_block(in_step(0), &block(B));
    assert_eq!(event, Event::SequenceAlarm);
    assert_eq!(state.alarm, Some(Alarm::Sequence));
    let (_, event) = receive_block(in_step(0), &end_block(1, 8));
    assert_eq!(event, Event::LengthAlarm);
}

#[test]
fn no_item_is_taken_behind_the_most() {
    let [previous, next, behind] = [MOST_ITEMS - 1, MOST_ITEMS, MOST_ITEMS + 1]
        .map(letter)
        .map(block);
    let (_, event) = receive_block(in_step(MOST_ITEMS - 1), &previous);
    assert_eq!(event, Event::Accepted);
    let (state, event) = receive_block(in_step(MOST_ITEMS), &next);
    assert_eq!((event, state.taken), (Event::Bad(0), MOST_ITEMS));
    let (_, event) = receive_block(in_step(MOST_ITEMS), &previous);
    assert_eq!(event, Event::Previous);
    let (_, event) = receive_block(in_step(MOST_ITEMS), &behind);
    assert_eq!(event, Event::SequenceAlarm);
    let (_, event) = receive_block(in_step(MOST_ITEMS), &end_block(1, LONGEST));
    assert_eq!(event, Event::Ended(LONGEST));
    let (state, received) = in_step(MOST_ITEMS + 1).receive(&[], 0, true, &mut []);
    assert_eq!(
        (state.taken, received),
        (MOST_ITEMS + 1, Received::Refused(7))
    );
}

#[test]
fn an_end_is_judged_by_version_and_length() {
    let (state, event) = receive_block(in_step(2), &end_block(1, 241));
    assert_eq!((event, state.end_taken), (Event::Ended(241), true));
    for (version, length) in [(1, 240), (1, 481), (0, 241), (1, 0), (1, 1 << 31)] {
        let (state, event) = receive_block(in_step(2), &end_block(version, length));
        assert_eq!(event, Event::LengthAlarm, "version {version}, L {length}");
        assert!(state.return_bit && !state.end_taken);
    }
    let (state, event) = receive_block(state, &end_block(0, 7));
    assert_eq!(event, Event::Previous);
    for letter in [A, B, C] {
        let (_, event) = receive_block(state.clone(), &block(letter));
        assert_eq!(event, Event::SequenceAlarm);
    }
}

#[test]
fn a_short_store_refuses_the_block_that_would_be_accepted() {
    let line = block(A);
    let mut store = [0xEE; 119];
    let state = in_step(3);
    let (after, received) = state.clone().receive(&line, N, true, &mut store);
    assert_eq!((after, received), (state.clone(), Received::Refused(6)));
    assert_eq!(store, [0xEE; 119]);
    let (_, received) = state.clone().receive(&line, N - 1, true, &mut store);
    let event = Event::None;
    assert_eq!(received, Received::Reported { event, used: 259 });
    let (_, received) = state.receive(&block(C), N, true, &mut []);
    let event = Event::Previous;
    assert_eq!(received, Received::Reported { event, used: N });
}

#[test]
fn a_sender_gives_up_at_the_sixty_fourth_cancel() {
    let mut sender = sender::open(K, 200, 0, 8, None, &[0xA5]).unwrap();
    let mut cancels = 0;
    let mut block = [0; 33];
    while !sender.rests() {
        let (next, sent) = sender.send(&[0xA5], true, &mut block);
        cancels += usize::from(sent.is_cancelled());
        sender = next;
    }
    assert_eq!((cancels, sender.cancel_run), (64, 64));
    assert!(sender.gave_up() && !sender.finished);
    let (_, sent) = sender.clone().send(&[], false, &mut []);
    assert_eq!(sent, Sent::Refused(8));
    sender.cancel_run = 65;
    let (_, sent) = sender.send(&[], false, &mut []);
    assert_eq!(sent, Sent::Refused(7));
}

#[test]
fn a_sender_synchronises_after_four_cancels() {
    let mut sender = sender::open(K, 200, 0, 8, None, &[0xA5]).unwrap();
    let mut kinds = String::new();
    let mut block = [0; 33];
    for reading in [1, 1, 0, 1, 1, 1, 1, 1, 1, 1, 1, 1] {
        let (next, sent) = sender.send(&[0xA5], reading == 1, &mut block);
        sender = next;
        kinds += match sent {
            Sent::Synchronising => "S",
            Sent::Item { used: false, .. } => "o",
            Sent::Item { cancelled, .. } => ["n", "!"][usize::from(cancelled)],
            Sent::Refused(_) => "?",
        };
    }
    assert_eq!(kinds, "Son!o!o!o!So");
}

#[test]
fn an_unreadable_line_one_gets_the_heading_alone() {
    let unreadable = [
        "",
        "\n",
        " ",
        "240",
        "240 ",
        " 240 8 a5",
        "240  8 a5",
        "240 8  a5",
        "240 8 a5  ",
        "240 8 a5 t",
        "240 8 a",
        "240 8 g0",
        "+240 8 a5",
        "240 -8 a5",
        "240\t8 a5",
        "240 8 a5\r",
        "x 0",
    ];
    for line in unreadable {
        let output = run(format!("{line}\nt\n").as_bytes());
        assert_eq!(output, HEADING.as_bytes(), "{line:?}");
    }
}

#[test]
fn a_readable_line_one_is_judged_by_value() {
    let long = format!("240 {}", LONGEST + 1);
    let refused = [
        ("241 8 a5", 1),
        ("99999999999999999999999999 0", 1),
        ("240 0", 4),
        (&long, 5),
        ("240 99999999999999999999999999 a5", 5),
        ("240 8", 6),
        ("240 8 ", 6),
        ("240 9 a5 ", 6),
    ];
    for (line, number) in refused {
        let output = run(format!("{line}\nt\n").as_bytes());
        let expected = format!("{HEADING}refused {number}\n");
        assert_eq!(output, expected.as_bytes(), "{line:?}");
    }
    assert_eq!(run(b"240 8 A5ff \nq\nt"), HEADING.as_bytes());
    assert_eq!(run(b"0240 08 a5\nt").len(), HEADING.len() + 13);
}
