//! A machine that is not ready: a session, and the corners.

use super::bits::{pack, unpack};
use super::block::{synchronising_block, A, B, C};
use super::corner_cases::{block, damaged, end_block, in_step, receive_block, DAMAGED, K, N};
use super::marks::{Marks, MARKS};
use super::order::{letter, MOST_ITEMS};
use super::receiver::{self, Alarm, Event, Received, Receiver, HELD_BYTES};
use super::sender::{self, Sent};

/// One whole block while the machine is busy. The store, of so many bytes, stays as it is.
fn receive_busy(state: Receiver, block: &[u8], store_bytes: usize) -> (Receiver, Event) {
    let mut store = vec![0xEE; store_bytes];
    let (state, received) = state.receive(block, N, false, &mut store);
    assert_eq!(store, vec![0xEE; store_bytes]);
    match received {
        Received::Reported { event, used: N } => (state, event),
        other => panic!("{other:?}"),
    }
}

/// The state that a wait leaves of this one.
fn after_wait(state: &Receiver) -> Receiver {
    Receiver {
        array: [0; HELD_BYTES],
        held: 0,
        bad_row: 0,
        return_bit: true,
        ..state.clone()
    }
}

/// Item 0 and the end wait once each.
#[test]
fn a_session_with_a_busy_machine() {
    let order = [0xA5];
    let mut sender = sender::open(K, 200, 0, 8, None, &order).unwrap();
    let mut receiver = receiver::open(K, None).unwrap();
    let mut store = [0; 30];
    let mut course = Vec::new();
    for period in 0..9 {
        let mut block = [0; 33];
        let (next, sent) = sender.send(&order, receiver.return_bit, &mut block);
        sender = next;
        let ready = period != 1 && period != 5;
        let (next, received) = receiver.receive(&block, N, ready, &mut store);
        receiver = next;
        let sent = match sent {
            Sent::Synchronising => "S",
            Sent::Item { end: false, .. } => "0",
            Sent::Item { cancelled, .. } => ["E", "!E"][usize::from(cancelled)],
            Sent::Refused(_) => "?",
        };
        let Received::Reported { event, used: N } = received else {
            panic!("{received:?}");
        };
        course.push((sent, event.name(), u8::from(receiver.return_bit)));
    }
    let expected = [
        ("S", "sync", 0),
        ("0", "wait", 1),
        ("!E", "bad", 1),
        ("S", "sync", 0),
        ("0", "accepted", 0),
        ("E", "wait", 1),
        ("!E", "bad", 1),
        ("E", "ended", 0),
        ("E", "previous", 0),
    ];
    assert_eq!(course, expected);
    assert!(sender.finished && store[0] == 0xA5);
}

#[test]
fn a_data_block_waits_and_is_accepted_once_the_machine_is_ready() {
    let state = Receiver {
        bad_row: 3,
        ..in_step(2)
    };
    let (after, event) = receive_busy(state.clone(), &block(C), 90);
    assert_eq!((event, &after), (Event::Wait, &after_wait(&state)));
    let (after, event) = receive_block(after, &block(C));
    assert_eq!((event, after.taken), (Event::Accepted, 3));
    assert!(!after.return_bit);
}

#[test]
fn an_end_waits_twice_and_is_then_taken() {
    let mut state = in_step(2);
    for _ in 0..2 {
        let (after, event) = receive_busy(state.clone(), &end_block(1, 241), 0);
        assert_eq!((event, &after), (Event::Wait, &after_wait(&state)));
        state = after;
    }
    let (state, event) = receive_block(state, &end_block(1, 241));
    assert_eq!((event, state.end_taken), (Event::Ended(241), true));
    assert!(!state.return_bit);
}

#[test]
fn a_mark_waits_as_item_0_and_not_as_the_item_before() {
    for mark in MARKS {
        let with_marks = |taken| Receiver {
            marks: Marks::open(Some(6)).unwrap(),
            ..in_step(taken)
        };
        let (after, event) = receive_busy(with_marks(0), &block(mark), 30);
        assert_eq!((event, after), (Event::Wait, after_wait(&with_marks(0))));
        let (_, event) = receive_busy(with_marks(1), &block(mark), 60);
        assert_eq!(event, Event::Previous);
    }
}

#[test]
fn a_short_store_is_judged_only_if_the_machine_is_ready() {
    for store_bytes in [0, 119] {
        let (after, event) = receive_busy(in_step(3), &block(A), store_bytes);
        assert_eq!((event, after), (Event::Wait, after_wait(&in_step(3))));
        let store = &mut vec![0; store_bytes][..];
        let (_, received) = in_step(3).receive(&block(A), N, true, store);
        assert_eq!(received, Received::Refused(6));
    }
}

#[test]
fn a_short_line_is_refused_though_the_machine_is_busy() {
    let (state, received) = in_step(0).receive(&block(A)[..32], N, false, &mut []);
    assert_eq!((state, received), (in_step(0), Received::Refused(6)));
}

/// Seven bad blocks before each wait start no search.
#[test]
fn a_wait_clears_the_bad_row() {
    let mut state = in_step(2);
    for _ in 0..2 {
        for row in 1..8 {
            let (after, event) = receive_block(state, &damaged());
            assert_eq!(
                (event, after.bad_row, after.search),
                (Event::Bad(DAMAGED), row, false)
            );
            state = after;
        }
        let (after, event) = receive_busy(state, &block(C), 90);
        assert_eq!(
            (event, after.bad_row, after.search),
            (Event::Wait, 0, false)
        );
        state = after;
    }
}

#[test]
fn no_other_block_waits() {
    let ended = Receiver {
        end_taken: true,
        ..in_step(2)
    };
    let cases = [
        (in_step(2), pack(&synchronising_block(K)), Event::Sync),
        (in_step(2), damaged(), Event::Bad(DAMAGED)),
        (in_step(2), block(B), Event::Previous),
        (in_step(2), block(A), Event::SequenceAlarm),
        (in_step(0), block(B), Event::SequenceAlarm),
        (ended.clone(), block(C), Event::SequenceAlarm),
        (in_step(2), end_block(1, 240), Event::LengthAlarm),
        (in_step(2), end_block(0, 241), Event::LengthAlarm),
        (in_step(0), end_block(1, 8), Event::LengthAlarm),
        (ended, end_block(1, 241), Event::Previous),
        (in_step(2), block(0), Event::Bad(0)),
        (in_step(0), block(0), Event::Bad(0)),
        (
            in_step(MOST_ITEMS),
            block(letter(MOST_ITEMS)),
            Event::Bad(0),
        ),
    ];
    for (state, line, expected) in cases {
        for bad_row in [0, 7] {
            let state = Receiver {
                bad_row,
                ..state.clone()
            };
            let busy = receive_busy(state.clone(), &line, 0);
            assert_eq!(busy.1, expected);
            assert_eq!(busy, receive_block(state, &line));
        }
    }
}

/// Three calls bring a block, in each of which the machine is ready or not.
#[test]
fn the_call_that_brings_the_last_bit_decides() {
    let line = unpack(&block(A), 0, N);
    for calls in 0..8 {
        let mut state = in_step(0);
        let mut events = Vec::new();
        for (number, piece) in [&line[..100], &line[100..N - 1], &line[N - 1..]]
            .into_iter()
            .enumerate()
        {
            let ready = calls >> number & 1 == 1;
            let (next, received) = state.receive(&pack(piece), piece.len(), ready, &mut [0; 30]);
            state = next;
            if let Received::Reported { event, used } = received {
                assert_eq!(used, piece.len());
                events.push(event);
            }
        }
        let (last, taken) = match calls >> 2 {
            0 => (Event::Wait, 0),
            _ => (Event::Accepted, 1),
        };
        assert_eq!(events, [Event::None, Event::None, last]);
        assert_eq!((state.taken, state.held), (taken, 0));
    }
}

/// Nor does a call that ends within a block.
#[test]
fn no_bits_a_search_and_an_alarm_do_not_ask_whether_the_machine_is_ready() {
    let alarmed = |alarm| Receiver {
        alarm: Some(alarm),
        ..in_step(3)
    };
    let states = [
        in_step(3),
        receiver::open(K, None).unwrap(),
        alarmed(Alarm::Sequence),
        alarmed(Alarm::Length),
    ];
    let lines: [(&[u8], usize); 4] = [
        (&[], 0),
        (&block(A), N - 1),
        (&[0x50, 0xA5], 16),
        (&[0x00, 0x50, 0xA5, 0xFF], 32),
    ];
    for state in states {
        for (line, bits) in lines {
            let answer = |ready| state.clone().receive(line, bits, ready, &mut []);
            assert_eq!(answer(false), answer(true));
        }
    }
}
