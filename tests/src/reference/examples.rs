//! Every example of docs/PROTOCOL.md, run on the second implementation.

use super::bits::{bits_of, number, pack, unpack};
use super::block::{block_bytes, build_block, check_bits, passes, read_block, Read};
use super::block::{cancel, synchronising_block, A, B, C, END, LENGTHS, SYNCHRONISING};
use super::loop_time::{longest_loop, test_loop, SPEEDS};
use super::marks::Marks;
use super::order::{end_payload, item_block, items};
use super::receiver::{self, Event, Received};
use super::remainders::FIRST_OF_260;
use super::sender::{self, Sent};
use super::session::run;
use crate::damage::{at_powers, invert};

#[test]
fn check_bits_of_four_service_bits_alone() {
    let examples = [
        (A, 0x3063),
        (B, 0x9129),
        (C, 0xC18C),
        (SYNCHRONISING, 0x50A5),
        (END, 0x8108),
    ];
    for (service, expected) in examples {
        let check = check_bits(&bits_of(usize::from(service), 4));
        assert_eq!(number(&check), expected, "service bits {service:04b}");
    }
}

#[test]
fn orders_make_their_items() {
    // The paper's own, the longest order last.
    let examples = [(1, 1), (240, 1), (241, 2), (262_144, 1_093)];
    for (length, number) in examples {
        assert_eq!(items(240, length), number, "L {length}");
    }
}

#[test]
fn loop_times_on_either_side() {
    assert_eq!(test_loop(240, 1200, 126), Ok(()));
    assert_eq!(test_loop(240, 1200, 127), Err(3));
    assert_eq!(test_loop(240, 4800, 0), Err(3));
}

#[test]
fn longest_loops_are_those_of_the_table() {
    let table = [
        [Some(1210), Some(343), Some(126), Some(18), None, None],
        [2410, 743, 326, 118, 48, 14].map(Some),
        [4810, 1543, 726, 318, 182, 114].map(Some),
        [19210, 6343, 3126, 1518, 982, 714].map(Some),
    ];
    for (k, entries) in LENGTHS.into_iter().zip(table) {
        for (speed, entry) in SPEEDS.into_iter().zip(entries) {
            assert_eq!(longest_loop(k, speed), entry, "k {k}, speed {speed}");
        }
    }
}

/// Without rounding: the loop and 90 ms together last longer than the block.
#[test]
fn a_loop_is_refused_exactly_if_it_does_not_fit_into_the_block() {
    for k in LENGTHS {
        for speed in SPEEDS {
            for loop_ms in 0..=20_000 {
                let too_long = (loop_ms + 90) * speed > 1000 * (k + 20);
                let refused = test_loop(k, speed, loop_ms) == Err(3);
                assert_eq!(refused, too_long, "k {k}, speed {speed}, loop {loop_ms}");
            }
        }
    }
}

#[test]
fn the_shortest_session() {
    let expected = "\
period sent read event back
0 S - sync 0
1 0 - accepted 0
2 E 0 ended 0
3 E 0 previous 0
";
    assert_eq!(text(run(b"240 8 a5\nt\nt\nt\nt\n")), expected);
}

#[test]
fn a_lost_request_brings_the_sequence_alarm() {
    let order = "00".repeat(31);
    let input = format!("240 241 {order}\nt\nd\nf\n");
    let expected = "\
period sent read event back
0 S - sync 0
1 0 - bad 1
2 1 0 sequence alarm 1
";
    assert_eq!(text(run(input.as_bytes())), expected);
}

/// "Why one good block between losses is needed".
#[test]
fn two_losses_with_no_good_block_between() {
    let order: Vec<u8> = (1..=150).collect();
    let mut sender = sender::open(240, 200, 0, 1200, None, &order).unwrap();
    let mut receiver = receiver::open(240, None).unwrap();
    let mut store = [0; 150];
    let mut events = Vec::new();
    // The reading and whether the block is damaged: S, 0, 1, then 2 and 3 on lost readings, 4.
    let script = [(1, 0), (0, 0), (0, 1), (0, 1), (0, 0), (0, 0)];
    for (reading, damaged) in script {
        let mut block = [0; 33];
        let (next, sent) = sender.send(&order, reading == 1, &mut block);
        assert!(!matches!(sent, Sent::Refused(_)));
        sender = next;
        block[0] ^= damaged << 7;
        let (next, received) = receiver.receive(&block, 260, true, &mut store);
        receiver = next;
        if let Received::Reported { event, used: 260 } = received {
            events.push(event);
        }
    }
    use Event::{Accepted, Bad, Previous, Sync};
    let bad = Bad(FIRST_OF_260);
    let expected = [Sync, Accepted, bad, bad, Previous, Accepted];
    assert_eq!(events, expected);
    assert_eq!(store[..30], order[..30], "item 0 in its place");
    assert_eq!(store[30..60], order[120..150], "item 4 stored as item 1");
}

#[test]
fn blocks_read_back_and_cancelled_ones_fail() {
    for k in LENGTHS {
        let payload: Vec<u8> = (0..k / 8).map(|i| (7 * i + 3) as u8).collect();
        let mut block = vec![0; block_bytes(k)];
        assert_eq!(build_block(k, C, &payload, &mut block), Ok(()));
        assert_eq!(block[k / 8 + 2] & 0x0F, 0, "spare bits are zero");
        let mut data = vec![0; k / 8];
        assert_eq!(read_block(k, &block, &mut data), Read::Passed(C));
        assert_eq!(data, payload);
        block[k / 8 + 2] ^= 0x10;
        assert_eq!(read_block(k, &block, &mut data), Read::Failed(1));
    }
}

/// "Wrong turnings": powers 16, 12 and 5 with the inverted last bit are the polynomial itself.
#[test]
fn sixteen_damaged_places_on_a_cancelled_block_can_pass() {
    let mut block = item_block(Marks::NOT_IN_USE, 240, 8, &[0xA5], 0);
    cancel(&mut block);
    assert!(!passes(&block));
    let damage = at_powers(block.len(), &[16, 12, 5]);
    invert(&mut block, &damage);
    assert!(passes(&block));
}

#[test]
fn synchronising_and_end_blocks_as_written() {
    let block = pack(&synchronising_block(240));
    assert_eq!(block[..2], [0x5A, 0xAA]);
    assert_eq!(block[29..], [0xAA, 0xA5, 0x0A, 0x50]);
    for k in LENGTHS {
        assert!(!passes(&synchronising_block(k)), "k {k}");
    }
    let end = pack(&end_payload(240, 0x12345));
    assert_eq!(end[..6], [1, 0, 1, 0x23, 0x45, 0]);
    let item = |item| item_block(Marks::NOT_IN_USE, 240, 8, &[0], item);
    assert_eq!(item(1), item(2));
}

#[test]
fn filling_is_zero_behind_the_order() {
    let item = item_block(Marks::NOT_IN_USE, 240, 4, &[0xFF], 0);
    let payload = pack(&item[4..244]);
    assert_eq!(payload[0], 0xF0);
    assert_eq!(payload[1..], [0; 29]);
    assert_eq!(unpack(&[0xFF], 0, 4), [true; 4]);
}

fn text(output: Vec<u8>) -> String {
    String::from_utf8(output).unwrap()
}
