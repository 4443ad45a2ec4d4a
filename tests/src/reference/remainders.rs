//! The remainder of a block: as reading it hands it over, and as a *bad* event carries it.

use super::bits::{bits_of, number, pack, unpack, Bits};
use super::block::{assemble, block_bits, cancel, check_bits, read_block, remainder};
use super::block::{synchronising_block, Read, A, C, CHECK_BITS, LENGTHS};
use super::marks::MARKS;
use super::order::{letter, MOST_ITEMS};
use super::receiver::{self, Event, Received, Receiver};
use crate::damage::{at_powers, invert, times_x};

/// x to these powers, divided by hand: x^16 is x^12 + x^5 + 1, and so on.
const BY_HAND: [(usize, u16); 8] = [
    (0, 0x0001),
    (1, 0x0002),
    (15, 0x8000),
    (16, 0x1021),
    (17, 0x2042),
    (20, 0x1231),
    (24, 0x3331),
    (32, 0x3730),
];

/// For each k, by Python's `binascii.crc_hqx`: the remainder of a synchronising block, and with its
/// first bit inverted.
const SYNCHRONISING: [(u16, u16); 4] = [
    (0x9F3A, 0xAEF6),
    (0xA0E1, 0x4D23),
    (0xEC58, 0x4CD7),
    (0x5D54, 0x1880),
];

/// In 260 bits the first is at the power 259; by `binascii.crc_hqx` too.
pub const FIRST_OF_260: u16 = 0x31CC;

/// A block that passes.
fn passing(k: usize, service: u8) -> Bits {
    let data: Vec<u8> = (0..k / 8).map(|i| (11 * i + 5) as u8).collect();
    assemble(service, &unpack(&data, 0, k))
}

fn inverted(mut block: Bits, powers: &[usize]) -> Bits {
    let damage = at_powers(block.len(), powers);
    invert(&mut block, &damage);
    block
}

fn read(block: &[bool]) -> Read {
    let k = block.len() - 20;
    read_block(k, &pack(block), &mut vec![0; k / 8])
}

/// A receiver in step, with so many items taken.
fn in_step(k: usize, taken: usize) -> Receiver {
    Receiver {
        search: false,
        taken,
        ..receiver::open(k, None).unwrap()
    }
}

/// The event of a block that does not wait: the same whether the machine is ready or not, and however
/// the block is cut.
fn event(state: &Receiver, block: &[bool]) -> Event {
    let n = block.len();
    let receive = |state: &Receiver, bits: &[bool], ready| {
        let store = &mut vec![0; (MOST_ITEMS + 1) * state.k / 8];
        match state.clone().receive(&pack(bits), bits.len(), ready, store) {
            (state, Received::Reported { event, .. }) => (state, event),
            (_, refused) => panic!("{refused:?}"),
        }
    };
    let (_, whole) = receive(state, block, true);
    for (cut, ready) in [(1, true), (n - 1, false), (n / 2, false)] {
        let (begun, none) = receive(state, &block[..cut], ready);
        assert_eq!(none, Event::None);
        assert_eq!(receive(&begun, &block[cut..], ready).1, whole);
    }
    whole
}

#[test]
fn a_single_inverted_bit_shows_its_power_of_x() {
    for k in LENGTHS {
        for (power, expected) in BY_HAND {
            assert_eq!(remainder(&at_powers(block_bits(k), &[power])), expected);
            let block = inverted(passing(k, C), &[power]);
            assert_eq!(read(&block), Read::Failed(expected), "x^{power}");
            assert_eq!(event(&in_step(k, 2), &block), Event::Bad(expected));
        }
        let mut expected = 1;
        for power in 0..block_bits(k) {
            assert_eq!(remainder(&at_powers(block_bits(k), &[power])), expected);
            expected = times_x(expected);
        }
    }
    assert_eq!(remainder(&at_powers(260, &[259])), FIRST_OF_260);
}

#[test]
fn damage_to_the_last_sixteen_bits_shows_itself() {
    for k in LENGTHS {
        for pattern in [0x0001, 0x0100, 0x8001, 0xA55A, 0xFFFF] {
            let mut block = passing(k, A);
            invert(&mut block[k + 4..], &bits_of(pattern, CHECK_BITS));
            assert_eq!(read(&block), Read::Failed(pattern as u16));
        }
    }
}

/// Whatever its service bits are, and whether it would be accepted, the previous one or an alarm.
#[test]
fn a_cancelled_block_shows_1_at_each_k() {
    for k in LENGTHS {
        for service in 0..16 {
            let mut block = passing(k, service);
            assert_eq!(read(&block), Read::Passed(service));
            cancel(&mut block);
            assert_eq!(read(&block), Read::Failed(1));
            for taken in [0, 1, 2] {
                assert_eq!(event(&in_step(k, taken), &block), Event::Bad(1));
            }
        }
    }
}

/// The register over all n bits takes each of them at x^16.
#[test]
fn the_register_over_all_bits_of_a_cancelled_block_is_another_number() {
    let mut block = passing(240, A);
    cancel(&mut block);
    assert_eq!(number(&check_bits(&block)), 0x1021);
    assert_eq!(remainder(&block), 1);
}

#[test]
fn powers_16_12_and_5_leave_1_in_a_block_that_is_not_cancelled() {
    for k in LENGTHS {
        let block = inverted(passing(k, A), &[16, 12, 5]);
        assert_eq!(read(&block), Read::Failed(1));
        assert_eq!(event(&in_step(k, 0), &block), Event::Bad(1));
    }
}

#[test]
fn a_cancelled_and_damaged_block_shows_the_sum() {
    for k in LENGTHS {
        let mut block = inverted(passing(k, A), &[20]);
        cancel(&mut block);
        assert_eq!(read(&block), Read::Failed(0x1231 ^ 1));
        assert_eq!(event(&in_step(k, 0), &block), Event::Bad(0x1231 ^ 1));
    }
}

#[test]
fn rule_7_shows_0() {
    for k in LENGTHS {
        for (taken, service) in [
            (0, 0),
            (0, C),
            (1, 0b1111),
            (MOST_ITEMS, letter(MOST_ITEMS)),
        ] {
            let event = event(&in_step(k, taken), &passing(k, service));
            assert_eq!(event, Event::Bad(0), "r {taken}, service bits {service}");
        }
        let ended = Receiver {
            end_taken: true,
            ..in_step(k, 1)
        };
        for mark in MARKS {
            assert_eq!(event(&ended, &passing(k, mark)), Event::Bad(0));
        }
    }
}

/// Whole, it fails the check and is *sync* by rule 1; with its first bit inverted it is *bad*.
#[test]
fn a_synchronising_block_shows_its_remainder_only_if_it_is_damaged() {
    for (k, (whole, damaged)) in LENGTHS.into_iter().zip(SYNCHRONISING) {
        let block = synchronising_block(k);
        assert_eq!(read(&block), Read::Failed(whole), "k {k}");
        assert_eq!(event(&in_step(k, 1), &block), Event::Sync);
        let block = inverted(block, &[k + 19]);
        assert_eq!(read(&block), Read::Failed(damaged), "k {k}");
        assert_eq!(event(&in_step(k, 1), &block), Event::Bad(damaged));
    }
}
