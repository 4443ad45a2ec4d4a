//! Each fault, and the groups that find it: by a difference.

use super::super::{agreed, any_bytes, assert_different, block, both_ends, different_k, idle};
use super::super::{loop_time, receiver, restart, sampling, sender, two_orders};
use super::super::{Difference, Tally};
use super::busy::BUSY_FAULTS;
use super::lengths::{LengthFault, Place, FURTHER_LENGTHS};
use super::noise::NOISE_FAULTS;
use super::remainder::{reading_faults, receiving_faults};
use super::remainder::{RemainderFault, FURTHER_RECEIVING_FAULTS};
use super::tint::TINT_FAULTS;
use super::{Fault, Faulty, FAULTS_OF_A_RECEIVER, FAULTS_OF_A_SENDER, FAULTS_OF_EITHER_END};
use crate::calls::Reference;
use crate::comparison;
use crate::rng::Rng;

#[test]
fn faults_of_a_sender_are_found() {
    for fault in FAULTS_OF_EITHER_END.into_iter().chain(FAULTS_OF_A_SENDER) {
        let compared = sender::compare(&Faulty::with(fault), 5, 2_000);
        assert_different(compared, &format!("{fault:?}"));
    }
    agreed(sender::compare(&Faulty::with(Fault::None), 5, 200));
}

#[test]
fn faults_of_a_receiver_are_found() {
    for fault in FAULTS_OF_EITHER_END.into_iter().chain(FAULTS_OF_A_RECEIVER) {
        let compared = receiver::compare(&Faulty::with(fault), 8, 5_000);
        assert_different(compared, &format!("{fault:?}"));
    }
    agreed(receiver::compare(&Faulty::with(Fault::None), 8, 500));
}

#[test]
fn a_receiver_that_is_not_opened_anew_is_found() {
    let faulty = Faulty::with(Fault::ItemsKept);
    let groups = [
        ("two_orders", two_orders::compare(&Reference, &faulty)),
        ("restart", restart::compare(&Reference, &faulty)),
        ("idle", idle::compare(&Reference, &faulty)),
    ];
    for (name, compared) in groups {
        assert_different(compared, name);
    }
}

/// Where the reading of the call before is used, a request is read one block late.
#[test]
fn a_reading_of_the_call_before_is_found() {
    let faulty = || Faulty::with(Fault::ReadingBefore);
    let groups = [
        ("sender", sender::compare(&faulty(), 5, 2_000)),
        ("sampling", sampling::compare(&faulty(), &Reference)),
        ("restart", restart::compare(&faulty(), &Reference)),
        (
            "different_k",
            different_k::compare(&faulty(), &Reference, 20),
        ),
    ];
    for (name, compared) in groups {
        assert_different(compared, name);
    }
}

/// A longest order finds no room in the store.
#[test]
fn faults_of_a_refused_call_are_found_between_two_orders() {
    let refused = Fault::Receiving(RemainderFault::IfRefused);
    for fault in [Fault::RefusedState, Fault::RefusedCount, refused] {
        let compared = two_orders::compare(&Reference, &Faulty::with(fault));
        assert_different(compared, &format!("{fault:?}"));
    }
}

/// By the cases before the random ones.
#[test]
fn faults_of_a_block_length_are_found() {
    for k in FURTHER_LENGTHS {
        let faulty = |place| Faulty::with(Fault::Length(LengthFault(place, k)));
        let compared = loop_time::compare(&faulty(Place::LoopTime));
        assert_different(compared, &format!("{k}: loop time"));
        for place in [Place::Building, Place::Reading] {
            let compared = block::compare(&faulty(place), 11, 0);
            assert_different(compared, &format!("{k}: {place:?}"));
        }
        let compared = comparison::noise::compare(&faulty(Place::Noise), 18, 0, 0);
        assert_different(compared, &format!("{k}: noise load"));
        for place in [Place::Opening, Place::State] {
            let compared = sender::compare(&faulty(place), 5, 0);
            assert_different(compared, &format!("{k}: {place:?}, sender"));
            let compared = receiver::compare(&faulty(place), 8, 0);
            assert_different(compared, &format!("{k}: {place:?}, receiver"));
        }
    }
}

#[test]
fn faults_of_a_busy_machine_are_found() {
    for fault in BUSY_FAULTS.map(Fault::Busy) {
        let compared = receiver::compare(&Faulty::with(fault), 8, 5_000);
        assert_different(compared, &format!("{fault:?}"));
        let compared = both_ends::compare(&Reference, &Faulty::with(fault), 6, 500);
        assert_different(compared, &format!("{fault:?} in sessions"));
    }
    agreed(both_ends::compare(
        &Reference,
        &Faulty::with(Fault::None),
        6,
        1_000,
    ));
}

#[test]
fn faults_of_the_remainder_in_reading_are_found() {
    for fault in reading_faults().map(Fault::Reading) {
        let compared = block::compare(&Faulty::with(fault), 11, 0);
        assert_different(compared, &format!("{fault:?}"));
    }
    agreed(block::compare(&Faulty::with(Fault::None), 11, 0));
}

#[test]
fn faults_of_the_remainder_in_receiving_are_found() {
    let faults = receiving_faults().chain(FURTHER_RECEIVING_FAULTS);
    for fault in faults.map(Fault::Receiving) {
        let compared = receiver::compare(&Faulty::with(fault), 8, 5_000);
        assert_different(compared, &format!("{fault:?}"));
        let compared = both_ends::compare(&Reference, &Faulty::with(fault), 6, 500);
        assert_different(compared, &format!("{fault:?} in sessions"));
    }
}

#[test]
fn faults_of_the_remainder_are_found_where_a_case_says_what_comes() {
    for fault in receiving_faults().map(Fault::Receiving) {
        let faulty = Faulty::with(fault);
        let groups = [
            ("busy", comparison::busy::compare(&Reference, &faulty)),
            ("two_orders", two_orders::compare(&Reference, &faulty)),
            ("restart", restart::compare(&Reference, &faulty)),
            ("idle", idle::compare(&Reference, &faulty)),
            ("marks", comparison::marks::compare(&Reference, &faulty)),
            ("tint", comparison::tint::compare(&faulty, 17, 0, 200)),
            ("noise", comparison::noise::compare(&faulty, 18, 0, 200)),
        ];
        for (name, compared) in groups {
            assert_different(compared, &format!("{fault:?} in {name}"));
        }
        let compared = different_k::compare(&Reference, &faulty, 20);
        assert_different(compared, &format!("{fault:?} in different_k"));
    }
    // No block there fits nowhere.
    for fault in receiving_faults().filter(|fault| !fault.is_of_rule_7()) {
        let faulty = Faulty::with(Fault::Receiving(fault));
        let compared = sampling::compare(&Reference, &faulty);
        assert_different(compared, &format!("{fault:?} in sampling"));
    }
}

#[test]
fn faults_of_tint_calls_are_found() {
    for fault in TINT_FAULTS {
        let compared = comparison::tint::compare(&Faulty::with(Fault::Tint(fault)), 17, 20, 0);
        assert_different(compared, &format!("{fault:?}"));
    }
    agreed(comparison::tint::compare(
        &Faulty::with(Fault::None),
        17,
        20,
        100,
    ));
}

#[test]
fn faults_of_the_noise_load_are_found() {
    for fault in NOISE_FAULTS {
        let compared = comparison::noise::compare(&Faulty::with(Fault::Noise(fault)), 18, 1_000, 0);
        assert_different(compared, &format!("{fault:?}"));
    }
    agreed(comparison::noise::compare(
        &Faulty::with(Fault::None),
        18,
        1_000,
        100,
    ));
}

/// Random bytes are what the fuzzer begins with.
#[test]
fn faults_are_found_by_random_bytes() {
    let found = |fault, cases| {
        (0..cases).any(|case| {
            let bytes = Rng::for_case(14, case).bytes(400);
            let compared: Result<(), Difference> =
                any_bytes::compare(&Faulty::with(fault), &bytes, &mut Tally::default());
            compared.is_err()
        })
    };
    let of_one_end = FAULTS_OF_A_SENDER.into_iter().chain(FAULTS_OF_A_RECEIVER);
    let of_the_ends = FAULTS_OF_EITHER_END.into_iter().chain(of_one_end);
    let of_the_ends = of_the_ends.chain(BUSY_FAULTS.map(Fault::Busy));
    let receiving = receiving_faults().chain(FURTHER_RECEIVING_FAULTS);
    let reading = reading_faults().map(Fault::Reading);
    let of_remainders = receiving.map(Fault::Receiving).chain(reading);
    let of_tints = TINT_FAULTS.map(Fault::Tint);
    let of_noise = NOISE_FAULTS.map(Fault::Noise);
    let of_the_line = of_the_ends.chain(of_remainders);
    for fault in of_the_line.chain(of_tints).chain(of_noise) {
        assert!(found(fault, 20_000), "{fault:?}");
    }
    assert!(!found(Fault::None, 500));
}
