//! Tint orders worked by hand, and every refusal on either side of its border.

use super::*;

/// Numbers and the order that they make. 480 is 01E0, 1200 is 04B0, 4800 is 12C0, 75 is 004B.
const EXAMPLES: [(&[u16], &[u8]); 5] = [
    (&[1, 1], &[1, 0, 3, 1, 0, 1]),
    (&[12, 4800], &[1, 0, 3, 12, 0x12, 0xC0]),
    (&[7, 256], &[1, 0, 3, 7, 1, 0]),
    (&[1, 255, 2, 1], &[1, 0, 6, 1, 0, 255, 2, 0, 1]),
    (
        &[2, 480, 5, 1200, 9, 75],
        &[1, 0, 9, 2, 0x01, 0xE0, 5, 0x04, 0xB0, 9, 0x00, 0x4B],
    ),
];

/// Four canisters of 4,800 steps and one of so many more.
fn four_full_and(steps: u16) -> [u16; 10] {
    [1, 4800, 2, 4800, 3, 4800, 4, 4800, 12, steps]
}

/// The same as the bytes of an order: 800 is 0320.
fn four_full_and_bytes(low: u8) -> Vec<u8> {
    let mut order = vec![1, 0, 15];
    order.extend((1..=4).flat_map(|canister| [canister, 0x12, 0xC0]));
    order.extend([12, 0x03, low]);
    order
}

/// As many doses as the numbers make, into as much room as there can be need for.
fn written(numbers: &[u16]) -> Result<Vec<u8>, Refusal> {
    let mut order = [0; 39];
    let bytes = write(numbers, numbers.len() / 2, &mut order)?;
    Ok(order[..bytes].to_vec())
}

fn doses_read(order: &[u8]) -> Result<Vec<u16>, Refusal> {
    let mut numbers = [0; 24];
    let count = read(order, &mut numbers)?;
    Ok(numbers[..2 * count].to_vec())
}

#[test]
fn the_examples_are_written_and_read() {
    for (numbers, order) in EXAMPLES {
        assert_eq!(written(numbers), Ok(order.to_vec()), "{numbers:?}");
        assert_eq!(doses_read(order), Ok(numbers.to_vec()), "{order:?}");
    }
}

/// Eleven times 1,666 (0682) and 1,674 (068A) are 20,000.
#[test]
fn twelve_doses_are_39_bytes() {
    let mut numbers: Vec<u16> = (1..=12).flat_map(|canister| [canister, 1666]).collect();
    numbers[23] = 1674;
    let mut order = vec![1, 0, 36];
    order.extend((1..=12).flat_map(|canister| [canister, 0x06, 0x82]));
    order[38] = 0x8A;
    assert_eq!(order.len(), 39);
    assert_eq!(written(&numbers), Ok(order.clone()));
    assert_eq!(doses_read(&order), Ok(numbers));
    order[38] = 0x8B;
    assert_eq!(doses_read(&order), Err(12));
}

#[test]
fn the_total_is_20_000_or_less() {
    let (most, above) = (four_full_and(800), four_full_and(801));
    let (most_bytes, above_bytes) = (four_full_and_bytes(0x20), four_full_and_bytes(0x21));
    assert_eq!(written(&most), Ok(most_bytes.clone()));
    assert_eq!(doses_read(&most_bytes), Ok(most.to_vec()));
    assert_eq!(written(&above), Err(12));
    assert_eq!(doses_read(&above_bytes), Err(12));
}

#[test]
fn bytes_that_are_no_order() {
    let examples: [&[u8]; 15] = [
        &[],
        &[1],
        &[1, 0],
        // No entries.
        &[1, 0, 0],
        // No whole entries.
        &[1, 0, 1, 1],
        &[1, 0, 2, 1, 0],
        &[1, 0, 4, 1, 0, 1, 2],
        // Not what follows: a byte less and a byte more, another entry, the head counted, the length's low byte first.
        &[1, 0, 3, 1, 0],
        &[1, 0, 3, 1, 0, 1, 0],
        &[1, 0, 3, 1, 0, 1, 2, 0, 1],
        &[1, 0, 6, 1, 0, 1],
        &[1, 3, 0, 1, 0, 1],
        // Another version.
        &[0, 0, 3, 1, 0, 1],
        &[2, 0, 3, 1, 0, 1],
        &[255, 0, 3, 1, 0, 1],
    ];
    for order in examples {
        assert_eq!(doses_read(order), Err(10), "{order:?}");
    }
}

/// A length of 16 bits cannot say what follows here.
#[test]
fn a_length_is_not_taken_modulo_65_536() {
    let mut order = vec![1, 0, 3, 1, 0, 1];
    order.resize(3 + 3 + 65_536, 0);
    assert_eq!(doses_read(&order), Err(10));
    order.truncate(3 + 65_535);
    order[1..3].copy_from_slice(&[255, 255]);
    assert_eq!(doses_read(&order), Err(11));
}

/// Doses that are refused 11: the last of them is out of range or order.
const OUT_OF_RANGE_OR_ORDER: [&[u16]; 10] = [
    &[0, 1],
    &[13, 1],
    &[255, 1],
    &[1, 0],
    // 4,801 is 12C1.
    &[1, 4801],
    &[1, 65535],
    &[3, 10, 3, 10],
    &[3, 10, 2, 10],
    &[1, 10, 12, 10, 13, 10],
    &[1, 10, 3, 10, 2, 10],
];

#[test]
fn entries_out_of_range_or_order() {
    for numbers in OUT_OF_RANGE_OR_ORDER {
        assert_eq!(written(numbers), Err(11), "{numbers:?}");
        let order = pack(&from_numbers(numbers));
        assert_eq!(doses_read(&order), Err(11), "{numbers:?}");
    }
    // A number of 16 bits is not cut to a byte: these are 5, 1 and 12 in their lowest one.
    for canister in [261, 257, 65292] {
        assert_eq!(written(&[canister, 1]), Err(11), "{canister}");
    }
}

#[test]
fn no_doses_and_too_many() {
    assert_eq!(write(&[], 0, &mut []), Err(10));
    assert_eq!(write(&[1, 1], 0, &mut [0; 39]), Err(10));
    let numbers: Vec<u16> = (1..=13).flat_map(|canister| [canister, 1]).collect();
    for count in [13, 14, 256 + 1, 1 << 32, 1 << 63, usize::MAX] {
        assert_eq!(write(&numbers, count, &mut [0; 42]), Err(11), "{count}");
        assert_eq!(write(&[], count, &mut []), Err(11), "{count}");
    }
}

/// With every entry judged before the total, and the room last.
#[test]
fn reading_is_refused_in_the_order_10_11_12_6() {
    let mut order = four_full_and_bytes(0x21);
    let read = |order: &[u8]| read(order, &mut [0; 9]);
    assert_eq!(read(&order), Err(12));
    assert_eq!(read(&four_full_and_bytes(0x20)), Err(6));
    order[15] = 13;
    assert_eq!(read(&order), Err(11));
    order[2] = 12;
    assert_eq!(read(&order), Err(10));
}

#[test]
fn writing_is_refused_in_the_order_10_11_12_6() {
    let write = |numbers: &[u16], count| write(numbers, count, &mut [0; 17]);
    assert_eq!(write(&four_full_and(800), 5), Err(6));
    assert_eq!(write(&four_full_and(801), 5), Err(12));
    let mut numbers = four_full_and(801);
    numbers[8] = 13;
    assert_eq!(write(&numbers, 5), Err(11));
    assert_eq!(write(&numbers, 0), Err(10));
    // The last dose is not looked at.
    assert_eq!(write(&numbers, 4), Ok(15));
}

/// What is there is judged; a dose without its steps is not there.
#[test]
fn doses_that_are_missing_are_not_judged() {
    let mut order = [0; 39];
    let mut write = |numbers: &[u16], count| write(numbers, count, &mut order);
    assert_eq!(write(&[], 1), Err(6));
    assert_eq!(write(&[0], 1), Err(6));
    assert_eq!(write(&[1, 10, 1], 2), Err(6));
    assert_eq!(write(&[1, 10, 1, 10], 3), Err(11));
    assert_eq!(write(&four_full_and(801), 6), Err(12));
    assert_eq!(write(&four_full_and(801)[..9], 5), Err(6));
}

#[test]
fn room_and_what_stands_behind_it() {
    let numbers = [2, 480, 5, 1200];
    assert_eq!(write(&numbers, 2, &mut [0; 8]), Err(6));
    let mut order = [0xEE; 11];
    assert_eq!(write(&numbers, 2, &mut order), Ok(9));
    assert_eq!(order[9..], [0xEE; 2]);
    assert_eq!(read(&order[..9], &mut [0; 3]), Err(6));
    let mut doses = [0xEEEE; 6];
    assert_eq!(read(&order[..9], &mut doses), Ok(2));
    assert_eq!(doses, [2, 480, 5, 1200, 0xEEEE, 0xEEEE]);
}
