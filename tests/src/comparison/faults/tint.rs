//! The faults of tint orders: both calls once more, each with one fault.

use crate::calls::Tints;
use crate::reference::refusal::{Refusal, ENTRY, FORMAT, SHORT, STEPS};

#[derive(Clone, Copy, Debug, PartialEq, Eq)]
pub enum TintFault {
    None,
    /// Steps have their low byte first.
    LittleEndian,
    /// Canister 13 is in range.
    Canister13,
    /// A number's lowest byte alone is the canister.
    CanisterInByte,
    /// A canister may come twice in a row.
    EqualCanisters,
    /// A canister must be above the first alone.
    RisesAboveFirst,
    /// Steps of 0 are in range.
    NoSteps,
    /// Steps of 4,801 are in range.
    Steps4801,
    /// 20,001 steps in all are not too many.
    Total20001,
    /// The total is judged before the last entry.
    TotalBeforeLast,
    /// The length is counted with its head.
    LengthWithHead,
    /// The length is compared with the lowest 16 bits of what follows.
    LengthInWord,
    /// Bytes may follow the order.
    BehindIgnored,
    /// Any version is read.
    AnyVersion,
    /// 11 and 12 have each other's number.
    RefusalsExchanged,
    /// No entries are written as an order, and read.
    NoEntries,
    /// A byte too many is written, or a number.
    OneMoreWritten,
    /// The room is judged before the entries.
    ShortFirst,
    /// Where doses are missing, those that are there are not judged.
    MissingFirst,
    /// A dose without its steps is judged.
    HalfDoseJudged,
    /// A refused call changes what is lent for writing.
    RefusedPlace,
    /// A refused call writes the number beside its answer.
    RefusedNumber,
}

pub const TINT_FAULTS: [TintFault; 21] = [
    TintFault::LittleEndian,
    TintFault::Canister13,
    TintFault::CanisterInByte,
    TintFault::EqualCanisters,
    TintFault::RisesAboveFirst,
    TintFault::NoSteps,
    TintFault::Steps4801,
    TintFault::Total20001,
    TintFault::TotalBeforeLast,
    TintFault::LengthWithHead,
    TintFault::LengthInWord,
    TintFault::BehindIgnored,
    TintFault::AnyVersion,
    TintFault::RefusalsExchanged,
    TintFault::NoEntries,
    TintFault::OneMoreWritten,
    TintFault::ShortFirst,
    TintFault::MissingFirst,
    TintFault::HalfDoseJudged,
    TintFault::RefusedPlace,
    TintFault::RefusedNumber,
];

/// Canister and steps.
type Dose = (u16, u16);

/// The calls with this fault.
pub struct OfTints(pub TintFault);

impl OfTints {
    fn has(&self, fault: TintFault) -> bool {
        self.0 == fault
    }

    fn is_in_range(&self, (canister, steps): Dose) -> bool {
        let last = 12 + u16::from(self.has(TintFault::Canister13));
        let least = 1 - u16::from(self.has(TintFault::NoSteps));
        let most = 4800 + u16::from(self.has(TintFault::Steps4801));
        (1..=last).contains(&canister) && (least..=most).contains(&steps)
    }

    fn is_in_order(&self, doses: &[Dose], place: usize) -> bool {
        let canister = doses[place].0;
        match place {
            0 => true,
            _ if self.has(TintFault::RisesAboveFirst) => canister > doses[0].0,
            _ if self.has(TintFault::EqualCanisters) => canister >= doses[place - 1].0,
            _ => canister > doses[place - 1].0,
        }
    }

    fn entry(&self) -> Refusal {
        match self.has(TintFault::RefusalsExchanged) {
            true => STEPS,
            false => ENTRY,
        }
    }

    fn judge(&self, doses: &[Dose]) -> Result<(), Refusal> {
        let steps = ENTRY + STEPS - self.entry();
        for (place, &dose) in doses.iter().enumerate() {
            let last = place + 1 == doses.len();
            if self.has(TintFault::TotalBeforeLast) && last && self.are_too_many(&doses[..place]) {
                return Err(steps);
            }
            if !self.is_in_range(dose) || !self.is_in_order(doses, place) {
                return Err(self.entry());
            }
        }
        match self.are_too_many(doses) {
            true => Err(steps),
            false => Ok(()),
        }
    }

    /// Whether the steps of these doses are too many in all.
    fn are_too_many(&self, doses: &[Dose]) -> bool {
        let most = 20_000 + usize::from(self.has(TintFault::Total20001));
        let steps = doses.iter().map(|dose| usize::from(dose.1));
        steps.sum::<usize>() > most
    }

    /// The first doses of these numbers, as a writing call judges them.
    fn doses(&self, numbers: &[u16], count: usize) -> Vec<Dose> {
        let canister = |number| match self.has(TintFault::CanisterInByte) {
            true => number % 256,
            false => number,
        };
        let dose = |pair: &[u16]| match *pair {
            [first, steps] => Some((canister(first), steps)),
            [first] if self.has(TintFault::HalfDoseJudged) => Some((canister(first), 1)),
            _ => None,
        };
        numbers.chunks(2).take(count).filter_map(dose).collect()
    }

    /// A number's bytes, or a number out of them.
    fn turn(&self, [first, second]: [u8; 2]) -> [u8; 2] {
        match self.has(TintFault::LittleEndian) {
            true => [second, first],
            false => [first, second],
        }
    }

    /// The bytes of the head that are counted.
    fn counted(&self) -> u16 {
        3 * u16::from(self.has(TintFault::LengthWithHead))
    }

    fn pack(&self, doses: &[Dose]) -> Vec<u8> {
        let mut bytes = vec![1];
        bytes.extend((3 * doses.len() as u16 + self.counted()).to_be_bytes());
        for &(canister, steps) in doses {
            bytes.push(canister as u8);
            bytes.extend(self.turn(steps.to_be_bytes()));
        }
        if self.has(TintFault::OneMoreWritten) {
            bytes.push(0);
        }
        bytes
    }

    /// The doses of bytes that are an order.
    fn unpack(&self, order: &[u8]) -> Result<Vec<Dose>, Refusal> {
        let [version, high, low, entries @ ..] = order else {
            return Err(FORMAT);
        };
        let length = u16::from_be_bytes([*high, *low]).checked_sub(self.counted());
        let length = usize::from(length.ok_or(FORMAT)?);
        let follows = match self.0 {
            TintFault::LengthInWord => length == entries.len() % 65_536,
            TintFault::BehindIgnored => length <= entries.len(),
            _ => length == entries.len(),
        };
        let known = *version == 1 || self.has(TintFault::AnyVersion);
        let some = length > 0 || self.has(TintFault::NoEntries);
        if !known || !some || length % 3 != 0 || !follows {
            return Err(FORMAT);
        }
        let steps = |high, low| u16::from_be_bytes(self.turn([high, low]));
        let dose = |entry: &[u8]| (u16::from(entry[0]), steps(entry[1], entry[2]));
        Ok(entries[..length].chunks(3).map(dose).collect())
    }

    fn written(&self, numbers: &[u16], count: usize, room: usize) -> Result<Vec<u8>, Refusal> {
        if count == 0 && !self.has(TintFault::NoEntries) {
            return Err(FORMAT);
        }
        if count > 12 {
            return Err(self.entry());
        }
        let (short, missing) = (room < 3 + 3 * count, numbers.len() < 2 * count);
        let before = [
            short && self.has(TintFault::ShortFirst),
            missing && self.has(TintFault::MissingFirst),
        ];
        if before.contains(&true) {
            return Err(SHORT);
        }
        let doses = self.doses(numbers, count);
        self.judge(&doses)?;
        match short || missing {
            true => Err(SHORT),
            false => Ok(self.pack(&doses)),
        }
    }

    fn doses_read(&self, order: &[u8], room: usize) -> Result<Vec<Dose>, Refusal> {
        let doses = self.unpack(order)?;
        let short = room < 2 * doses.len();
        if short && self.has(TintFault::ShortFirst) {
            return Err(SHORT);
        }
        self.judge(&doses)?;
        match short {
            true => Err(SHORT),
            false => Ok(doses),
        }
    }

    /// What a refused call does, and its answer.
    fn refuse<V>(&self, refusal: Refusal, place: &mut [V], number: &mut usize) -> u8 {
        match self.0 {
            TintFault::RefusedNumber => *number = 0,
            TintFault::RefusedPlace => place.reverse(),
            _ => {}
        }
        refusal
    }
}

/// Writes as much as there is room for.
fn write<V: Copy>(values: &[V], place: &mut [V]) {
    for (to, &value) in place.iter_mut().zip(values) {
        *to = value;
    }
}

impl Tints for OfTints {
    fn write_tint(&self, doses: &[u16], count: usize, order: &mut [u8], bytes: &mut usize) -> u8 {
        match self.written(doses, count, order.len()) {
            Err(refusal) => self.refuse(refusal, order, bytes),
            Ok(written) => {
                write(&written, order);
                *bytes = 3 + 3 * count;
                0
            }
        }
    }

    fn read_tint(&self, order: &[u8], doses: &mut [u16], count: &mut usize) -> u8 {
        match self.doses_read(order, doses.len()) {
            Err(refusal) => self.refuse(refusal, doses, count),
            Ok(read) => {
                let mut numbers: Vec<u16> = read.iter().flat_map(|&(a, b)| [a, b]).collect();
                if self.has(TintFault::OneMoreWritten) {
                    numbers.push(0);
                }
                write(&numbers, doses);
                *count = read.len();
                0
            }
        }
    }
}
