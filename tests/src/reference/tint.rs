//! docs/PROTOCOL.md, "Tint orders": what the machine pumps, as the bytes of an order.

use super::refusal::{Refusal, ENTRY, FORMAT, SHORT, STEPS};

const VERSION: u8 = 1;
/// The version byte and the 16 bits of the length.
const HEAD_BYTES: usize = 3;
const ENTRY_BYTES: usize = 3;

const CANISTERS: usize = 12;
const MOST_STEPS: usize = 4_800;
/// The most steps of all doses together.
pub const MOST_STEPS_IN_ALL: usize = 20_000;
/// Doses rise strictly by canister, so there is at most one for each.
pub const MOST_DOSES: usize = CANISTERS;

/// The doses' numbers in turn: canister and pump steps, two for each dose.
pub const DOSE_NUMBERS: usize = 2;

#[derive(Clone, Copy, Debug, PartialEq, Eq)]
pub struct Dose {
    pub canister: usize,
    pub steps: usize,
}

impl Dose {
    fn is_in_range(self) -> bool {
        (1..=CANISTERS).contains(&self.canister) && (1..=MOST_STEPS).contains(&self.steps)
    }
}

/// The bytes of an order of so many doses.
pub fn tint_bytes(count: usize) -> usize {
    HEAD_BYTES + ENTRY_BYTES * count
}

fn number(high: u8, low: u8) -> usize {
    256 * usize::from(high) + usize::from(low)
}

/// A 16-bit number, the high byte first.
fn two_bytes(number: usize) -> [u8; 2] {
    [(number / 256) as u8, (number % 256) as u8]
}

/// Every entry first, 11, then the total, 12.
fn judge(doses: &[Dose]) -> Result<(), Refusal> {
    let in_range = doses.iter().all(|dose| dose.is_in_range());
    let rises = doses
        .windows(2)
        .all(|pair| pair[0].canister < pair[1].canister);
    if !in_range || !rises {
        return Err(ENTRY);
    }
    let total: usize = doses.iter().map(|dose| dose.steps).sum();
    match total > MOST_STEPS_IN_ALL {
        true => Err(STEPS),
        false => Ok(()),
    }
}

/// The bytes of these doses, which are not judged. Of each number the lowest bits stand there.
pub fn pack(doses: &[Dose]) -> Vec<u8> {
    let mut bytes = vec![VERSION];
    bytes.extend(two_bytes(ENTRY_BYTES * doses.len()));
    for dose in doses {
        bytes.push(dose.canister as u8);
        bytes.extend(two_bytes(dose.steps));
    }
    bytes
}

/// What the bytes after a head say, three for each dose.
fn unpack(entries: &[u8]) -> Vec<Dose> {
    let entries = entries.chunks(ENTRY_BYTES);
    let dose = |entry: &[u8]| Dose {
        canister: usize::from(entry[0]),
        steps: number(entry[1], entry[2]),
    };
    entries.map(dose).collect()
}

/// The doses of an order, which the bytes hold whole and alone; refusals in the order 10, 11, 12.
pub fn doses_of(order: &[u8]) -> Result<Vec<Dose>, Refusal> {
    if order.len() < HEAD_BYTES || order[0] != VERSION {
        return Err(FORMAT);
    }
    let (length, entries) = (number(order[1], order[2]), &order[HEAD_BYTES..]);
    if length == 0 || length % ENTRY_BYTES != 0 || length != entries.len() {
        return Err(FORMAT);
    }
    let doses = unpack(entries);
    judge(&doses)?;
    Ok(doses)
}

/// The doses that stand in these numbers whole.
pub fn from_numbers(numbers: &[u16]) -> Vec<Dose> {
    let dose = |pair: &[u16]| Dose {
        canister: usize::from(pair[0]),
        steps: usize::from(pair[1]),
    };
    numbers.chunks_exact(DOSE_NUMBERS).map(dose).collect()
}

pub fn to_numbers(doses: &[Dose]) -> Vec<u16> {
    let numbers = |dose: &Dose| [dose.canister as u16, dose.steps as u16];
    doses.iter().flat_map(numbers).collect()
}

/// Writes the order of the first `count` doses; its bytes. Refusals in the order 10, 11, 12, 6: those
/// doses that are there are judged before it is said that one is missing.
pub fn write(numbers: &[u16], count: usize, order: &mut [u8]) -> Result<usize, Refusal> {
    if count == 0 {
        return Err(FORMAT);
    }
    if count > MOST_DOSES {
        return Err(ENTRY);
    }
    let mut doses = from_numbers(numbers);
    doses.truncate(count);
    judge(&doses)?;
    if doses.len() < count || order.len() < tint_bytes(count) {
        return Err(SHORT);
    }
    order[..tint_bytes(count)].copy_from_slice(&pack(&doses));
    Ok(tint_bytes(count))
}

/// Reads an order, its doses into lent numbers; how many doses. Refusals in the order 10, 11, 12, 6.
pub fn read(order: &[u8], numbers: &mut [u16]) -> Result<usize, Refusal> {
    let doses = doses_of(order)?;
    let wanted = DOSE_NUMBERS * doses.len();
    if numbers.len() < wanted {
        return Err(SHORT);
    }
    numbers[..wanted].copy_from_slice(&to_numbers(&doses));
    Ok(doses.len())
}

#[cfg(test)]
mod tests;
