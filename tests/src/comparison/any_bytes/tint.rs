//! Tint orders out of arbitrary bytes: doses that mostly make one, written or read.

use super::input::Input;
use super::CALLS;
use crate::calls::Tints;
use crate::comparison::tint::{compare_read, compare_write, EDGES, MOST_STEPS};
use crate::comparison::{Difference, GuardedBuffer, Tally};
use crate::reference::tint::{pack, tint_bytes, to_numbers, Dose};
use crate::reference::tint::{DOSE_NUMBERS, MOST_DOSES, MOST_STEPS_IN_ALL};
use crate::rng::Rng;

/// Tint orders while bytes are left.
pub fn calls(tested: &impl Tints, input: &mut Input, tally: &mut Tally) -> Result<(), Difference> {
    for _ in 0..CALLS {
        match input.flag() {
            true => write(tested, input, tally)?,
            false => read(tested, input, tally)?,
        }
        if input.is_empty() {
            break;
        }
    }
    Ok(())
}

fn write(tested: &impl Tints, input: &mut Input, tally: &mut Tally) -> Result<(), Difference> {
    let doses = input.doses();
    let count = input.count(doses.len());
    let mut numbers = to_numbers(&doses);
    numbers.resize(input.near(numbers.len()), 12);
    let bytes = input.lent(tint_bytes(count.min(MOST_DOSES)));
    let place = GuardedBuffer::around(&mut Rng::new(4), &bytes);
    compare_write(tested, &numbers, count, place, tally)?;
    Ok(())
}

fn read(tested: &impl Tints, input: &mut Input, tally: &mut Tally) -> Result<(), Difference> {
    let doses = input.doses();
    let order = input.tint_order(&doses);
    let length = input.near(DOSE_NUMBERS * doses.len());
    let place = GuardedBuffer::random_numbers(&mut Rng::new(5), length);
    compare_read(tested, &order, place, tally)?;
    Ok(())
}

impl Input<'_> {
    /// Mostly in range and order; now and then with a total at the border.
    fn doses(&mut self) -> Vec<Dose> {
        let count = usize::from(self.byte()) % (MOST_DOSES + 2);
        let mut doses: Vec<Dose> = Vec::new();
        for _ in 0..count {
            let before = doses.last().map_or(0, |dose| dose.canister);
            let (canister, steps) = (self.canister(before), self.steps());
            doses.push(Dose { canister, steps });
        }
        if let (true, Some(last)) = (self.byte() >= 128, doses.pop()) {
            let others: usize = doses.iter().map(|dose| dose.steps).sum();
            let total = MOST_STEPS_IN_ALL + usize::from(self.flag());
            let steps = match total.checked_sub(others) {
                Some(steps @ 1..=MOST_STEPS) => steps,
                _ => last.steps,
            };
            doses.push(Dose { steps, ..last });
        }
        doses
    }

    /// Mostly the next one.
    fn canister(&mut self, before: usize) -> usize {
        match self.byte() {
            0..=215 => before + 1,
            216..=235 => before + 2,
            236..=241 => before,
            242..=245 => self.below(before + 1),
            246..=249 => before + 1 + 256,
            _ => self.below(1 << 16),
        }
    }

    /// Mostly in range.
    fn steps(&mut self) -> usize {
        match self.byte() {
            0..=99 => 1 + self.below(1_700),
            100..=199 => 1 + self.below(MOST_STEPS),
            200..=229 => MOST_STEPS,
            byte @ 230..=249 => usize::from(EDGES[usize::from(byte) % EDGES.len()]),
            _ => self.below(1 << 16),
        }
    }

    /// Mostly this many doses.
    fn count(&mut self, doses: usize) -> usize {
        match self.byte() {
            0..=223 => doses,
            224..=239 => doses + 1,
            byte @ 240..=251 => usize::from(byte) - 240,
            _ => self.any(),
        }
    }

    /// The bytes of these doses, with some changed, with another length, or any bytes.
    fn tint_order(&mut self, doses: &[Dose]) -> Vec<u8> {
        let mut order = pack(doses);
        match self.byte() {
            0..=159 => {}
            160..=189 => {
                let place = self.below(order.len());
                order[place] = self.byte();
            }
            190..=204 => order[self.below(3)] = self.byte(),
            205..=234 => {
                let longer = usize::from(self.flag());
                order.resize(self.near(order.len() + longer), 1);
            }
            235..=239 => order.resize(order.len() + (1 << 16), 1),
            _ => order = self.lent(order.len()),
        }
        order
    }
}
