//! Writing tint orders.

use super::doses::{above, refused, spoil, valid, with_total, EDGES, FEWEST_ABOVE, MOST_STEPS};
use super::{first_of, possible_choices, Group};
use crate::calls::Tints;
use crate::comparison::{same, Difference};
use crate::reference::refusal::{Refusal, ENTRY, FORMAT, SHORT, STEPS};
use crate::reference::tint::{tint_bytes, to_numbers, Dose, DOSE_NUMBERS};
use crate::reference::tint::{MOST_DOSES, MOST_STEPS_IN_ALL};

/// Counts that are no number of doses: around the most, and some whose lowest byte, word or double
/// word, or whose product with 2 or 3, is a number of doses.
const REFUSED_COUNTS: [usize; 15] = [
    0,
    MOST_DOSES + 1,
    MOST_DOSES + 2,
    25,
    255,
    256,
    256 + 3,
    1 << 16,
    (1 << 16) + 3,
    1 << 32,
    (1 << 32) + 3,
    1 << 63,
    (1 << 63) + 3,
    usize::MAX / 3 + 1,
    usize::MAX,
];

impl<T: Tints> Group<'_, T> {
    pub(super) fn writing(&mut self) -> Result<(), Difference> {
        self.counts_and_slices()?;
        self.one_dose()?;
        self.two_doses()?;
        self.canisters()?;
        self.totals()?;
        self.missing_doses()
    }

    /// Every count with slices of every length.
    fn counts_and_slices(&mut self) -> Result<(), Difference> {
        let rising = |i: u16| [i + 1, 100 * (i + 1)];
        let doses: Vec<u16> = (0..MOST_DOSES as u16 + 2).flat_map(rising).collect();
        for count in (1..=MOST_DOSES).chain(REFUSED_COUNTS) {
            let bytes = tint_bytes(count.min(MOST_DOSES + 2));
            for numbers in 0..=doses.len() {
                for length in [0, bytes - 1, bytes, bytes + 1, 64] {
                    let answer = self.write(&doses[..numbers], count, length)?;
                    let case = || format!("{count} doses, {numbers} numbers, {length} bytes");
                    let refusal = match count {
                        0 => Some(FORMAT),
                        1..=MOST_DOSES => {
                            let short = numbers < DOSE_NUMBERS * count || length < bytes;
                            short.then_some(SHORT)
                        }
                        _ => Some(ENTRY),
                    };
                    answer.expect(&case, refusal)?;
                }
            }
        }
        Ok(())
    }

    /// Every canister, and every number of steps.
    fn one_dose(&mut self) -> Result<(), Difference> {
        for number in 0..=u16::MAX {
            self.write(&[number, 1], 1, 6)?;
            self.write(&[12, number], 1, 6)?;
        }
        Ok(())
    }

    /// Every two doses at the borders.
    fn two_doses(&mut self) -> Result<(), Difference> {
        let pairs = || EDGES.into_iter().flat_map(|a| EDGES.map(|b| [a, b]));
        for first in pairs() {
            for second in pairs() {
                self.write(&[first, second].concat(), 2, 9)?;
            }
        }
        Ok(())
    }

    /// Every three canisters to 13.
    fn canisters(&mut self) -> Result<(), Difference> {
        for number in 0..14 * 14 * 14 {
            let [a, b, c] = [number / 196, number / 14 % 14, number % 14];
            self.write(&[a, 1, b, 2, c, 3], 2, 9)?;
            self.write(&[a, 1, b, 2, c, 3], 3, 12)?;
        }
        Ok(())
    }

    /// Totals on either side of the most.
    fn totals(&mut self) -> Result<(), Difference> {
        for count in FEWEST_ABOVE..=MOST_DOSES {
            for total in [19_999, 20_000, 20_001, MOST_STEPS * count] {
                for _ in 0..20 {
                    let doses = to_numbers(&with_total(&mut self.rng, count, total));
                    let answer = self.write(&doses, count, tint_bytes(count))?;
                    let refusal = (total > MOST_STEPS_IN_ALL).then_some(STEPS);
                    answer.expect(&|| format!("in all {total}: {doses:?}"), refusal)?;
                }
            }
        }
        Ok(())
    }

    /// Doses that end before their count: those that are there whole are judged, no other is.
    fn missing_doses(&mut self) -> Result<(), Difference> {
        for count in 1..=MOST_DOSES {
            for place in 0..count {
                let mut doses = valid(&mut self.rng, count);
                spoil(&mut self.rng, &mut doses, place);
                let judged = |numbers| numbers / DOSE_NUMBERS > place;
                self.cut_doses(&doses, |numbers| judged(numbers).then_some(ENTRY))?;
            }
            if count >= FEWEST_ABOVE {
                let doses = above(&mut self.rng, count);
                let total = |numbers| total(&doses[..numbers / DOSE_NUMBERS]);
                let too_many = |numbers| total(numbers) > MOST_STEPS_IN_ALL;
                self.cut_doses(&doses, |numbers| too_many(numbers).then_some(STEPS))?;
            }
        }
        Ok(())
    }

    /// These doses, cut to every number of numbers; refused as it is said, and otherwise if there is
    /// a number too few.
    fn cut_doses(
        &mut self,
        doses: &[Dose],
        refusal: impl Fn(usize) -> Option<Refusal>,
    ) -> Result<(), Difference> {
        let (count, doses) = (doses.len(), to_numbers(doses));
        for numbers in 0..=doses.len() {
            let answer = self.write(&doses[..numbers], count, tint_bytes(count))?;
            let short = (numbers < doses.len()).then_some(SHORT);
            let case = || format!("{numbers} numbers of {doses:?}");
            answer.expect(&case, refusal(numbers).or(short))?;
        }
        Ok(())
    }

    /// Doses that each choice of the refusals is about: the first of them comes.
    pub(super) fn refused_writing(&mut self, count: usize) -> Result<(), Difference> {
        for refusals in possible_choices(count) {
            let has = |refusal| refusals.contains(&refusal);
            let doses = to_numbers(&refused(&mut self.rng, count, &refusals));
            let mut given = count;
            let mut length = tint_bytes(count);
            match (has(SHORT), count < MOST_DOSES && self.rng.bit()) {
                (false, _) => {}
                (true, false) => length = self.rng.pick(&[0, length - 1]),
                (true, true) => (given, length) = (count + 1, length + 3),
            }
            if has(FORMAT) {
                given = 0;
            }
            let answer = self.write(&doses, given, length)?;
            let case = || format!("refusals {refusals:?}: {doses:?}, count {given}");
            answer.expect(&case, first_of(&refusals))?;
            self.numbers_behind(&doses, given, length)?;
        }
        Ok(())
    }

    /// What stands behind the doses does not matter.
    fn numbers_behind(
        &mut self,
        doses: &[u16],
        count: usize,
        length: usize,
    ) -> Result<(), Difference> {
        if DOSE_NUMBERS * count > doses.len() {
            return Ok(());
        }
        let alone = self.write(doses, count, length)?;
        let mut longer = doses.to_vec();
        for _ in 0..self.rng.between(1, 5) {
            longer.push(self.rng.pick(&EDGES));
        }
        let with_more = self.write(&longer, count, length)?;
        same(&|| format!("behind: {longer:?}"), &alone, &with_more)
    }
}

fn total(doses: &[Dose]) -> usize {
    doses.iter().map(|dose| dose.steps).sum()
}
