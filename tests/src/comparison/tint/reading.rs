//! Reading tint orders.

use super::doses::{refused, valid, with_total, EDGES, FEWEST_ABOVE, MOST_STEPS};
use super::{first_of, possible_choices, Group, NUMBERS};
use crate::calls::Tints;
use crate::comparison::{hex, Difference};
use crate::reference::refusal::{ENTRY, FORMAT, SHORT, STEPS};
use crate::reference::tint::{pack, Dose, DOSE_NUMBERS, MOST_DOSES, MOST_STEPS_IN_ALL};

/// Bytes of which all short strings are made.
const SMALL: [u8; 6] = [0, 1, 2, 3, 6, 13];

/// The version byte and a length.
fn head(length: usize) -> Vec<u8> {
    vec![1, (length / 256) as u8, length as u8]
}

/// A rising entry for each canister, again and again.
fn entries() -> impl Iterator<Item = u8> {
    (1..=12).cycle().flat_map(|canister| [canister, 0, 7])
}

/// An order of these entries: canister and steps.
fn order(entries: &[(u8, u16)]) -> Vec<u8> {
    let dose = |&(canister, steps): &(u8, u16)| Dose {
        canister: usize::from(canister),
        steps: usize::from(steps),
    };
    pack(&entries.iter().map(dose).collect::<Vec<_>>())
}

impl<T: Tints> Group<'_, T> {
    pub(super) fn reading(&mut self) -> Result<(), Difference> {
        self.small_strings()?;
        self.heads()?;
        self.long_orders()?;
        self.one_entry()?;
        self.two_entries()?;
        self.canisters_read()?;
        self.totals_read()?;
        self.room()
    }

    /// Every string of up to six of the small bytes.
    fn small_strings(&mut self) -> Result<(), Difference> {
        let mut strings = vec![Vec::new()];
        for _ in 0..=6 {
            let mut longer = Vec::new();
            for string in &strings {
                self.read(string, NUMBERS)?;
                longer.extend(SMALL.map(|byte| [&string[..], &[byte]].concat()));
            }
            strings = longer;
        }
        Ok(())
    }

    /// Every version; every length to 255, and the same with its bytes exchanged, before every number
    /// of bytes that follow, to more than twelve entries.
    fn heads(&mut self) -> Result<(), Difference> {
        for version in 0..=255 {
            let answer = self.read(&[version, 0, 3, 1, 0, 1], NUMBERS)?;
            let refusal = (version != 1).then_some(FORMAT);
            answer.expect(&|| format!("version {version}"), refusal)?;
        }
        for length in 0..=255 {
            for follows in 0..=48 {
                for length in [length, 256 * length] {
                    let bytes: Vec<u8> = head(length)
                        .into_iter()
                        .chain(entries().take(follows))
                        .collect();
                    let answer = self.read(&bytes, NUMBERS)?;
                    let whole = length == follows && follows % 3 == 0 && follows > 0;
                    let refusal = match (whole, follows / 3) {
                        (false, _) => Some(FORMAT),
                        (true, 1..=MOST_DOSES) => None,
                        (true, _) => Some(ENTRY),
                    };
                    let case = || format!("length {length}, {follows} follow");
                    answer.expect(&case, refusal)?;
                }
            }
        }
        Ok(())
    }

    /// Orders as long as a length of 16 bits can say and longer: what follows is not cut to 16 bits.
    fn long_orders(&mut self) -> Result<(), Difference> {
        for follows in [255, 300, 65_532, 65_535, 65_536, 65_536 + 3, 65_536 + 39] {
            for less in [0, 3] {
                let mut bytes = head((follows - less) % 65_536);
                bytes.extend(entries().take(follows));
                let answer = self.read(&bytes, NUMBERS)?;
                let refusal = match (less, follows % 3, follows) {
                    (0, 0, ..=65_535) => ENTRY,
                    _ => FORMAT,
                };
                answer.expect(&|| format!("{follows} follow"), Some(refusal))?;
            }
        }
        Ok(())
    }

    /// Every canister with steps at the borders, and every number of steps.
    fn one_entry(&mut self) -> Result<(), Difference> {
        for canister in 0..=255 {
            for steps in EDGES {
                self.read(&order(&[(canister, steps)]), NUMBERS)?;
            }
        }
        for steps in 0..=u16::MAX {
            self.read(&order(&[(12, steps)]), NUMBERS)?;
        }
        Ok(())
    }

    /// Every two entries at the borders.
    fn two_entries(&mut self) -> Result<(), Difference> {
        let canisters = [0, 1, 2, 11, 12, 13, 255];
        let entries = || canisters.into_iter().flat_map(|a| EDGES.map(|b| (a, b)));
        for first in entries() {
            for second in entries() {
                self.read(&order(&[first, second]), NUMBERS)?;
            }
        }
        Ok(())
    }

    /// Every two and every three canisters to 13.
    fn canisters_read(&mut self) -> Result<(), Difference> {
        for number in 0..14 * 14 * 14 {
            let [a, b, c] = [number / 196, number / 14 % 14, number % 14].map(|n: u16| n as u8);
            self.read(&order(&[(a, 1), (b, 2)]), NUMBERS)?;
            self.read(&order(&[(a, 1), (b, 2), (c, 3)]), NUMBERS)?;
        }
        Ok(())
    }

    /// Totals on either side of the most.
    fn totals_read(&mut self) -> Result<(), Difference> {
        for count in FEWEST_ABOVE..=MOST_DOSES {
            for total in [19_999, 20_000, 20_001, MOST_STEPS * count] {
                for _ in 0..20 {
                    let order = pack(&with_total(&mut self.rng, count, total));
                    let answer = self.read(&order, NUMBERS)?;
                    let refusal = (total > MOST_STEPS_IN_ALL).then_some(STEPS);
                    answer.expect(&|| format!("in all {total}: {}", hex(&order)), refusal)?;
                }
            }
        }
        Ok(())
    }

    /// Orders of every count into room for every number of numbers.
    fn room(&mut self) -> Result<(), Difference> {
        for count in 1..=MOST_DOSES {
            for length in 0..=NUMBERS + 3 {
                let order = pack(&valid(&mut self.rng, count));
                let answer = self.read(&order, length)?;
                let refusal = (length < DOSE_NUMBERS * count).then_some(SHORT);
                let case = || format!("{count} doses into {length} numbers");
                answer.expect(&case, refusal)?;
            }
        }
        Ok(())
    }

    /// Orders that each choice of the refusals is about: the first of them comes. Then each order
    /// with every byte changed, a byte less and a byte more.
    pub(super) fn refused_reading(&mut self, count: usize) -> Result<(), Difference> {
        for refusals in possible_choices(count) {
            let has = |refusal| refusals.contains(&refusal);
            let mut order = pack(&refused(&mut self.rng, count, &refusals));
            if has(FORMAT) {
                self.spoil_format(&mut order);
            }
            let length = match has(SHORT) {
                true => self.rng.pick(&[0, DOSE_NUMBERS * count - 1]),
                false => DOSE_NUMBERS * count,
            };
            let answer = self.read(&order, length)?;
            let case = || format!("refusals {refusals:?}: {}", hex(&order));
            answer.expect(&case, first_of(&refusals))?;
            if order.len() > 3 {
                self.damaged(&order)?;
            }
        }
        Ok(())
    }

    /// Makes an order none.
    fn spoil_format(&mut self, order: &mut Vec<u8>) {
        let length = order.len();
        match self.rng.below(7) {
            0 => order[0] = self.rng.pick(&[0, 2, 255]),
            1 => order[1] ^= self.rng.between(1, 255) as u8,
            2 => order[2] ^= self.rng.between(1, 255) as u8,
            3 => order.truncate(length - self.rng.between(1, 3)),
            4 => order.truncate(self.rng.below(3)),
            5 => order.push(0),
            _ => order.extend(self.rng.bytes(3)),
        }
    }

    /// Each byte changed in turn, cut by a byte, one byte more.
    fn damaged(&mut self, order: &[u8]) -> Result<(), Difference> {
        for place in 0..order.len() {
            let mut damaged = order.to_vec();
            damaged[place] = match self.rng.below(4) {
                0 => order[place].wrapping_add(1),
                1 => order[place].wrapping_sub(1),
                2 => order[place] ^ 1 << self.rng.below(8),
                _ => self.rng.below(256) as u8,
            };
            self.read(&damaged, NUMBERS)?;
        }
        self.read(&order[..order.len() - 1], NUMBERS)?;
        let longer = [order, &self.rng.bytes(1)].concat();
        self.read(&longer, NUMBERS)?;
        Ok(())
    }
}
