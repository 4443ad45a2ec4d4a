//! Tint orders: bytes that are one and bytes that are none, doses on either side of every border,
//! each refusal alone and beside each other one, slices of every length; and sessions that carry a
//! tint order from the office to the machine.

mod doses;
mod reading;
mod sessions;
mod writing;

use super::lockstep::Lockstep;
use super::{choices, hex, same, Difference, GroupFailure, GuardedBuffer, Tally};
use crate::calls::{ReceivingEnd, Reference, SendingEnd, Tints};
use crate::reference::refusal::{Refusal, ENTRY, FORMAT, SHORT, STEPS};
use crate::reference::tint::{tint_bytes, to_numbers, DOSE_NUMBERS, MOST_DOSES};
use crate::rng::Rng;

use doses::FEWEST_ABOVE;
pub use doses::{EDGES, MOST_STEPS};

/// The refusals of both calls, in their order.
const REFUSALS: [Refusal; 4] = [FORMAT, ENTRY, STEPS, SHORT];

/// The names of the answers.
pub const ANSWERS: [&str; 10] = [
    "written",
    "writing refused 6",
    "writing refused 10",
    "writing refused 11",
    "writing refused 12",
    "read",
    "reading refused 6",
    "reading refused 10",
    "reading refused 11",
    "reading refused 12",
];

/// The name of doses that were written, read, and written again.
const THERE_AND_BACK: &str = "there and back";

/// Numbers that hold the doses of any order.
const NUMBERS: usize = DOSE_NUMBERS * MOST_DOSES;

/// Runs the whole group, with this many random doses of each count, and this many sessions.
pub fn compare<T: Tints + SendingEnd + ReceivingEnd>(
    tested: &T,
    seed: u64,
    cases: usize,
    sessions: usize,
) -> Result<Tally, GroupFailure> {
    let mut group = Group {
        tested,
        ends: Lockstep::new(tested, tested),
        rng: Rng::new(seed),
        tally: Tally::default(),
    };
    group.writing()?;
    group.reading()?;
    for _ in 0..cases {
        for count in 1..=MOST_DOSES {
            group.there_and_back(count)?;
            group.refused_writing(count)?;
            group.refused_reading(count)?;
        }
    }
    for number in 0..sessions {
        let run = group.session(seed, number);
        run.map_err(|difference| format!("session {number}: {difference}"))?;
    }
    group.tally.require(&ANSWERS)?;
    let there_and_back = cases * MOST_DOSES;
    group.tally.require_number(THERE_AND_BACK, there_and_back)?;
    if sessions == 0 {
        return Ok(group.tally);
    }
    group.tally.require(&sessions::OUTCOMES)?;
    group.ends.with_tried(group.tally)
}

/// What a call wrote, or the refusal's number.
#[derive(Clone, Debug, PartialEq, Eq)]
pub enum Answer<V> {
    Done(Vec<V>),
    Refused(Refusal),
}

impl<V> Answer<V> {
    /// That the call was refused by this number, or was not refused.
    fn expect(
        &self,
        case: &dyn Fn() -> String,
        refusal: Option<Refusal>,
    ) -> Result<(), Difference> {
        let refused = match self {
            Answer::Done(_) => None,
            Answer::Refused(number) => Some(*number),
        };
        same(case, &refusal, &refused)
    }

    /// What was written by a call that the rules accept.
    fn done(self, case: &dyn Fn() -> String) -> Result<Vec<V>, Difference> {
        match self {
            Answer::Done(written) => Ok(written),
            Answer::Refused(number) => Err(format!("{}: refused {number}", case())),
        }
    }
}

struct Group<'a, T> {
    tested: &'a T,
    /// Those of the sessions.
    ends: Lockstep<'a, T, T>,
    rng: Rng,
    tally: Tally,
}

impl<T: Tints> Group<'_, T> {
    /// Doses that make an order, written, read, and written again.
    fn there_and_back(&mut self, count: usize) -> Result<(), Difference> {
        let doses = to_numbers(&doses::valid(&mut self.rng, count));
        let (bytes, numbers) = (tint_bytes(count), DOSE_NUMBERS * count);
        let case = || format!("there and back: {doses:?}");
        let order = self.write(&doses, count, bytes)?.done(&case)?;
        same(&case, &bytes, &order.len())?;
        let read = self.read(&order, numbers)?.done(&case)?;
        same(&case, &doses, &read)?;
        let behind = self.rng.below(5);
        let again = self.write(&read, count, bytes + behind)?.done(&case)?;
        same(&case, &order, &again)?;
        self.tally.count(THERE_AND_BACK);
        Ok(())
    }

    /// Writes into a place of so many bytes.
    fn write(
        &mut self,
        doses: &[u16],
        count: usize,
        length: usize,
    ) -> Result<Answer<u8>, Difference> {
        let order = GuardedBuffer::random(&mut self.rng, length);
        compare_write(self.tested, doses, count, order, &mut self.tally)
    }

    /// Reads into a place of so many numbers.
    fn read(&mut self, order: &[u8], length: usize) -> Result<Answer<u16>, Difference> {
        let doses = GuardedBuffer::random_numbers(&mut self.rng, length);
        compare_read(self.tested, order, doses, &mut self.tally)
    }
}

/// Writes one order into a place.
pub fn compare_write(
    tested: &impl Tints,
    doses: &[u16],
    count: usize,
    place: GuardedBuffer,
    tally: &mut Tally,
) -> Result<Answer<u8>, Difference> {
    let length = place.slice().len();
    let case = || format!("write_tint: {doses:?}, {count} doses, {length} bytes");
    let (mut expected, mut got) = (place.clone(), place.clone());
    let (mut expected_bytes, mut bytes) = (!count, !count);
    let answer = Reference.write_tint(doses, count, expected.slice_mut(), &mut expected_bytes);
    let number = tested.write_tint(doses, count, got.slice_mut(), &mut bytes);
    same(&case, &(answer, expected_bytes), &(number, bytes))?;
    same(&case, &expected, &got)?;
    tally.count(match number {
        0 => "written",
        FORMAT => "writing refused 10",
        ENTRY => "writing refused 11",
        STEPS => "writing refused 12",
        SHORT => "writing refused 6",
        _ => "writing refused otherwise",
    });
    if number != 0 {
        same(&case, &(!count, &place), &(bytes, &got))?;
        return Ok(Answer::Refused(number));
    }
    Ok(Answer::Done(got.slice()[..bytes].to_vec()))
}

/// Reads one order, its doses into a place.
pub fn compare_read(
    tested: &impl Tints,
    order: &[u8],
    place: GuardedBuffer<u16>,
    tally: &mut Tally,
) -> Result<Answer<u16>, Difference> {
    let length = place.slice().len();
    let case = || format!("read_tint: {}, {length} numbers", hex(order));
    let (mut expected, mut got) = (place.clone(), place.clone());
    let (mut expected_count, mut count) = (!length, !length);
    let answer = Reference.read_tint(order, expected.slice_mut(), &mut expected_count);
    let number = tested.read_tint(order, got.slice_mut(), &mut count);
    same(&case, &(answer, expected_count), &(number, count))?;
    same(&case, &expected, &got)?;
    tally.count(match number {
        0 => "read",
        FORMAT => "reading refused 10",
        ENTRY => "reading refused 11",
        STEPS => "reading refused 12",
        SHORT => "reading refused 6",
        _ => "reading refused otherwise",
    });
    if number != 0 {
        same(&case, &(!length, &place), &(count, &got))?;
        return Ok(Answer::Refused(number));
    }
    Ok(Answer::Done(got.slice()[..DOSE_NUMBERS * count].to_vec()))
}

/// The one of these refusals that comes, if there is any: the first in their order.
fn first_of(refusals: &[Refusal]) -> Option<Refusal> {
    let mut in_order = REFUSALS.into_iter();
    in_order.find(|refusal| refusals.contains(refusal))
}

/// Every choice of the refusals that so many doses can be about.
fn possible_choices(count: usize) -> impl Iterator<Item = Vec<Refusal>> {
    let possible =
        move |refusals: &Vec<Refusal>| count >= FEWEST_ABOVE || !refusals.contains(&STEPS);
    choices(&REFUSALS).filter(possible)
}

#[cfg(test)]
mod tests {
    use super::super::agreed;
    use super::*;

    #[test]
    fn every_kind_of_answer_comes() {
        let tally = agreed(compare(&Reference, 17, 20, 600));
        tally.assert_above(200, &ANSWERS);
        tally.assert_above(20, &sessions::OUTCOMES);
    }
}
