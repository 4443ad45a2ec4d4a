//! Doses for the cases: some that make an order, some with a total, some that make none.

use crate::reference::refusal::{Refusal, ENTRY, STEPS};
use crate::reference::tint::{Dose, MOST_DOSES, MOST_STEPS_IN_ALL};
use crate::rng::Rng;

/// The most steps of one dose.
pub const MOST_STEPS: usize = 4_800;

/// Numbers at the borders of canisters and steps; the lowest byte of 261 is a canister.
pub const EDGES: [u16; 13] = [
    0, 1, 2, 11, 12, 13, 255, 256, 261, 4_799, 4_800, 4_801, 65_535,
];

/// The fewest doses whose steps can be too many in all.
pub const FEWEST_ABOVE: usize = MOST_STEPS_IN_ALL / MOST_STEPS + 1;

/// So many of the canisters, each once, rising.
fn canisters(rng: &mut Rng, count: usize) -> Vec<usize> {
    let mut canisters: Vec<usize> = (1..=MOST_DOSES).collect();
    while canisters.len() > count {
        canisters.remove(rng.below(canisters.len()));
    }
    canisters
}

/// Doses that make an order.
pub fn valid(rng: &mut Rng, count: usize) -> Vec<Dose> {
    let mut left = MOST_STEPS_IN_ALL - count;
    let mut doses = Vec::new();
    for canister in canisters(rng, count) {
        let most = MOST_STEPS.min(left + 1);
        let steps = match rng.below(5) {
            0 => 1,
            1 => most,
            2 => most.min(rng.pick(&[255, 256, 257])),
            3 => rng.between(1, most.min(1_700)),
            _ => rng.between(1, most),
        };
        left -= steps - 1;
        doses.push(Dose { canister, steps });
    }
    doses
}

/// Doses in range and order whose steps are so many in all.
pub fn with_total(rng: &mut Rng, count: usize, total: usize) -> Vec<Dose> {
    let canisters = canisters(rng, count).into_iter().enumerate();
    let share = |place| total / count + usize::from(place < total % count);
    let dose = |(place, canister)| Dose {
        canister,
        steps: share(place),
    };
    let mut doses: Vec<Dose> = canisters.map(dose).collect();
    for _ in 0..3 * count {
        let (from, to) = (rng.below(count), rng.below(count));
        let most = (doses[from].steps - 1).min(MOST_STEPS - doses[to].steps);
        let moved = rng.below(most + 1);
        doses[from].steps -= moved;
        doses[to].steps += moved;
    }
    doses
}

/// Doses in range and order whose steps are too many in all: by one, by as many as there can be, or
/// by some.
pub fn above(rng: &mut Rng, count: usize) -> Vec<Dose> {
    let most = MOST_STEPS * count;
    let total = match rng.below(3) {
        0 => MOST_STEPS_IN_ALL + 1,
        1 => most,
        _ => rng.between(MOST_STEPS_IN_ALL + 1, most),
    };
    with_total(rng, count, total)
}

/// Doses that these refusals are about, as far as they are about doses: an entry, the steps in all.
pub fn refused(rng: &mut Rng, count: usize, refusals: &[Refusal]) -> Vec<Dose> {
    let mut doses = match refusals.contains(&STEPS) {
        true => above(rng, count),
        false => valid(rng, count),
    };
    if refusals.contains(&ENTRY) {
        let place = rng.below(count);
        spoil(rng, &mut doses, place);
    }
    doses
}

/// Puts the dose at this place out of range or order.
pub fn spoil(rng: &mut Rng, doses: &mut [Dose], place: usize) {
    let before = place.checked_sub(1).map(|place| doses[place].canister);
    let dose = &mut doses[place];
    match (rng.below(7), before) {
        (0, _) => dose.canister = 0,
        (1, _) => dose.canister = MOST_DOSES + 1,
        (2, _) => dose.canister = rng.between(MOST_DOSES + 1, 255),
        (3, _) => dose.steps = 0,
        (4, _) => dose.steps = MOST_STEPS + 1,
        (5, Some(before)) => dose.canister = before,
        (6, Some(before)) => dose.canister = rng.between(1, before),
        _ => dose.steps = rng.between(MOST_STEPS + 1, 65_535),
    }
}
