//! Comparison of an implementation with the second one: a module for each group of cases.
//!
//! Every group stops at the first difference and describes the case; otherwise it counts what it
//! has seen, and fails if a kind of answer or of case that it must meet never came.

pub mod any_bytes;
pub mod block;
pub mod both_ends;
pub mod busy;
pub mod different_k;
mod ends;
pub mod idle;
pub mod lockstep;
pub mod loop_time;
pub mod marks;
pub mod noise;
mod openings;
pub mod orders;
mod random_session;
pub mod receiver;
pub mod restart;
pub mod sampling;
pub mod sender;
mod services;
pub mod session;
mod spoil;
pub mod tint;
pub mod two_orders;

#[cfg(test)]
mod faults;

use crate::reference::refusal::Refusal;
use crate::rng::Rng;
use std::collections::BTreeMap;
use std::fmt;

/// The names of the events.
const EVENTS: [&str; 9] = [
    "none",
    "sync",
    "bad",
    "accepted",
    "previous",
    "ended",
    "sequence alarm",
    "length alarm",
    "wait",
];

/// A description of the case on which the two differ, or that did not end as it says.
pub type Difference = String;

/// Why a group fails.
#[derive(Clone, Debug, PartialEq, Eq)]
pub enum GroupFailure {
    Different(Difference),
    /// A kind of answer or of case that the group must meet, and how often it came.
    Untried(String),
}

impl From<Difference> for GroupFailure {
    fn from(difference: Difference) -> GroupFailure {
        GroupFailure::Different(difference)
    }
}

impl fmt::Display for GroupFailure {
    fn fmt(&self, f: &mut fmt::Formatter) -> fmt::Result {
        match self {
            GroupFailure::Different(difference) => write!(
                f,
                "DIFFERENT from the second implementation, or from what the case says\n{difference}"
            ),
            GroupFailure::Untried(kind) => write!(
                f,
                "no difference, but the group has NOT TRIED all that it must\n{kind}"
            ),
        }
    }
}

/// How often each kind of answer came.
#[derive(Default)]
pub struct Tally(BTreeMap<&'static str, usize>);

impl Tally {
    pub fn count(&mut self, kind: &'static str) {
        *self.0.entry(kind).or_default() += 1;
    }

    pub fn number_of(&self, kind: &str) -> usize {
        self.0.get(kind).copied().unwrap_or(0)
    }

    /// An error unless each of these kinds came.
    pub fn require(&self, kinds: &[&str]) -> Result<(), GroupFailure> {
        match kinds.iter().find(|kind| self.number_of(kind) == 0) {
            Some(kind) => Err(GroupFailure::Untried(format!("{kind}: none"))),
            None => Ok(()),
        }
    }

    /// An error unless this kind came so often.
    pub fn require_number(&self, kind: &str, number: usize) -> Result<(), GroupFailure> {
        match self.number_of(kind) {
            came if came == number => Ok(()),
            came => Err(GroupFailure::Untried(format!(
                "{kind}: {came}, not {number}"
            ))),
        }
    }

    /// Each of these kinds came more often than this.
    #[cfg(test)]
    fn assert_above(&self, least: usize, kinds: &[&str]) {
        for kind in kinds {
            assert!(self.number_of(kind) > least, "{kind}: {self}");
        }
    }

    pub fn add(&mut self, other: &Tally) {
        for (kind, number) in &other.0 {
            *self.0.entry(kind).or_default() += number;
        }
    }
}

impl fmt::Display for Tally {
    fn fmt(&self, f: &mut fmt::Formatter) -> fmt::Result {
        let kinds: Vec<String> = self
            .0
            .iter()
            .map(|(kind, number)| format!("{kind} {number}"))
            .collect();
        f.write_str(&kinds.join(", "))
    }
}

/// Bytes to lend, or numbers, between guards that no call may write.
#[derive(Clone, Debug, PartialEq, Eq)]
pub struct GuardedBuffer<T = u8> {
    values: Vec<T>,
}

const GUARD: usize = 8;

impl GuardedBuffer {
    pub fn random(rng: &mut Rng, length: usize) -> GuardedBuffer {
        let values = rng.bytes(length + 2 * GUARD);
        GuardedBuffer { values }
    }

    /// These bytes, between random guard bytes.
    pub fn around(rng: &mut Rng, bytes: &[u8]) -> GuardedBuffer {
        let mut buffer = GuardedBuffer::random(rng, bytes.len());
        buffer.slice_mut().copy_from_slice(bytes);
        buffer
    }
}

impl GuardedBuffer<u16> {
    pub fn random_numbers(rng: &mut Rng, length: usize) -> GuardedBuffer<u16> {
        let values = (0..length + 2 * GUARD).map(|_| rng.number()).collect();
        GuardedBuffer { values }
    }
}

impl<T: Copy> GuardedBuffer<T> {
    /// Every value the same, the guards too: cheap, for long slices.
    pub fn filled(value: T, length: usize) -> GuardedBuffer<T> {
        let values = vec![value; length + 2 * GUARD];
        GuardedBuffer { values }
    }

    pub fn slice(&self) -> &[T] {
        &self.values[GUARD..self.values.len() - GUARD]
    }

    pub fn slice_mut(&mut self) -> &mut [T] {
        let end = self.values.len() - GUARD;
        &mut self.values[GUARD..end]
    }
}

/// An error unless what was expected is what came; `case` describes the call.
pub fn same<T: PartialEq + fmt::Debug>(
    case: &dyn Fn() -> String,
    expected: &T,
    got: &T,
) -> Result<(), Difference> {
    if expected == got {
        return Ok(());
    }
    let case = case();
    Err(format!(
        "{case}\n  expected {expected:x?}\n  but got  {got:x?}"
    ))
}

/// What a group counted, where no failure is expected.
#[cfg(test)]
fn agreed(compared: Result<Tally, GroupFailure>) -> Tally {
    compared.unwrap_or_else(|failure| panic!("{failure}"))
}

/// That a group found a difference; that something is untried is none.
#[cfg(test)]
fn assert_different(compared: Result<Tally, GroupFailure>, what: &str) {
    match compared {
        Err(GroupFailure::Different(_)) => {}
        Err(failure) => panic!("{what}: {failure}"),
        Ok(tally) => panic!("{what}: not found, {tally}"),
    }
}

/// Every choice of some of these refusals, in their order.
pub fn choices(refusals: &[Refusal]) -> impl Iterator<Item = Vec<Refusal>> + '_ {
    let chosen = |choice: usize| {
        let places = (0..refusals.len()).filter(move |place| choice >> place & 1 == 1);
        places.map(|place| refusals[place]).collect()
    };
    (0..1 << refusals.len()).map(chosen)
}

pub fn hex(bytes: &[u8]) -> String {
    bytes.iter().map(|byte| format!("{byte:02x}")).collect()
}

#[cfg(test)]
mod tests {
    use super::*;

    #[test]
    fn a_kind_that_never_came_is_no_difference() {
        let mut tally = Tally::default();
        tally.count("accepted");
        let untried = |what: &str| Err(GroupFailure::Untried(String::from(what)));
        assert_eq!(tally.require(&["accepted"]), Ok(()));
        assert_eq!(tally.require(&["accepted", "wait"]), untried("wait: none"));
        assert_eq!(tally.require_number("accepted", 1), Ok(()));
        let twice = tally.require_number("accepted", 2);
        assert_eq!(twice, untried("accepted: 1, not 2"));
        let words = twice.unwrap_err().to_string();
        assert!(!words.contains("DIFFERENT"), "{words}");
    }

    /// Without its random cases a group has not tried all that it must.
    #[test]
    fn a_group_that_has_not_tried_all_fails() {
        let failures = [
            sender::compare(&crate::calls::Reference, 5, 0).err(),
            receiver::compare(&crate::calls::Reference, 8, 0).err(),
        ];
        for failure in failures {
            assert!(
                matches!(failure, Some(GroupFailure::Untried(_))),
                "{failure:?}"
            );
        }
    }
}
