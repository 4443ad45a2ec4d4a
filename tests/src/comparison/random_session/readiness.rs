//! Whether the machine of a session is ready, call by call.

use crate::rng::Rng;

pub struct Readiness {
    /// Busy in every call of the session.
    never: bool,
    /// The calls in which it is busy for a while, in percent.
    busy: usize,
}

impl Readiness {
    pub fn random(rng: &mut Rng) -> Readiness {
        let never = rng.chance(2);
        let mut readiness = Readiness { never, busy: 100 };
        readiness.change(rng);
        readiness
    }

    /// For another while.
    pub fn change(&mut self, rng: &mut Rng) {
        if !self.never {
            self.busy = rng.pick(&[0, 0, 0, 25, 25, 60, 100]);
        }
    }

    pub fn is_never(&self) -> bool {
        self.never
    }

    /// Whether the machine is ready in the next call.
    pub fn next(&self, rng: &mut Rng) -> bool {
        !rng.chance(self.busy)
    }
}
