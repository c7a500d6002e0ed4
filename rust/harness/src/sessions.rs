//! Streams of random calls, in sessions that each begin with a state of their
//! own.

use std::fmt;

use crate::calls::Outcome;
use crate::random::Random;

/// What the calls of a session are, for one kind of part.
pub(crate) trait Driver: Default {
    type State: Copy + fmt::Debug + PartialEq;
    type Call: fmt::Debug;
    type Stats: Default;

    /// Begins a session: its first state, and how many calls follow the first.
    fn begin(&mut self, random: &mut Random) -> (Self::State, usize);

    fn call(&mut self, random: &mut Random, present: &Self::State) -> Self::Call;

    /// How many more calls are worth making on a state refused by 13: it can
    /// only go on being refused.
    fn left_if_damaged(&self) -> usize;

    fn entry(call: &Self::Call) -> &'static str;

    fn note(
        stats: &mut Self::Stats,
        given: &Self::State,
        call: &Self::Call,
        outcome: &Outcome<Self::State>,
    );
}

pub(crate) struct Sessions<D> {
    pub(crate) random: Random,
    driver: D,
    left: usize,
}

impl<D: Driver> Sessions<D> {
    pub(crate) fn new(seed: u64) -> Sessions<D> {
        Sessions {
            random: Random::new(seed),
            driver: D::default(),
            left: 0,
        }
    }

    /// A new state if a session begins, and the call to make.
    pub(crate) fn next(&mut self, present: Option<&D::State>) -> (Option<D::State>, D::Call) {
        let random = &mut self.random;
        if let (Some(present), true) = (present, self.left > 0) {
            self.left -= 1;
            return (None, self.driver.call(random, present));
        }
        let (state, left) = self.driver.begin(random);
        self.left = left;
        (Some(state), self.driver.call(random, &state))
    }

    /// Cuts a session short that can only go on being refused.
    pub(crate) fn heed(&mut self, outcome: &Outcome<D::State>) {
        if outcome.refusal == Some(13) {
            self.left = self.left.min(self.driver.left_if_damaged());
        }
    }
}
