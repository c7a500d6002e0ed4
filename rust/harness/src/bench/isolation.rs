//! Isolation between the parties of a bench, whose requests go to all four
//! converters.

use super::{FourConverters, CONVERTERS};
use crate::isolation::{self, Converters, Coverage, Submission};
use crate::{Bench, Converter, OneConverter};

type States = [Converter; CONVERTERS];

struct Four<'a, B>(&'a B);

impl<B: FourConverters> Converters<CONVERTERS> for Four<'_, B> {
    fn plan(
        &self,
        converters: States,
        submission: &Submission,
        tx: &mut [u8],
    ) -> (u8, u32, usize, States) {
        let Submission {
            party, request, at, ..
        } = *submission;
        let b = Bench { converters };
        let (refusal, number, length, next) = self.0.plan(b, party, request, tx, at);
        (refusal, number, length, next.converters)
    }

    fn step(&self, converters: States, number: u32, byte: u8) -> Option<States> {
        let (refusal, _, next) = self.0.step(Bench { converters }, number, byte);
        (refusal == 0).then_some(next.converters)
    }

    fn deselect(&self, converters: States, number: u32) -> Option<States> {
        let (refusal, next) = self.0.deselect(Bench { converters }, number);
        (refusal == 0).then_some(next.converters)
    }

    fn one(&self) -> &impl OneConverter {
        self.0.one()
    }
}

/// Random lists of all parties, each round merged in two ways.
pub fn check(bench: &impl FourConverters, rounds: u64, seed: u64) -> Result<Coverage, String> {
    isolation::check_converters(&Four(bench), rounds, seed)
}
