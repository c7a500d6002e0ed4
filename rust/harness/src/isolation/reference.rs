//! The reference for isolation: one cell for each setting, and all else from
//! the first state.

use super::Submission;
use crate::cells::{self, Cell};
use crate::{Converter, OneConverter, Phase};

/// What a submission must be answered: refusal, converter's number, plan
/// length.
pub(super) type Expected = (u8, u32, usize);

pub(super) struct Reference<const N: usize> {
    first: [Converter; N],
    sound: bool,
    cells: [Vec<(Cell, u32)>; N],
    /// The converters for which a request was accepted.
    taken: [bool; N],
}

/// The bytes of a plan for a converter in these modes.
fn plan_length(c: &Converter, submission: &Submission) -> usize {
    let writes = if submission.is_whole_channel() { 10 } else { 3 };
    writes + 2 * usize::from(c.standby) + 2 * usize::from(c.continuous)
}

impl<const N: usize> Reference<N> {
    pub(super) fn new(one: &impl OneConverter, first: [Converter; N]) -> Reference<N> {
        Reference {
            first,
            sound: first.iter().all(|&c| one.deselect(c).0 == 0),
            cells: first.map(|c| {
                let cells = cells::all().into_iter();
                cells.map(|cell| (cell, cell.value(&c.registers))).collect()
            }),
            taken: [false; N],
        }
    }

    /// The refusal, or the converter that a submission is accepted for, judged
    /// by the first state alone.
    fn judge(&self, submission: &Submission) -> Result<usize, u8> {
        if !self.sound {
            return Err(13);
        }
        if submission.party > 8 {
            return Err(3);
        }
        if !cells::is_known(submission.request.field) {
            return Err(4);
        }
        let (number, request) = cells::localised(N, &submission.request).ok_or(5)?;
        let c = &self.first[number];
        let named = cells::named(&request);
        let (cell, _) = named.first().ok_or(5)?;
        if cell.owner(&c.owners) != submission.party {
            return Err(6);
        }
        if !cells::admitted(&request) {
            return Err(7);
        }
        if c.phase != Phase::Waiting {
            return Err(8);
        }
        if submission.room() < plan_length(c, submission) {
            return Err(9);
        }
        Ok(number)
    }

    /// What a submission must be answered; accepted values go to their cells.
    pub(super) fn answer(&mut self, submission: &Submission) -> Expected {
        let number = match self.judge(submission) {
            Ok(number) => number,
            Err(refusal) => return (refusal, 0, 0),
        };
        self.taken[number] = true;
        for (named, value) in submission.settings(N) {
            for (cell, held) in &mut self.cells[number] {
                if *cell == named {
                    *held = value;
                }
            }
        }
        let length = plan_length(&self.first[number], submission);
        (0, number as u32, length)
    }

    /// The state all requests together must lead to.
    pub(super) fn end(&self) -> [Converter; N] {
        let mut end = self.first;
        for (number, c) in end.iter_mut().enumerate() {
            for (cell, value) in &self.cells[number] {
                cell.store(&mut c.registers, *value);
            }
            if self.taken[number] {
                c.output = None;
            }
        }
        end
    }
}
