//! Whether a comparison met everything that it is about.

use std::collections::BTreeMap;
use std::fmt::Display;
use std::time::Instant;

use crate::compare::Answers;
use crate::{settings, Disagreement};

/// The refusal numbers that each entry point gives, or none.
pub type ByEntry = BTreeMap<&'static str, Vec<Option<u8>>>;

/// An entry point's refusal numbers.
pub fn numbered(numbers: &[u8]) -> Vec<Option<u8>> {
    numbers.iter().copied().map(Some).collect()
}

/// The answers that occurred.
pub fn seen(answers: &Answers) -> ByEntry {
    let mut seen = ByEntry::new();
    for (entry, number) in answers.keys() {
        seen.entry(entry).or_default().push(*number);
    }
    seen
}

/// Compares the model with itself, given calls and a seed, and says what was
/// met and how long it took; a run that is long enough is judged, given its
/// calls.
pub fn of_two_models<S: Display>(
    compare: impl Fn(u64, u64) -> Result<S, Disagreement>,
    judge: impl Fn(&S, u64),
) {
    let (calls, seed) = (settings::calls(), settings::seed());
    let started = Instant::now();
    let stats = compare(calls, seed).unwrap_or_else(|found| panic!("{found}"));
    settings::say(&format!(
        "{stats}\n  in {:?} on two models",
        started.elapsed()
    ));
    if calls >= 100_000 {
        judge(&stats, calls);
    }
}
