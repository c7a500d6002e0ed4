//! Drives two implementations through the same calls and stops where they
//! differ.

use std::collections::BTreeMap;
use std::fmt;

use crate::calls::{self, Call, Outcome, Script, RAIL};
use crate::random::Random;
use crate::sessions::{Driver, Sessions};
use crate::states::{self, DAMAGES};
use crate::{Converter, OneConverter};

/// How often each entry point gave each refusal number, or none.
pub type Answers = BTreeMap<(&'static str, Option<u8>), u64>;

/// How often each entry point gave each answer.
#[derive(Clone, Debug, Default, PartialEq, Eq)]
pub struct Stats {
    pub calls: u64,
    /// By entry point and refusal number. `channel_bytes` counts as 0 when
    /// its part is not empty; it and `console` count as `None` otherwise.
    pub answers: Answers,
    /// Accepted readings by their rail's number: neither, lowest, highest.
    pub rails: [u64; 3],
    /// Accepted readings of a code next to an end of its range.
    pub beside_ends: u64,
}

impl Stats {
    pub(crate) fn note(&mut self, call: &Call, outcome: &Outcome) {
        let whole_part = matches!(call, Call::ChannelBytes { .. }) && outcome.numbers[1] != 0;
        let number = if whole_part { Some(0) } else { outcome.refusal };
        self.calls += 1;
        *self.answers.entry((call.entry(), number)).or_insert(0) += 1;
        if matches!(call, Call::ReadChannel { .. }) && number == Some(0) {
            self.rails[outcome.numbers[RAIL] as usize] += 1;
            let beside = matches!(outcome.numbers[0], -8_388_607 | 8_388_606);
            self.beside_ends += u64::from(beside);
        }
    }
}

/// A line for each entry point.
pub(crate) fn write_answers(f: &mut fmt::Formatter<'_>, answers: &Answers) -> fmt::Result {
    let mut entry = "";
    for ((name, number), count) in answers {
        if *name != entry {
            write!(f, "\n  {name}:")?;
            entry = name;
        }
        match number {
            Some(number) => write!(f, " {number}x{count}")?,
            None => write!(f, " -x{count}")?,
        }
    }
    Ok(())
}

/// A line for each count, under its name.
pub(crate) fn write_counts(
    f: &mut fmt::Formatter<'_>,
    counts: &[(&str, &dyn fmt::Debug)],
) -> fmt::Result {
    for (name, count) in counts {
        write!(f, "\n  {name}: {count:?}")?;
    }
    Ok(())
}

impl fmt::Display for Stats {
    fn fmt(&self, f: &mut fmt::Formatter<'_>) -> fmt::Result {
        write!(f, "{} calls:", self.calls)?;
        write_answers(f, &self.answers)?;
        let [neither, lowest, highest] = self.rails;
        write!(
            f,
            "\n  rails read: neither x{neither} (beside an end x{}) lowest x{lowest} highest x{highest}",
            self.beside_ends
        )
    }
}

/// The first call on which two implementations differ, with all it takes to repeat it.
#[derive(Clone, Debug, PartialEq, Eq)]
pub struct Disagreement {
    pub seed: u64,
    /// Number of calls both had answered alike before.
    pub index: u64,
    pub entry: &'static str,
    pub report: String,
}

impl fmt::Display for Disagreement {
    fn fmt(&self, f: &mut fmt::Formatter<'_>) -> fmt::Result {
        write!(
            f,
            "seed {:#x}, call {}: {}",
            self.seed, self.index, self.report
        )
    }
}

/// Sessions with one converter.
#[derive(Default)]
pub(crate) struct OneDriver {
    script: Script,
}

impl Driver for OneDriver {
    type State = Converter;
    type Call = Call;
    type Stats = Stats;

    fn begin(&mut self, random: &mut Random) -> (Converter, usize) {
        self.script.clear();
        match random.below(10) {
            0..=2 => {
                let damage = random.pick(&DAMAGES);
                let state = states::damaged(random, damage);
                self.script = calls::every_entry(random, &state);
                (state, self.script.len() - 1)
            }
            3..=5 => {
                let state = states::valid(random);
                if random.flag() {
                    self.script = calls::every_entry(random, &state);
                }
                (state, random.between(0, 10))
            }
            6 => (states::valid(random), random.between(10, 60)),
            // The state is replaced by what this power-up hands back.
            _ => {
                self.script.push_back(Call::PowerUp {
                    id: calls::power_up_id(random),
                });
                (states::valid(random), random.between(30, 200))
            }
        }
    }

    fn call(&mut self, random: &mut Random, present: &Converter) -> Call {
        calls::next(random, present, &mut self.script)
    }

    fn left_if_damaged(&self) -> usize {
        6
    }

    fn entry(call: &Call) -> &'static str {
        call.entry()
    }

    fn note(stats: &mut Stats, _: &Converter, call: &Call, outcome: &Outcome) {
        stats.note(call, outcome);
    }
}

/// Makes `calls` calls on both implementations. Answers, buffers and states
/// must be alike after every single one, which is then noted.
pub(crate) fn lockstep<D: Driver>(
    (calls, seed): (u64, u64),
    a: impl Fn(D::State, &D::Call) -> Outcome<D::State>,
    b: impl Fn(D::State, &D::Call) -> Outcome<D::State>,
) -> Result<D::Stats, Disagreement> {
    let mut sessions = Sessions::<D>::new(seed);
    let mut stats = D::Stats::default();
    let mut states = None;
    for index in 0..calls {
        let (fresh, call) = sessions.next(states.as_ref().map(|(state, _)| state));
        let (state_a, state_b) = fresh
            .map(|fresh| (fresh, fresh))
            .or(states)
            .expect("the first call begins a session");
        let (outcome_a, outcome_b) = (a(state_a, &call), b(state_b, &call));
        if outcome_a != outcome_b {
            let report = format!(
                "{call:x?}\n on {state_a:x?}\n first answers {outcome_a:x?}\n second answers {outcome_b:x?}"
            );
            return Err(Disagreement {
                seed,
                index,
                entry: D::entry(&call),
                report,
            });
        }
        D::note(&mut stats, &state_a, &call, &outcome_a);
        sessions.heed(&outcome_a);
        states = Some((outcome_a.state, outcome_b.state));
    }
    Ok(stats)
}

/// Random calls for one converter, requests and the program, on both
/// implementations.
pub fn compare(
    a: &impl OneConverter,
    b: &impl OneConverter,
    calls: u64,
    seed: u64,
) -> Result<Stats, Disagreement> {
    lockstep::<OneDriver>(
        (calls, seed),
        |state, call| calls::perform(a, state, call),
        |state, call| calls::perform(b, state, call),
    )
}
