//! Drives two implementations of a bench through the same calls.

use std::collections::BTreeMap;
use std::fmt;

use super::calls::{self, BenchCall, Queues, EDGES};
use super::{states, FourConverters, CONVERTERS};
use crate::calls::Outcome;
use crate::compare::{lockstep, write_answers, write_counts, Answers};
use crate::random::Random;
use crate::sessions::Driver;
use crate::{Bench, Disagreement, Phase};

/// Counts by entry point, and by the number of a converter.
pub type ByConverter = BTreeMap<&'static str, [u64; CONVERTERS]>;

/// How often each entry point gave each answer, and for which converters.
#[derive(Clone, Debug, Default, PartialEq, Eq)]
pub struct Stats {
    pub calls: u64,
    /// By entry point and refusal number. `channel_bytes` counts as 0 when its
    /// part is not empty, and as `None` otherwise.
    pub answers: Answers,
    /// Accepted calls, by the converter they were for.
    pub accepted: ByConverter,
    /// Calls on a bench with one converter damaged, by that converter.
    pub damaged: ByConverter,
    /// Those of them that were for a sound converter, by the damaged one.
    pub damaged_elsewhere: ByConverter,
    /// Calls on a bench with several converters damaged.
    pub several_damaged: u64,
    /// Accepted plans and bytes, by their converter, while another one was
    /// inside a command.
    pub beside_open: ByConverter,
    /// Refused power-ups with one bad ID, by its place.
    pub bad_ids: [u64; CONVERTERS],
    /// Calls with a channel number at an edge of the ranges.
    pub edges: BTreeMap<u32, u64>,
}

fn count(counts: &mut ByConverter, entry: &'static str, number: usize) {
    counts.entry(entry).or_default()[number] += 1;
}

/// The only place that is true, if one alone is.
fn only(places: [bool; CONVERTERS]) -> Option<usize> {
    let mut found = (0..CONVERTERS).filter(|&place| places[place]);
    found.next().filter(|_| found.next().is_none())
}

impl Stats {
    fn note(&mut self, given: &Bench, call: &BenchCall, outcome: &Outcome<Bench>) {
        let whole_part = matches!(call, BenchCall::ChannelBytes(_)) && outcome.numbers[1] != 0;
        let number = if whole_part { Some(0) } else { outcome.refusal };
        self.calls += 1;
        *self.answers.entry((call.entry(), number)).or_insert(0) += 1;
        if let Some(edge) = call.channel().filter(|channel| EDGES.contains(channel)) {
            *self.edges.entry(edge).or_insert(0) += 1;
        }
        match call {
            BenchCall::PowerUp { ids } => {
                if let Some(place) = only(ids.map(|id| id & 0x1F != 0x1E)) {
                    self.bad_ids[place] += 1;
                }
            }
            _ if number == Some(0) => self.note_accepted(given, call),
            _ => self.note_damage(given, call),
        }
    }

    fn note_accepted(&mut self, given: &Bench, call: &BenchCall) {
        let number = call.converter().expect("an accepted call is for one");
        count(&mut self.accepted, call.entry(), number);
        let open = |other: usize| given.converters[other].phase != Phase::Waiting;
        let beside = (0..CONVERTERS).any(|other| other != number && open(other));
        if beside && matches!(call, BenchCall::Step { .. } | BenchCall::Plan { .. }) {
            count(&mut self.beside_open, call.entry(), number);
        }
    }

    fn note_damage(&mut self, given: &Bench, call: &BenchCall) {
        let places = states::damaged_places(given);
        let Some(place) = only(places) else {
            self.several_damaged += u64::from(places.contains(&true));
            return;
        };
        count(&mut self.damaged, call.entry(), place);
        if call.converter().is_some_and(|number| number != place) {
            count(&mut self.damaged_elsewhere, call.entry(), place);
        }
    }
}

impl fmt::Display for Stats {
    fn fmt(&self, f: &mut fmt::Formatter<'_>) -> fmt::Result {
        write!(f, "{} calls on benches:", self.calls)?;
        write_answers(f, &self.answers)?;
        write_counts(
            f,
            &[
                ("accepted by converter", &self.accepted),
                ("one damaged", &self.damaged),
                ("and not the named", &self.damaged_elsewhere),
                ("several damaged", &self.several_damaged),
                ("beside a command", &self.beside_open),
                ("one bad ID", &self.bad_ids),
                ("channels at edges", &self.edges),
            ],
        )
    }
}

/// Sessions with a bench.
#[derive(Default)]
pub(crate) struct BenchDriver {
    queues: Queues,
}

impl Driver for BenchDriver {
    type State = Bench;
    type Call = BenchCall;
    type Stats = Stats;

    fn begin(&mut self, random: &mut Random) -> (Bench, usize) {
        self.queues = Queues::default();
        match random.below(10) {
            0..=2 => {
                let places = states::places_to_damage(random);
                let b = states::damaged(random, places);
                self.queues.bench = calls::every_entry(random, &b);
                (b, self.queues.bench.len() - 1)
            }
            3..=5 => {
                let b = states::valid(random);
                if random.flag() {
                    self.queues.bench = calls::every_entry(random, &b);
                }
                (b, random.between(0, 20))
            }
            6 => (states::valid(random), random.between(10, 60)),
            // The bench is replaced by what this power-up hands back.
            _ => {
                let ids = states::ids(random);
                self.queues.bench.push_back(BenchCall::PowerUp { ids });
                (states::valid(random), random.between(30, 200))
            }
        }
    }

    fn call(&mut self, random: &mut Random, present: &Bench) -> BenchCall {
        calls::next(random, present, &mut self.queues)
    }

    fn left_if_damaged(&self) -> usize {
        self.queues.bench.len() + 3
    }

    fn entry(call: &BenchCall) -> &'static str {
        call.entry()
    }

    fn note(stats: &mut Stats, given: &Bench, call: &BenchCall, outcome: &Outcome<Bench>) {
        stats.note(given, call, outcome);
    }
}

/// Random calls for a bench, on both implementations.
pub fn compare(
    a: &impl FourConverters,
    b: &impl FourConverters,
    calls: u64,
    seed: u64,
) -> Result<Stats, Disagreement> {
    lockstep::<BenchDriver>(
        (calls, seed),
        |state, call| calls::perform(a, state, call),
        |state, call| calls::perform(b, state, call),
    )
}
