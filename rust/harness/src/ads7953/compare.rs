//! Drives two implementations of an ADS7953 through the same calls.

use std::collections::VecDeque;
use std::fmt;

use super::calls::{self, PartCall, Script};
use super::states::{self, MODES, PLACES};
use super::{Mode, SixteenChannels};
use crate::calls::Outcome;
use crate::compare::{lockstep, write_answers, write_counts, Answers};
use crate::random::Random;
use crate::sessions::Driver;
use crate::{Ads7953, Disagreement};

/// How often each entry point gave each answer, and what frames met.
#[derive(Clone, Debug, Default, PartialEq, Eq)]
pub struct Stats {
    pub calls: u64,
    /// By entry point and refusal number; `power_up` has none.
    pub answers: Answers,
    /// Accepted frames by the mode they left: manual, auto-1, auto-2.
    pub modes: [u64; 3],
    /// Second words of a list's programming that look like a command that acts.
    pub lists_like_commands: u64,
    /// Frames that left auto-1 with an empty list.
    pub empty_lists: u64,
    /// Ends of rounds, in auto-1 and in auto-2.
    pub rounds: [u64; 2],
    /// Mode words with DI11 = 0 on which a kept counter reset acted.
    pub kept_resets: u64,
    /// Calls on a state with one channel too wide, by its place.
    pub damaged: [u64; PLACES],
    /// Calls on a state with several.
    pub several_damaged: u64,
}

impl Stats {
    fn note(&mut self, given: &Ads7953, call: &PartCall, outcome: &Outcome<Ads7953>) {
        self.calls += 1;
        let answer = (call.entry(), outcome.refusal);
        *self.answers.entry(answer).or_insert(0) += 1;
        if outcome.refusal == Some(13) {
            let places = states::damaged_places(given);
            match places {
                [true, false, false] => self.damaged[0] += 1,
                [false, true, false] => self.damaged[1] += 1,
                [false, false, true] => self.damaged[2] += 1,
                _ => self.several_damaged += 1,
            }
        }
        if let (PartCall::Frame { word, .. }, Some(0)) = (call, outcome.refusal) {
            self.note_frame(given, *word, &outcome.state);
        }
    }

    fn note_frame(&mut self, given: &Ads7953, word: u16, after: &Ads7953) {
        self.modes[after.mode as usize] += 1;
        let acts = matches!(word >> 12, 1..=3 | 8 | 9);
        self.lists_like_commands += u64::from(given.programming && acts);
        self.empty_lists += u64::from(after.mode == Mode::Auto1 && after.list == 0);
        let wrapped = given.mode == after.mode && after.ordered < given.ordered;
        match after.mode {
            Mode::Auto1 if wrapped => self.rounds[0] += 1,
            Mode::Auto2 if wrapped => self.rounds[1] += 1,
            _ => {}
        }
        let keeps = matches!(word >> 11, 0b00100 | 0b00110) && !given.programming;
        let same = given.mode == after.mode && given.mode != Mode::Manual;
        self.kept_resets += u64::from(keeps && same && given.counter_reset);
    }
}

impl fmt::Display for Stats {
    fn fmt(&self, f: &mut fmt::Formatter<'_>) -> fmt::Result {
        write!(f, "{} calls on an ADS7953:", self.calls)?;
        write_answers(f, &self.answers)?;
        write_counts(
            f,
            &[
                ("frames by mode", &self.modes),
                ("lists like commands", &self.lists_like_commands),
                ("auto-1 with an empty list", &self.empty_lists),
                ("ends of rounds", &self.rounds),
                ("kept counter resets", &self.kept_resets),
                ("one channel too wide", &self.damaged),
                ("several", &self.several_damaged),
            ],
        )
    }
}

/// Sessions with an ADS7953.
#[derive(Default)]
pub(crate) struct PartDriver {
    /// Calls and words already decided on.
    calls: VecDeque<PartCall>,
    script: Script,
}

impl Driver for PartDriver {
    type State = Ads7953;
    type Call = PartCall;
    type Stats = Stats;

    fn begin(&mut self, random: &mut Random) -> (Ads7953, usize) {
        self.script.clear();
        self.calls.clear();
        match random.below(10) {
            0..=2 => {
                let places = states::places_to_damage(random);
                let s = states::damaged(random, places);
                self.calls = calls::every_entry(random, &s);
                (s, self.calls.len() - 1)
            }
            3..=5 => (states::valid(random), random.between(0, 12)),
            // The state is replaced by that after power-up.
            _ => {
                self.calls.push_back(PartCall::PowerUp);
                (states::valid(random), random.between(20, 150))
            }
        }
    }

    fn call(&mut self, random: &mut Random, present: &Ads7953) -> PartCall {
        match self.calls.pop_front() {
            Some(call) => call,
            None => calls::next(random, present, &mut self.script),
        }
    }

    fn left_if_damaged(&self) -> usize {
        self.calls.len()
    }

    fn entry(call: &PartCall) -> &'static str {
        call.entry()
    }

    fn note(stats: &mut Stats, given: &Ads7953, call: &PartCall, outcome: &Outcome<Ads7953>) {
        stats.note(given, call, outcome);
    }
}

/// Random calls for an ADS7953, on both implementations.
pub fn compare(
    a: &impl SixteenChannels,
    b: &impl SixteenChannels,
    calls: u64,
    seed: u64,
) -> Result<Stats, Disagreement> {
    lockstep::<PartDriver>(
        (calls, seed),
        |state, call| calls::perform(a, state, call),
        |state, call| calls::perform(b, state, call),
    )
}

/// All 65,536 words in a state of each mode, as a command and as a list, on
/// both implementations.
pub fn every_word(
    a: &impl SixteenChannels,
    b: &impl SixteenChannels,
    seed: u64,
) -> Result<(), Disagreement> {
    let mut random = Random::new(seed);
    for (mode, programming) in MODES.into_iter().flat_map(|m| [(m, false), (m, true)]) {
        let s = Ads7953 {
            mode,
            programming,
            ..states::valid(&mut random)
        };
        for word in 0..=u16::MAX {
            let code = random.below(4096) as u16;
            let (first, second) = (a.frame(s, word, code), b.frame(s, word, code));
            if first != second {
                return Err(Disagreement {
                    seed,
                    index: word.into(),
                    entry: "frame",
                    report: format!(
                        "word {word:04x}, code {code:x}\n on {s:x?}\n first answers {first:x?}\n second answers {second:x?}"
                    ),
                });
            }
        }
    }
    Ok(())
}
