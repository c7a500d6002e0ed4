//! An ADS7953: figures, comparison and laws on the model.

use harness::ads7953::{self, laws, states, Stats};
use harness::coverage::{numbered, of_two_models, seen, ByEntry};
use harness::random::Random;
use harness::{ads7953_figure_tests, settings, Model, SixteenChannels};

ads7953_figure_tests! { Model }

/// Every answer each entry point can give, by refusal number.
fn possible() -> ByEntry {
    ByEntry::from([
        ("power_up", vec![None]),
        ("frame", numbered(&[0, 11, 13])),
        ("plan_list", numbered(&[0, 3, 6, 8, 9, 13, 16])),
    ])
}

/// Everything that matters occurs, and at least so often.
fn assert_covered(stats: &Stats, least: u64) {
    assert_eq!(seen(&stats.answers), possible());
    let counts = [stats.lists_like_commands, stats.empty_lists];
    let rarest = stats
        .answers
        .values()
        .copied()
        .chain(stats.modes)
        .chain(stats.rounds)
        .chain(stats.damaged)
        .chain(counts)
        .chain([stats.kept_resets, stats.several_damaged])
        .min();
    assert!(rarest >= Some(least), "{rarest:?} in {stats}");
}

#[test]
fn model_agrees_with_itself_and_every_answer_occurs() {
    let compared = |calls, seed| ads7953::compare(&Model, &Model, calls, seed);
    of_two_models(compared, |stats, calls| {
        assert_covered(stats, calls / 500);
    });
}

#[test]
fn laws_hold() {
    let calls = settings::calls() / 4;
    laws::check(&Model, calls, settings::seed()).unwrap_or_else(|fault| panic!("{fault}"));
}

#[test]
fn every_word_shows_two_frames_later() {
    let runs = settings::calls() / 50;
    laws::lag(&Model, runs, settings::seed()).unwrap_or_else(|fault| panic!("{fault}"));
}

#[test]
fn all_checks_in_one() {
    let stats = ads7953::check_all(&Model, 20_000, settings::seed());
    assert_eq!(stats.calls, 20_000);
}

#[test]
fn generated_states_are_what_they_claim() {
    let mut random = Random::new(settings::seed());
    for _ in 0..5_000 {
        let sound = states::valid(&mut random);
        let places = states::places_to_damage(&mut random);
        let damaged = states::damaged(&mut random, places);
        assert_eq!(states::damaged_places(&sound), [false; 3]);
        assert_eq!(states::damaged_places(&damaged), places);
        assert!(places.contains(&true));
        assert_eq!(Model.frame(sound, 0, 0).0, 0);
        assert_eq!(Model.frame(damaged, 0, 0), (13, 0, damaged));
    }
}
