//! A bench of four converters: figures, comparison, laws and demand 3 on the
//! model.

use harness::bench::{self, states, Stats};
use harness::coverage::{numbered, of_two_models, seen, ByEntry};
use harness::random::Random;
use harness::{bench_figure_tests, settings, FourConverters, Model};

bench_figure_tests! { Model }

/// Every answer each entry point can give, by refusal number.
fn possible() -> ByEntry {
    ByEntry::from([
        ("power_up", numbered(&[0, 13])),
        ("step", numbered(&[0, 5, 13])),
        ("deselect", numbered(&[0, 5, 13])),
        ("sample", numbered(&[0, 5, 10, 11, 13])),
        ("grant", numbered(&[0, 3, 5, 6, 13])),
        ("read_channel", numbered(&[0, 3, 5, 6, 12, 13])),
        ("channel_bytes", vec![None, Some(0)]),
        ("plan", numbered(&[0, 3, 4, 5, 6, 7, 8, 9, 13])),
    ])
}

/// Everything that matters occurs, and at least so often.
fn assert_covered(stats: &Stats, least: u64) {
    assert_eq!(seen(&stats.answers), possible());
    let given_a_bench = possible().len() - 1;
    assert_eq!(stats.accepted.len(), given_a_bench);
    assert_eq!(stats.damaged.len(), given_a_bench);
    assert_eq!(stats.damaged_elsewhere.len(), given_a_bench);
    assert_eq!(stats.beside_open.len(), 2);
    let by_converter = [
        &stats.accepted,
        &stats.damaged,
        &stats.damaged_elsewhere,
        &stats.beside_open,
    ];
    let places = by_converter.into_iter().flat_map(|counts| counts.values());
    let rarest = places
        .flatten()
        .chain(stats.answers.values())
        .chain(stats.edges.values())
        .chain(&stats.bad_ids)
        .chain([&stats.several_damaged])
        .min();
    assert_eq!(stats.edges.len(), bench::calls::EDGES.len());
    assert!(rarest >= Some(&least), "{rarest:?} in {stats}");
}

#[test]
fn model_agrees_with_itself_and_every_answer_occurs() {
    let compared = |calls, seed| bench::compare(&Model, &Model, calls, seed);
    of_two_models(compared, |stats, calls| {
        assert_covered(stats, calls / 2_500);
    });
}

#[test]
fn laws_hold() {
    let calls = settings::calls() / 4;
    bench::laws::check(&Model, calls, settings::seed()).unwrap_or_else(|fault| panic!("{fault}"));
}

#[test]
fn all_checks_in_one() {
    let stats = bench::check_all(&Model, 20_000, settings::seed());
    assert_eq!(stats.calls, 20_000);
}

#[test]
fn parties_do_not_disturb_each_other() {
    let rounds = (settings::calls() / 100).max(200);
    let coverage = bench::isolation::check(&Model, rounds, settings::seed())
        .unwrap_or_else(|fault| panic!("{fault}"));
    settings::say(&format!("isolation on a bench: {coverage:?}"));
    for number in [0, 3, 4, 5, 6, 7, 8, 9, 13] {
        assert!(coverage.refusals[number] > coverage.requests / 100);
    }
    assert!(coverage.accepted > coverage.requests / 5);
    let least = coverage.by_converter.into_iter().min();
    assert!(least > Some(coverage.accepted / 5));
    assert!(coverage.whole_channels > coverage.accepted / 10);
    assert!(coverage.differing_plans > coverage.differing_whole_channels);
    assert!(coverage.differing_whole_channels > 0);
}

#[test]
fn generated_benches_are_what_they_claim() {
    let mut random = Random::new(settings::seed());
    for _ in 0..5_000 {
        let sound = states::valid(&mut random);
        let places = states::places_to_damage(&mut random);
        let damaged = states::damaged(&mut random, places);
        assert_eq!(states::damaged_places(&sound), [false; 4]);
        assert_eq!(states::damaged_places(&damaged), places);
        assert!(places.contains(&true));
        for number in 0..4 {
            assert_eq!(Model.deselect(sound, number).0, 0);
            assert_eq!(Model.deselect(damaged, number), (13, damaged));
        }
    }
}
