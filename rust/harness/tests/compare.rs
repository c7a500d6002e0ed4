//! The comparison itself, and the laws, on the model.

use harness::coverage::{numbered, of_two_models, seen, ByEntry};
use harness::random::Random;
use harness::states::{self, DAMAGES};
use harness::{compare, laws, settings, Model, OneConverter};

/// Every answer each entry point can give, by refusal number.
fn possible() -> ByEntry {
    ByEntry::from([
        ("power_up", numbered(&[0, 13])),
        ("step", numbered(&[0, 13])),
        ("deselect", numbered(&[0, 13])),
        ("sample", numbered(&[0, 10, 11, 13])),
        ("grant", numbered(&[0, 3, 5, 6, 13])),
        ("read_channel", numbered(&[0, 3, 5, 6, 12, 13])),
        ("channel_bytes", vec![None, Some(0)]),
        ("request_read", numbered(&[0, 1, 2])),
        ("request_write", numbered(&[0, 7, 9])),
        ("plan", numbered(&[0, 3, 4, 5, 6, 7, 8, 9, 13])),
        ("console", vec![None]),
    ])
}

#[test]
fn model_agrees_with_itself_and_every_answer_occurs() {
    let compared = |calls, seed| compare(&Model, &Model, calls, seed);
    of_two_models(compared, |stats, _| {
        assert_eq!(seen(&stats.answers), possible());
        let read = stats.answers[&("read_channel", Some(0))];
        let [_, lowest, highest] = stats.rails;
        let least = lowest.min(highest).min(stats.beside_ends);
        assert!(least >= read / 20, "{stats}");
    });
}

#[test]
fn all_checks_in_one() {
    assert_eq!(
        harness::check_all(&Model, 20_000, settings::seed()).calls,
        20_000
    );
}

#[test]
fn laws_hold() {
    let calls = settings::calls() / 4;
    laws::check(&Model, calls, settings::seed()).unwrap_or_else(|fault| panic!("{fault}"));
}

#[test]
fn generated_states_are_what_they_claim() {
    let mut random = Random::new(settings::seed());
    for _ in 0..20_000 {
        assert_eq!(Model.deselect(states::valid(&mut random)).0, 0);
        for damage in DAMAGES {
            let c = states::damaged(&mut random, damage);
            assert_eq!(Model.deselect(c), (13, c), "{damage:?}");
        }
    }
    for _ in 0..500 {
        // A walk may have ended in a refused power-up.
        let c = states::reachable(&Model, &mut random);
        assert!(c.registers[0] == 0 || Model.deselect(c).0 == 0);
    }
}
