//! The comparison notices every wrong model, and so do the figures; the laws
//! notice those that contradict themselves.

use harness::mutants::{self, Fault, Mutant};
use harness::noticed::{self, WITHIN};
use harness::{compare, figures, laws, Model};

#[test]
fn comparison_notices_every_fault() {
    noticed::by_comparison(mutants::all(), |fault, calls, seed| {
        compare(&Model, &Mutant::new(fault), calls, seed)
    });
}

#[test]
fn figures_notice_every_fault() {
    noticed::by_figures(mutants::all(), |fault| figures::all(&Mutant::new(fault)));
}

fn each_breaks_a_law(faults: &[Fault]) {
    noticed::by_check(faults.iter().copied(), "breaks no law", |fault, seed| {
        laws::check(&Mutant::new(fault), WITHIN, seed)
    });
}

#[test]
fn laws_notice_requests_at_odds_with_each_other() {
    each_breaks_a_law(&[
        Fault::ChannelRunOfSix,
        Fault::EightValuesJudged,
        Fault::NinthValueInEighthRegister,
        Fault::StateAfterEightFields,
        Fault::NineValuesOnlyForChannels,
        Fault::EightValuesRead,
        Fault::UnreadValuesRepeatTheFirst,
        Fault::WriterJudgesUnusedValues,
        Fault::PlannerJudgesUnusedValues,
    ]);
}

/// All of them: a rail is at odds with its code, or stands in a refusal.
#[test]
fn laws_notice_every_wrong_rail() {
    each_breaks_a_law(&mutants::RAILS);
}
