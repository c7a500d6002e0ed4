//! Demand 3 on the model, and on wrong models that break it.

use harness::mutants::{Fault, Mutant};
use harness::{isolation, noticed, settings, Model};

#[test]
fn parties_do_not_disturb_each_other() {
    let rounds = (settings::calls() / 50).max(200);
    let coverage = isolation::check(&Model, rounds, settings::seed())
        .unwrap_or_else(|fault| panic!("{fault}"));
    settings::say(&format!("isolation: {coverage:?}"));
    assert!(coverage.accepted > coverage.requests / 5);
    assert!(coverage.whole_channels > coverage.accepted / 10);
    assert!(coverage.differing_plans > coverage.differing_whole_channels);
    assert!(coverage.differing_whole_channels > 0);
}

#[test]
fn disturbing_models_are_noticed() {
    let disturbing = [
        Fault::SharedRegisterFromPowerUp,
        Fault::ValueBeforeOwner,
        Fault::RoomTestWraps,
        Fault::RefusedPlanLengthKept,
        Fault::ChannelValuesBeforeOwner,
        Fault::ChannelRoomOfOneField,
        Fault::ChannelRunFromPowerUp,
        Fault::ChannelInSixWrites,
        Fault::NinthValueInEighthRegister,
        Fault::StateAfterEightFields,
        Fault::PlannerJudgesUnusedValues,
    ];
    noticed::by_isolation(disturbing, |fault, rounds, seed| {
        isolation::check(&Mutant::new(fault), rounds, seed)
    });
}
