//! The comparison notices every wrong model of a bench, and so do the figures
//! and the laws; demand 3 notices those that are wrong about plans.

use harness::bench::mutants::{BenchFault, BenchMutant, ALL};
use harness::bench::{self, figures, isolation, laws};
use harness::noticed::{self, WITHIN};
use harness::Model;

#[test]
fn comparison_notices_every_fault() {
    noticed::by_comparison(ALL, |fault, calls, seed| {
        bench::compare(&Model, &BenchMutant::new(fault), calls, seed)
    });
}

#[test]
fn figures_notice_every_fault() {
    noticed::by_figures(ALL, |fault| figures::all(&BenchMutant::new(fault)));
}

#[test]
fn laws_notice_every_fault() {
    noticed::by_check(ALL, "breaks no law", |fault, seed| {
        laws::check(&BenchMutant::new(fault), WITHIN, seed)
    });
}

#[test]
fn isolation_notices_wrong_plans() {
    let about_plans = [
        BenchFault::DamageOfTheNamedAlone,
        BenchFault::DamageOfTheFirstAlone,
        BenchFault::DamageOfTheLastUnseen,
        BenchFault::ChannelBeforeDamage,
        BenchFault::LastOfEachIsNone,
        BenchFault::ThirtyThreeIsAChannel,
        BenchFault::SharedOfTheFirst,
        BenchFault::ThirtySixIsTheLast,
        BenchFault::SharedByAnyChannel,
        BenchFault::ChannelCutToByte,
        BenchFault::OwnerOfTheFirst,
        BenchFault::ChannelBeforeParty,
        BenchFault::ByteReachesTwo,
        BenchFault::RiseReachesAll,
        BenchFault::SwitchRaisesTheLine,
        BenchFault::StoredInTheNextPlace,
        BenchFault::WaitingOfAllFour,
        BenchFault::RoomByTheFirst,
        BenchFault::PlanNumberAlwaysZero,
        BenchFault::PlanNumberOnRefusal,
        BenchFault::OtherRegistersCleared,
        BenchFault::RefusedPlanEmptiesOutput,
    ];
    noticed::by_isolation(about_plans, |fault, rounds, seed| {
        isolation::check(&BenchMutant::new(fault), rounds, seed)
    });
}
