//! The comparison notices every wrong model of an ADS7953, and so do the
//! figures and the laws.

use harness::ads7953::mutants::{self, PartFault, PartMutant};
use harness::ads7953::{self, figures, laws};
use harness::noticed::{self, WITHIN};
use harness::Model;

#[test]
fn comparison_notices_every_fault() {
    noticed::by_comparison(mutants::all(), |fault, calls, seed| {
        ads7953::compare(&Model, &PartMutant::new(fault), calls, seed)
    });
}

#[test]
fn figures_notice_every_fault() {
    noticed::by_figures(mutants::all(), |fault| {
        figures::all(&PartMutant::new(fault));
    });
}

#[test]
fn laws_notice_every_fault() {
    noticed::by_check(mutants::all(), "breaks no law", |fault, seed| {
        laws::check(&PartMutant::new(fault), WITHIN, seed)
    });
}

/// Those that are about single words.
#[test]
fn every_word_notices_wrong_decoding() {
    let wrong_decoding = [
        PartFault::ListDecodedAsCommand,
        PartFault::ListOfEightBits,
        PartFault::ListReversed,
        PartFault::Di11KeepsTheManualChannel,
        PartFault::ZeroOrdersChannelZero,
        PartFault::RangeWithoutDi11,
        PartFault::LastFromDi10,
        PartFault::FourToSevenAsTheirLowBits,
        PartFault::GpioWordResets,
        PartFault::AlarmWordTakesAList,
        PartFault::ElevenAsNine,
        PartFault::Di05PowersDown,
    ];
    noticed::by_check(wrong_decoding, "went unnoticed", |fault, seed| {
        ads7953::every_word(&Model, &PartMutant::new(fault), seed)
    });
}

#[test]
fn lag_notices_wrong_replies() {
    noticed::by_check(mutants::REPLIES, "shows in no reply", |fault, seed| {
        laws::lag(&PartMutant::new(fault), 2_000, seed)
    });
}
