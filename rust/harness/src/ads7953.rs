//! Tests for an ADS7953: comparison, laws and figures. No party rents its
//! channels, so there is no isolation to be tried.

pub mod calls;
pub mod compare;
pub mod figures;
pub mod laws;
pub mod mutants;
pub mod states;

use crate::{Ads7953, Model};
pub use compare::{compare, every_word, Stats};
pub use model::ads7953::Mode;

/// The entry points for an ADS7953. Answers begin with their refusal number,
/// except that of `power_up`, which nothing can be wrong with.
pub trait SixteenChannels {
    fn power_up(&self) -> Ads7953;
    /// (refusal, reply, state)
    fn frame(&self, s: Ads7953, word: u16, code: u16) -> (u8, u16, Ads7953);
    /// (refusal, plan length)
    fn plan_list(&self, s: Ads7953, party: u32, list: u16, tx: &mut [u8], at: usize)
        -> (u8, usize);
}

/// All checks on one implementation, the comparison with the model last;
/// panics at the first fault.
pub fn check_all(part: &impl SixteenChannels, calls: u64, seed: u64) -> Stats {
    figures::all(part);
    laws::check(part, calls / 4, seed).unwrap_or_else(|fault| panic!("{fault}"));
    laws::lag(part, calls / 100, seed).unwrap_or_else(|fault| panic!("{fault}"));
    every_word(&Model, part, seed).unwrap_or_else(|found| panic!("{found}"));
    compare(&Model, part, calls, seed).unwrap_or_else(|found| panic!("{found}"))
}

impl SixteenChannels for Model {
    fn power_up(&self) -> Ads7953 {
        model::ads7953::power_up()
    }
    fn frame(&self, s: Ads7953, word: u16, code: u16) -> (u8, u16, Ads7953) {
        model::ads7953::frame(s, word, code)
    }
    fn plan_list(
        &self,
        s: Ads7953,
        party: u32,
        list: u16,
        tx: &mut [u8],
        at: usize,
    ) -> (u8, usize) {
        model::ads7953::plan_list(s, party, list, tx, at)
    }
}
