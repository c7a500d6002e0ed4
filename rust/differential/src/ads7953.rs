//! The proved library's ADS7953.

use harness::ads7953::Mode;
use harness::{Ads7953, SixteenChannels};
use rimevelvet::ads7953::{self, State, Word};

use crate::{flag, Proved};

/// The library's form of a state.
pub fn flat_part(s: Ads7953) -> State {
    State {
        list: s.list,
        mode: match s.mode {
            Mode::Manual => 0,
            Mode::Auto1 => 1,
            Mode::Auto2 => 2,
        },
        channel: s.channel,
        ordered: s.ordered,
        last: s.last,
        range2: s.range2.into(),
        counter_reset: s.counter_reset.into(),
        programming: s.programming.into(),
        first: s.first.into(),
    }
}

/// The state that the library's form stands for; panics where it stands for none, which the library never hands out.
pub fn whole_part(s: State) -> Ads7953 {
    Ads7953 {
        mode: match s.mode {
            0 => Mode::Manual,
            1 => Mode::Auto1,
            2 => Mode::Auto2,
            other => panic!("mode {other}"),
        },
        channel: s.channel,
        ordered: s.ordered,
        list: s.list,
        last: s.last,
        range2: flag(s.range2),
        counter_reset: flag(s.counter_reset),
        programming: flag(s.programming),
        first: flag(s.first),
    }
}

/// A state's bytes, changed in one place so that they stand for none: in each of five places, to each of three codes.
pub fn spoilt_parts(sound: State) -> Vec<State> {
    let places: [fn(&mut State) -> &mut u8; 5] = [
        |s| &mut s.mode,
        |s| &mut s.range2,
        |s| &mut s.counter_reset,
        |s| &mut s.programming,
        |s| &mut s.first,
    ];
    let mut spoilt = Vec::new();
    for (number, place) in places.into_iter().enumerate() {
        // 2 is a mode.
        for code in [if number == 0 { 3 } else { 2 }, 128, 255] {
            let mut s = sound;
            *place(&mut s) = code;
            spoilt.push(s);
        }
    }
    spoilt
}

impl SixteenChannels for Proved {
    fn power_up(&self) -> Ads7953 {
        whole_part(ads7953::power_up())
    }

    fn frame(&self, s: Ads7953, word: u16, code: u16) -> (u8, u16, Ads7953) {
        let a = ads7953::frame(flat_part(s), Word::Raw(word), code);
        (a.refusal, a.reply.to_bits(), whole_part(a.next))
    }

    fn plan_list(
        &self,
        s: Ads7953,
        party: u32,
        list: u16,
        tx: &mut [u8],
        at: usize,
    ) -> (u8, usize) {
        let a = ads7953::plan_list(flat_part(s), party, list, tx, at);
        (a.refusal, a.length)
    }
}
