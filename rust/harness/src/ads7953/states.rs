//! States of an ADS7953: any that is sound, and damaged ones.

use super::calls;
use super::Mode;
use crate::random::Random;
pub use crate::states::places_to_damage;
use crate::Ads7953;

pub const MODES: [Mode; 3] = [Mode::Manual, Mode::Auto1, Mode::Auto2];

/// A channel that four bits cannot hold; some look like one once cut.
const NO_CHANNEL: [u8; 7] = [16, 17, 31, 32, 128, 240, 255];

/// Where a state can be damaged, by `damaged_places`.
pub const PLACES: usize = 3;

fn channel(random: &mut Random) -> u8 {
    random.edge_or(&[0, 1, 14, 15], 0, 15) as u8
}

/// A state that refusal 13 lets pass, reachable or not.
pub fn valid(random: &mut Random) -> Ads7953 {
    Ads7953 {
        mode: random.pick(&MODES),
        channel: channel(random),
        ordered: channel(random),
        list: calls::list(random),
        last: channel(random),
        range2: random.flag(),
        counter_reset: random.flag(),
        programming: random.chance(25),
        first: random.chance(10),
    }
}

/// A state that is damaged in these places and in no others.
pub fn damaged(random: &mut Random, places: [bool; PLACES]) -> Ads7953 {
    let mut s = valid(random);
    let channels = [&mut s.channel, &mut s.ordered, &mut s.last];
    for (channel, damaged) in channels.into_iter().zip(places) {
        if damaged {
            *channel = random.pick(&NO_CHANNEL);
        }
    }
    s
}

/// Where a state is damaged: channel, ordered, last.
pub fn damaged_places(s: &Ads7953) -> [bool; PLACES] {
    [s.channel, s.ordered, s.last].map(|channel| channel > 15)
}
