//! Benches: sound ones, and ones with any of their converters damaged.

use super::CONVERTERS;
use crate::random::Random;
pub use crate::states::places_to_damage;
use crate::states::{self, DAMAGES};
use crate::{Bench, Converter};

/// A bench of four converters that pass every condition of refusal 13.
pub fn valid(random: &mut Random) -> Bench {
    damaged(random, [false; CONVERTERS])
}

/// A bench that is damaged in these places and in no others.
pub fn damaged(random: &mut Random, places: [bool; CONVERTERS]) -> Bench {
    let converters = places.map(|damaged| {
        if damaged {
            let damage = random.pick(&DAMAGES);
            states::damaged(random, damage)
        } else {
            states::valid(random)
        }
    });
    Bench { converters }
}

/// Where a bench is damaged.
pub fn damaged_places(b: &Bench) -> [bool; CONVERTERS] {
    b.converters.map(|c| c.check().is_err())
}

/// The bench with one converter replaced.
pub fn with(b: &Bench, number: usize, c: Converter) -> Bench {
    let mut next = *b;
    next.converters[number] = c;
    next
}

/// Four IDs: mostly legal, otherwise one is any byte, or all are.
pub fn ids(random: &mut Random) -> [u8; CONVERTERS] {
    let mut ids = [0; CONVERTERS].map(|_| states::legal_id(random));
    match random.below(20) {
        0..=13 => {}
        14..=18 => ids[random.below(CONVERTERS)] = random.byte(),
        _ => random.fill(&mut ids),
    }
    ids
}
