//! Random calls of an ADS7953's entry points, biased to the words that act, to
//! lists that look like commands, and to the edges of the refusals.

use std::collections::VecDeque;

use super::SixteenChannels;
use crate::calls::{filled, Outcome};
use crate::random::Random;
use crate::Ads7953;

#[derive(Clone, Debug, PartialEq, Eq)]
pub enum PartCall {
    PowerUp,
    Frame {
        word: u16,
        code: u16,
    },
    PlanList {
        party: u32,
        list: u16,
        tx: Vec<u8>,
        at: usize,
    },
}

impl PartCall {
    pub fn entry(&self) -> &'static str {
        match self {
            PartCall::PowerUp => "power_up",
            PartCall::Frame { .. } => "frame",
            PartCall::PlanList { .. } => "plan_list",
        }
    }
}

/// Makes the call on a copy of its buffer.
pub fn perform(part: &impl SixteenChannels, s: Ads7953, call: &PartCall) -> Outcome<Ads7953> {
    let mut outcome = Outcome::on(s);
    match call {
        PartCall::PowerUp => outcome.state = part.power_up(),
        PartCall::Frame { word, code } => {
            let (refusal, reply, next) = part.frame(s, *word, *code);
            outcome.refusal = Some(refusal);
            outcome.numbers[0] = reply.into();
            outcome.state = next;
        }
        PartCall::PlanList {
            party,
            list,
            tx,
            at,
        } => {
            outcome.buffer.clone_from(tx);
            let (refusal, length) = part.plan_list(s, *party, *list, &mut outcome.buffer, *at);
            outcome.refusal = Some(refusal);
            outcome.numbers = filled([length as i64]);
        }
    }
    outcome
}

/// Lists whose bits would be a command of each kind.
pub const LIKE_COMMANDS: [u16; 12] = [
    0x0001, 0x1280, 0x1FC0, 0x2800, 0x2C40, 0x3000, 0x3C00, 0x4200, 0x8000, 0x8001, 0x9080, 0xC000,
];

/// A channel list, now and then empty.
pub fn list(random: &mut Random) -> u16 {
    let channel = |random: &mut Random| 1 << random.below(16);
    match random.below(10) {
        0 => random.pick(&[0x0000, 0xFFFF, 0x00FF, 0xFF00]),
        1 => 0,
        2 => channel(random),
        3 | 4 => channel(random) | channel(random) | channel(random),
        5 | 6 => random.pick(&LIKE_COMMANDS),
        _ => random.word() as u16,
    }
}

/// A word with these top four bits.
fn command(random: &mut Random, top: usize) -> u16 {
    // DI11, and DI10, so that each is often 0 while others are 1.
    let mask = random.pick(&[0x0FFF, 0x0BFF, 0x07FF, 0x03FF, 0x0C00, 0x0000]);
    (top << 12) as u16 | random.word() as u16 & mask
}

/// A word for a part in this state.
fn word(random: &mut Random, s: &Ads7953) -> u16 {
    if s.programming {
        return list(random);
    }
    let top = match random.below(20) {
        0..=4 => return 0,
        5 => 0,
        6 | 7 => 1,
        8..=10 => 2,
        11..=13 => 3,
        14 | 15 => 8,
        16 | 17 => 9,
        _ => random.pick(&[4, 5, 6, 7, 10, 11, 12, 13, 14, 15]),
    };
    command(random, top)
}

/// Words already decided on, so that rounds of an auto mode are run to their
/// ends.
pub type Script = VecDeque<u16>;

/// An auto mode, mostly programmed anew, and words under which it goes on.
fn round(random: &mut Random) -> Script {
    let mut script = Script::new();
    let top = random.pick(&[2, 3]);
    if random.chance(70) {
        match top {
            2 => script.extend([command(random, 8), list(random)]),
            _ => script.push_back(command(random, 9)),
        }
    }
    script.push_back(command(random, top));
    for _ in 0..random.between(2, 24) {
        let next = match random.below(12) {
            // In the same mode: a counter reset that was kept acts again.
            0 => command(random, top) & !0x0800,
            1 => {
                let other = random.pick(&[4, 7, 9, 10, 15]);
                command(random, other)
            }
            _ => 0,
        };
        script.push_back(next);
    }
    script
}

/// Codes above 12 bits.
const WIDE_CODES: [u16; 7] = [4096, 4097, 8191, 8192, 0x8000, 0xF000, u16::MAX];

/// A sample's code, at times above 12 bits.
fn code(random: &mut Random) -> u16 {
    match random.below(40) {
        0 => random.pick(&WIDE_CODES),
        1 => random.word() as u16,
        2..=5 => random.pick(&[0, 1, 4094, 4095]),
        _ => random.below(4096) as u16,
    }
}

fn frame(random: &mut Random, word: u16) -> PartCall {
    let code = code(random);
    PartCall::Frame { word, code }
}

fn party(random: &mut Random) -> u32 {
    match random.below(20) {
        0..=13 => 0,
        14..=16 => random.between(1, 8) as u32,
        17 => 9,
        18 => random.pick(&[256, 0x1_0000, 0x8000_0000, u32::MAX]),
        _ => random.edge(0, 8),
    }
}

/// A place in a buffer, mostly with room about a plan's length after it.
fn place(random: &mut Random, length: usize) -> usize {
    match random.below(20) {
        0..=5 => 0,
        6..=13 => length.saturating_sub(random.between(3, 5)),
        14 | 15 => random.between(0, length + 1),
        16 => length + random.between(0, 2),
        17 => usize::MAX - random.below(6),
        18 => usize::MAX / 2 + random.below(3),
        _ => random.word() as usize,
    }
}

/// A plan, of which each thing may be wrong.
fn plan_list(random: &mut Random) -> PartCall {
    let length = random.edge_or(&[0, 3, 4, 5, 8], 0, 12);
    PartCall::PlanList {
        party: party(random),
        list: list(random),
        at: place(random, length),
        tx: random.bytes(length),
    }
}

/// Calls of the entry points that are given a state, in random order; half of
/// the frames have a code that is too wide.
pub fn every_entry(random: &mut Random, s: &Ads7953) -> VecDeque<PartCall> {
    let mut calls = VecDeque::new();
    for _ in 0..2 {
        let wide = PartCall::Frame {
            word: word(random, s),
            code: random.pick(&WIDE_CODES),
        };
        let word = word(random, s);
        let others = [frame(random, word), plan_list(random), plan_list(random)];
        calls.extend([wide].into_iter().chain(others));
        calls.rotate_left(random.below(4));
    }
    calls
}

/// The next call to make, given the present state.
pub fn next(random: &mut Random, s: &Ads7953, script: &mut Script) -> PartCall {
    if random.chance(15) {
        return plan_list(random);
    }
    if script.is_empty() && random.chance(15) {
        *script = round(random);
    }
    let word = script.pop_front().unwrap_or_else(|| word(random, s));
    frame(random, word)
}

/// Words for a run of frames from a state, each of them one that the part
/// heeds at the time.
pub fn run(random: &mut Random, s: &Ads7953, length: usize) -> Vec<u16> {
    let mut words = Vec::with_capacity(length);
    let mut script = Script::new();
    let mut programming = s.programming;
    while words.len() < length {
        if script.is_empty() && random.chance(20) {
            script = round(random);
        }
        let at = Ads7953 { programming, ..*s };
        let next = script.pop_front().unwrap_or_else(|| word(random, &at));
        programming = !programming && next >> 12 == 8;
        words.push(next);
    }
    words
}
