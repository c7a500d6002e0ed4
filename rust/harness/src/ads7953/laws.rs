//! Laws that tie an ADS7953's answers to each other and to its words, checked
//! on random calls.

use super::calls::{self, PartCall};
use super::compare::PartDriver;
use super::{states, Mode, SixteenChannels};
use crate::calls::{Outcome, NUMBERS};
use crate::laws::{ensure, hold, replies};
use crate::random::Random;
use crate::Ads7953;

/// Sends words with their codes; `None` if one is refused.
fn send(
    part: &impl SixteenChannels,
    s: Ads7953,
    frames: &[(u16, u16)],
) -> Option<(Vec<u16>, Ads7953)> {
    replies(s, frames, |state, (word, code)| {
        part.frame(state, word, code)
    })
}

/// A word as the part takes it.
#[derive(Clone, Copy)]
enum Taken {
    List,
    /// By its top four bits.
    Command(u16),
}

/// Words as they are taken, and the settings before them. A setting is that of
/// the latest word that has it; no multiplexer and no reply comes into it.
struct Words<'a> {
    start: &'a Ads7953,
    words: Vec<(Taken, u16)>,
}

impl Words<'_> {
    /// The word after 1000 is a list, every other one a command.
    fn new<'a>(start: &'a Ads7953, words: &[u16]) -> Words<'a> {
        let mut is_list = start.programming;
        let taken = words.iter().map(|&word| {
            let taken = if is_list {
                Taken::List
            } else {
                Taken::Command(word >> 12)
            };
            is_list = matches!(taken, Taken::Command(8));
            (taken, word)
        });
        let words = taken.collect();
        Words { start, words }
    }

    /// The latest wanted one of the first `count` words.
    fn latest(&self, count: usize, wanted: impl Fn(Taken, u16) -> bool) -> Option<u16> {
        let so_far = self.words[..count].iter().rev();
        let mut found = so_far.filter(|(taken, word)| wanted(*taken, *word));
        found.next().map(|(_, word)| *word)
    }

    /// The mode after so many words, by the top four bits that call for it.
    fn mode(&self, count: usize) -> u16 {
        let word = self.latest(count, |taken, _| matches!(taken, Taken::Command(1..=3)));
        word.map_or(self.start.mode as u16 + 1, |word| word >> 12)
    }

    fn list(&self, count: usize) -> u16 {
        let word = self.latest(count, |taken, _| matches!(taken, Taken::List));
        word.unwrap_or(self.start.list)
    }

    fn last(&self, count: usize) -> u8 {
        let word = self.latest(count, |taken, _| matches!(taken, Taken::Command(9)));
        word.map_or(self.start.last, |word| (word >> 6 & 15) as u8)
    }

    fn counter_reset(&self, count: usize) -> bool {
        let word = self.latest(count, |taken, word| {
            matches!(taken, Taken::Command(2 | 3)) && word & 0x0800 != 0
        });
        word.map_or(self.start.counter_reset, |word| word & 0x0400 != 0)
    }

    /// The channel that word n asks for, where the one before asked for this.
    fn order(&self, n: usize, before: u8) -> u8 {
        let (taken, word) = self.words[n];
        let now = n + 1;
        let starts = matches!(taken, Taken::Command(2 | 3))
            && (self.mode(n) != self.mode(now) || self.counter_reset(now));
        // Behind channel 15 every round starts.
        let behind = if starts { 15 } else { before };
        match (self.mode(now), taken) {
            (1, Taken::Command(1)) => (word >> 7 & 15) as u8,
            (1, _) => before,
            (2, _) => (1..=16)
                .map(|step| (behind + step) % 16)
                .find(|channel| self.list(now) >> channel & 1 == 1)
                .unwrap_or(before),
            _ if behind < self.last(now) => behind + 1,
            _ => 0,
        }
    }
}

/// The channel that each word asks for.
fn orders(start: &Ads7953, words: &[u16]) -> Vec<u8> {
    let taken = Words::new(start, words);
    let each = (0..words.len()).scan(start.ordered, |order, n| {
        *order = taken.order(n, *order);
        Some(*order)
    });
    each.collect()
}

/// The channel in reply n + 2 is what word n asks for; those before are of
/// what was under way, and a fresh part's first reply is 0.
fn lag_law(part: &impl SixteenChannels, random: &mut Random, s: &Ads7953) -> Result<(), String> {
    let length = random.between(3, 40);
    let words = calls::run(random, s, length);
    let codes: Vec<u16> = words.iter().map(|_| random.below(4096) as u16).collect();
    let frames: Vec<_> = words.iter().copied().zip(codes.iter().copied()).collect();
    let (replies, _) = send(part, *s, &frames).ok_or("a sound state takes every word")?;
    let channels = [s.channel, s.ordered].into_iter().chain(orders(s, &words));
    for (n, (channel, code)) in channels.zip(codes).enumerate() {
        let expected = match (n, s.first) {
            (0, true) => 0,
            _ => u16::from(channel) << 12 | code,
        };
        if replies[n] != expected {
            return Err(format!(
                "a word shows in the reply two frames on: frame {n} of {words:04x?} from {s:x?}"
            ));
        }
    }
    Ok(())
}

/// In an auto mode each channel of the round comes once, in ascending order,
/// round after round.
fn round_law(part: &impl SixteenChannels, s: &Ads7953) -> Result<(), String> {
    let round: Vec<u16> = match s.mode {
        Mode::Auto1 => (0..16).filter(|n| s.list >> n & 1 == 1).collect(),
        Mode::Auto2 => (0..=s.last.into()).collect(),
        Mode::Manual => return Ok(()),
    };
    if round.is_empty() || s.programming {
        return Ok(());
    }
    // The first word of these shows in reply 2.
    let frames = vec![(0x0000, 0x0FFF); 2 + 2 * round.len()];
    let (replies, _) = send(part, *s, &frames).ok_or("a sound state takes 0000h")?;
    let channels: Vec<_> = replies[2..].iter().map(|reply| reply >> 12).collect();
    let begin = round.iter().position(|channel| *channel == channels[0]);
    let begin = begin.ok_or("an auto mode keeps to its channels")?;
    let expected = round.iter().cycle().skip(begin);
    ensure(
        channels
            .iter()
            .zip(expected)
            .all(|(one, other)| one == other),
        "each channel of a round comes once, in ascending order",
    )
}

/// What a reply is made of.
fn reply_law(given: &Ads7953, code: u16, reply: u16) -> Result<(), String> {
    if given.first {
        return ensure(reply == 0, "the first reply after power-up is 0");
    }
    ensure(
        reply >> 12 == given.channel.into(),
        "a reply has the multiplexer's channel",
    )?;
    ensure(
        reply & 0x0FFF == code,
        "a reply has the code of its own frame",
    )
}

/// What a frame may change besides the channel asked for: each setting by the
/// words that have it, and by no other.
fn settings_law(given: &Ads7953, word: u16, after: &Ads7953) -> Result<(), String> {
    let top = if given.programming {
        None
    } else {
        Some(word >> 12)
    };
    let programs = word & 0x0800 != 0;
    ensure(
        after.channel == given.ordered,
        "the multiplexer takes what the word before asked for",
    )?;
    ensure(!after.first, "a frame has come")?;
    let list = top.map_or(word, |_| given.list);
    ensure(after.list == list, "a list's second word alone sets it")?;
    ensure(
        after.programming == (top == Some(8)),
        "1000 alone makes the next word a list",
    )?;
    let last = match top {
        Some(9) => (word >> 6 & 15) as u8,
        _ => given.last,
    };
    ensure(after.last == last, "1001 alone sets the last channel")?;
    let mode = match top {
        Some(1) => Mode::Manual,
        Some(2) => Mode::Auto1,
        Some(3) => Mode::Auto2,
        _ => given.mode,
    };
    ensure(after.mode == mode, "a mode's word alone calls for it")?;
    let range2 = match top {
        Some(1..=3) if programs => word & 0x0040 != 0,
        _ => given.range2,
    };
    ensure(after.range2 == range2, "the range is kept but for DI11")?;
    let reset = match top {
        Some(2 | 3) if programs => word & 0x0400 != 0,
        _ => given.counter_reset,
    };
    ensure(
        after.counter_reset == reset,
        "the counter reset is kept but for an auto mode's DI11",
    )
}

/// Words that are not wanted act as 0000h.
fn continue_law(
    part: &impl SixteenChannels,
    given: &Ads7953,
    (word, code): (u16, u16),
    outcome: &Outcome<Ads7953>,
) -> Result<(), String> {
    if given.programming || matches!(word >> 12, 1..=3 | 8 | 9) {
        return Ok(());
    }
    let call = PartCall::Frame { word: 0, code };
    ensure(
        calls::perform(part, *given, &call) == *outcome,
        "a word that is not wanted acts as 0000h",
    )
}

fn frame_law(
    part: &impl SixteenChannels,
    random: &mut Random,
    given: &Ads7953,
    (word, code): (u16, u16),
    outcome: &Outcome<Ads7953>,
) -> Result<(), String> {
    reply_law(given, code, outcome.numbers[0] as u16)?;
    settings_law(given, word, &outcome.state)?;
    continue_law(part, given, (word, code), outcome)?;
    let asked = orders(given, &[word])[0];
    ensure(
        outcome.state.ordered == asked,
        "a word asks for its channel",
    )?;
    if random.chance(5) {
        round_law(part, &outcome.state)?;
    }
    if random.chance(5) {
        lag_law(part, random, given)?;
    }
    Ok(())
}

/// A plan lies where it was asked for; as two words it sets that list, and
/// leaves all else as 0000h twice does, in auto-1 what is asked for apart.
fn plan_law(
    part: &impl SixteenChannels,
    random: &mut Random,
    given: &Ads7953,
    (list, tx, at): (u16, &[u8], usize),
    outcome: &Outcome<Ads7953>,
) -> Result<(), String> {
    ensure(outcome.numbers[0] == 4, "a list's plan has four bytes")?;
    let end = at.checked_add(4).filter(|&end| end <= tx.len());
    let end = end.ok_or("a plan lies in the transmit buffer")?;
    let bytes = &outcome.buffer;
    ensure(
        bytes.len() == tx.len() && bytes[..at] == tx[..at] && bytes[end..] == tx[end..],
        "bytes around a plan stay",
    )?;
    let words = [
        u16::from_be_bytes([bytes[at], bytes[at + 1]]),
        u16::from_be_bytes([bytes[at + 2], bytes[at + 3]]),
    ];
    let codes = [0; 2].map(|_| random.below(4096) as u16);
    let frames = [(words[0], codes[0]), (words[1], codes[1])];
    let (replies, after) = send(part, *given, &frames).ok_or("a plan can be sent")?;
    let zeros = [(0x0000, codes[0]), (0x0000, codes[1])];
    let (plain, mut expected) = send(part, *given, &zeros).ok_or("0000h can be sent")?;
    ensure(
        replies == plain,
        "a plan's replies are those of 0000h twice",
    )?;
    expected.list = list;
    if given.mode == Mode::Auto1 {
        expected.ordered = after.ordered;
        let listed = list >> after.ordered & 1 == 1;
        ensure(listed, "auto-1 asks for a channel of the new list")?;
    }
    ensure(after == expected, "a plan sets its list and nothing else")
}

/// The refusals of a call that is given a state, with whether each applies.
fn faults(given: &Ads7953, call: &PartCall) -> Vec<(u8, bool)> {
    let channels = [given.channel, given.ordered, given.last];
    let damaged = (13, channels.iter().any(|&channel| channel > 15));
    match call {
        PartCall::PowerUp => vec![],
        PartCall::Frame { code, .. } => vec![damaged, (11, *code > 4095)],
        PartCall::PlanList {
            party,
            list,
            tx,
            at,
        } => vec![
            damaged,
            (3, *party > 8),
            (6, *party != 0),
            (16, *list == 0),
            (8, given.programming),
            (9, tx.len().saturating_sub(*at) < 4),
        ],
    }
}

/// A refusal changes nothing and tells nothing but its number.
fn refused_alone(
    given: &Ads7953,
    call: &PartCall,
    outcome: &Outcome<Ads7953>,
) -> Result<(), String> {
    let silent = outcome.numbers == [0; NUMBERS];
    ensure(silent, "a refusal tells only its number")?;
    if let PartCall::PlanList { tx, .. } = call {
        let same = outcome.buffer == *tx;
        ensure(same, "a refused plan leaves the transmit buffer")?;
    }
    ensure(outcome.state == *given, "a refused call leaves the state")
}

fn check_call(
    part: &impl SixteenChannels,
    random: &mut Random,
    given: &Ads7953,
    call: &PartCall,
    outcome: &Outcome<Ads7953>,
) -> Result<(), String> {
    let Some(refusal) = outcome.refusal else {
        return lag_law(part, random, &outcome.state);
    };
    let first = faults(given, call).into_iter().find(|fault| fault.1);
    ensure(
        refusal == first.map_or(0, |fault| fault.0),
        "a refusal is the first that applies",
    )?;
    match call {
        _ if refusal != 0 => refused_alone(given, call, outcome),
        PartCall::PowerUp => Ok(()),
        PartCall::Frame { word, code } => frame_law(part, random, given, (*word, *code), outcome),
        PartCall::PlanList { list, tx, at, .. } => {
            plan_law(part, random, given, (*list, tx, *at), outcome)
        }
    }
}

/// The lag alone: runs of frames from power-up and from any sound state.
pub fn lag(part: &impl SixteenChannels, runs: u64, seed: u64) -> Result<(), String> {
    let mut random = Random::new(seed);
    for _ in 0..runs {
        lag_law(part, &mut random, &part.power_up())?;
        let s = states::valid(&mut random);
        lag_law(part, &mut random, &s)?;
    }
    Ok(())
}

/// Makes `calls` random calls and checks every law that applies to each.
pub fn check(part: &impl SixteenChannels, calls: u64, seed: u64) -> Result<(), String> {
    hold::<PartDriver>(
        (calls, seed),
        |state, call| calls::perform(part, state, call),
        |random, given, call, outcome| check_call(part, random, given, call, outcome),
    )
}
