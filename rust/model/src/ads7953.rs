//! An ADS7953: 16 channels of 12 bits, a word in and a word out in every
//! frame. Written from document 02's No. 6 and document 001. GPIO, alarms and
//! power-down are left out: their words and bits are not looked at.
//!
//! A word waits a frame: the multiplexer turns to its channel in the frame
//! after it, and the reply of the frame after that is the first of that
//! channel.

use crate::refusal::{ensure, Refusal};
use crate::state::{check_party, ADMINISTRATOR};

/// Numbered from 0.
pub const CHANNELS: u8 = 16;
/// The largest 12-bit code.
pub const HIGHEST_CODE: u16 = 4095;
/// The bytes of a channel list's plan.
pub const LIST_PLAN: usize = 4;

/// How the channels follow each other.
#[derive(Clone, Copy, Debug, PartialEq, Eq)]
pub enum Mode {
    Manual,
    Auto1,
    Auto2,
}

#[derive(Clone, Copy, Debug, PartialEq, Eq)]
pub struct Ads7953 {
    pub mode: Mode,
    /// The multiplexer's channel, which the next frame replies.
    pub channel: u8,
    /// The channel that the latest word asked for. The multiplexer takes it in
    /// the next frame.
    pub ordered: u8,
    /// The auto-1 program register: bit n for channel n.
    pub list: u16,
    /// The auto-2 program register: the last channel of its round.
    pub last: u8,
    /// DI06 as programmed: the range ends at twice the reference.
    pub range2: bool,
    /// DI10 as programmed: an auto mode's own word starts its round anew.
    pub counter_reset: bool,
    /// The next word is the second of the two that program the list.
    pub programming: bool,
    /// No frame has come since power-up.
    pub first: bool,
}

/// Bits DI`high` to DI`low` of a word.
fn di(word: u16, high: u32, low: u32) -> u16 {
    (word >> low) & ((1 << (high - low + 1)) - 1)
}

fn bit(word: u16, place: u32) -> bool {
    di(word, place, place) == 1
}

/// The part right after power-up.
pub fn power_up() -> Ads7953 {
    Ads7953 {
        mode: Mode::Manual,
        channel: 0,
        ordered: 0,
        list: 0xFFFF,
        last: CHANNELS - 1,
        range2: false,
        counter_reset: false,
        programming: false,
        first: true,
    }
}

impl Ads7953 {
    /// Refuses a state with a channel that four bits cannot hold.
    pub fn check(&self) -> Result<(), Refusal> {
        let channels = [self.channel, self.ordered, self.last];
        let fit = channels.iter().all(|&channel| channel < CHANNELS);
        ensure(fit, Refusal::BadState)
    }

    fn is_listed(&self, channel: u8) -> bool {
        bit(self.list, channel.into())
    }

    /// Where a round of the present mode starts. With an empty list the channel
    /// stays.
    fn start_of_round(&self) -> u8 {
        match self.mode {
            Mode::Manual => self.ordered,
            Mode::Auto1 => (0..CHANNELS)
                .find(|&channel| self.is_listed(channel))
                .unwrap_or(self.ordered),
            Mode::Auto2 => 0,
        }
    }

    /// The channel after the present one, as the settings are now.
    fn next_in_round(&self) -> u8 {
        let higher = match self.mode {
            Mode::Manual => None,
            Mode::Auto1 => (self.ordered + 1..CHANNELS).find(|&channel| self.is_listed(channel)),
            Mode::Auto2 => (self.ordered < self.last).then(|| self.ordered + 1),
        };
        higher.unwrap_or_else(|| self.start_of_round())
    }

    /// The word that calls for manual mode. Its channel counts whatever DI11
    /// is.
    fn manual(&mut self, word: u16) {
        self.mode = Mode::Manual;
        self.ordered = di(word, 10, 7) as u8;
        if bit(word, 11) {
            self.range2 = bit(word, 6);
        }
    }

    /// The word that calls for an auto mode.
    fn auto(&mut self, mode: Mode, word: u16) {
        let enters = self.mode != mode;
        self.mode = mode;
        if bit(word, 11) {
            self.counter_reset = bit(word, 10);
            self.range2 = bit(word, 6);
        }
        self.ordered = if enters || self.counter_reset {
            self.start_of_round()
        } else {
            self.next_in_round()
        };
    }

    /// A word that is no mode's: the round goes on, by the settings as they
    /// are now.
    fn go_on(&mut self) {
        self.ordered = self.next_in_round();
    }

    /// What a word sets and asks for.
    fn latch(&mut self, word: u16) {
        if self.programming {
            self.programming = false;
            self.list = word;
            return self.go_on();
        }
        match di(word, 15, 12) {
            0b0001 => self.manual(word),
            0b0010 => self.auto(Mode::Auto1, word),
            0b0011 => self.auto(Mode::Auto2, word),
            0b1000 => {
                self.programming = true;
                self.go_on();
            }
            0b1001 => {
                self.last = di(word, 9, 6) as u8;
                self.go_on();
            }
            _ => self.go_on(),
        }
    }
}

fn accept_frame(s: &Ads7953, code: u16) -> Result<(), Refusal> {
    s.check()?;
    ensure(code <= HIGHEST_CODE, Refusal::BadSample)
}

/// A frame: a word in, and a sample of the multiplexer's channel out:
/// (refusal, reply, next state). The papers leave the first reply open: it is
/// 0.
pub fn frame(s: Ads7953, word: u16, code: u16) -> (u8, u16, Ads7953) {
    if let Err(refusal) = accept_frame(&s, code) {
        return (refusal.number(), 0, s);
    }
    let reply = if s.first {
        0
    } else {
        u16::from(s.channel) << 12 | code
    };
    let mut next = Ads7953 {
        channel: s.ordered,
        first: false,
        ..s
    };
    next.latch(word);
    (0, reply, next)
}

/// Where the plan goes, once all is judged.
fn accept_list<'a>(
    s: &Ads7953,
    party: u32,
    list: u16,
    tx: &'a mut [u8],
    at: usize,
) -> Result<&'a mut [u8], Refusal> {
    s.check()?;
    check_party(party)?;
    ensure(party == ADMINISTRATOR, Refusal::NotOwner)?;
    ensure(list != 0, Refusal::EmptyList)?;
    ensure(!s.programming, Refusal::NotWaiting)?;
    tx.get_mut(at..)
        .and_then(|rest| rest.get_mut(..LIST_PLAN))
        .ok_or(Refusal::NoRoom)
}

/// Plans the auto-1 channel list into the transmit buffer from place `at` on:
/// (refusal, plan length).
pub fn plan_list(s: Ads7953, party: u32, list: u16, tx: &mut [u8], at: usize) -> (u8, usize) {
    match accept_list(&s, party, list, tx, at) {
        Ok(target) => {
            let [high, low] = list.to_be_bytes();
            target.copy_from_slice(&[0x80, 0x00, high, low]);
            (0, LIST_PLAN)
        }
        Err(refusal) => (refusal.number(), 0),
    }
}
