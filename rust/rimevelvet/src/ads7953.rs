//! An ADS7953: 16 channels of 12 bits, a word in and a reply out in every frame.
//!
//! A word acts late: the multiplexer turns to the channel that word n asks for in frame n + 1, and reply n + 2 is the
//! first of that channel. A state shows both, as `ordered` and `channel`.
//!
//! A call takes and gives a [`State`], which any bytes may be; [`Ads7953`] is what those mean that stand for a state.

use std::error::Error;
use std::fmt;

use crate::ffi::ads7953 as ffi;

pub use ffi::{Planned, State, LIST_PLAN};

/// A channel's number, 0 to 15.
#[derive(Clone, Copy, Debug, PartialEq, Eq, PartialOrd, Ord, Hash)]
pub struct Channel(u8);

impl Channel {
    /// The channel of this number; `None` above 15.
    pub const fn new(number: u8) -> Option<Channel> {
        if number < 16 {
            Some(Channel(number))
        } else {
            None
        }
    }

    pub const fn number(self) -> u8 {
        self.0
    }

    const fn bits(self) -> u16 {
        self.0 as u16
    }
}

/// How the channels follow each other.
#[derive(Clone, Copy, Debug, PartialEq, Eq)]
pub enum Mode {
    /// One channel, until another is asked for.
    Manual,
    /// The listed channels in ascending order, round after round.
    Auto1,
    /// Channels 0 to the last, round after round.
    Auto2,
}

/// The input range, DI06.
#[derive(Clone, Copy, Debug, PartialEq, Eq)]
pub enum Range {
    /// 0 to Vref: DI06 is 0.
    Range1,
    /// 0 to twice Vref: DI06 is 1.
    Range2,
}

impl Range {
    const fn bits(self) -> u16 {
        match self {
            Range::Range1 => 0,
            Range::Range2 => 1 << 6,
        }
    }
}

/// What an auto mode's word programs where its DI11 is 1.
#[derive(Clone, Copy, Debug, PartialEq, Eq)]
pub struct Sequence {
    /// DI10: each word of the mode itself, this one among them, starts the round anew.
    pub counter_reset: bool,
    pub range: Range,
}

impl Sequence {
    const fn bits(self) -> u16 {
        (self.counter_reset as u16) << 10 | self.range.bits()
    }
}

/// A word for a frame. With `program` DI11 is 1; without it, what was programmed stays.
#[derive(Clone, Copy, Debug, PartialEq, Eq)]
pub enum Word {
    /// 0000h: manual mode stays on its channel, an auto mode goes on.
    Continue,
    /// DI15-12 are 0001, DI10-07 the channel.
    Manual {
        channel: Channel,
        program: Option<Range>,
    },
    /// DI15-12 are 0010. The round starts at its lowest channel where the mode was another one or the counter reset is
    /// programmed, and goes on otherwise.
    Auto1 { program: Option<Sequence> },
    /// DI15-12 are 0011. The round starts at channel 0, and goes on, as in auto-1.
    Auto2 { program: Option<Sequence> },
    /// DI15-12 are 1000: the next word is a list.
    ProgramList,
    /// Bit n for channel n. It is a list behind [`Word::ProgramList`] alone; anywhere else the part takes it for
    /// whatever its top four bits say.
    List(u16),
    /// DI15-12 are 1001, DI09-06 the last channel of auto-2.
    ProgramLast(Channel),
    /// These bits.
    Raw(u16),
}

/// DI11 and what it programs, or nothing.
const fn programmed(bits: Option<u16>) -> u16 {
    match bits {
        Some(bits) => 1 << 11 | bits,
        None => 0,
    }
}

impl Word {
    /// DI15 to DI00. Bits that the word does not have are 0, those of GPIO and power-down among them.
    pub fn to_bits(self) -> u16 {
        match self {
            Word::Continue => 0,
            Word::Manual { channel, program } => {
                0b0001 << 12 | programmed(program.map(Range::bits)) | channel.bits() << 7
            }
            Word::Auto1 { program } => 0b0010 << 12 | programmed(program.map(Sequence::bits)),
            Word::Auto2 { program } => 0b0011 << 12 | programmed(program.map(Sequence::bits)),
            Word::ProgramList => 0b1000 << 12,
            Word::List(list) => list,
            Word::ProgramLast(channel) => 0b1001 << 12 | channel.bits() << 6,
            Word::Raw(bits) => bits,
        }
    }
}

/// What comes out in a frame.
#[derive(Clone, Copy, Debug, PartialEq, Eq)]
pub struct Reply(u16);

impl Reply {
    /// The reply of these bits, DO15 to DO00.
    pub const fn from_bits(bits: u16) -> Reply {
        Reply(bits)
    }

    pub const fn to_bits(self) -> u16 {
        self.0
    }

    /// DO15-12.
    pub const fn channel(self) -> Channel {
        Channel((self.0 >> 12) as u8)
    }

    /// DO11-00, 0 to 4,095.
    pub const fn code(self) -> u16 {
        self.0 & 0x0FFF
    }
}

/// What a frame answers: the reply, and the state after it.
#[derive(Clone, Copy, Debug, PartialEq, Eq)]
pub struct Framed {
    pub refusal: u8,
    /// 0 in the first frame after power-up and where the call is refused.
    pub reply: Reply,
    pub next: State,
}

/// What a state's bytes mean.
#[derive(Clone, Copy, Debug, PartialEq, Eq)]
pub struct Ads7953 {
    pub mode: Mode,
    /// The multiplexer's: what the next frame replies.
    pub channel: Channel,
    /// What the last word asked for: the multiplexer takes it in the next frame.
    pub ordered: Channel,
    /// The auto-1 program register: bit n for channel n.
    pub list: u16,
    /// The last channel of auto-2.
    pub last: Channel,
    pub range: Range,
    pub counter_reset: bool,
    /// The next word is a list.
    pub programming: bool,
    /// No frame has come since power-up.
    pub first: bool,
}

/// Bytes that every call refuses by 13.
#[derive(Clone, Copy, Debug, PartialEq, Eq)]
pub struct InvalidState;

impl fmt::Display for InvalidState {
    fn fmt(&self, f: &mut fmt::Formatter<'_>) -> fmt::Result {
        f.write_str("no state of an ADS7953")
    }
}

impl Error for InvalidState {}

impl From<Ads7953> for State {
    fn from(s: Ads7953) -> State {
        State {
            list: s.list,
            mode: match s.mode {
                Mode::Manual => 0,
                Mode::Auto1 => 1,
                Mode::Auto2 => 2,
            },
            channel: s.channel.number(),
            ordered: s.ordered.number(),
            last: s.last.number(),
            range2: (s.range == Range::Range2).into(),
            counter_reset: s.counter_reset.into(),
            programming: s.programming.into(),
            first: s.first.into(),
        }
    }
}

fn flag(code: u8) -> Result<bool, InvalidState> {
    match code {
        0 => Ok(false),
        1 => Ok(true),
        _ => Err(InvalidState),
    }
}

impl TryFrom<State> for Ads7953 {
    type Error = InvalidState;

    fn try_from(s: State) -> Result<Ads7953, InvalidState> {
        let channel = |number| Channel::new(number).ok_or(InvalidState);
        Ok(Ads7953 {
            mode: match s.mode {
                0 => Mode::Manual,
                1 => Mode::Auto1,
                2 => Mode::Auto2,
                _ => return Err(InvalidState),
            },
            channel: channel(s.channel)?,
            ordered: channel(s.ordered)?,
            list: s.list,
            last: channel(s.last)?,
            range: if flag(s.range2)? {
                Range::Range2
            } else {
                Range::Range1
            },
            counter_reset: flag(s.counter_reset)?,
            programming: flag(s.programming)?,
            first: flag(s.first)?,
        })
    }
}

/// An ADS7953 right after power-up: manual mode on channel 0, all channels listed, the last channel 15, 0 to Vref.
pub fn power_up() -> State {
    // SAFETY: a plain value out.
    unsafe { ffi::rimevelvet_ads7953_power_up() }
}

/// A frame: a word in, and the code that is sampled of the multiplexer's channel. Refused by 13, 11 (above 4,095).
pub fn frame(state: State, word: Word, code: u16) -> Framed {
    // SAFETY: plain values in and out.
    let framed = unsafe { ffi::rimevelvet_ads7953_frame(state, word.to_bits(), code) };
    Framed {
        refusal: framed.refusal,
        reply: Reply::from_bits(framed.reply),
        next: framed.next,
    }
}

/// Plans the list of auto-1, bit n for channel n, into the transmit buffer from a place on, for the administrator:
/// [`Word::ProgramList`] and [`Word::List`], high bytes first. Refused by 13, 3, 6, 16 (an empty list), 8 (the next word
/// is a list already), 9.
pub fn plan_list(state: State, party: u32, list: u16, tx: &mut [u8], at: usize) -> Planned {
    let (bytes, length) = (tx.as_mut_ptr(), tx.len());
    // SAFETY: the library writes `tx` alone, within its length.
    unsafe { ffi::rimevelvet_ads7953_plan_list(state, party, list, bytes, length, at) }
}
