//! The ADS7953's part of the header.

/// An ADS7953's state as bytes. Any may be handed over: those that stand for no state are refused by 13.
#[repr(C)]
#[derive(Clone, Copy, Debug, PartialEq, Eq)]
pub struct State {
    /// The auto-1 program register: bit n for channel n.
    pub list: u16,
    /// 0: manual; 1: auto-1; 2: auto-2.
    pub mode: u8,
    /// The multiplexer's channel, 0 to 15: what the next frame replies.
    pub channel: u8,
    /// What the last word asked for, 0 to 15: the multiplexer takes it in the next frame.
    pub ordered: u8,
    /// The last channel of auto-2, 0 to 15.
    pub last: u8,
    /// Flags, 0 or 1. DI06 as programmed.
    pub range2: u8,
    /// DI10 as programmed.
    pub counter_reset: u8,
    /// The next word is the list of auto-1.
    pub programming: u8,
    /// No frame has come since power-up.
    pub first: u8,
}

#[repr(C)]
#[derive(Clone, Copy, Debug, PartialEq, Eq)]
pub struct Framed {
    pub refusal: u8,
    pub reply: u16,
    pub next: State,
}

#[repr(C)]
#[derive(Clone, Copy, Debug, PartialEq, Eq)]
pub struct Planned {
    pub refusal: u8,
    pub length: usize,
}

/// The bytes of a channel list's plan: two words.
pub const LIST_PLAN: usize = 4;

extern "C" {
    pub fn rimevelvet_ads7953_power_up() -> State;
    pub fn rimevelvet_ads7953_frame(state: State, word: u16, code: u16) -> Framed;
    pub fn rimevelvet_ads7953_plan_list(
        state: State,
        party: u32,
        list: u16,
        tx: *mut u8,
        length: usize,
        at: usize,
    ) -> Planned;
}
