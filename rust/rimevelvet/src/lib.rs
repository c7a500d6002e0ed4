//! Safe wrappers over the proved library (include/rimevelvet.h): for the four converters of a bench in [`mod@bench`],
//! for an ADS7953 in [`ads7953`], for one ADS1299 here.
//!
//! A state goes in by value and comes back by value; nothing is kept inside. Every answer begins with its refusal
//! number, 0 for success; a refused call hands back the state and the buffers as they were given, and 0 or
//! [`Rail::Neither`] for all else. Any bytes may be given as a [`State`]: those that stand for no state are refused by
//! 13.

pub mod ads7953;
pub mod bench;
mod ffi;

use std::ops::Range;

pub use ffi::{
    Moved, Parsed, Planned, PoweredUp, Request, State, Stepped, Written, LONGEST_PLAN,
    LONGEST_REQUEST, VALUES, WHOLE_CHANNEL,
};

/// Which end of its range a code sits at, if at any. A trace that is held there is as flat as a calm one; the input was
/// at that end or beyond.
#[derive(Clone, Copy, Debug, PartialEq, Eq)]
pub enum Rail {
    /// Any other code, among them the 0 of a channel that was powered down when its frame was built; and every refusal.
    Neither,
    /// -8,388,608.
    Lowest,
    /// 8,388,607.
    Highest,
}

impl Rail {
    fn from_number(number: u8) -> Rail {
        match number {
            0 => Rail::Neither,
            1 => Rail::Lowest,
            2 => Rail::Highest,
            other => unreachable!("rail {other}: the library is proved to give 0, 1 or 2"),
        }
    }
}

/// A channel read out of a frame.
#[derive(Clone, Copy, Debug, PartialEq, Eq)]
pub struct Reading {
    pub refusal: u8,
    pub code: i32,
    pub rail: Rail,
    /// The channel's bits of P and N, 0 or 1.
    pub p: u8,
    pub n: u8,
}

impl Reading {
    fn from_library(read: ffi::Reading) -> Reading {
        Reading {
            refusal: read.refusal,
            code: read.code,
            rail: Rail::from_number(read.rail),
            p: read.p,
            n: read.n,
        }
    }
}

impl Request {
    /// One field of a channel, or a shared field with channel 0; for a bench by its own numbers ([`mod@bench`]).
    pub fn one(field: u32, channel: u32, value: u32) -> Request {
        let mut values = [0; VALUES];
        values[0] = value;
        Request {
            field,
            channel,
            values,
        }
    }

    /// Fields 1 to 9 of a channel, accepted or refused together.
    pub fn whole_channel(channel: u32, values: [u32; VALUES]) -> Request {
        Request {
            field: WHOLE_CHANNEL,
            channel,
            values,
        }
    }
}

/// A converter right after power-up, with this ID: every channel has gain 24
/// and its inputs shorted, until field 4 selects another input. Refused by 13.
pub fn power_up(id: u8) -> PoweredUp {
    // SAFETY: plain values in and out.
    unsafe { ffi::rimevelvet_power_up(id) }
}

/// Sends one byte and gives the byte that comes out meanwhile. Refused by 13.
pub fn step(state: State, byte: u8) -> Stepped {
    // SAFETY: plain values in and out.
    unsafe { ffi::rimevelvet_step(state, byte) }
}

/// The select line rises. Refused by 13.
pub fn deselect(state: State) -> Moved {
    // SAFETY: plain values in and out.
    unsafe { ffi::rimevelvet_deselect(state) }
}

/// A sample: the codes of channels 1 to 8 and the comparator bytes. Refused by 13, 10, 11.
pub fn sample(state: State, codes: &[i32], p: u8, n: u8) -> Moved {
    // SAFETY: the library reads `codes` alone, within its length.
    unsafe { ffi::rimevelvet_sample(state, codes.as_ptr(), codes.len(), p, n) }
}

/// The administrator moves a channel to another owner. Refused by 13, 3, 5, 6.
pub fn grant(state: State, caller: u32, receiver: u32, channel: u32) -> Moved {
    // SAFETY: plain values in and out.
    unsafe { ffi::rimevelvet_grant(state, caller, receiver, channel) }
}

/// A channel's code with its rail, and its lead-off bits, out of a frame, for its owner. Refused by 13, 3, 5, 6, 12.
pub fn read_channel(state: State, party: u32, channel: u32, frame: &[u8]) -> Reading {
    // SAFETY: the library reads `frame` alone, within its length.
    let read =
        unsafe { ffi::rimevelvet_read_channel(state, party, channel, frame.as_ptr(), frame.len()) };
    Reading::from_library(read)
}

/// Where a channel's three bytes lie in the frame, for its owner; an empty range where a reading is refused.
pub fn channel_range(state: State, party: u32, channel: u32, frame: &[u8]) -> Range<usize> {
    // SAFETY: the library reads `frame` alone, within its length.
    let part = unsafe {
        ffi::rimevelvet_channel_bytes(state, party, channel, frame.as_ptr(), frame.len())
    };
    part.start..part.start + part.length
}

/// A channel's three bytes as a part of the caller's own frame; empty where a reading is refused.
pub fn channel_bytes(state: State, party: u32, channel: u32, frame: &[u8]) -> &[u8] {
    &frame[channel_range(state, party, channel, frame)]
}

/// The setting request that the bytes start with. Refused by 1, 2.
pub fn request_read(bytes: &[u8]) -> Parsed {
    // SAFETY: the library reads `bytes` alone, within its length.
    unsafe { ffi::rimevelvet_request_read(bytes.as_ptr(), bytes.len()) }
}

/// Writes a setting request from the buffer's start on. Refused by 7, 9.
pub fn request_write(request: Request, buffer: &mut [u8]) -> Written {
    // SAFETY: the library writes `buffer` alone, within its length.
    unsafe { ffi::rimevelvet_request_write(request, buffer.as_mut_ptr(), buffer.len()) }
}

/// Plans a party's setting request into the transmit buffer from a place on. Refused by 13, 3 to 9.
pub fn plan(state: State, party: u32, request: Request, tx: &mut [u8], at: usize) -> Planned {
    // SAFETY: the library writes `tx` alone, within its length.
    unsafe { ffi::rimevelvet_plan(state, party, request, tx.as_mut_ptr(), tx.len(), at) }
}

/// What the program prints for an input.
pub fn transcript(input: &[u8]) -> Vec<u8> {
    let mut out = vec![0; ffi::LONGEST_TRANSCRIPT];
    // SAFETY: the library reads `input` within its length, and `out` has the room that it writes in.
    let used = unsafe { ffi::rimevelvet_transcript(input.as_ptr(), input.len(), out.as_mut_ptr()) };
    out.truncate(used);
    out
}
