//! Who owns a channel, and reading one's own channel out of a frame.

use std::ops::Range;

use crate::frame::{self, Rail};
use crate::refusal::{ensure, Refusal};
use crate::state::{check_channel, check_party, Converter, ADMINISTRATOR, FRAME_LENGTH};

fn accept_grant(c: &Converter, caller: u32, receiver: u32, channel: u32) -> Result<usize, Refusal> {
    c.check()?;
    check_party(caller)?;
    check_party(receiver)?;
    let channel = check_channel(channel)?;
    ensure(caller == ADMINISTRATOR, Refusal::NotOwner)?;
    Ok(channel)
}

/// Gives a channel to a party: (refusal, next state).
pub fn grant(c: Converter, caller: u32, receiver: u32, channel: u32) -> (u8, Converter) {
    match accept_grant(&c, caller, receiver, channel) {
        Ok(channel) => {
            let mut next = c;
            // Judged to be at most 8 above.
            next.owners[channel - 1] = receiver as u8;
            (0, next)
        }
        Err(refusal) => (refusal.number(), c),
    }
}

/// The frame, if it is one.
pub(crate) fn check_frame(frame: &[u8]) -> Result<&[u8; FRAME_LENGTH], Refusal> {
    let frame: &[u8; FRAME_LENGTH] = frame.try_into().map_err(|_| Refusal::BadFrame)?;
    ensure(frame[0] >> 4 == 0b1100, Refusal::BadFrame)?;
    Ok(frame)
}

/// The channel number and the frame, once the party may read it.
fn accept_reading<'a>(
    c: &Converter,
    party: u32,
    channel: u32,
    frame: &'a [u8],
) -> Result<(usize, &'a [u8; FRAME_LENGTH]), Refusal> {
    c.check()?;
    check_party(party)?;
    let channel = check_channel(channel)?;
    ensure(c.owner(channel) == party, Refusal::NotOwner)?;
    Ok((channel, check_frame(frame)?))
}

/// Where a channel 1 to 8 lies in a frame.
pub(crate) fn bytes_of(channel: usize) -> Range<usize> {
    3 * channel..3 * channel + 3
}

/// What a frame says of a channel 1 to 8: (code, rail, P bit, N bit).
pub(crate) fn shown(frame: &[u8; FRAME_LENGTH], channel: usize) -> (i32, Rail, bool, bool) {
    let at = 3 * channel;
    let (code, rail) = frame::decode([frame[at], frame[at + 1], frame[at + 2]]);
    let (p, n) = frame::lead_off(frame, channel);
    (code, rail, p, n)
}

/// A party's reading of its channel: (refusal, code, rail, P bit, N bit).
pub fn read_channel(
    c: Converter,
    party: u32,
    channel: u32,
    frame: &[u8],
) -> (u8, i32, Rail, bool, bool) {
    match accept_reading(&c, party, channel, frame) {
        Ok((channel, frame)) => {
            let (code, rail, p, n) = shown(frame, channel);
            (0, code, rail, p, n)
        }
        Err(refusal) => (refusal.number(), 0, Rail::Neither, false, false),
    }
}

/// Where the party's channel lies in the frame; empty when refused.
pub fn channel_bytes(c: Converter, party: u32, channel: u32, frame: &[u8]) -> Range<usize> {
    match accept_reading(&c, party, channel, frame) {
        Ok((channel, _)) => bytes_of(channel),
        Err(_) => 0..0,
    }
}
