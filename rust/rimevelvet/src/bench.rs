//! A bench: four converters on select lines of their own, numbered 0 to 3.
//!
//! Converter 0 has channels 1 to 8, converter 1 has 9 to 16, and so on up to 32. With a shared field, channel 0 stands
//! for converter 0, and 33, 34 and 35 for converters 1, 2 and 3. Refusal 5 goes by these ranges; it also meets a
//! converter's number above 3 and, where a frame is read, one that is not the channel's. 13 judges all four converters,
//! 8 and 9 the one that the request is for.
//!
//! No converter is selected for later calls: each byte, select rise, sample and frame comes with its converter's number.

use std::ops::Range;

use crate::ffi::bench as ffi;
use crate::{Reading, Request};

pub use ffi::{Bench, Moved, Planned, PoweredUp, Stepped, CONVERTERS};

/// A bench right after power-up, each converter as [`power_up`](crate::power_up) gives it. Refused by 13 where one of
/// the IDs is; then every converter shows ID 00.
pub fn power_up(ids: [u8; CONVERTERS]) -> PoweredUp {
    // SAFETY: the library reads the four bytes of `ids` alone.
    unsafe { ffi::rimevelvet_bench_power_up(ids.as_ptr()) }
}

/// Sends one byte to a converter and gives the byte that comes out of it meanwhile. No other converter changes.
/// Refused by 13, 5.
pub fn step(bench: Bench, number: u32, byte: u8) -> Stepped {
    // SAFETY: plain values in and out.
    unsafe { ffi::rimevelvet_bench_step(bench, number, byte) }
}

/// A converter's select line rises. Turning to another converter raises no line. Refused by 13, 5.
pub fn deselect(bench: Bench, number: u32) -> Moved {
    // SAFETY: plain values in and out.
    unsafe { ffi::rimevelvet_bench_deselect(bench, number) }
}

/// A sample of a converter: the codes of its own eight channels and the comparator bytes. Refused by 13, 5, 10, 11.
pub fn sample(bench: Bench, number: u32, codes: &[i32], p: u8, n: u8) -> Moved {
    // SAFETY: the library reads `codes` alone, within its length.
    unsafe { ffi::rimevelvet_bench_sample(bench, number, codes.as_ptr(), codes.len(), p, n) }
}

/// The administrator moves a channel, 1 to 32, to another owner. Refused by 13, 3, 5, 6.
pub fn grant(bench: Bench, caller: u32, receiver: u32, channel: u32) -> Moved {
    // SAFETY: plain values in and out.
    unsafe { ffi::rimevelvet_bench_grant(bench, caller, receiver, channel) }
}

/// A channel's code with its rail, and its lead-off bits, out of a frame of converter `number`, for its owner. Refused
/// by 13, 3, 5 (also where `number` is not the channel's converter), 6, 12.
pub fn read_channel(bench: Bench, number: u32, party: u32, channel: u32, frame: &[u8]) -> Reading {
    let (bytes, length) = (frame.as_ptr(), frame.len());
    // SAFETY: the library reads `frame` alone, within its length.
    let read =
        unsafe { ffi::rimevelvet_bench_read_channel(bench, number, party, channel, bytes, length) };
    Reading::from_library(read)
}

/// Where a channel's three bytes lie in the frame of converter `number`, for its owner; an empty range where a reading
/// is refused.
pub fn channel_range(
    bench: Bench,
    number: u32,
    party: u32,
    channel: u32,
    frame: &[u8],
) -> Range<usize> {
    let (bytes, length) = (frame.as_ptr(), frame.len());
    // SAFETY: the library reads `frame` alone, within its length.
    let part = unsafe {
        ffi::rimevelvet_bench_channel_bytes(bench, number, party, channel, bytes, length)
    };
    part.start..part.start + part.length
}

/// A channel's three bytes as a part of the caller's own frame of converter `number`; empty where a reading is refused.
pub fn channel_bytes(bench: Bench, number: u32, party: u32, channel: u32, frame: &[u8]) -> &[u8] {
    &frame[channel_range(bench, number, party, channel, frame)]
}

/// Plans a party's setting request, its channel by the bench's numbers, into the transmit buffer from a place on. Every
/// byte of the plan is for the converter whose number the answer carries. Refused by 13, 3 to 9; then that number is 0.
pub fn plan(bench: Bench, party: u32, request: Request, tx: &mut [u8], at: usize) -> Planned {
    // SAFETY: the library writes `tx` alone, within its length.
    unsafe { ffi::rimevelvet_bench_plan(bench, party, request, tx.as_mut_ptr(), tx.len(), at) }
}
