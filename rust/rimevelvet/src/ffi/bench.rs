//! The bench's part of the header.

use super::{Part, Reading, Request, State};

/// How many converters a bench has.
pub const CONVERTERS: usize = 4;

/// Four converters by their numbers, 0 to 3. Each has its own eight channels' owners: channel 9's is the first of
/// converter 1.
#[repr(C)]
#[derive(Clone, Copy, Debug, PartialEq, Eq)]
pub struct Bench {
    pub converters: [State; CONVERTERS],
}

#[repr(C)]
#[derive(Clone, Copy, Debug, PartialEq, Eq)]
pub struct PoweredUp {
    pub refusal: u8,
    pub bench: Bench,
}

#[repr(C)]
#[derive(Clone, Copy, Debug, PartialEq, Eq)]
pub struct Stepped {
    pub refusal: u8,
    pub out: u8,
    pub next: Bench,
}

#[repr(C)]
#[derive(Clone, Copy, Debug, PartialEq, Eq)]
pub struct Moved {
    pub refusal: u8,
    pub next: Bench,
}

#[repr(C)]
#[derive(Clone, Copy, Debug, PartialEq, Eq)]
pub struct Planned {
    pub refusal: u8,
    /// The number of the converter that every byte of the plan is for.
    pub converter: u32,
    pub length: usize,
    pub next: Bench,
}

extern "C" {
    pub fn rimevelvet_bench_power_up(ids: *const u8) -> PoweredUp;
    pub fn rimevelvet_bench_step(bench: Bench, number: u32, byte: u8) -> Stepped;
    pub fn rimevelvet_bench_deselect(bench: Bench, number: u32) -> Moved;
    pub fn rimevelvet_bench_sample(
        bench: Bench,
        number: u32,
        codes: *const i32,
        count: usize,
        p: u8,
        n: u8,
    ) -> Moved;
    pub fn rimevelvet_bench_grant(bench: Bench, caller: u32, receiver: u32, channel: u32) -> Moved;
    pub fn rimevelvet_bench_read_channel(
        bench: Bench,
        number: u32,
        party: u32,
        channel: u32,
        frame: *const u8,
        length: usize,
    ) -> Reading;
    pub fn rimevelvet_bench_channel_bytes(
        bench: Bench,
        number: u32,
        party: u32,
        channel: u32,
        frame: *const u8,
        length: usize,
    ) -> Part;
    pub fn rimevelvet_bench_plan(
        bench: Bench,
        party: u32,
        request: Request,
        tx: *mut u8,
        length: usize,
        at: usize,
    ) -> Planned;
}
