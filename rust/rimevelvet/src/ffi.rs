//! What include/rimevelvet.h declares. Nothing checks these against the library but the tests.

pub mod ads7953;
pub mod bench;

/// A converter's state as bytes. Each state has one such form: what an empty output or a waiting converter does not
/// use is 0.
#[repr(C)]
#[derive(Clone, Copy, Debug, PartialEq, Eq)]
pub struct State {
    pub registers: [u8; 24],
    /// The owner of channel n at index n - 1.
    pub owners: [u8; 8],
    /// The latest frame.
    pub latest: [u8; 27],
    /// 0: nothing is shifted out; 1: `shifting` is, from `place` on.
    pub output: u8,
    pub place: u8,
    /// Flags, 0 or 1.
    pub continuous: u8,
    pub standby: u8,
    pub converting: u8,
    pub shifting: [u8; 27],
    /// 0: waiting; 1: a read or write is held; 2: it counts its bytes.
    pub phase: u8,
    /// 0: read; 1: write.
    pub direction: u8,
    pub address: u8,
    pub remaining: u8,
}

#[repr(C)]
#[derive(Clone, Copy, Debug, PartialEq, Eq)]
pub struct PoweredUp {
    pub refusal: u8,
    pub converter: State,
}

#[repr(C)]
#[derive(Clone, Copy, Debug, PartialEq, Eq)]
pub struct Stepped {
    pub refusal: u8,
    pub out: u8,
    pub next: State,
}

#[repr(C)]
#[derive(Clone, Copy, Debug, PartialEq, Eq)]
pub struct Moved {
    pub refusal: u8,
    pub next: State,
}

#[repr(C)]
#[derive(Clone, Copy, Debug, PartialEq, Eq)]
pub struct Reading {
    pub refusal: u8,
    /// The channel's bits of P and N, 0 or 1.
    pub p: u8,
    pub n: u8,
    /// 0: neither; 1: the lowest code; 2: the highest.
    pub rail: u8,
    pub code: i32,
}

#[repr(C)]
#[derive(Clone, Copy, Debug, PartialEq, Eq)]
pub struct Part {
    pub refusal: u8,
    pub start: usize,
    pub length: usize,
}

/// A setting request. Any numbers may stand here; the calls judge them.
#[repr(C)]
#[derive(Clone, Copy, Debug, PartialEq, Eq)]
pub struct Request {
    pub field: u32,
    pub channel: u32,
    /// With [`WHOLE_CHANNEL`] those of fields 1 to 9; with every other field the first alone counts.
    pub values: [u32; VALUES],
}

#[repr(C)]
#[derive(Clone, Copy, Debug, PartialEq, Eq)]
pub struct Parsed {
    pub refusal: u8,
    /// The values that were not read are 0.
    pub request: Request,
    pub used: usize,
}

#[repr(C)]
#[derive(Clone, Copy, Debug, PartialEq, Eq)]
pub struct Written {
    pub refusal: u8,
    pub used: usize,
}

#[repr(C)]
#[derive(Clone, Copy, Debug, PartialEq, Eq)]
pub struct Planned {
    pub refusal: u8,
    pub length: usize,
    pub next: State,
}

/// The field that stands for a channel's fields 1 to 9 at once.
pub const WHOLE_CHANNEL: u32 = 30;
/// How many values a request has room for.
pub const VALUES: usize = 9;
/// The bytes of the longest request: field 30 in one byte, and two for each other number.
pub const LONGEST_REQUEST: usize = 21;
/// The bytes of the longest plan: a whole channel's, in standby and continuous mode.
pub const LONGEST_PLAN: usize = 14;
/// The most bytes of the program's input.
const INPUT_LIMIT: usize = 4096;
/// The room that a transcript needs, however long the input is.
pub const LONGEST_TRANSCRIPT: usize = (INPUT_LIMIT - 1) / 3 * (3 * LONGEST_PLAN + 2);

extern "C" {
    pub fn rimevelvet_power_up(id: u8) -> PoweredUp;
    pub fn rimevelvet_step(state: State, byte: u8) -> Stepped;
    pub fn rimevelvet_deselect(state: State) -> Moved;
    pub fn rimevelvet_sample(state: State, codes: *const i32, count: usize, p: u8, n: u8) -> Moved;
    pub fn rimevelvet_grant(state: State, caller: u32, receiver: u32, channel: u32) -> Moved;
    pub fn rimevelvet_read_channel(
        state: State,
        party: u32,
        channel: u32,
        frame: *const u8,
        length: usize,
    ) -> Reading;
    pub fn rimevelvet_channel_bytes(
        state: State,
        party: u32,
        channel: u32,
        frame: *const u8,
        length: usize,
    ) -> Part;
    pub fn rimevelvet_request_read(bytes: *const u8, length: usize) -> Parsed;
    pub fn rimevelvet_request_write(request: Request, buffer: *mut u8, length: usize) -> Written;
    pub fn rimevelvet_plan(
        state: State,
        party: u32,
        request: Request,
        tx: *mut u8,
        length: usize,
        at: usize,
    ) -> Planned;
    pub fn rimevelvet_transcript(input: *const u8, length: usize, out: *mut u8) -> usize;
}
