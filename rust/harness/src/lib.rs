//! Tests for anything that claims to be the bench's software: random
//! comparison of two implementations, laws, isolation between parties, and
//! fixed figures; for one converter, for the four of a bench (`bench`) and, all
//! but isolation, for an ADS7953 (`ads7953`).

#![forbid(unsafe_code)]

pub mod ads7953;
pub mod bench;
pub mod calls;
pub mod cells;
pub mod compare;
pub mod coverage;
mod each_figure;
pub mod figures;
pub mod isolation;
pub mod laws;
pub mod mutants;
pub mod noticed;
pub mod random;
mod sessions;
pub mod settings;
pub mod states;

use std::ops::Range;

pub use ads7953::SixteenChannels;
pub use bench::FourConverters;
pub use compare::{compare, Disagreement, Stats};
pub use model::{
    Ads7953, Bench, Converter, Direction, Phase, Rail, Request, Transfer, WHOLE_CHANNEL,
};

/// The entry points for one converter, for requests and for the program. Each
/// answer begins with its refusal number, except `channel_bytes` (a place in
/// the frame) and `console` (its output).
pub trait OneConverter {
    /// (refusal, state)
    fn power_up(&self, id: u8) -> (u8, Converter);
    /// (refusal, byte out, state)
    fn step(&self, c: Converter, byte: u8) -> (u8, u8, Converter);
    /// (refusal, state)
    fn deselect(&self, c: Converter) -> (u8, Converter);
    /// (refusal, state)
    fn sample(&self, c: Converter, codes: &[i32], p: u8, n: u8) -> (u8, Converter);
    /// (refusal, state)
    fn grant(&self, c: Converter, caller: u32, receiver: u32, channel: u32) -> (u8, Converter);
    /// (refusal, code, rail, P bit, N bit)
    fn read_channel(
        &self,
        c: Converter,
        party: u32,
        channel: u32,
        frame: &[u8],
    ) -> (u8, i32, Rail, bool, bool);
    /// Where the returned part lies in `frame`; any empty part counts as 0..0.
    fn channel_bytes(&self, c: Converter, party: u32, channel: u32, frame: &[u8]) -> Range<usize>;
    /// (refusal, request, bytes used)
    fn request_read(&self, bytes: &[u8]) -> (u8, Request, usize);
    /// (refusal, bytes used)
    fn request_write(&self, request: Request, buffer: &mut [u8]) -> (u8, usize);
    /// (refusal, plan length, state after the plan)
    fn plan(
        &self,
        c: Converter,
        party: u32,
        request: Request,
        tx: &mut [u8],
        at: usize,
    ) -> (u8, usize, Converter);
    /// The program's whole output.
    fn console(&self, input: &[u8]) -> Vec<u8>;
}

/// All checks on one implementation, the comparison with the model last;
/// panics at the first fault.
pub fn check_all(bench: &impl OneConverter, calls: u64, seed: u64) -> Stats {
    figures::all(bench);
    laws::check(bench, calls / 4, seed).unwrap_or_else(|fault| panic!("{fault}"));
    isolation::check(bench, calls / 50, seed).unwrap_or_else(|fault| panic!("{fault}"));
    compare(&Model, bench, calls, seed).unwrap_or_else(|found| panic!("{found}"))
}

/// The model of documents 01 and 02 as an implementation.
#[derive(Clone, Copy, Debug)]
pub struct Model;

impl OneConverter for Model {
    fn power_up(&self, id: u8) -> (u8, Converter) {
        model::power_up(id)
    }
    fn step(&self, c: Converter, byte: u8) -> (u8, u8, Converter) {
        model::step(c, byte)
    }
    fn deselect(&self, c: Converter) -> (u8, Converter) {
        model::deselect(c)
    }
    fn sample(&self, c: Converter, codes: &[i32], p: u8, n: u8) -> (u8, Converter) {
        model::sample(c, codes, p, n)
    }
    fn grant(&self, c: Converter, caller: u32, receiver: u32, channel: u32) -> (u8, Converter) {
        model::grant(c, caller, receiver, channel)
    }
    fn read_channel(
        &self,
        c: Converter,
        party: u32,
        channel: u32,
        frame: &[u8],
    ) -> (u8, i32, Rail, bool, bool) {
        model::read_channel(c, party, channel, frame)
    }
    fn channel_bytes(&self, c: Converter, party: u32, channel: u32, frame: &[u8]) -> Range<usize> {
        model::channel_bytes(c, party, channel, frame)
    }
    fn request_read(&self, bytes: &[u8]) -> (u8, Request, usize) {
        model::request_read(bytes)
    }
    fn request_write(&self, request: Request, buffer: &mut [u8]) -> (u8, usize) {
        model::request_write(request, buffer)
    }
    fn plan(
        &self,
        c: Converter,
        party: u32,
        request: Request,
        tx: &mut [u8],
        at: usize,
    ) -> (u8, usize, Converter) {
        model::plan(c, party, request, tx, at)
    }
    fn console(&self, input: &[u8]) -> Vec<u8> {
        model::console(input)
    }
}
