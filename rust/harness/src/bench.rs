//! Tests for a bench of four converters: all that there is for one converter,
//! over the converter's number.

pub mod calls;
pub mod compare;
pub mod figures;
pub mod isolation;
pub mod laws;
pub mod mutants;
pub mod states;

use std::ops::Range;

use crate::{Bench, Model, OneConverter, Rail, Request};
pub use compare::{compare, Stats};

/// How many converters a bench has.
pub const CONVERTERS: usize = 4;

/// The entry points for a bench. Each answer begins with its refusal number,
/// except `channel_bytes` (a place in the frame).
pub trait FourConverters {
    /// (refusal, bench)
    fn power_up(&self, ids: [u8; CONVERTERS]) -> (u8, Bench);
    /// (refusal, byte out, bench)
    fn step(&self, b: Bench, number: u32, byte: u8) -> (u8, u8, Bench);
    /// (refusal, bench)
    fn deselect(&self, b: Bench, number: u32) -> (u8, Bench);
    /// (refusal, bench)
    fn sample(&self, b: Bench, number: u32, codes: &[i32], p: u8, n: u8) -> (u8, Bench);
    /// (refusal, bench)
    fn grant(&self, b: Bench, caller: u32, receiver: u32, channel: u32) -> (u8, Bench);
    /// (refusal, code, rail, P bit, N bit)
    fn read_channel(
        &self,
        b: Bench,
        number: u32,
        party: u32,
        channel: u32,
        frame: &[u8],
    ) -> (u8, i32, Rail, bool, bool);
    /// Where the returned part lies in `frame`; any empty part counts as 0..0.
    fn channel_bytes(
        &self,
        b: Bench,
        number: u32,
        party: u32,
        channel: u32,
        frame: &[u8],
    ) -> Range<usize>;
    /// (refusal, number of the plan's converter, plan length, bench after the
    /// plan)
    fn plan(
        &self,
        b: Bench,
        party: u32,
        request: Request,
        tx: &mut [u8],
        at: usize,
    ) -> (u8, u32, usize, Bench);
    /// The implementation's entry points for one converter.
    fn one(&self) -> &impl OneConverter;
}

/// All checks of a bench on one implementation, the comparison with the model
/// last; panics at the first fault.
pub fn check_all(bench: &impl FourConverters, calls: u64, seed: u64) -> Stats {
    figures::all(bench);
    laws::check(bench, calls / 4, seed).unwrap_or_else(|fault| panic!("{fault}"));
    isolation::check(bench, calls / 100, seed).unwrap_or_else(|fault| panic!("{fault}"));
    compare(&Model, bench, calls, seed).unwrap_or_else(|found| panic!("{found}"))
}

impl FourConverters for Model {
    fn power_up(&self, ids: [u8; CONVERTERS]) -> (u8, Bench) {
        model::bench::power_up(ids)
    }
    fn step(&self, b: Bench, number: u32, byte: u8) -> (u8, u8, Bench) {
        model::bench::step(b, number, byte)
    }
    fn deselect(&self, b: Bench, number: u32) -> (u8, Bench) {
        model::bench::deselect(b, number)
    }
    fn sample(&self, b: Bench, number: u32, codes: &[i32], p: u8, n: u8) -> (u8, Bench) {
        model::bench::sample(b, number, codes, p, n)
    }
    fn grant(&self, b: Bench, caller: u32, receiver: u32, channel: u32) -> (u8, Bench) {
        model::bench::grant(b, caller, receiver, channel)
    }
    fn read_channel(
        &self,
        b: Bench,
        number: u32,
        party: u32,
        channel: u32,
        frame: &[u8],
    ) -> (u8, i32, Rail, bool, bool) {
        model::bench::read_channel(b, number, party, channel, frame)
    }
    fn channel_bytes(
        &self,
        b: Bench,
        number: u32,
        party: u32,
        channel: u32,
        frame: &[u8],
    ) -> Range<usize> {
        model::bench::channel_bytes(b, number, party, channel, frame)
    }
    fn plan(
        &self,
        b: Bench,
        party: u32,
        request: Request,
        tx: &mut [u8],
        at: usize,
    ) -> (u8, u32, usize, Bench) {
        model::bench::plan(b, party, request, tx, at)
    }
    fn one(&self) -> &impl OneConverter {
        self
    }
}
