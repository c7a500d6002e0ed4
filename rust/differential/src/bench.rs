//! The proved library's bench of four converters.

use std::ops::Range;

use harness::{Bench, FourConverters, OneConverter, Rail, Request};
use rimevelvet::bench;

use crate::{flat, lent, reading, whole, Proved};

/// The library's form of a bench.
pub fn flat_bench(b: Bench) -> bench::Bench {
    bench::Bench {
        converters: b.converters.map(flat),
    }
}

/// The bench that the library's form stands for; panics as [`whole`] does.
pub fn whole_bench(b: bench::Bench) -> Bench {
    Bench {
        converters: b.converters.map(whole),
    }
}

impl FourConverters for Proved {
    fn power_up(&self, ids: [u8; bench::CONVERTERS]) -> (u8, Bench) {
        let a = bench::power_up(ids);
        (a.refusal, whole_bench(a.bench))
    }

    fn step(&self, b: Bench, number: u32, byte: u8) -> (u8, u8, Bench) {
        let a = bench::step(flat_bench(b), number, byte);
        (a.refusal, a.out, whole_bench(a.next))
    }

    fn deselect(&self, b: Bench, number: u32) -> (u8, Bench) {
        let a = bench::deselect(flat_bench(b), number);
        (a.refusal, whole_bench(a.next))
    }

    fn sample(&self, b: Bench, number: u32, codes: &[i32], p: u8, n: u8) -> (u8, Bench) {
        let a = bench::sample(flat_bench(b), number, codes, p, n);
        (a.refusal, whole_bench(a.next))
    }

    fn grant(&self, b: Bench, caller: u32, receiver: u32, channel: u32) -> (u8, Bench) {
        let a = bench::grant(flat_bench(b), caller, receiver, channel);
        (a.refusal, whole_bench(a.next))
    }

    fn read_channel(
        &self,
        b: Bench,
        number: u32,
        party: u32,
        channel: u32,
        frame: &[u8],
    ) -> (u8, i32, Rail, bool, bool) {
        let a = bench::read_channel(flat_bench(b), number, party, channel, frame);
        reading(a)
    }

    fn channel_bytes(
        &self,
        b: Bench,
        number: u32,
        party: u32,
        channel: u32,
        frame: &[u8],
    ) -> Range<usize> {
        bench::channel_range(flat_bench(b), number, party, channel, frame)
    }

    fn plan(
        &self,
        b: Bench,
        party: u32,
        request: Request,
        tx: &mut [u8],
        at: usize,
    ) -> (u8, u32, usize, Bench) {
        let a = bench::plan(flat_bench(b), party, lent(request), tx, at);
        (a.refusal, a.converter, a.length, whole_bench(a.next))
    }

    fn one(&self) -> &impl OneConverter {
        self
    }
}
