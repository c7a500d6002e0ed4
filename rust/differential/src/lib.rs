//! The proved library as an implementation for the harness, beside the independent model.

#![forbid(unsafe_code)]

pub mod ads7953;
pub mod bench;

use std::fmt::Display;
use std::ops::Range;

use harness::{settings, Converter, Direction, OneConverter, Phase, Rail, Request, Transfer};
use rimevelvet::State;

/// The proved library behind its safe wrappers.
#[derive(Clone, Copy, Debug)]
pub struct Proved;

/// All checks on the library, the comparison with the model last; says what they met, and sees that no call was left out.
pub fn agree<S: Display>(
    check_all: impl Fn(&Proved, u64, u64) -> S,
    calls_made: impl Fn(&S) -> u64,
) {
    let calls = settings::calls();
    let stats = check_all(&Proved, calls, settings::seed());
    settings::say(&format!("library against model: {stats}"));
    assert_eq!(calls_made(&stats), calls);
}

/// The library's form of a state.
pub fn flat(c: Converter) -> State {
    let (phase, transfer) = match c.phase {
        Phase::Waiting => (
            0,
            Transfer {
                direction: Direction::Read,
                address: 0,
                remaining: 0,
            },
        ),
        Phase::Held(transfer) => (1, transfer),
        Phase::Counting(transfer) => (2, transfer),
    };
    State {
        registers: c.registers,
        owners: c.owners,
        latest: c.latest,
        output: c.output.is_some().into(),
        place: c.output.unwrap_or(0),
        continuous: c.continuous.into(),
        standby: c.standby.into(),
        converting: c.converting.into(),
        shifting: c.shifting,
        phase,
        direction: match transfer.direction {
            Direction::Read => 0,
            Direction::Write => 1,
        },
        address: transfer.address,
        remaining: transfer.remaining,
    }
}

/// The state that the library's form stands for; panics where it stands for none, which the library never hands out.
pub fn whole(s: State) -> Converter {
    let direction = match s.direction {
        0 => Direction::Read,
        1 => Direction::Write,
        other => panic!("direction {other}"),
    };
    let transfer = Transfer {
        direction,
        address: s.address,
        remaining: s.remaining,
    };
    let c = Converter {
        registers: s.registers,
        owners: s.owners,
        latest: s.latest,
        output: match s.output {
            0 => None,
            1 => Some(s.place),
            other => panic!("output {other}"),
        },
        continuous: flag(s.continuous),
        standby: flag(s.standby),
        converting: flag(s.converting),
        shifting: s.shifting,
        phase: match s.phase {
            0 => Phase::Waiting,
            1 => Phase::Held(transfer),
            2 => Phase::Counting(transfer),
            other => panic!("phase {other}"),
        },
    };
    assert_eq!(flat(c), s, "a state has one flat form");
    c
}

/// A sound state's bytes, changed in one of nine ways so that they stand for none.
pub fn spoilt(sound: State, way: usize) -> State {
    let mut s = sound;
    match way {
        0 => s.output = 2,
        1 => s.continuous = 2,
        2 => s.standby = 255,
        3 => s.converting = 2,
        4 => s.phase = 3,
        5 => (s.phase, s.direction) = (1, 2),
        6 => (s.output, s.place) = (0, 1),
        7 => (s.phase, s.direction) = (0, 1),
        _ => (s.phase, s.remaining) = (0, 1),
    }
    s
}

/// A frame whose codes are all the highest and whose bits are all set.
pub fn full_frame() -> Vec<u8> {
    let mut frame = [0x7F, 0xFF, 0xFF].repeat(9);
    frame[0] = 0xCF;
    frame
}

/// What a reading from bytes that stand for no state answers.
pub const NOTHING_READ: rimevelvet::Reading = rimevelvet::Reading {
    refusal: 13,
    code: 0,
    rail: rimevelvet::Rail::Neither,
    p: 0,
    n: 0,
};

fn flag(code: u8) -> bool {
    assert!(code <= 1, "flag {code}");
    code == 1
}

/// The harness's form of a rail.
fn rail(rail: rimevelvet::Rail) -> Rail {
    match rail {
        rimevelvet::Rail::Neither => Rail::Neither,
        rimevelvet::Rail::Lowest => Rail::Lowest,
        rimevelvet::Rail::Highest => Rail::Highest,
    }
}

/// The harness's form of a reading.
fn reading(a: rimevelvet::Reading) -> (u8, i32, Rail, bool, bool) {
    (a.refusal, a.code, rail(a.rail), flag(a.p), flag(a.n))
}

/// The library's form of a request.
pub fn lent(request: Request) -> rimevelvet::Request {
    let Request {
        field,
        channel,
        values,
    } = request;
    rimevelvet::Request {
        field,
        channel,
        values,
    }
}

impl OneConverter for Proved {
    fn power_up(&self, id: u8) -> (u8, Converter) {
        let a = rimevelvet::power_up(id);
        (a.refusal, whole(a.converter))
    }

    fn step(&self, c: Converter, byte: u8) -> (u8, u8, Converter) {
        let a = rimevelvet::step(flat(c), byte);
        (a.refusal, a.out, whole(a.next))
    }

    fn deselect(&self, c: Converter) -> (u8, Converter) {
        let a = rimevelvet::deselect(flat(c));
        (a.refusal, whole(a.next))
    }

    fn sample(&self, c: Converter, codes: &[i32], p: u8, n: u8) -> (u8, Converter) {
        let a = rimevelvet::sample(flat(c), codes, p, n);
        (a.refusal, whole(a.next))
    }

    fn grant(&self, c: Converter, caller: u32, receiver: u32, channel: u32) -> (u8, Converter) {
        let a = rimevelvet::grant(flat(c), caller, receiver, channel);
        (a.refusal, whole(a.next))
    }

    fn read_channel(
        &self,
        c: Converter,
        party: u32,
        channel: u32,
        frame: &[u8],
    ) -> (u8, i32, Rail, bool, bool) {
        reading(rimevelvet::read_channel(flat(c), party, channel, frame))
    }

    fn channel_bytes(&self, c: Converter, party: u32, channel: u32, frame: &[u8]) -> Range<usize> {
        rimevelvet::channel_range(flat(c), party, channel, frame)
    }

    fn request_read(&self, bytes: &[u8]) -> (u8, Request, usize) {
        let a = rimevelvet::request_read(bytes);
        let rimevelvet::Request {
            field,
            channel,
            values,
        } = a.request;
        let request = Request {
            field,
            channel,
            values,
        };
        (a.refusal, request, a.used)
    }

    fn request_write(&self, request: Request, buffer: &mut [u8]) -> (u8, usize) {
        let a = rimevelvet::request_write(lent(request), buffer);
        (a.refusal, a.used)
    }

    fn plan(
        &self,
        c: Converter,
        party: u32,
        request: Request,
        tx: &mut [u8],
        at: usize,
    ) -> (u8, usize, Converter) {
        let a = rimevelvet::plan(flat(c), party, lent(request), tx, at);
        (a.refusal, a.length, whole(a.next))
    }

    fn console(&self, input: &[u8]) -> Vec<u8> {
        rimevelvet::transcript(input)
    }
}
