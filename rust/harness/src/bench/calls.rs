//! Random calls of a bench's entry points: those for one converter, lifted to
//! one of the four, and biased to the edges of the bench's ranges.

use std::collections::VecDeque;

use super::{states, FourConverters, CONVERTERS};
use crate::calls::{self, Call, Outcome, Script};
use crate::random::Random;
use crate::{cells, Bench, Request};

/// What both reading calls are given.
#[derive(Clone, Debug, PartialEq, Eq)]
pub struct FrameRead {
    pub number: u32,
    pub party: u32,
    pub channel: u32,
    pub frame: Vec<u8>,
}

#[derive(Clone, Debug, PartialEq, Eq)]
pub enum BenchCall {
    PowerUp {
        ids: [u8; CONVERTERS],
    },
    Step {
        number: u32,
        byte: u8,
    },
    Deselect {
        number: u32,
    },
    Sample {
        number: u32,
        codes: Vec<i32>,
        p: u8,
        n: u8,
    },
    Grant {
        caller: u32,
        receiver: u32,
        channel: u32,
    },
    ReadChannel(FrameRead),
    ChannelBytes(FrameRead),
    Plan {
        party: u32,
        request: Request,
        tx: Vec<u8>,
        at: usize,
    },
}

impl BenchCall {
    pub fn entry(&self) -> &'static str {
        match self {
            BenchCall::PowerUp { .. } => "power_up",
            BenchCall::Step { .. } => "step",
            BenchCall::Deselect { .. } => "deselect",
            BenchCall::Sample { .. } => "sample",
            BenchCall::Grant { .. } => "grant",
            BenchCall::ReadChannel(_) => "read_channel",
            BenchCall::ChannelBytes(_) => "channel_bytes",
            BenchCall::Plan { .. } => "plan",
        }
    }

    /// The channel number that the call has, if it has one.
    pub fn channel(&self) -> Option<u32> {
        match self {
            BenchCall::Grant { channel, .. } => Some(*channel),
            BenchCall::ReadChannel(read) | BenchCall::ChannelBytes(read) => Some(read.channel),
            BenchCall::Plan { request, .. } => Some(request.channel),
            _ => None,
        }
    }

    /// The converter that the call is for, by its channel or else its number.
    pub fn converter(&self) -> Option<usize> {
        match self {
            BenchCall::Step { number, .. }
            | BenchCall::Deselect { number }
            | BenchCall::Sample { number, .. } => {
                let number = *number as usize;
                (number < CONVERTERS).then_some(number)
            }
            _ => Some(cells::locate(CONVERTERS, self.channel()?)?.0),
        }
    }
}

/// Makes the call on a copy of its buffer.
pub fn perform(bench: &impl FourConverters, b: Bench, call: &BenchCall) -> Outcome<Bench> {
    let mut outcome = Outcome::on(b);
    let (refusal, next) = match call {
        BenchCall::PowerUp { ids } => bench.power_up(*ids),
        BenchCall::Step { number, byte } => {
            let (refusal, out, next) = bench.step(b, *number, *byte);
            outcome.numbers[0] = out.into();
            (refusal, next)
        }
        BenchCall::Deselect { number } => bench.deselect(b, *number),
        BenchCall::Sample {
            number,
            codes,
            p,
            n,
        } => bench.sample(b, *number, codes, *p, *n),
        BenchCall::Grant {
            caller,
            receiver,
            channel,
        } => bench.grant(b, *caller, *receiver, *channel),
        BenchCall::Plan {
            party,
            request,
            tx,
            at,
        } => {
            outcome.buffer.clone_from(tx);
            let tx = &mut outcome.buffer;
            let (refusal, number, length, next) = bench.plan(b, *party, *request, tx, *at);
            outcome.numbers = calls::filled([number.into(), length as i64]);
            (refusal, next)
        }
        BenchCall::ReadChannel(read) => return read_channel(bench, b, read),
        BenchCall::ChannelBytes(read) => return channel_bytes(bench, b, read),
    };
    outcome.refusal = Some(refusal);
    outcome.state = next;
    outcome
}

fn read_channel(bench: &impl FourConverters, b: Bench, read: &FrameRead) -> Outcome<Bench> {
    let (refusal, code, rail, p, n) =
        bench.read_channel(b, read.number, read.party, read.channel, &read.frame);
    let rail = calls::rail_number(rail);
    Outcome {
        refusal: Some(refusal),
        numbers: calls::filled([code.into(), rail, p.into(), n.into()]),
        ..Outcome::on(b)
    }
}

fn channel_bytes(bench: &impl FourConverters, b: Bench, read: &FrameRead) -> Outcome<Bench> {
    let part = bench.channel_bytes(b, read.number, read.party, read.channel, &read.frame);
    Outcome {
        numbers: calls::filled([part.start as i64, part.end as i64]),
        ..Outcome::on(b)
    }
}

/// Where the ranges of channels begin and end.
pub const EDGES: [u32; 13] = [0, 1, 8, 9, 16, 17, 24, 25, 32, 33, 34, 35, 36];

/// A converter's number, at times another's or none's.
fn number_near(random: &mut Random, number: usize, wrong: usize) -> u32 {
    if !random.chance(wrong) {
        return number as u32;
    }
    if random.chance(30) {
        random.below(CONVERTERS) as u32
    } else {
        random.edge(0, 3)
    }
}

/// The bench's number for a converter's channel, at times another's or none's.
fn channel_near(random: &mut Random, number: usize, channel: u32) -> u32 {
    let own = match channel {
        0..=8 => cells::channel_number(CONVERTERS, number, channel),
        other => other,
    };
    match random.below(40) {
        0..=33 => own,
        34..=36 => random.pick(&EDGES),
        37 => own.wrapping_add(0x100),
        38 => random.edge(33, 35),
        _ => random.edge(1, 32),
    }
}

/// A channel's owner, or else this party.
fn owner_or(b: &Bench, channel: u32, party: u32) -> u32 {
    match cells::locate(CONVERTERS, channel) {
        Some((_, 0)) => 0,
        Some((number, place)) => b.converters[number].owners[place as usize - 1].into(),
        None => party,
    }
}

/// A party and a channel as the bench has them: the party is in most cases
/// still that which goes with the channel.
fn aim(random: &mut Random, b: &Bench, number: usize, party: u32, channel: u32) -> (u32, u32) {
    let aimed = channel_near(random, number, channel);
    let own = cells::channel_number(CONVERTERS, number, channel.min(8));
    if aimed == own || random.chance(30) {
        (party, aimed)
    } else {
        (owner_or(b, aimed, party), aimed)
    }
}

/// A reading as the bench has it, mostly with the number of the channel's own
/// converter.
fn lifted_read(
    random: &mut Random,
    b: &Bench,
    number: usize,
    (party, channel): (u32, u32),
    frame: Vec<u8>,
) -> FrameRead {
    let (party, channel) = aim(random, b, number, party, channel);
    let own = cells::locate(CONVERTERS, channel).map_or(0, |(number, _)| number);
    FrameRead {
        number: number_near(random, own, 15),
        party,
        channel,
        frame,
    }
}

/// A call for one converter as one for converter `number` of the bench. None
/// for requests as bytes and the program, which have no state.
fn lifted(random: &mut Random, b: &Bench, number: usize, call: Call) -> Option<BenchCall> {
    Some(match call {
        Call::PowerUp { .. } => BenchCall::PowerUp {
            ids: states::ids(random),
        },
        Call::Step { byte } => BenchCall::Step {
            number: number_near(random, number, 4),
            byte,
        },
        Call::Deselect => BenchCall::Deselect {
            number: number_near(random, number, 10),
        },
        Call::Sample { codes, p, n } => BenchCall::Sample {
            number: number_near(random, number, 10),
            codes,
            p,
            n,
        },
        Call::Grant {
            caller,
            receiver,
            channel,
        } => BenchCall::Grant {
            caller,
            receiver,
            channel: channel_near(random, number, channel),
        },
        _ => return lifted_by_owner(random, b, number, call),
    })
}

/// The same for those that go by a channel and its owner.
fn lifted_by_owner(random: &mut Random, b: &Bench, number: usize, call: Call) -> Option<BenchCall> {
    Some(match call {
        Call::ReadChannel {
            party,
            channel,
            frame,
        } => BenchCall::ReadChannel(lifted_read(random, b, number, (party, channel), frame)),
        Call::ChannelBytes {
            party,
            channel,
            frame,
        } => BenchCall::ChannelBytes(lifted_read(random, b, number, (party, channel), frame)),
        Call::Plan {
            party,
            mut request,
            tx,
            at,
        } => {
            let (party, channel) = aim(random, b, number, party, request.channel);
            request.channel = channel;
            BenchCall::Plan {
                party,
                request,
                tx,
                at,
            }
        }
        _ => return None,
    })
}

/// Calls already decided on: for the bench, and for each converter, so that
/// long commands get finished while others go on.
#[derive(Clone, Debug, Default)]
pub struct Queues {
    pub bench: VecDeque<BenchCall>,
    converters: [Script; CONVERTERS],
    /// The converter that had the latest call.
    latest: usize,
}

/// One call of each entry point that is given a bench, twice, for converters
/// of their own, in random order.
pub fn every_entry(random: &mut Random, b: &Bench) -> VecDeque<BenchCall> {
    let mut calls = VecDeque::new();
    for _ in 0..2 {
        let chosen = random.below(CONVERTERS);
        for call in calls::every_entry(random, &b.converters[chosen]) {
            let other = random.below(CONVERTERS);
            let number = if random.flag() { chosen } else { other };
            calls.extend(lifted(random, b, number, call));
        }
    }
    calls
}

/// The next call to make, given the present bench.
pub fn next(random: &mut Random, b: &Bench, queues: &mut Queues) -> BenchCall {
    if let Some(call) = queues.bench.pop_front() {
        return call;
    }
    if random.chance(40) {
        queues.latest = random.below(CONVERTERS);
    }
    let number = queues.latest;
    let script = &mut queues.converters[number];
    loop {
        let call = calls::next(random, &b.converters[number], script);
        if let Some(call) = lifted(random, b, number, call) {
            return call;
        }
    }
}
