//! Random calls of every entry point, biased to the edges of the rules.

use std::collections::VecDeque;

use crate::random::Random;
use crate::{cells, states, Converter, Model, OneConverter, Phase, Rail, Request, WHOLE_CHANNEL};

#[derive(Clone, Debug, PartialEq, Eq)]
pub enum Call {
    PowerUp {
        id: u8,
    },
    Step {
        byte: u8,
    },
    Deselect,
    Sample {
        codes: Vec<i32>,
        p: u8,
        n: u8,
    },
    Grant {
        caller: u32,
        receiver: u32,
        channel: u32,
    },
    ReadChannel {
        party: u32,
        channel: u32,
        frame: Vec<u8>,
    },
    ChannelBytes {
        party: u32,
        channel: u32,
        frame: Vec<u8>,
    },
    RequestRead {
        bytes: Vec<u8>,
    },
    RequestWrite {
        request: Request,
        buffer: Vec<u8>,
    },
    Plan {
        party: u32,
        request: Request,
        tx: Vec<u8>,
        at: usize,
    },
    Console {
        input: Vec<u8>,
    },
}

impl Call {
    pub fn entry(&self) -> &'static str {
        match self {
            Call::PowerUp { .. } => "power_up",
            Call::Step { .. } => "step",
            Call::Deselect => "deselect",
            Call::Sample { .. } => "sample",
            Call::Grant { .. } => "grant",
            Call::ReadChannel { .. } => "read_channel",
            Call::ChannelBytes { .. } => "channel_bytes",
            Call::RequestRead { .. } => "request_read",
            Call::RequestWrite { .. } => "request_write",
            Call::Plan { .. } => "plan",
            Call::Console { .. } => "console",
        }
    }
}

/// As many numbers as the longest answer has: a request and its bytes used.
pub const NUMBERS: usize = 12;

/// Where a reading's rail stands among its numbers.
pub(crate) const RAIL: usize = 1;

/// Everything a call left behind.
#[derive(Clone, Debug, PartialEq, Eq)]
pub struct Outcome<State = Converter> {
    /// `None` for entry points that answer without a number.
    pub refusal: Option<u8>,
    /// The other numbers of the answer, in the order in which the entry point
    /// gives them, then zeros.
    pub numbers: [i64; NUMBERS],
    /// The lent buffer afterwards, or the program's output.
    pub buffer: Vec<u8>,
    pub state: State,
}

impl<State> Outcome<State> {
    /// What a call that answers nothing leaves behind.
    pub(crate) fn on(state: State) -> Outcome<State> {
        Outcome {
            refusal: None,
            numbers: [0; NUMBERS],
            buffer: Vec::new(),
            state,
        }
    }
}

/// Numbers of an answer, then zeros.
pub(crate) fn filled(numbers: impl IntoIterator<Item = i64>) -> [i64; NUMBERS] {
    let mut numbers = numbers.into_iter();
    std::array::from_fn(|_| numbers.next().unwrap_or(0))
}

/// A rail's number at the library's boundary.
pub(crate) fn rail_number(rail: Rail) -> i64 {
    match rail {
        Rail::Neither => 0,
        Rail::Lowest => 1,
        Rail::Highest => 2,
    }
}

/// Makes the call on a copy of its buffer.
pub fn perform(bench: &impl OneConverter, c: Converter, call: &Call) -> Outcome {
    let mut outcome = Outcome::on(c);
    match call {
        Call::PowerUp { id } => {
            let (refusal, state) = bench.power_up(*id);
            outcome.refusal = Some(refusal);
            outcome.state = state;
        }
        Call::Step { byte } => {
            let (refusal, out, state) = bench.step(c, *byte);
            outcome.refusal = Some(refusal);
            outcome.numbers[0] = i64::from(out);
            outcome.state = state;
        }
        Call::Deselect => {
            let (refusal, state) = bench.deselect(c);
            outcome.refusal = Some(refusal);
            outcome.state = state;
        }
        Call::Sample { codes, p, n } => {
            let (refusal, state) = bench.sample(c, codes, *p, *n);
            outcome.refusal = Some(refusal);
            outcome.state = state;
        }
        Call::Grant {
            caller,
            receiver,
            channel,
        } => {
            let (refusal, state) = bench.grant(c, *caller, *receiver, *channel);
            outcome.refusal = Some(refusal);
            outcome.state = state;
        }
        Call::ReadChannel {
            party,
            channel,
            frame,
        } => {
            let (refusal, code, rail, p, n) = bench.read_channel(c, *party, *channel, frame);
            outcome.refusal = Some(refusal);
            outcome.numbers = filled([code.into(), rail_number(rail), p.into(), n.into()]);
        }
        Call::ChannelBytes {
            party,
            channel,
            frame,
        } => {
            let part = bench.channel_bytes(c, *party, *channel, frame);
            outcome.numbers = filled([part.start as i64, part.end as i64]);
        }
        Call::RequestRead { bytes } => {
            let (refusal, request, used) = bench.request_read(bytes);
            outcome.refusal = Some(refusal);
            let named = [request.field, request.channel];
            let read = named.into_iter().chain(request.values).map(i64::from);
            outcome.numbers = filled(read.chain([used as i64]));
        }
        Call::RequestWrite { request, buffer } => {
            outcome.buffer.clone_from(buffer);
            let (refusal, used) = bench.request_write(*request, &mut outcome.buffer);
            outcome.refusal = Some(refusal);
            outcome.numbers[0] = used as i64;
        }
        Call::Plan {
            party,
            request,
            tx,
            at,
        } => {
            outcome.buffer.clone_from(tx);
            let (refusal, length, state) =
                bench.plan(c, *party, *request, &mut outcome.buffer, *at);
            outcome.refusal = Some(refusal);
            outcome.numbers[0] = length as i64;
            outcome.state = state;
        }
        Call::Console { input } => outcome.buffer = bench.console(input),
    }
    outcome
}

/// Calls already decided on, so that long commands get finished.
pub type Script = VecDeque<Call>;

/// Command bytes, those that open up further states more than once.
const COMMANDS: [u8; 13] = [
    0x02, 0x02, 0x04, 0x06, 0x08, 0x08, 0x08, 0x0A, 0x10, 0x11, 0x11, 0x12, 0x12,
];

/// A byte to send, in view of where the converter stands.
fn byte_to_send(random: &mut Random, c: &Converter) -> u8 {
    match (c.phase, random.below(10)) {
        (Phase::Held(_), 0..=4) => random.below(4) as u8,
        (Phase::Held(_), 5) => random.pick(&[23, 30, 31, 32, 33]),
        (Phase::Held(_), 6) => random.pick(&[0x20, 0x41, 0x57, 0x7F, 0x80, 0xFF]),
        (Phase::Held(_), 7) => random.pick(&COMMANDS),
        (Phase::Held(_), _) => random.byte(),
        (Phase::Counting(_), 0..=1) => random.pick(&COMMANDS),
        (Phase::Counting(_), _) => random.byte(),
        (Phase::Waiting, 0..=1) => 0,
        (Phase::Waiting, 2..=5) => random.pick(&COMMANDS),
        (Phase::Waiting, 6..=7) => 0x20 | random.byte() & 0x1F,
        (Phase::Waiting, 8) => 0x40 | random.byte() & 0x1F,
        (Phase::Waiting, _) => random.byte(),
    }
}

/// The ends of a code's range, and the codes next to them.
const ENDS: [i32; 4] = [-8_388_608, -8_388_607, 8_388_606, 8_388_607];

fn code(random: &mut Random) -> i32 {
    let edges = [0, 1, -1, 127, 128, -128, 32_767, -32_768, 65_535, -65_536];
    match random.below(10) {
        0..=2 => random.pick(&ENDS),
        3..=5 => random.pick(&edges),
        _ => (random.word() as i32) >> 8,
    }
}

/// The index of a channel that is powered down, if one is.
fn powered_down(random: &mut Random, c: &Converter) -> Option<usize> {
    let first = random.below(8);
    let mut indices = (first..8).chain(0..first);
    indices.find(|&index| c.registers[5 + index] >= 0x80)
}

fn sample(random: &mut Random, c: &Converter) -> Call {
    let count = if random.chance(93) {
        8
    } else {
        random.pick(&[0, 1, 7, 9, 16])
    };
    let mut codes: Vec<i32> = (0..count).map(|_| code(random)).collect();
    let powered_down = powered_down(random, c).filter(|&index| index < count);
    if let Some(index) = powered_down.filter(|_| random.flag()) {
        codes[index] = random.pick(&ENDS);
    }
    if count > 0 && random.chance(12) {
        let beyond = [
            8_388_608,
            -8_388_609,
            i32::MAX,
            i32::MIN,
            16_777_215,
            0x0100_0000,
        ];
        let index = powered_down
            .filter(|_| random.flag())
            .unwrap_or(random.below(count));
        codes[index] = random.pick(&beyond);
    }
    Call::Sample {
        codes,
        p: comparator(random),
        n: comparator(random),
    }
}

fn comparator(random: &mut Random) -> u8 {
    match random.below(4) {
        0 => 1 << random.below(8),
        1 => random.pick(&[0x00, 0xFF, 0x0F, 0xF0]),
        _ => random.byte(),
    }
}

fn grant(random: &mut Random) -> Call {
    Call::Grant {
        caller: if random.chance(80) { 0 } else { party(random) },
        receiver: if random.chance(85) {
            random.between(0, 8) as u32
        } else {
            party(random)
        },
        channel: if random.chance(85) {
            random.between(1, 8) as u32
        } else {
            random.edge(1, 8)
        },
    }
}

fn party(random: &mut Random) -> u32 {
    if random.chance(60) {
        random.between(0, 8) as u32
    } else {
        random.edge(0, 8)
    }
}

/// Mostly a channel's owner, sometimes a number that only resembles him.
fn party_for(random: &mut Random, c: &Converter, channel: u32) -> u32 {
    let owner = match channel {
        1..=8 => u32::from(c.owners[channel as usize - 1]),
        _ => 0,
    };
    match random.below(20) {
        0..=14 => owner,
        15 => owner + 0x100,
        16 => owner | 0x8000_0000,
        17 => 0,
        _ => party(random),
    }
}

/// Codes at and next to both ends of their range, and around zero, as bytes.
const END_BYTES: [[u8; 3]; 6] = [
    [0x7F, 0xFF, 0xFF],
    [0x7F, 0xFF, 0xFE],
    [0x80, 0x00, 0x00],
    [0x80, 0x00, 0x01],
    [0xFF, 0xFF, 0xFF],
    [0x00, 0x00, 0x00],
];

/// Puts codes of `END_BYTES` into most channels of a frame.
pub(crate) fn plant_ends(random: &mut Random, frame: &mut [u8]) {
    for channel in frame.chunks_exact_mut(3).skip(1) {
        if random.chance(80) {
            channel.copy_from_slice(&random.pick(&END_BYTES));
        }
    }
}

/// Random bytes, more often than not with codes at the ends.
fn random_frame(random: &mut Random, length: usize) -> Vec<u8> {
    let mut frame = random.bytes(length);
    if random.chance(80) {
        plant_ends(random, &mut frame);
    }
    frame
}

fn frame(random: &mut Random, c: &Converter) -> Vec<u8> {
    let mut frame = match random.below(10) {
        0..=1 => c.latest.to_vec(),
        2 => c.shifting.to_vec(),
        3 => {
            let length = random.pick(&[0, 1, 2, 3, 26, 28, 30, 54]);
            random_frame(random, length)
        }
        _ => random_frame(random, 27),
    };
    if let Some(first) = frame.first_mut() {
        match random.below(10) {
            0 => *first ^= 0x10 << random.below(4),
            1 => {}
            _ => *first = 0xC0 | *first & 0x0F,
        }
    }
    frame
}

fn reading(random: &mut Random, c: &Converter) -> Call {
    let channel = match random.below(50) {
        0..=9 => powered_down(random, c).unwrap_or(random.below(8)) as u32 + 1,
        10..=43 => random.between(1, 8) as u32,
        _ => random.edge(1, 8),
    };
    let party = party_for(random, c, channel);
    let frame = frame(random, c);
    if random.flag() {
        Call::ReadChannel {
            party,
            channel,
            frame,
        }
    } else {
        Call::ChannelBytes {
            party,
            channel,
            frame,
        }
    }
}

/// A field number, mostly one that names something.
fn field_number(random: &mut Random) -> u32 {
    match random.below(25) {
        0..=7 => random.between(1, 9) as u32,
        8..=10 => random.between(5, 9) as u32,
        11..=15 => random.between(10, 26) as u32,
        16 => random.pick(&[2, 12, 15]),
        17..=21 => WHOLE_CHANNEL,
        // Near a whole channel's, or that only once cut to fewer bits.
        22 => random.pick(&[
            27,
            28,
            29,
            31,
            32,
            30 + 0x100,
            30 + 0x1_0000,
            30 | 0x8000_0000,
        ]),
        _ => random.edge(1, 26),
    }
}

/// A channel number, mostly one that goes with the field.
fn channel_for(random: &mut Random, field: u32) -> u32 {
    let fitting = match field {
        1..=9 | WHOLE_CHANNEL => random.between(1, 8) as u32,
        _ => 0,
    };
    match random.below(20) {
        0..=16 => fitting,
        17 => fitting + 0x100,
        _ => random.edge(1, 8),
    }
}

/// A value for a field, mostly one that fits.
fn value_for(random: &mut Random, field: u32, channel: u32) -> u32 {
    let width = cells::find(field, channel).map_or(1, |cell| cell.width);
    match random.below(20) {
        0..=12 => random.below(1 << width) as u32,
        13..=14 => (1 << width) - 1,
        15..=16 => 1 << width,
        17 => random.below(10) as u32,
        _ => random.edge(0, 7),
    }
}

/// A value that a channel's field refuses.
fn refused_value(random: &mut Random, field: u32) -> u32 {
    let bound = cells::find(field, 1).map_or(2, |cell| 1 << cell.width);
    let edges = [bound, bound + 1, 0x100, 0x101, 16_383, 16_384, 0x1_0000];
    match random.below(10) {
        0..=2 if field == 2 => 7,
        0..=8 => random.pick(&edges),
        _ => u32::MAX - random.below(3) as u32,
    }
}

/// Values for a channel's fields 1 to 9: all legal, or one or two refused.
pub fn channel_values(random: &mut Random) -> [u32; 9] {
    let mut values = std::array::from_fn(|index| {
        let width = cells::find(index as u32 + 1, 1).map_or(1, |cell| cell.width);
        let legal = if index == 1 { 7 } else { 1 << width };
        random.below(legal) as u32
    });
    if random.chance(30) {
        for _ in 0..random.between(1, 2) {
            // Gain, and the last two, more often.
            let index = random.edge_or(&[1, 7, 8], 0, 8);
            values[index] = refused_value(random, index as u32 + 1);
        }
    }
    values
}

/// One field's values, behind the first anything: nobody may look there.
fn values_for(random: &mut Random, field: u32, channel: u32) -> [u32; 9] {
    let mut values = [0; 9];
    if random.flag() {
        values.fill_with(|| random.pick(&[0, 1, 2, 7, 8, 300, 16_383, 16_384, u32::MAX]));
    }
    values[0] = value_for(random, field, channel);
    values
}

/// A request, mostly sensible.
pub fn request(random: &mut Random) -> Request {
    let field = field_number(random);
    let channel = channel_for(random, field);
    let values = match field {
        WHOLE_CHANNEL => channel_values(random),
        _ => values_for(random, field, channel),
    };
    Request {
        field,
        channel,
        values,
    }
}

fn place(random: &mut Random, length: usize) -> usize {
    match random.below(20) {
        0..=9 => 0,
        10..=12 => random.between(0, length),
        // Rooms around every length that a plan can have.
        13..=16 => length.saturating_sub(random.between(2, 15)),
        17 => length + random.below(3),
        18 => usize::MAX - random.below(10),
        // Fits only if the place is cut to 32 bits.
        _ => usize::try_from((1u64 << 32) + random.below(3) as u64).unwrap_or(usize::MAX),
    }
}

fn plan(random: &mut Random, c: &Converter) -> Call {
    let request = request(random);
    let party = party_for(random, c, request.channel);
    let length = if random.chance(20) {
        random.below(16)
    } else {
        random.between(14, 30)
    };
    let at = place(random, length);
    Call::Plan {
        party,
        request,
        tx: random.bytes(length),
        at,
    }
}

/// A number's bytes; `None` asks for a broken form.
fn number_bytes(random: &mut Random, number: Option<u32>) -> Vec<u8> {
    match number {
        Some(number @ 0..=0x7F) => vec![number as u8],
        Some(number) => vec![number as u8 | 0x80, (number >> 7 & 0x7F) as u8],
        None => {
            let second = random.pick(&[0x00, 0x80, 0x81, 0xFF]);
            vec![random.byte() | 0x80, second]
        }
    }
}

fn wire_number(random: &mut Random) -> u32 {
    let edges = [0, 1, 127, 128, 129, 255, 256, 300, 16_382, 16_383];
    if random.flag() {
        random.pick(&edges)
    } else {
        random.below(16_384) as u32
    }
}

/// Numbers on the wire, each broken now and then.
fn wire_bytes(random: &mut Random, count: usize, broken: usize) -> Vec<u8> {
    let small = random.chance(20);
    let mut bytes = Vec::new();
    for _ in 0..count {
        let number = if random.chance(broken) {
            None
        } else if small {
            Some(random.below(128) as u32)
        } else {
            Some(wire_number(random))
        };
        bytes.extend(number_bytes(random, number));
    }
    bytes
}

fn request_bytes(random: &mut Random) -> Vec<u8> {
    let mut bytes = Vec::new();
    if random.chance(40) {
        // In its shortest form this field is one byte.
        bytes.push(WHOLE_CHANNEL as u8);
        bytes.extend(wire_bytes(random, 10, 2));
    } else {
        bytes.extend(wire_bytes(random, 3, 6));
    }
    match random.below(4) {
        0 => bytes.truncate(random.between(0, bytes.len())),
        1 => bytes.extend(random.bytes(3)),
        2 if random.flag() => return random.bytes(bytes.len()),
        _ => {}
    }
    bytes
}

fn request_write(random: &mut Random) -> Call {
    let whole = random.chance(40);
    let mut numbers: [u32; 11] = std::array::from_fn(|_| wire_number(random));
    if whole {
        numbers[0] = WHOLE_CHANNEL;
    }
    if random.chance(30) {
        // Behind the third number it matters in a whole channel's request alone.
        let index = if random.flag() { 3 } else { 11 };
        numbers[random.below(index)] =
            random.pick(&[16_384, 16_385, 65_536, 0x0100_0003, u32::MAX]);
    }
    let [field, channel, values @ ..] = numbers;
    let length = if whole {
        random.edge_or(&[10, 11, 20, 21, 22], 12, 24)
    } else {
        random.between(0, 8)
    };
    Call::RequestWrite {
        request: Request {
            field,
            channel,
            values,
        },
        buffer: random.bytes(length),
    }
}

/// Program input of about the given length, or exactly so.
fn console_input(random: &mut Random, length: usize, exact: bool) -> Vec<u8> {
    let mut input = vec![match random.below(10) {
        0..=4 => 1,
        5..=6 => 0,
        _ => random.byte(),
    }];
    while input.len() < length {
        let mut request = request(random);
        request.field &= 0x3FFF;
        for number in request.numbers() {
            input.extend(number_bytes(random, Some(number & 0x3FFF)));
        }
    }
    if exact {
        input.truncate(length);
    } else if random.chance(20) {
        input.truncate(random.between(0, input.len()));
    } else if random.chance(10) {
        input.extend(number_bytes(random, None));
    }
    input
}

fn console(random: &mut Random) -> Call {
    let input = if random.chance(20) {
        let length = random.pick(&[4_000, 4_095, 4_096, 4_096, 4_097, 4_097, 6_000]);
        console_input(random, length, true)
    } else {
        let length = random.between(1, 40);
        console_input(random, length, false)
    };
    Call::Console { input }
}

fn send(script: &mut Script, bytes: impl IntoIterator<Item = u8>) {
    script.extend(bytes.into_iter().map(|byte| Call::Step { byte }));
}

/// The state that a script leads to.
fn ahead(c: &Converter, script: &Script) -> Converter {
    let step = |state, call| perform(&Model, state, call).state;
    script.iter().fold(*c, step)
}

/// Queues a sample of a channel that is powered down just before or just
/// after, and its owner's reading of the frame.
fn queue_power_down(random: &mut Random, c: &Converter, script: &mut Script) {
    let channel = random.between(1, 8);
    let before = random.byte();
    let write = |data| [0x44 + channel as u8, 0x00, data];
    send(script, [0x02, 0x08, 0x11]);
    send(script, write(before));
    let taken = sample(random, &ahead(c, script));
    script.push_back(taken);
    send(script, write(before ^ 0x80));
    let then = ahead(c, script);
    script.push_back(Call::ReadChannel {
        party: then.owners[channel - 1].into(),
        channel: channel as u32,
        frame: then.latest.to_vec(),
    });
}

/// Queues a whole command, a long read-out, a change of modes or a
/// power-down around a sample.
fn queue_script(random: &mut Random, c: &Converter, script: &mut Script) {
    if random.flag() {
        script.push_back(Call::Deselect);
    }
    match random.below(12) {
        // Let a frame run out, and past its end.
        0 => {
            let idle = random.pick(&[0x00, 0x00, 0x00, 0x01, 0x60, 0xFF]);
            send(script, vec![idle; random.between(1, 60)]);
        }
        // Awake, converting, continuous or not, one sample, then read it.
        1 => {
            send(script, [0x02, 0x08, random.pick(&[0x10, 0x11])]);
            script.push_back(sample(random, c));
            send(script, [0x12]);
            send(script, vec![0x00; random.between(1, 58)]);
        }
        // Read-back on, then a frame that starts over, newer samples between.
        2 => {
            send(script, [0x02, 0x08, 0x11, 0x41, 0x00, 0x40 | random.byte()]);
            script.push_back(sample(random, c));
            send(script, [random.pick(&[0x10, 0x12, 0x12])]);
            script.push_back(sample(random, c));
            send(script, vec![0x00; 20]);
            script.push_back(sample(random, c));
            send(script, vec![0x00; random.between(1, 40)]);
        }
        // A register read or write in full, past the last register too.
        3..=5 => {
            let count = random.edge_or(&[1, 2, 8, 24, 31, 32], 1, 32);
            let first = random.pick(&[0x20, 0x40, 0x40]) | random.byte() & 0x1F;
            send(script, [0x02, 0x11, first, count as u8 - 1]);
            for _ in 0..count {
                if random.chance(6) {
                    script.push_back(sample(random, c));
                }
                send(script, [random.byte()]);
            }
        }
        // A change of mode and a change of owner.
        6 => {
            send(script, [random.pick(&[0x02, 0x04, 0x10, 0x11])]);
            script.push_back(grant(random));
        }
        // A command while a frame goes out, converting or not, in either mode.
        7..=8 => {
            send(script, [0x02, 0x08, random.pick(&[0x10, 0x11])]);
            script.push_back(sample(random, c));
            send(script, [random.pick(&[0x00, 0x0A]), 0x12]);
            send(script, vec![0x00; random.below(27)]);
            let register = random.pick(&[0x20, 0x40]) | random.byte() & 0x1F;
            let command = random.pick(&COMMANDS);
            send(
                script,
                [
                    if random.chance(80) { command } else { register },
                    0x00,
                    0x00,
                ],
            );
        }
        // A channel powered down before or after a sample, then read.
        9..=10 => queue_power_down(random, c, script),
        // A plan-like run in whatever mode.
        _ => {
            let register = random.below(24) as u8;
            send(script, [0x11, 0x40 | register, 0x00, random.byte(), 0x10]);
        }
    }
}

/// One call of each entry point that is given a state, in random order.
pub fn every_entry(random: &mut Random, c: &Converter) -> Script {
    let channel = random.between(1, 8) as u32;
    let (party, frame) = (party_for(random, c, channel), frame(random, c));
    let mut calls = vec![
        Call::Step {
            byte: byte_to_send(random, c),
        },
        Call::Deselect,
        sample(random, c),
        grant(random),
        Call::ReadChannel {
            party,
            channel,
            frame: frame.clone(),
        },
        Call::ChannelBytes {
            party,
            channel,
            frame,
        },
        plan(random, c),
    ];
    let mut script = Script::new();
    while !calls.is_empty() {
        script.push_back(calls.swap_remove(random.below(calls.len())));
    }
    script
}

/// The next call to make, given the present state.
pub fn next(random: &mut Random, c: &Converter, script: &mut Script) -> Call {
    if let Some(call) = script.pop_front() {
        return call;
    }
    match random.below(1000) {
        0..=399 => Call::Step {
            byte: byte_to_send(random, c),
        },
        400..=499 => sample(random, c),
        500..=719 => plan(random, c),
        720..=769 => grant(random),
        770..=869 => reading(random, c),
        870..=914 => Call::RequestRead {
            bytes: request_bytes(random),
        },
        915..=954 => request_write(random),
        955..=969 => Call::Deselect,
        970..=977 => console(random),
        978..=980 => Call::PowerUp {
            id: power_up_id(random),
        },
        _ => {
            queue_script(random, c, script);
            next(random, c, script)
        }
    }
}

pub fn power_up_id(random: &mut Random) -> u8 {
    if random.chance(70) {
        states::legal_id(random)
    } else {
        random.byte()
    }
}
