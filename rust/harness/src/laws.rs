//! Laws that tie an implementation's answers to each other, checked on random
//! calls.

use std::ops::Range;

use crate::calls::{self, Call, Outcome, NUMBERS};
use crate::compare::OneDriver;
use crate::random::Random;
use crate::sessions::{Driver, Sessions};
use crate::{Converter, OneConverter, Phase, Rail, Request, WHOLE_CHANNEL};

pub(crate) fn ensure(condition: bool, law: &str) -> Result<(), String> {
    if condition {
        Ok(())
    } else {
        Err(law.to_string())
    }
}

/// The replies to what is sent, and the state after it; `None` if any of it is
/// refused.
pub(crate) fn replies<S, I: Copy, O>(
    mut state: S,
    sent: &[I],
    step: impl Fn(S, I) -> (u8, O, S),
) -> Option<(Vec<O>, S)> {
    let mut replies = Vec::with_capacity(sent.len());
    for &item in sent {
        let (refusal, reply, next) = step(state, item);
        if refusal != 0 {
            return None;
        }
        replies.push(reply);
        state = next;
    }
    Some((replies, state))
}

/// Sends bytes; `None` if one is refused.
pub(crate) fn send(
    bench: &impl OneConverter,
    c: Converter,
    bytes: &[u8],
) -> Option<(Vec<u8>, Converter)> {
    replies(c, bytes, |state, byte| bench.step(state, byte))
}

/// A refusal changes nothing and tells nothing but its number.
fn refused_alone(given: &Converter, call: &Call, outcome: &Outcome) -> Result<(), String> {
    ensure(
        outcome.numbers == [0; NUMBERS],
        "a refusal tells only its number",
    )?;
    match call {
        Call::PowerUp { .. } => ensure(
            outcome.state.registers[0] == 0,
            "a refused power-up shows ID 00",
        ),
        Call::RequestWrite { buffer, .. } => ensure(
            outcome.buffer == *buffer,
            "a refused writer leaves its buffer",
        ),
        Call::Plan { tx, .. } => {
            ensure(outcome.state == *given, "a refused plan leaves the state")?;
            ensure(
                outcome.buffer == *tx,
                "a refused plan leaves the transmit buffer",
            )
        }
        _ => ensure(outcome.state == *given, "a refused call leaves the state"),
    }
}

fn plan_law(
    bench: &impl OneConverter,
    given: &Converter,
    outcome: &Outcome,
    tx: &[u8],
    at: usize,
) -> Result<(), String> {
    let end = at
        .checked_add(outcome.numbers[0] as usize)
        .filter(|&end| end <= tx.len())
        .ok_or("a plan lies in the transmit buffer")?;
    ensure(
        outcome.buffer[..at] == tx[..at] && outcome.buffer[end..] == tx[end..],
        "bytes around a plan stay",
    )?;
    let (_, after) = send(bench, *given, &outcome.buffer[at..end]).ok_or("a plan can be sent")?;
    ensure(
        after == outcome.state,
        "the state after a plan is that of its bytes",
    )
}

/// A whole channel's request does what one request for each field does.
fn whole_channel_law(
    bench: &impl OneConverter,
    given: &Converter,
    after: &Converter,
    party: u32,
    request: &Request,
) -> Result<(), String> {
    if request.field != WHOLE_CHANNEL {
        return Ok(());
    }
    let mut state = *given;
    for (field, value) in (1..).zip(request.values) {
        let each = Request::one(field, request.channel, value);
        let (refusal, _, next) = bench.plan(state, party, each, &mut [0; 7], 0);
        ensure(
            refusal == 0,
            "each of an accepted channel's values is legal",
        )?;
        state = next;
    }
    ensure(state == *after, "a channel is set as field by field")
}

/// The request with other values where its field leaves them unused.
fn with_other_unused(random: &mut Random, request: &Request) -> Request {
    let mut other = *request;
    for value in &mut other.values[request.meant().len()..] {
        *value = random.edge(0, 7);
    }
    other
}

/// Values that a request's field leaves unused change no answer.
fn unused_law(
    bench: &impl OneConverter,
    random: &mut Random,
    given: &Converter,
    call: &Call,
    outcome: &Outcome,
) -> Result<(), String> {
    let mut other = call.clone();
    match &mut other {
        Call::RequestWrite { request, .. } | Call::Plan { request, .. } => {
            *request = with_other_unused(random, request);
        }
        _ => return Ok(()),
    }
    ensure(
        calls::perform(bench, *given, &other) == *outcome,
        "values that are not used do not matter",
    )
}

/// What a reader makes of a request that was written.
fn as_read(request: &Request) -> Request {
    let mut read = *request;
    read.values[request.meant().len()..].fill(0);
    read
}

fn request_laws(bench: &impl OneConverter, call: &Call, outcome: &Outcome) -> Result<(), String> {
    match call {
        Call::RequestRead { bytes } => {
            let (_, request, used) = bench.request_read(bytes);
            ensure(used <= bytes.len(), "no more bytes are used than given")?;
            ensure(
                as_read(&request) == request,
                "values that are not read are 0",
            )?;
            let mut buffer = vec![0xA5; used];
            let answer = bench.request_write(request, &mut buffer);
            ensure(answer == (0, used), "what was read can be written")?;
            ensure(buffer == bytes[..used], "writing gives back the bytes read")
        }
        Call::RequestWrite { request, buffer } => {
            let used = outcome.numbers[0] as usize;
            ensure(used <= buffer.len(), "a request lies in its buffer")?;
            ensure(
                bench.request_read(&outcome.buffer) == (0, as_read(request), used),
                "reading gives back what was written",
            )?;
            ensure(
                outcome.buffer[used..] == buffer[used..],
                "bytes past a request stay",
            )
        }
        _ => Ok(()),
    }
}

/// The rail that a code sits on.
pub(crate) fn rail_of(code: i32) -> Rail {
    match code {
        -8_388_608 => Rail::Lowest,
        8_388_607 => Rail::Highest,
        _ => Rail::Neither,
    }
}

/// Reading the sample's own frame gives its codes with their rails, and its
/// comparator bits.
fn sample_law(
    bench: &impl OneConverter,
    given: &Converter,
    after: &Converter,
    codes: &[i32],
    p: u8,
    n: u8,
) -> Result<(), String> {
    ensure(codes.len() == 8, "an accepted sample has eight codes")?;
    for channel in 1..=8 {
        let powered_down = given.registers[4 + channel] >= 0x80;
        let shown = if powered_down { 0 } else { codes[channel - 1] };
        let bit = channel - 1;
        let (own_p, own_n) = (p >> bit & 1 == 1, n >> bit & 1 == 1);
        let expected = (0, shown, rail_of(shown), own_p, own_n);
        let owner = u32::from(after.owners[bit]);
        let reading = bench.read_channel(*after, owner, channel as u32, &after.latest);
        ensure(
            reading == expected,
            "a frame reads as the sample it was built from",
        )?;
    }
    Ok(())
}

/// A code at an end of its range comes with that end, every other code and
/// every refusal with neither.
fn rail_law(refusal: u8, code: i32, rail: Rail) -> Result<(), String> {
    let expected = match refusal {
        0 => rail_of(code),
        _ => Rail::Neither,
    };
    ensure(rail == expected, "a rail is that of the code read")
}

/// A channel's three bytes in a frame, or none of them.
fn part_of(refusal: u8, channel: u32) -> Range<usize> {
    match refusal {
        0 => 3 * channel as usize..3 * channel as usize + 3,
        _ => 0..0,
    }
}

/// The frame with all else changed that a channel's reading may not look at.
pub(crate) fn changed_around(random: &mut Random, channel: u32, frame: &[u8]) -> Vec<u8> {
    let mut other = frame.to_vec();
    random.fill(&mut other);
    if random.flag() {
        calls::plant_ends(random, &mut other);
    }
    for (index, byte) in other.iter_mut().enumerate() {
        let kept = kept_bits(channel, index);
        *byte = frame[index] & kept | *byte & !kept;
    }
    other
}

/// A reading depends on the owners and the channel's own part of the frame.
fn reading_law(
    bench: &impl OneConverter,
    random: &mut Random,
    c: &Converter,
    call: &Call,
) -> Result<(), String> {
    let (Call::ReadChannel {
        party,
        channel,
        frame,
    }
    | Call::ChannelBytes {
        party,
        channel,
        frame,
    }) = call
    else {
        return Ok(());
    };
    let reading = bench.read_channel(*c, *party, *channel, frame);
    rail_law(reading.0, reading.1, reading.2)?;
    let part = bench.channel_bytes(*c, *party, *channel, frame);
    ensure(
        part == part_of(reading.0, *channel),
        "the part is the channel's three bytes, or empty",
    )?;
    if bench.deselect(*c).0 != 0 {
        return Ok(());
    }
    let other = changed_around(random, *channel, frame);
    let mut state = crate::states::valid(random);
    state.owners = c.owners;
    ensure(
        bench.read_channel(state, *party, *channel, &other) == reading
            && bench.channel_bytes(state, *party, *channel, &other) == part,
        "a reading does not depend on other channels or on the rest of the state",
    )
}

/// Which bits of a frame byte a channel's reading may look at.
fn kept_bits(channel: u32, index: usize) -> u8 {
    let mut kept = if index == 0 { 0xF0 } else { 0 };
    if !(1..=8).contains(&channel) {
        return kept;
    }
    let channel = channel as usize;
    if index / 3 == channel {
        kept = 0xFF;
    }
    // Bits of the frame, counted from its first: P's bit 7 is number 4.
    for position in [4 + (8 - channel), 12 + (8 - channel)] {
        if position / 8 == index {
            kept |= 0x80 >> (position % 8);
        }
    }
    kept
}

/// 32 zero bytes end any command, and no later zero byte opens one.
fn waiting_law(bench: &impl OneConverter, c: &Converter) -> Result<(), String> {
    let mut state = *c;
    let mut waiting = state.phase == Phase::Waiting;
    for _ in 0..34 {
        let before = waiting;
        state = send(bench, state, &[0])
            .ok_or("a sound state takes zero bytes")?
            .1;
        waiting = state.phase == Phase::Waiting;
        ensure(waiting || !before, "a zero byte opens no command")?;
    }
    let after = send(bench, *c, &[0; 32])
        .ok_or("a sound state takes zero bytes")?
        .1;
    ensure(
        after.phase == Phase::Waiting,
        "32 zero bytes bring it back to waiting",
    )
}

fn check_call(
    bench: &impl OneConverter,
    random: &mut Random,
    given: &Converter,
    call: &Call,
    outcome: &Outcome,
) -> Result<(), String> {
    reading_law(bench, random, given, call)?;
    unused_law(bench, random, given, call, outcome)?;
    match outcome.refusal {
        Some(0) => {}
        Some(_) => return refused_alone(given, call, outcome),
        None => return Ok(()),
    }
    let changes_state = !matches!(
        call,
        Call::ReadChannel { .. } | Call::RequestRead { .. } | Call::RequestWrite { .. }
    );
    if changes_state {
        ensure(
            bench.deselect(outcome.state).0 == 0,
            "an accepted call leaves a sound state",
        )?;
        if random.chance(5) {
            waiting_law(bench, &outcome.state)?;
        }
    }
    match call {
        Call::Plan {
            party,
            request,
            tx,
            at,
        } => {
            plan_law(bench, given, outcome, tx, *at)?;
            whole_channel_law(bench, given, &outcome.state, *party, request)
        }
        Call::Sample { codes, p, n } => sample_law(bench, given, &outcome.state, codes, *p, *n),
        _ => request_laws(bench, call, outcome),
    }
}

/// Makes `calls` calls and checks each.
pub(crate) fn hold<D: Driver>(
    (calls, seed): (u64, u64),
    perform: impl Fn(D::State, &D::Call) -> Outcome<D::State>,
    check: impl Fn(&mut Random, &D::State, &D::Call, &Outcome<D::State>) -> Result<(), String>,
) -> Result<(), String> {
    let mut sessions = Sessions::<D>::new(seed);
    let mut state = None;
    for index in 0..calls {
        let (fresh, call) = sessions.next(state.as_ref());
        let given = fresh.or(state).expect("the first call begins a session");
        let outcome = perform(given, &call);
        check(&mut sessions.random, &given, &call, &outcome).map_err(|law| {
            format!("seed {seed:#x}, call {index}: broken law: {law}\n {call:x?}\n on {given:x?}\n gave {outcome:x?}")
        })?;
        sessions.heed(&outcome);
        state = Some(outcome.state);
    }
    Ok(())
}

/// Makes `calls` random calls and checks every law that applies to each.
pub fn check(bench: &impl OneConverter, calls: u64, seed: u64) -> Result<(), String> {
    hold::<OneDriver>(
        (calls, seed),
        |state, call| calls::perform(bench, state, call),
        |random, given, call, outcome| check_call(bench, random, given, call, outcome),
    )
}
