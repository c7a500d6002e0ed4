//! Laws that tie an implementation's answers for a bench to each other and to
//! its answers for one converter, checked on random calls.

use std::ops::Range;

use super::calls::{self, BenchCall, FrameRead};
use super::compare::BenchDriver;
use super::states::{self, with};
use super::{FourConverters, CONVERTERS};
use crate::calls::{filled, Call, Outcome, NUMBERS};
use crate::laws::{changed_around, ensure, hold, rail_of, replies};
use crate::random::Random;
use crate::{cells, Bench, OneConverter, Phase, Rail, Request};

/// Sends bytes to one converter; `None` if one is refused.
pub(crate) fn send(
    bench: &impl FourConverters,
    b: Bench,
    number: u32,
    bytes: &[u8],
) -> Option<(Vec<u8>, Bench)> {
    replies(b, bytes, |state, byte| bench.step(state, number, byte))
}

/// A refusal changes nothing and tells nothing but its number.
fn refused_alone(given: &Bench, call: &BenchCall, outcome: &Outcome<Bench>) -> Result<(), String> {
    ensure(
        outcome.numbers == [0; NUMBERS],
        "a refusal tells only its number",
    )?;
    match call {
        BenchCall::PowerUp { .. } => {
            let [first, others @ ..] = outcome.state.converters;
            let alike = others.iter().all(|other| *other == first);
            ensure(
                alike && first.registers[0] == 0,
                "a refused power-up shows four IDs 00",
            )
        }
        BenchCall::Plan { tx, .. } => {
            ensure(outcome.state == *given, "a refused plan leaves the bench")?;
            ensure(
                outcome.buffer == *tx,
                "a refused plan leaves the transmit buffer",
            )
        }
        _ => ensure(outcome.state == *given, "a refused call leaves the bench"),
    }
}

/// The converter a call is for, and the call's channel there: 9, which no
/// converter has, where the channel is none's or the frame another's. `None`
/// where the call has a number alone, and it is none's.
fn place(call: &BenchCall) -> Option<(usize, u32)> {
    let Some(channel) = call.channel() else {
        return Some((call.converter()?, 0));
    };
    let (converter, local) = cells::locate(CONVERTERS, channel).unwrap_or((0, 9));
    match call {
        BenchCall::ReadChannel(read) | BenchCall::ChannelBytes(read)
            if read.number as usize != converter =>
        {
            Some((converter, 9))
        }
        _ => Some((converter, local)),
    }
}

/// The call as a converter alone would have it, with its own channel; `None`
/// for a power-up.
fn alone(call: &BenchCall, channel: u32) -> Option<Call> {
    Some(match call.clone() {
        BenchCall::PowerUp { .. } => return None,
        BenchCall::Step { byte, .. } => Call::Step { byte },
        BenchCall::Deselect { .. } => Call::Deselect,
        BenchCall::Sample { codes, p, n, .. } => Call::Sample { codes, p, n },
        BenchCall::Grant {
            caller, receiver, ..
        } => Call::Grant {
            caller,
            receiver,
            channel,
        },
        BenchCall::ReadChannel(FrameRead { party, frame, .. }) => Call::ReadChannel {
            party,
            channel,
            frame,
        },
        BenchCall::ChannelBytes(FrameRead { party, frame, .. }) => Call::ChannelBytes {
            party,
            channel,
            frame,
        },
        BenchCall::Plan {
            party,
            request,
            tx,
            at,
        } => {
            let request = Request { channel, ..request };
            Call::Plan {
                party,
                request,
                tx,
                at,
            }
        }
    })
}

/// What a call on a sound bench must come to, by its converter alone.
fn by_one_converter(one: &impl OneConverter, given: &Bench, call: &BenchCall) -> Outcome<Bench> {
    let mut expected = Outcome::on(*given);
    let place = place(call);
    let call_alone = place.and_then(|(_, channel)| alone(call, channel));
    let (Some((number, _)), Some(alone)) = (place, call_alone) else {
        expected.refusal = Some(5);
        return expected;
    };
    let outcome = crate::calls::perform(one, given.converters[number], &alone);
    expected.refusal = outcome.refusal;
    expected.numbers = outcome.numbers;
    if matches!(call, BenchCall::Plan { .. }) && outcome.refusal == Some(0) {
        expected.numbers = filled([number as i64, outcome.numbers[0]]);
    }
    expected.buffer = outcome.buffer;
    expected.state = with(given, number, outcome.state);
    expected
}

/// A bench powers up as its converters do, or as four with ID 00.
fn power_up_law(
    one: &impl OneConverter,
    ids: [u8; CONVERTERS],
    outcome: &Outcome<Bench>,
) -> Result<(), String> {
    let answers = ids.map(|id| one.power_up(id));
    let refusal = answers.iter().map(|answer| answer.0).max();
    let converters = match refusal {
        Some(0) => answers.map(|answer| answer.1),
        _ => [one.power_up(0).1; CONVERTERS],
    };
    ensure(
        (outcome.refusal, outcome.state) == (refusal, Bench { converters }),
        "a bench powers up as its converters do, or as four refused ones",
    )
}

/// 13 exactly where one of the converters alone gets it, and otherwise what the
/// named converter alone answers.
fn one_converter_law(
    bench: &impl FourConverters,
    given: &Bench,
    call: &BenchCall,
    outcome: &Outcome<Bench>,
) -> Result<(), String> {
    let one = bench.one();
    if let BenchCall::PowerUp { ids } = call {
        return power_up_law(one, *ids, outcome);
    }
    let sound = given.converters.iter().all(|&c| one.deselect(c).0 == 0);
    if sound {
        return ensure(
            *outcome == by_one_converter(one, given, call),
            "a bench answers as its converter alone",
        );
    }
    let refused = match call {
        BenchCall::ChannelBytes(_) => outcome.numbers == [0; NUMBERS],
        _ => outcome.refusal == Some(13),
    };
    ensure(
        refused,
        "a converter that is refused alone refuses the bench",
    )
}

/// A call changes no converter but its own, and no owner but a grant's.
fn others_law(given: &Bench, call: &BenchCall, after: &Bench) -> Result<(), String> {
    let own = call.converter().ok_or("an accepted call is for one")?;
    for number in 0..CONVERTERS {
        let (before, after) = (&given.converters[number], &after.converters[number]);
        ensure(
            number == own || before == after,
            "a call leaves the other converters",
        )?;
        ensure(
            before.owners == after.owners || matches!(call, BenchCall::Grant { .. }),
            "only a grant changes an owner",
        )?;
    }
    Ok(())
}

/// A grant changes the one owner and nothing else.
fn grant_law(given: &Bench, channel: u32, receiver: u32, after: &Bench) -> Result<(), String> {
    let mut owners: Vec<u8> = given.converters.iter().flat_map(|c| c.owners).collect();
    let owner = owners.get_mut(channel as usize - 1);
    *owner.ok_or("a grant is of one of 32 channels")? = receiver as u8;
    let mut expected = *given;
    for (c, owners) in expected.converters.iter_mut().zip(owners.chunks(8)) {
        c.owners.copy_from_slice(owners);
    }
    ensure(*after == expected, "a grant changes one of the 32 owners")
}

/// A plan lies where it was asked for, and its bytes, sent to the converter
/// that the answer names, lead to the bench that it names. The line may then
/// rise.
fn plan_law(
    bench: &impl FourConverters,
    given: &Bench,
    outcome: &Outcome<Bench>,
    tx: &[u8],
    at: usize,
) -> Result<(), String> {
    let number = outcome.numbers[0] as u32;
    let end = at
        .checked_add(outcome.numbers[1] as usize)
        .filter(|&end| end <= tx.len())
        .ok_or("a plan lies in the transmit buffer")?;
    ensure(
        outcome.buffer[..at] == tx[..at] && outcome.buffer[end..] == tx[end..],
        "bytes around a plan stay",
    )?;
    let bytes = &outcome.buffer[at..end];
    let (_, after) = send(bench, *given, number, bytes).ok_or("a plan can be sent")?;
    ensure(
        after == outcome.state,
        "the bench after a plan is that of its bytes",
    )?;
    ensure(
        bench.deselect(after, number) == (0, after),
        "the rise of a plan's line after it changes nothing",
    )
}

/// Its own channels read as sampled, by the converter's number and no other.
fn sample_law(
    bench: &impl FourConverters,
    (number, given, after): (usize, &Bench, &Bench),
    codes: &[i32],
    [p, n]: [u8; 2],
) -> Result<(), String> {
    ensure(codes.len() == 8, "an accepted sample has eight codes")?;
    let c = after.converters[number];
    for (place, &code) in codes.iter().enumerate() {
        let powered_down = given.converters[number].registers[5 + place] >= 0x80;
        let shown = if powered_down { 0 } else { code };
        let (own_p, own_n) = (p >> place & 1 == 1, n >> place & 1 == 1);
        let channel = (8 * number + place + 1) as u32;
        let owner = u32::from(c.owners[place]);
        let read = |by: u32| bench.read_channel(*after, by, owner, channel, &c.latest);
        ensure(
            read(number as u32) == (0, shown, rail_of(shown), own_p, own_n),
            "a frame reads as the sample it was built from",
        )?;
        let others = (0..8).chain([256 + number as u32, u32::MAX]);
        let mut others = others.filter(|&other| other != number as u32);
        ensure(
            others.all(|other| read(other).0 == 5),
            "no other number than its converter's reads a frame",
        )?;
    }
    Ok(())
}

/// Both answers to a reading.
fn both_readings(
    bench: &impl FourConverters,
    b: Bench,
    read: &FrameRead,
    frame: &[u8],
) -> ((u8, i32, Rail, bool, bool), Range<usize>) {
    let FrameRead {
        number,
        party,
        channel,
        ..
    } = *read;
    (
        bench.read_channel(b, number, party, channel, frame),
        bench.channel_bytes(b, number, party, channel, frame),
    )
}

/// A reading depends on the channel's owner, the converter's number and the
/// channel's own part of the frame.
fn reading_law(
    bench: &impl FourConverters,
    random: &mut Random,
    given: &Bench,
    call: &BenchCall,
) -> Result<(), String> {
    let (BenchCall::ReadChannel(read) | BenchCall::ChannelBytes(read)) = call else {
        return Ok(());
    };
    let Some((converter, local @ 1..)) = cells::locate(CONVERTERS, read.channel) else {
        return Ok(());
    };
    let (reading, part) = both_readings(bench, *given, read, &read.frame);
    let expected = match reading.0 {
        0 => 3 * local as usize..3 * local as usize + 3,
        _ => 0..0,
    };
    ensure(
        part == expected,
        "the part is the channel's three bytes, or empty",
    )?;
    if reading.0 == 13 {
        return Ok(());
    }
    let (mut other, place) = (states::valid(random), local as usize - 1);
    other.converters[converter].owners[place] = given.converters[converter].owners[place];
    let around = changed_around(random, local, &read.frame);
    ensure(
        both_readings(bench, other, read, &around) == (reading, part),
        "a reading does not depend on the rest of the bench and of the frame",
    )
}

/// Bytes for two converters may come in either order.
fn lines_law(
    bench: &impl FourConverters,
    random: &mut Random,
    given: &Bench,
    (number, byte): (u32, u8),
) -> Result<(), String> {
    let other = (number + random.between(1, 3) as u32) % 4;
    let another = random.pick(&[0x00, 0x06, 0x11, 0x12, 0x20, 0x45]);
    let both = |first: (u32, u8), second: (u32, u8)| {
        let (_, out_first, b) = bench.step(*given, first.0, first.1);
        let (_, out_second, b) = bench.step(b, second.0, second.1);
        (out_first, out_second, b)
    };
    let (out, out_other, b) = both((number, byte), (other, another));
    ensure(
        both((other, another), (number, byte)) == (out_other, out, b),
        "bytes on two lines leave each other alone",
    )
}

/// 32 zero bytes end any command of a converter, and leave the others.
fn waiting_law(bench: &impl FourConverters, b: &Bench, number: usize) -> Result<(), String> {
    let zeros = send(bench, *b, number as u32, &[0; 32]);
    let after = zeros.ok_or("a sound bench takes zero bytes")?.1;
    ensure(
        after.converters[number].phase == Phase::Waiting,
        "32 zero bytes bring a converter back to waiting",
    )?;
    let back = with(&after, number, b.converters[number]);
    ensure(back == *b, "zero bytes for a converter leave the others")
}

/// What holds of every accepted call that hands back a bench.
fn after_law(
    bench: &impl FourConverters,
    random: &mut Random,
    after: &Bench,
) -> Result<(), String> {
    for number in 0..CONVERTERS as u32 {
        ensure(
            bench.deselect(*after, number).0 == 0,
            "an accepted call leaves a sound bench",
        )?;
    }
    if random.chance(5) {
        waiting_law(bench, after, random.below(CONVERTERS))?;
    }
    Ok(())
}

fn accepted_law(
    bench: &impl FourConverters,
    random: &mut Random,
    given: &Bench,
    call: &BenchCall,
    outcome: &Outcome<Bench>,
) -> Result<(), String> {
    let after = &outcome.state;
    if !matches!(call, BenchCall::PowerUp { .. }) {
        others_law(given, call, after)?;
    }
    if !matches!(call, BenchCall::ReadChannel(_)) {
        after_law(bench, random, after)?;
    }
    match call {
        BenchCall::Plan { tx, at, .. } => plan_law(bench, given, outcome, tx, *at),
        BenchCall::Grant {
            receiver, channel, ..
        } => grant_law(given, *channel, *receiver, after),
        BenchCall::Sample {
            number,
            codes,
            p,
            n,
        } => sample_law(bench, (*number as usize, given, after), codes, [*p, *n]),
        BenchCall::Step { number, byte } => lines_law(bench, random, given, (*number, *byte)),
        _ => Ok(()),
    }
}

fn check_call(
    bench: &impl FourConverters,
    random: &mut Random,
    given: &Bench,
    call: &BenchCall,
    outcome: &Outcome<Bench>,
) -> Result<(), String> {
    reading_law(bench, random, given, call)?;
    match outcome.refusal {
        Some(0) => accepted_law(bench, random, given, call, outcome)?,
        Some(_) => refused_alone(given, call, outcome)?,
        None => {}
    }
    one_converter_law(bench, given, call, outcome)
}

/// Makes `calls` random calls and checks every law that applies to each.
pub fn check(bench: &impl FourConverters, calls: u64, seed: u64) -> Result<(), String> {
    hold::<BenchDriver>(
        (calls, seed),
        |state, call| calls::perform(bench, state, call),
        |random, given, call, outcome| check_call(bench, random, given, call, outcome),
    )
}
