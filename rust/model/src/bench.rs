//! A bench: four converters on select lines of their own, with 32 channels in
//! all. Its calls are those of one converter with the converter's number
//! beside them; the refusals are written out anew, in the bench's ranges.

use std::ops::Range;

use crate::access::{bytes_of, check_frame, shown};
use crate::fields::{self, Field};
use crate::frame::{self, Rail};
use crate::planner::{admitted, carry_out};
use crate::refusal::{ensure, Refusal};
use crate::request::Request;
use crate::state::{check_party, id_is_legal, Converter, Phase, ADMINISTRATOR, FRAME_LENGTH};

/// How many converters a bench has, numbered from 0.
pub const CONVERTERS: usize = 4;

/// Each converter keeps its own eight owners, in all 32.
#[derive(Clone, Copy, Debug, PartialEq, Eq)]
pub struct Bench {
    pub converters: [Converter; CONVERTERS],
}

/// A channel of the bench: its converter's number, and which of that
/// converter's channels 1 to 8 it is.
#[derive(Clone, Copy, Debug, PartialEq, Eq)]
struct Place {
    converter: usize,
    channel: usize,
}

impl Bench {
    /// Refuses a bench with any converter that no rule may work on.
    fn check(&self) -> Result<(), Refusal> {
        self.converters.iter().try_for_each(Converter::check)
    }

    fn owner(&self, place: Place) -> u32 {
        self.converters[place.converter].owner(place.channel)
    }

    /// The bench with one converter replaced.
    fn with(mut self, number: usize, c: Converter) -> Bench {
        self.converters[number] = c;
        self
    }
}

/// A channel number 1 to 32, by its converter and its number there.
fn check_channel(channel: u32) -> Result<Place, Refusal> {
    let (converter, first) = match channel {
        1..=8 => (0, 1),
        9..=16 => (1, 9),
        17..=24 => (2, 17),
        25..=32 => (3, 25),
        _ => return Err(Refusal::WrongChannel),
    };
    let channel = (channel - first) as usize + 1;
    Ok(Place { converter, channel })
}

/// The converter whose shared fields go by this channel number.
fn check_shared(channel: u32) -> Result<usize, Refusal> {
    match channel {
        0 => Ok(0),
        33 => Ok(1),
        34 => Ok(2),
        35 => Ok(3),
        _ => Err(Refusal::WrongChannel),
    }
}

/// A converter's number, 0 to 3.
fn check_number(number: u32) -> Result<usize, Refusal> {
    ensure(number <= 3, Refusal::WrongChannel)?;
    Ok(number as usize)
}

/// A bench from four IDs; one that is illegal refuses them all, and all are
/// shown as 00.
pub fn power_up(ids: [u8; CONVERTERS]) -> (u8, Bench) {
    let legal = ids.into_iter().all(id_is_legal);
    let (refusal, ids) = if legal {
        (0, ids)
    } else {
        (Refusal::BadState.number(), [0; CONVERTERS])
    };
    let converters = ids.map(Converter::fresh);
    (refusal, Bench { converters })
}

/// What a byte, a select rise and a sample meet first: the converter's number
/// once the bench passes.
fn accept_number(b: &Bench, number: u32) -> Result<usize, Refusal> {
    b.check()?;
    check_number(number)
}

/// Exchanges one byte with a converter: (refusal, byte out, next bench).
pub fn step(b: Bench, number: u32, byte: u8) -> (u8, u8, Bench) {
    match accept_number(&b, number) {
        Ok(number) => {
            let (refusal, out, next) = crate::step::step(b.converters[number], byte);
            (refusal, out, b.with(number, next))
        }
        Err(refusal) => (refusal.number(), 0, b),
    }
}

/// Raises a converter's select line: (refusal, next bench).
pub fn deselect(b: Bench, number: u32) -> (u8, Bench) {
    match accept_number(&b, number) {
        Ok(number) => {
            let (refusal, next) = crate::step::deselect(b.converters[number]);
            (refusal, b.with(number, next))
        }
        Err(refusal) => (refusal.number(), b),
    }
}

/// A converter takes a sample: (refusal, next bench).
pub fn sample(b: Bench, number: u32, codes: &[i32], p: u8, n: u8) -> (u8, Bench) {
    match accept_number(&b, number) {
        Ok(number) => {
            let (refusal, next) = frame::sample(b.converters[number], codes, p, n);
            (refusal, b.with(number, next))
        }
        Err(refusal) => (refusal.number(), b),
    }
}

fn accept_grant(b: &Bench, caller: u32, receiver: u32, channel: u32) -> Result<Place, Refusal> {
    b.check()?;
    check_party(caller)?;
    check_party(receiver)?;
    let place = check_channel(channel)?;
    ensure(caller == ADMINISTRATOR, Refusal::NotOwner)?;
    Ok(place)
}

/// Gives a channel to a party: (refusal, next bench).
pub fn grant(b: Bench, caller: u32, receiver: u32, channel: u32) -> (u8, Bench) {
    match accept_grant(&b, caller, receiver, channel) {
        Ok(place) => {
            let mut next = b;
            // Judged to be at most 8 above.
            next.converters[place.converter].owners[place.channel - 1] = receiver as u8;
            (0, next)
        }
        Err(refusal) => (refusal.number(), b),
    }
}

/// The channel's place and the frame, once the party may read it and the
/// frame is of the channel's converter.
fn accept_reading<'a>(
    b: &Bench,
    number: u32,
    party: u32,
    channel: u32,
    frame: &'a [u8],
) -> Result<(Place, &'a [u8; FRAME_LENGTH]), Refusal> {
    b.check()?;
    check_party(party)?;
    let place = check_channel(channel)?;
    let number = check_number(number)?;
    ensure(number == place.converter, Refusal::WrongChannel)?;
    ensure(b.owner(place) == party, Refusal::NotOwner)?;
    Ok((place, check_frame(frame)?))
}

/// A party's reading of its channel from a frame of converter `number`:
/// (refusal, code, rail, P bit, N bit).
pub fn read_channel(
    b: Bench,
    number: u32,
    party: u32,
    channel: u32,
    frame: &[u8],
) -> (u8, i32, Rail, bool, bool) {
    match accept_reading(&b, number, party, channel, frame) {
        Ok((place, frame)) => {
            let (code, rail, p, n) = shown(frame, place.channel);
            (0, code, rail, p, n)
        }
        Err(refusal) => (refusal.number(), 0, Rail::Neither, false, false),
    }
}

/// Where the party's channel lies in the frame; empty when refused.
pub fn channel_bytes(
    b: Bench,
    number: u32,
    party: u32,
    channel: u32,
    frame: &[u8],
) -> Range<usize> {
    match accept_reading(&b, number, party, channel, frame) {
        Ok((place, _)) => bytes_of(place.channel),
        Err(_) => 0..0,
    }
}

/// The converter a request names and the fields it sets there, once
/// everything but the room is judged.
fn accept_request(
    b: &Bench,
    party: u32,
    request: &Request,
) -> Result<(usize, Vec<Field>), Refusal> {
    b.check()?;
    check_party(party)?;
    let per_channel = fields::per_channel(request.field).ok_or(Refusal::UnknownField)?;
    let (number, owner, fields) = if per_channel {
        let place = check_channel(request.channel)?;
        let fields = fields::of_channel(request.field, place.channel);
        (place.converter, b.owner(place), fields)
    } else {
        let number = check_shared(request.channel)?;
        (number, ADMINISTRATOR, fields::shared(request.field))
    };
    ensure(owner == party, Refusal::NotOwner)?;
    ensure(admitted(&fields, request), Refusal::BadValue)?;
    let waiting = b.converters[number].phase == Phase::Waiting;
    ensure(waiting, Refusal::NotWaiting)?;
    Ok((number, fields))
}

/// Plans a request into the transmit buffer from place `at` on: (refusal,
/// number of the converter that all its bytes are for, plan length, bench
/// after the plan).
pub fn plan(
    b: Bench,
    party: u32,
    request: Request,
    tx: &mut [u8],
    at: usize,
) -> (u8, u32, usize, Bench) {
    let planned = accept_request(&b, party, &request).and_then(|(number, fields)| {
        let (length, after) = carry_out(&b.converters[number], &request, &fields, tx, at)?;
        Ok((number, length, after))
    });
    match planned {
        Ok((number, length, after)) => (0, number as u32, length, b.with(number, after)),
        Err(refusal) => (refusal.number(), 0, 0, b),
    }
}
