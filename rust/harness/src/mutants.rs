//! Wrong implementations: the model with one thing spoilt in each.

use std::cell::Cell;
use std::ops::Range;

use crate::laws::rail_of;
use crate::{cells, Converter, Model, OneConverter, Phase, Rail, Request, Transfer, WHOLE_CHANNEL};

#[derive(Clone, Copy, Debug, PartialEq, Eq)]
pub enum Fault {
    // Wrong builds that look reasonable.
    ZeroFilledNegativeCode,
    ResetKeepsMode,
    StartKeepsOutput,
    SecondByteDecodedAgain,
    SharedRegisterFromPowerUp,
    ValueBeforeOwner,
    RoomTestWraps,
    LeadOffBitFromTheLeft,
    GrantWritesNeighbour,
    CountAlwaysTwo,
    // Rarer ones.
    AddressInFiveBits,
    AddressSumInEightBits,
    HeldCountJudged,
    CodesBeforeStopped,
    PoweredDownCodeUnchecked,
    AdministratorReadsAll,
    CodeLeaksOnRefusal,
    NewestFrameStartsOver,
    PartyCutToByte,
    PlaceCutTo32Bits,
    WriterStartsBeforeJudging,
    StandbyStopsConverting,
    InputLimitOneShort,
    SamplePlacedThroughMask,
    RefusedPlanLengthKept,
    // Those of requests for a whole channel.
    WholeChannelUnknown,
    WholeChannelShared,
    ChannelValuesBeforeOwner,
    ChannelRoomOfOneField,
    ChannelRunFromPowerUp,
    ChannelRunOfSix,
    ChannelInSixWrites,
    EightValuesJudged,
    NinthValueInEighthRegister,
    StateAfterEightFields,
    NineValuesOnlyForChannels,
    EightValuesRead,
    UnreadValuesRepeatTheFirst,
    WriterJudgesFirstValueAlone,
    WriterJudgesUnusedValues,
    PlannerJudgesUnusedValues,
    // Those of fresh channel registers.
    ChannelsPowerUpAt60h,
    LastChannelFreshAt60h,
    ResetChannelsTo60h,
    RefusedPowerUpAt60h,
    // Those of codes on the rail.
    BelowHighestOnTheRail,
    AboveLowestOnTheRail,
    EndsExchanged,
    RefusedAtTheHighest,
    RailLeaksOnRefusal,
    RailOfTheNeighbour,
    RailBeforePowerDown,
    RailOffOncePoweredDown,
    NeverOnTheRail,
}

pub const LIKELY: [Fault; 10] = [
    Fault::ZeroFilledNegativeCode,
    Fault::ResetKeepsMode,
    Fault::StartKeepsOutput,
    Fault::SecondByteDecodedAgain,
    Fault::SharedRegisterFromPowerUp,
    Fault::ValueBeforeOwner,
    Fault::RoomTestWraps,
    Fault::LeadOffBitFromTheLeft,
    Fault::GrantWritesNeighbour,
    Fault::CountAlwaysTwo,
];

pub const RARER: [Fault; 15] = [
    Fault::AddressInFiveBits,
    Fault::AddressSumInEightBits,
    Fault::HeldCountJudged,
    Fault::CodesBeforeStopped,
    Fault::PoweredDownCodeUnchecked,
    Fault::AdministratorReadsAll,
    Fault::CodeLeaksOnRefusal,
    Fault::NewestFrameStartsOver,
    Fault::PartyCutToByte,
    Fault::PlaceCutTo32Bits,
    Fault::WriterStartsBeforeJudging,
    Fault::StandbyStopsConverting,
    Fault::InputLimitOneShort,
    Fault::SamplePlacedThroughMask,
    Fault::RefusedPlanLengthKept,
];

pub const WHOLE_CHANNELS: [Fault; 16] = [
    Fault::WholeChannelUnknown,
    Fault::WholeChannelShared,
    Fault::ChannelValuesBeforeOwner,
    Fault::ChannelRoomOfOneField,
    Fault::ChannelRunFromPowerUp,
    Fault::ChannelRunOfSix,
    Fault::ChannelInSixWrites,
    Fault::EightValuesJudged,
    Fault::NinthValueInEighthRegister,
    Fault::StateAfterEightFields,
    Fault::NineValuesOnlyForChannels,
    Fault::EightValuesRead,
    Fault::UnreadValuesRepeatTheFirst,
    Fault::WriterJudgesFirstValueAlone,
    Fault::WriterJudgesUnusedValues,
    Fault::PlannerJudgesUnusedValues,
];

pub const FRESH_CHANNELS: [Fault; 4] = [
    Fault::ChannelsPowerUpAt60h,
    Fault::LastChannelFreshAt60h,
    Fault::ResetChannelsTo60h,
    Fault::RefusedPowerUpAt60h,
];

pub const RAILS: [Fault; 9] = [
    Fault::BelowHighestOnTheRail,
    Fault::AboveLowestOnTheRail,
    Fault::EndsExchanged,
    Fault::RefusedAtTheHighest,
    Fault::RailLeaksOnRefusal,
    Fault::RailOfTheNeighbour,
    Fault::RailBeforePowerDown,
    Fault::RailOffOncePoweredDown,
    Fault::NeverOnTheRail,
];

/// Every fault.
pub fn all() -> impl Iterator<Item = Fault> {
    let base = LIKELY.into_iter().chain(RARER);
    let requests = base.chain(WHOLE_CHANNELS);
    requests.chain(FRESH_CHANNELS).chain(RAILS)
}

/// A frame and the codes it was built from.
type Sampled = ([u8; 27], [i32; 8]);

/// The model with a fault.
#[derive(Clone, Debug)]
pub struct Mutant {
    fault: Fault,
    /// Of the latest accepted sample: a state holds no codes.
    sampled: Cell<Option<Sampled>>,
}

impl Mutant {
    pub fn new(fault: Fault) -> Mutant {
        Mutant {
            fault,
            sampled: Cell::new(None),
        }
    }

    fn has(&self, fault: Fault) -> bool {
        self.fault == fault
    }
}

/// What the party would read were the channel its own.
fn read_as_owner(
    c: Converter,
    party: u32,
    channel: u32,
    frame: &[u8],
) -> (u8, i32, Rail, bool, bool) {
    let mut owned = c;
    if (1..=8).contains(&channel) {
        owned.owners[channel as usize - 1] = party.min(8) as u8;
    }
    Model.read_channel(owned, party, channel, frame)
}

/// The state without a command whose address and count sum past 255.
fn without_wrapping_sum(c: Converter) -> Converter {
    match c.phase {
        Phase::Counting(t) if u32::from(t.address) + u32::from(t.remaining) > 255 => Converter {
            phase: Phase::Waiting,
            ..c
        },
        _ => c,
    }
}

/// The plan's bytes and the state after it, were there room.
fn unhindered(c: Converter, party: u32, request: Request) -> (Vec<u8>, Converter) {
    let mut spare = [0; 14];
    let (_, length, after) = Model.plan(c, party, request, &mut spare, 0);
    (spare[..length].to_vec(), after)
}

/// A whole channel's request that names no channel, read as if it had one
/// value.
fn three_numbers(bytes: &[u8]) -> Option<(u8, Request, usize)> {
    let mut single = bytes.to_vec();
    let first = single.first_mut()?;
    if u32::from(*first) != WHOLE_CHANNEL {
        return None;
    }
    *first = 1;
    let (refusal, mut request, used) = Model.request_read(&single);
    request.field = WHOLE_CHANNEL;
    let is_channel = (1..=8).contains(&request.channel);
    (refusal == 0 && !is_channel).then_some((0, request, used))
}

/// Whether the named setting would take the unused values too.
fn unused_values_fit(request: &Request) -> bool {
    cells::named(request)
        .iter()
        .all(|(cell, _)| request.values.iter().all(|&value| cell.admits(value)))
}

/// A whole channel's plan with a command for each register.
fn in_six_writes(c: &Converter, plan: &[u8]) -> Vec<u8> {
    let start = usize::from(c.standby) + usize::from(c.continuous);
    let mut bytes = plan[..start + 3].to_vec();
    for (command, data) in (0x4D..).zip(&plan[start + 5..start + 10]) {
        bytes.extend([command, 0x00, *data]);
    }
    bytes.extend(&plan[start + 10..]);
    bytes
}

/// Lays bytes into a buffer from a place on, as far as they go.
fn lay(bytes: &[u8], tx: &mut [u8], at: usize) {
    for (target, byte) in tx.iter_mut().skip(at).zip(bytes) {
        *target = *byte;
    }
}

impl Mutant {
    fn plan_whole_channel(
        &self,
        c: Converter,
        party: u32,
        mut request: Request,
        tx: &mut [u8],
        at: usize,
    ) -> (u8, usize, Converter) {
        match self.fault {
            // Judged as a number that no field has, and as a shared field's.
            Fault::WholeChannelUnknown => request.field = 31,
            Fault::WholeChannelShared => request.field = 10,
            _ => {}
        }
        let room = tx.len().saturating_sub(at);
        let start = usize::from(c.standby) + usize::from(c.continuous);
        let (refusal, length, mut after) = Model.plan(c, party, request, tx, at);
        match (self.fault, refusal) {
            (Fault::ChannelValuesBeforeOwner, 6) if !cells::admitted(&request) => {
                return (7, 0, c);
            }
            (Fault::ChannelRoomOfOneField, 9) if room >= 3 + 2 * start => {
                let (bytes, after) = unhindered(c, party, request);
                lay(&bytes, tx, at);
                return (0, bytes.len(), after);
            }
            (Fault::ChannelRunFromPowerUp, 0) => {
                let run = 0x0D..=0x11;
                let mut wiped = c;
                wiped.registers[run.clone()].copy_from_slice(&model::registers::POWER_UP[run]);
                return Model.plan(wiped, party, request, tx, at);
            }
            (Fault::ChannelRunOfSix, 0) => tx[at + start + 4] = 5,
            (Fault::ChannelInSixWrites, 0) => {
                let bytes = in_six_writes(&c, &tx[at..at + length]);
                lay(&bytes, tx, at);
                return (0, bytes.len(), after);
            }
            (Fault::EightValuesJudged, 7) => {
                request.values[8] &= 1;
                return Model.plan(c, party, request, tx, at);
            }
            (Fault::NinthValueInEighthRegister, 0) => {
                request.values[7] = request.values[8];
                request.values[8] = u32::from(c.registers[0x11] >> (request.channel - 1) & 1);
                return Model.plan(c, party, request, tx, at);
            }
            (Fault::StateAfterEightFields, 0) => after.registers[0x11] = c.registers[0x11],
            _ => {}
        }
        (refusal, length, after)
    }

    /// The answer to a sample.
    fn sample_answer(&self, c: Converter, codes: &[i32], p: u8, n: u8) -> (u8, Converter) {
        let (refusal, mut next) = Model.sample(c, codes, p, n);
        match (self.fault, refusal) {
            (Fault::CodesBeforeStopped, 10) => {
                let running = Converter {
                    converting: true,
                    standby: false,
                    ..c
                };
                let refusal = Model.sample(running, codes, p, n).0;
                (if refusal == 11 { 11 } else { 10 }, c)
            }
            (Fault::PoweredDownCodeUnchecked, 11) if codes.len() == 8 => {
                let unmasked: Vec<i32> = (0..8)
                    .map(|index| {
                        if c.registers[5 + index] >= 0x80 {
                            0
                        } else {
                            codes[index]
                        }
                    })
                    .collect();
                Model.sample(c, &unmasked, p, n)
            }
            (Fault::SamplePlacedThroughMask, 0) => {
                next.registers[0x12..=0x13].copy_from_slice(&c.registers[0x12..=0x13]);
                (0, next)
            }
            _ => (refusal, next),
        }
    }

    /// The rail in the answer to a reading.
    fn rail(&self, c: Converter, party: u32, channel: u32, frame: &[u8]) -> Rail {
        let (refusal, code, rail, ..) = Model.read_channel(c, party, channel, frame);
        let place = channel.wrapping_sub(1) as usize;
        match (self.fault, refusal) {
            (Fault::BelowHighestOnTheRail, 0) if code == 8_388_606 => Rail::Highest,
            (Fault::AboveLowestOnTheRail, 0) if code == -8_388_607 => Rail::Lowest,
            (Fault::EndsExchanged, 0) => match rail {
                Rail::Neither => Rail::Neither,
                Rail::Lowest => Rail::Highest,
                Rail::Highest => Rail::Lowest,
            },
            (Fault::RefusedAtTheHighest, 1..) => Rail::Highest,
            (Fault::RailLeaksOnRefusal, 6) => read_as_owner(c, party, channel, frame).2,
            (Fault::RailOfTheNeighbour, 0) => read_as_owner(c, party, channel % 8 + 1, frame).2,
            (Fault::RailBeforePowerDown, 0) => match self.sampled.get() {
                Some((built, codes)) if built[..] == *frame => rail_of(codes[place]),
                _ => rail,
            },
            (Fault::RailOffOncePoweredDown, 0) if c.registers[5 + place] >= 0x80 => Rail::Neither,
            (Fault::NeverOnTheRail, _) => Rail::Neither,
            _ => rail,
        }
    }
}

impl OneConverter for Mutant {
    fn power_up(&self, id: u8) -> (u8, Converter) {
        let (refusal, mut c) = Model.power_up(id);
        match (self.fault, refusal) {
            (Fault::ChannelsPowerUpAt60h, 0) => c.registers[5..13].fill(0x60),
            (Fault::LastChannelFreshAt60h, _) => c.registers[12] = 0x60,
            (Fault::RefusedPowerUpAt60h, 13) => c.registers[5..13].fill(0x60),
            _ => {}
        }
        (refusal, c)
    }

    fn step(&self, c: Converter, byte: u8) -> (u8, u8, Converter) {
        let (refusal, out, mut next) = Model.step(c, byte);
        if refusal != 0 {
            return (refusal, out, next);
        }
        let idle = Model.step(c, 0x00).2;
        let waiting = c.phase == Phase::Waiting;
        match (self.fault, c.phase) {
            (Fault::ResetKeepsMode, Phase::Waiting) if byte == 0x06 => {
                next.continuous = c.continuous;
            }
            (Fault::ResetChannelsTo60h, Phase::Waiting) if byte == 0x06 && !c.standby => {
                next.registers[5..13].fill(0x60);
            }
            (Fault::LastChannelFreshAt60h, Phase::Waiting) if byte == 0x06 && !c.standby => {
                next.registers[12] = 0x60;
            }
            (Fault::StartKeepsOutput, Phase::Waiting) if byte == 0x08 => {
                next.output = idle.output;
            }
            (Fault::SecondByteDecodedAgain, Phase::Held(_)) if byte > 31 => {
                return Model.step(
                    Converter {
                        phase: Phase::Waiting,
                        ..c
                    },
                    byte,
                );
            }
            (Fault::HeldCountJudged, Phase::Held(t)) if t.remaining > 32 => return (13, 0, c),
            (Fault::StandbyStopsConverting, Phase::Waiting) if byte == 0x04 && !c.standby => {
                next.converting = false;
            }
            _ => {}
        }
        if self.has(Fault::AddressInFiveBits) {
            if let Phase::Counting(t) = next.phase {
                next.phase = Phase::Counting(Transfer {
                    address: t.address & 0x1F,
                    ..t
                });
            }
        }
        let started_over = waiting && c.output == Some(26) && next.output == Some(0);
        if self.has(Fault::NewestFrameStartsOver) && started_over {
            next.shifting = c.latest;
        }
        (refusal, out, next)
    }

    fn deselect(&self, c: Converter) -> (u8, Converter) {
        if self.has(Fault::AddressSumInEightBits) {
            return match Model.deselect(without_wrapping_sum(c)) {
                (0, next) => (0, next),
                (refusal, _) => (refusal, c),
            };
        }
        Model.deselect(c)
    }

    fn sample(&self, c: Converter, codes: &[i32], p: u8, n: u8) -> (u8, Converter) {
        let (refusal, next) = self.sample_answer(c, codes, p, n);
        if let (0, Ok(codes)) = (refusal, codes.try_into()) {
            self.sampled.set(Some((next.latest, codes)));
        }
        (refusal, next)
    }

    fn grant(&self, c: Converter, caller: u32, receiver: u32, channel: u32) -> (u8, Converter) {
        let (refusal, next) = Model.grant(c, caller, receiver, channel);
        if self.has(Fault::GrantWritesNeighbour) && refusal == 0 {
            return Model.grant(c, caller, receiver, channel % 8 + 1);
        }
        (refusal, next)
    }

    fn read_channel(
        &self,
        c: Converter,
        party: u32,
        channel: u32,
        frame: &[u8],
    ) -> (u8, i32, Rail, bool, bool) {
        let (refusal, mut code, _, mut p, mut n) = Model.read_channel(c, party, channel, frame);
        match (self.fault, refusal) {
            (Fault::ZeroFilledNegativeCode, 0) => code &= 0x00FF_FFFF,
            (Fault::LeadOffBitFromTheLeft, 0) => {
                (_, _, _, p, n) = read_as_owner(c, party, 9 - channel, frame);
            }
            (Fault::AdministratorReadsAll, 6) if party == 0 => {
                return read_as_owner(c, party, channel, frame);
            }
            (Fault::CodeLeaksOnRefusal, 6) => {
                code = read_as_owner(c, party, channel, frame).1;
            }
            _ => {}
        }
        (refusal, code, self.rail(c, party, channel, frame), p, n)
    }

    fn channel_bytes(&self, c: Converter, party: u32, channel: u32, frame: &[u8]) -> Range<usize> {
        Model.channel_bytes(c, party, channel, frame)
    }

    fn request_read(&self, bytes: &[u8]) -> (u8, Request, usize) {
        let (refusal, mut request, mut used) = Model.request_read(bytes);
        let whole = request.field == WHOLE_CHANNEL;
        match (self.fault, refusal) {
            (Fault::CountAlwaysTwo, 0) => used = 2,
            (Fault::UnreadValuesRepeatTheFirst, 0) if !whole => {
                request.values = [request.values[0]; 9];
            }
            (Fault::EightValuesRead, 0) if whole => {
                used -= if request.values[8] > 127 { 2 } else { 1 };
                request.values[8] = 0;
            }
            (Fault::NineValuesOnlyForChannels, _) => {
                if let Some(short) = three_numbers(bytes) {
                    return short;
                }
            }
            _ => {}
        }
        (refusal, request, used)
    }

    fn request_write(&self, request: Request, buffer: &mut [u8]) -> (u8, usize) {
        let mut judged = request;
        if self.has(Fault::WriterJudgesFirstValueAlone) {
            judged.values[1..]
                .iter_mut()
                .for_each(|value| *value &= 0x3FFF);
        }
        let overlong = request.values.iter().any(|&value| value > 16_383);
        if self.has(Fault::WriterJudgesUnusedValues) && overlong {
            return (7, 0);
        }
        let answer = Model.request_write(judged, buffer);
        if self.has(Fault::WriterStartsBeforeJudging) && answer.0 == 9 {
            if let Some(first) = buffer.first_mut() {
                *first = request.field as u8 & 0x7F;
            }
        }
        answer
    }

    fn plan(
        &self,
        c: Converter,
        party: u32,
        request: Request,
        tx: &mut [u8],
        at: usize,
    ) -> (u8, usize, Converter) {
        let party = if self.has(Fault::PartyCutToByte) {
            party & 0xFF
        } else {
            party
        };
        let at = if self.has(Fault::PlaceCutTo32Bits) {
            at & 0xFFFF_FFFF
        } else {
            at
        };
        if request.field == WHOLE_CHANNEL && WHOLE_CHANNELS.contains(&self.fault) {
            return self.plan_whole_channel(c, party, request, tx, at);
        }
        let given = tx.to_vec();
        let (refusal, length, after) = Model.plan(c, party, request, tx, at);
        match (self.fault, refusal) {
            (Fault::SharedRegisterFromPowerUp, 0) if (5..=9).contains(&request.field) => {
                let mut wiped = c;
                let register = 0x0D + request.field as usize - 5;
                wiped.registers[register] = model::registers::POWER_UP[register];
                Model.plan(wiped, party, request, tx, at)
            }
            (Fault::PlannerJudgesUnusedValues, 0) if !unused_values_fit(&request) => {
                tx.copy_from_slice(&given);
                (7, 0, c)
            }
            (Fault::ValueBeforeOwner, 6) if !cells::admitted(&request) => (7, length, after),
            (Fault::RoomTestWraps, 9) => {
                let (bytes, after) = unhindered(c, party, request);
                if at.wrapping_add(bytes.len()) <= tx.len() {
                    return (0, bytes.len(), after);
                }
                (9, 0, c)
            }
            (Fault::RefusedPlanLengthKept, 9) => (9, unhindered(c, party, request).0.len(), c),
            _ => (refusal, length, after),
        }
    }

    fn console(&self, input: &[u8]) -> Vec<u8> {
        if self.has(Fault::InputLimitOneShort) && input.len() == 4096 {
            return b"14\n".to_vec();
        }
        Model.console(input)
    }
}
