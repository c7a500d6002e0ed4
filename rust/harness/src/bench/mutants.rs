//! Wrong implementations of a bench: the model with one thing spoilt in each.

use std::cell::Cell;
use std::ops::Range;

use super::states::with;
use super::{FourConverters, CONVERTERS};
use crate::{cells, Bench, Converter, Model, OneConverter, Phase, Rail, Request, WHOLE_CHANNEL};
use model::bench;

#[derive(Clone, Copy, Debug, PartialEq, Eq)]
pub enum BenchFault {
    // What 13 looks at, and when.
    DamageOfTheNamedAlone,
    DamageOfTheFirstAlone,
    DamageOfTheLastUnseen,
    NumberBeforeDamage,
    ChannelBeforeDamage,
    // Power-up.
    RefusedIdsKept,
    BadIdZeroesItsOwn,
    LastIdUnjudged,
    // Channels and numbers.
    LastOfEachIsNone,
    ThirtyThreeIsAChannel,
    SharedOfTheFirst,
    ThirtySixIsTheLast,
    SharedByAnyChannel,
    ChannelCutToByte,
    NumberModuloFour,
    NumberIgnoredByReadings,
    OwnerOfTheFirst,
    ChannelBeforeParty,
    NumberBeforeParty,
    NumberBehindOwner,
    // Bytes, rises, samples and grants.
    ByteReachesTwo,
    RiseReachesAll,
    SampleReachesTheNext,
    SampleBeforeNumber,
    GrantOnTheFirst,
    SwitchRaisesTheLine,
    StoredInTheNextPlace,
    // Plans.
    WaitingOfAllFour,
    RoomByTheFirst,
    PlanNumberAlwaysZero,
    PlanNumberOnRefusal,
    OtherRegistersCleared,
    RefusedPlanEmptiesOutput,
}

/// Every fault.
pub const ALL: [BenchFault; 33] = [
    BenchFault::DamageOfTheNamedAlone,
    BenchFault::DamageOfTheFirstAlone,
    BenchFault::DamageOfTheLastUnseen,
    BenchFault::NumberBeforeDamage,
    BenchFault::ChannelBeforeDamage,
    BenchFault::RefusedIdsKept,
    BenchFault::BadIdZeroesItsOwn,
    BenchFault::LastIdUnjudged,
    BenchFault::LastOfEachIsNone,
    BenchFault::ThirtyThreeIsAChannel,
    BenchFault::SharedOfTheFirst,
    BenchFault::ThirtySixIsTheLast,
    BenchFault::SharedByAnyChannel,
    BenchFault::ChannelCutToByte,
    BenchFault::NumberModuloFour,
    BenchFault::NumberIgnoredByReadings,
    BenchFault::OwnerOfTheFirst,
    BenchFault::ChannelBeforeParty,
    BenchFault::NumberBeforeParty,
    BenchFault::NumberBehindOwner,
    BenchFault::ByteReachesTwo,
    BenchFault::RiseReachesAll,
    BenchFault::SampleReachesTheNext,
    BenchFault::SampleBeforeNumber,
    BenchFault::GrantOnTheFirst,
    BenchFault::SwitchRaisesTheLine,
    BenchFault::StoredInTheNextPlace,
    BenchFault::WaitingOfAllFour,
    BenchFault::RoomByTheFirst,
    BenchFault::PlanNumberAlwaysZero,
    BenchFault::PlanNumberOnRefusal,
    BenchFault::OtherRegistersCleared,
    BenchFault::RefusedPlanEmptiesOutput,
];

/// The model of a bench with a fault.
#[derive(Clone, Debug)]
pub struct BenchMutant {
    fault: BenchFault,
    /// The line that had the latest byte: a bench has no such thing.
    line: Cell<u32>,
}

/// The converter behind one, in a circle.
fn following(number: u32) -> usize {
    (number as usize + 1) % CONVERTERS
}

/// A converter with an ID that need not be legal.
fn with_id(id: u8) -> Converter {
    let mut c = model::power_up(0x3E).1;
    c.registers[0] = id;
    c
}

/// The converter that a channel number belongs to.
fn converter_of(channel: u32) -> Option<usize> {
    Some(cells::locate(CONVERTERS, channel)?.0)
}

/// The bytes of a request's plan for a converter in these modes.
fn plan_length(c: &Converter, request: &Request) -> usize {
    let writes = if request.field == WHOLE_CHANNEL {
        10
    } else {
        3
    };
    writes + 2 * usize::from(c.standby) + 2 * usize::from(c.continuous)
}

impl BenchMutant {
    pub fn new(fault: BenchFault) -> BenchMutant {
        BenchMutant {
            fault,
            line: Cell::new(0),
        }
    }

    fn has(&self, fault: BenchFault) -> bool {
        self.fault == fault
    }

    /// The bench with the owners that the fault goes by. A bad one is bad
    /// still.
    fn owned(&self, b: &Bench) -> Bench {
        let mut owned = *b;
        let sound = b.converters.iter().all(|c| c.check().is_ok());
        if self.has(BenchFault::OwnerOfTheFirst) && sound {
            let owners = b.converters[0].owners;
            owned.converters.iter_mut().for_each(|c| c.owners = owners);
        }
        owned
    }

    /// The bench as the fault has it: converters that 13 does not look at are
    /// sound.
    fn seen(&self, b: &Bench, named: Option<usize>) -> Bench {
        let looked_at = |number| match self.fault {
            BenchFault::DamageOfTheNamedAlone => named == Some(number),
            BenchFault::DamageOfTheFirstAlone => number == 0,
            BenchFault::DamageOfTheLastUnseen => number != 3,
            _ => true,
        };
        let converters = std::array::from_fn(|number| {
            let c = b.converters[number];
            if c.check().is_ok() || looked_at(number) {
                c
            } else {
                with_id(0x3E)
            }
        });
        Bench { converters }
    }

    /// A call of the model on the bench as seen; what it leaves alone is then
    /// as it was given.
    fn call<A>(
        &self,
        b: Bench,
        named: Option<usize>,
        call: impl FnOnce(Bench) -> (A, Bench),
    ) -> (A, Bench) {
        let seen = self.seen(&b, named);
        let (answer, mut next) = call(seen);
        for (number, c) in next.converters.iter_mut().enumerate() {
            if *c == seen.converters[number] {
                *c = b.converters[number];
            }
        }
        (answer, next)
    }

    /// A converter's number as the fault has it; `None` is refused by 5 with
    /// no look at the bench.
    fn number(&self, number: u32) -> Option<u32> {
        match self.fault {
            BenchFault::NumberModuloFour => Some(number % 4),
            BenchFault::NumberBeforeDamage if number > 3 => None,
            _ => Some(number),
        }
    }

    /// A channel's number as the fault has it.
    fn channel(&self, channel: u32) -> u32 {
        match (self.fault, channel) {
            (BenchFault::LastOfEachIsNone, 8 | 16 | 24 | 32) => 0,
            (BenchFault::ThirtyThreeIsAChannel, 33) => 32,
            (BenchFault::ChannelCutToByte, _) => channel & 0xFF,
            _ => channel,
        }
    }

    /// The same for the number that goes with a shared field.
    fn shared(&self, channel: u32) -> u32 {
        match (self.fault, channel) {
            (BenchFault::SharedOfTheFirst, 33) => 0,
            (BenchFault::ThirtySixIsTheLast, 36) => 35,
            (BenchFault::SharedByAnyChannel, 1..=32) => {
                let converter = (channel as usize - 1) / 8;
                cells::channel_number(CONVERTERS, converter, 0)
            }
            (BenchFault::ChannelCutToByte, _) => channel & 0xFF,
            _ => channel,
        }
    }

    /// A refusal of a call with a channel, as the fault has it.
    fn refusal(&self, refusal: u8, channel: u32) -> u8 {
        let names_none = converter_of(channel).is_none();
        match (self.fault, refusal) {
            (BenchFault::ChannelBeforeDamage, 13) if names_none => 5,
            (BenchFault::ChannelBeforeParty, 3 | 4) if names_none => 5,
            _ => refusal,
        }
    }

    /// An accepted call's next bench as the fault keeps it.
    fn stored(&self, b: &Bench, number: u32, next: Bench) -> Bench {
        if self.has(BenchFault::StoredInTheNextPlace) {
            return with(b, following(number), next.converters[number as usize]);
        }
        next
    }

    /// What a reading is given: bench, number and channel.
    fn for_reading(&self, b: &Bench, number: u32, channel: u32) -> Option<(Bench, u32, u32)> {
        let mut number = self.number(number)?;
        let channel = self.channel(channel);
        if self.has(BenchFault::NumberIgnoredByReadings) {
            number = converter_of(channel).unwrap_or(0) as u32;
        }
        let seen = self.seen(&self.owned(b), converter_of(channel));
        Some((seen, number, channel))
    }

    /// The model's plan on the bench as seen.
    fn seen_plan(
        &self,
        b: Bench,
        party: u32,
        request: Request,
        tx: &mut [u8],
        at: usize,
    ) -> (u8, u32, usize, Bench) {
        let named = converter_of(request.channel);
        let ((refusal, number, length), mut next) = self.call(self.owned(&b), named, |b| {
            let (refusal, number, length, next) = bench::plan(b, party, request, tx, at);
            ((refusal, number, length), next)
        });
        for (c, before) in next.converters.iter_mut().zip(b.converters) {
            c.owners = before.owners;
        }
        (refusal, number, length, next)
    }

    /// Whether the fault refuses a plan that is to be accepted, and by what.
    fn refuses(&self, b: &Bench, request: &Request, number: u32, room: usize) -> Option<u8> {
        let mut others = (0..)
            .zip(b.converters)
            .filter(|(other, _)| *other != number);
        match self.fault {
            BenchFault::WaitingOfAllFour if others.any(|(_, c)| c.phase != Phase::Waiting) => {
                Some(8)
            }
            BenchFault::RoomByTheFirst if room < plan_length(&b.converters[0], request) => Some(9),
            _ => None,
        }
    }
}

impl FourConverters for BenchMutant {
    fn power_up(&self, ids: [u8; CONVERTERS]) -> (u8, Bench) {
        let mut judged = ids;
        if self.has(BenchFault::LastIdUnjudged) {
            judged[3] = 0x3E;
        }
        let (refusal, mut b) = bench::power_up(judged);
        match (self.fault, refusal) {
            (BenchFault::LastIdUnjudged, 0) => b.converters[3] = with_id(ids[3]),
            (BenchFault::RefusedIdsKept, 13) => b.converters = ids.map(with_id),
            (BenchFault::BadIdZeroesItsOwn, 13) => {
                b.converters = ids.map(|id| model::power_up(id).1);
            }
            _ => {}
        }
        (refusal, b)
    }

    fn step(&self, b: Bench, number: u32, byte: u8) -> (u8, u8, Bench) {
        let Some(number) = self.number(number) else {
            return (5, 0, b);
        };
        let mut given = b;
        let line = self.line.replace(number);
        if self.has(BenchFault::SwitchRaisesTheLine) && line != number {
            given = bench::deselect(b, line).1;
        }
        let ((refusal, out), mut next) = self.call(given, Some(number as usize), |b| {
            let (refusal, out, next) = bench::step(b, number, byte);
            ((refusal, out), next)
        });
        if refusal != 0 {
            return (refusal, out, b);
        }
        if self.has(BenchFault::ByteReachesTwo) {
            next = bench::step(next, following(number) as u32, byte).2;
        }
        (refusal, out, self.stored(&given, number, next))
    }

    fn deselect(&self, b: Bench, number: u32) -> (u8, Bench) {
        let Some(number) = self.number(number) else {
            return (5, b);
        };
        let named = Some(number as usize);
        let (refusal, next) = self.call(b, named, |b| bench::deselect(b, number));
        match (self.fault, refusal) {
            (BenchFault::RiseReachesAll, 0) => {
                let all = (0..4).fold(next, |b, line| bench::deselect(b, line).1);
                (0, all)
            }
            (_, 0) => (0, self.stored(&b, number, next)),
            _ => (refusal, next),
        }
    }

    fn sample(&self, b: Bench, number: u32, codes: &[i32], p: u8, n: u8) -> (u8, Bench) {
        let Some(number) = self.number(number) else {
            return (5, b);
        };
        let named = Some(number as usize);
        let (refusal, mut next) = self.call(b, named, |b| bench::sample(b, number, codes, p, n));
        match (self.fault, refusal) {
            (BenchFault::SampleReachesTheNext, 0) => {
                let frame = next.converters[number as usize].latest;
                next.converters[following(number)].latest = frame;
                (0, next)
            }
            (BenchFault::SampleBeforeNumber, 5) => {
                let c = b.converters[number as usize % CONVERTERS];
                let judged = model::sample(c, codes, p, n).0;
                (if judged == 0 { 5 } else { judged }, b)
            }
            (_, 0) => (0, self.stored(&b, number, next)),
            _ => (refusal, next),
        }
    }

    fn grant(&self, b: Bench, caller: u32, receiver: u32, channel: u32) -> (u8, Bench) {
        let channel = self.channel(channel);
        let named = converter_of(channel);
        let (refusal, next) = self.call(b, named, |b| bench::grant(b, caller, receiver, channel));
        if self.has(BenchFault::GrantOnTheFirst) && refusal == 0 {
            let place = (channel as usize - 1) % 8;
            let mut first = b;
            first.converters[0].owners[place] = receiver as u8;
            return (0, first);
        }
        (self.refusal(refusal, channel), next)
    }

    fn read_channel(
        &self,
        b: Bench,
        number: u32,
        party: u32,
        channel: u32,
        frame: &[u8],
    ) -> (u8, i32, Rail, bool, bool) {
        let Some((b, number, channel)) = self.for_reading(&b, number, channel) else {
            return (5, 0, Rail::Neither, false, false);
        };
        let mut reading = bench::read_channel(b, number, party, channel, frame);
        let own = converter_of(channel).unwrap_or(0) as u32;
        reading.0 = match (self.fault, reading.0) {
            (BenchFault::NumberBeforeParty, 3) if number != own => 5,
            (BenchFault::NumberBehindOwner, 5) => {
                let by_own = bench::read_channel(b, own, party, channel, frame).0;
                if by_own == 6 {
                    6
                } else {
                    5
                }
            }
            (_, refusal) => self.refusal(refusal, channel),
        };
        reading
    }

    fn channel_bytes(
        &self,
        b: Bench,
        number: u32,
        party: u32,
        channel: u32,
        frame: &[u8],
    ) -> Range<usize> {
        match self.for_reading(&b, number, channel) {
            Some((b, number, channel)) => bench::channel_bytes(b, number, party, channel, frame),
            None => 0..0,
        }
    }

    fn plan(
        &self,
        b: Bench,
        party: u32,
        mut request: Request,
        tx: &mut [u8],
        at: usize,
    ) -> (u8, u32, usize, Bench) {
        request.channel = match request.field {
            10..=26 => self.shared(request.channel),
            _ => self.channel(request.channel),
        };
        let given = tx.to_vec();
        let (refusal, number, length, mut next) = self.seen_plan(b, party, request, tx, at);
        let named = converter_of(request.channel).unwrap_or(0);
        if refusal != 0 {
            let number = match self.fault {
                BenchFault::PlanNumberOnRefusal => named as u32,
                _ => 0,
            };
            if self.has(BenchFault::RefusedPlanEmptiesOutput) && refusal != 13 {
                next.converters[named].output = None;
            }
            return (self.refusal(refusal, request.channel), number, length, next);
        }
        if let Some(refusal) = self.refuses(&b, &request, number, given.len() - at) {
            tx.copy_from_slice(&given);
            return (refusal, 0, 0, b);
        }
        match self.fault {
            BenchFault::PlanNumberAlwaysZero => return (0, 0, length, next),
            BenchFault::OtherRegistersCleared => {
                next.converters[following(number)].registers[0x0D..=0x11].fill(0);
            }
            _ => {}
        }
        (0, number, length, self.stored(&b, number, next))
    }

    fn one(&self) -> &impl OneConverter {
        &Model
    }
}
