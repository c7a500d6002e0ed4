//! Wrong implementations of an ADS7953: the model with one thing spoilt in
//! each.

use super::{Mode, SixteenChannels};
use crate::Ads7953;
use model::ads7953;

#[derive(Clone, Copy, Debug, PartialEq, Eq)]
pub enum PartFault {
    // When a word acts.
    LagOfOneFrame,
    ReplyOfTheNextChannel,
    ListActsInItsOwnFrame,
    NewListOneFrameLater,
    NewLastOneFrameLater,
    FirstReplyOfChannelZero,
    FirstReplyForEver,
    // Replies and codes.
    CodeOf4096Taken,
    CodeCutTo12Bits,
    CodeBeforeState,
    AddressInTheLowBits,
    Di04HidesTheAddress,
    RefusedFrameMovesTheMultiplexer,
    RefusedFrameTakesTheWord,
    // Programming the list.
    ListDecodedAsCommand,
    ListOfEightBits,
    ListReversed,
    ListsOneAfterTheOther,
    ListStopsTheRound,
    FirstWordStopsTheRound,
    // Modes.
    Di11KeepsTheManualChannel,
    ZeroOrdersChannelZero,
    EmptyListToChannelZero,
    EmptyListCountsOn,
    ResetToChannelZero,
    ResetActsOnZeroWords,
    KeptResetLost,
    ManualTouchesReset,
    ManualClearsReset,
    ResetWithoutDi11,
    RangeWithoutDi11,
    RangeFromAutoLost,
    EnteringCountsOn,
    ComingBackCountsOn,
    ModeWordAlwaysStarts,
    Auto2OnePast,
    Auto2EndsAtEqualAlone,
    LastFromDi10,
    ManualForgetsTheList,
    // Words that are not wanted.
    FourToSevenAsTheirLowBits,
    GpioWordResets,
    AlarmWordTakesAList,
    ElevenAsNine,
    Di05PowersDown,
    // Bad states.
    WideChannelTaken,
    WideOrderedTaken,
    WideLastTaken,
    // Plans.
    EmptyListAfterProgramming,
    EmptyListBeforeOwner,
    EmptyListPlanned,
    ProgrammingPlanned,
    LowByteFirst,
    PartyEightMayPlan,
    PartyNineKnown,
    PartyCutToByte,
    RoomOfThree,
    PlaceWrapsRound,
    RefusedPlanWrites,
    PlanFillsTheBuffer,
}

/// Those that show in a reply's channel, by the words alone.
pub const REPLIES: [PartFault; 37] = [
    PartFault::LagOfOneFrame,
    PartFault::ReplyOfTheNextChannel,
    PartFault::ListActsInItsOwnFrame,
    PartFault::NewListOneFrameLater,
    PartFault::NewLastOneFrameLater,
    PartFault::FirstReplyOfChannelZero,
    PartFault::FirstReplyForEver,
    PartFault::AddressInTheLowBits,
    PartFault::Di04HidesTheAddress,
    PartFault::ListDecodedAsCommand,
    PartFault::ListOfEightBits,
    PartFault::ListReversed,
    PartFault::ListsOneAfterTheOther,
    PartFault::ListStopsTheRound,
    PartFault::FirstWordStopsTheRound,
    PartFault::Di11KeepsTheManualChannel,
    PartFault::ZeroOrdersChannelZero,
    PartFault::EmptyListToChannelZero,
    PartFault::EmptyListCountsOn,
    PartFault::ResetToChannelZero,
    PartFault::ResetActsOnZeroWords,
    PartFault::KeptResetLost,
    PartFault::ManualTouchesReset,
    PartFault::ManualClearsReset,
    PartFault::ResetWithoutDi11,
    PartFault::EnteringCountsOn,
    PartFault::ComingBackCountsOn,
    PartFault::ModeWordAlwaysStarts,
    PartFault::Auto2OnePast,
    PartFault::Auto2EndsAtEqualAlone,
    PartFault::LastFromDi10,
    PartFault::ManualForgetsTheList,
    PartFault::FourToSevenAsTheirLowBits,
    PartFault::GpioWordResets,
    PartFault::AlarmWordTakesAList,
    PartFault::ElevenAsNine,
    PartFault::Di05PowersDown,
];

/// Those that show in the state, a refusal or a plan.
pub const OTHERS: [PartFault; 22] = [
    PartFault::CodeOf4096Taken,
    PartFault::CodeCutTo12Bits,
    PartFault::CodeBeforeState,
    PartFault::RefusedFrameMovesTheMultiplexer,
    PartFault::RefusedFrameTakesTheWord,
    PartFault::RangeWithoutDi11,
    PartFault::RangeFromAutoLost,
    PartFault::WideChannelTaken,
    PartFault::WideOrderedTaken,
    PartFault::WideLastTaken,
    PartFault::EmptyListAfterProgramming,
    PartFault::EmptyListBeforeOwner,
    PartFault::EmptyListPlanned,
    PartFault::ProgrammingPlanned,
    PartFault::LowByteFirst,
    PartFault::PartyEightMayPlan,
    PartFault::PartyNineKnown,
    PartFault::PartyCutToByte,
    PartFault::RoomOfThree,
    PartFault::PlaceWrapsRound,
    PartFault::RefusedPlanWrites,
    PartFault::PlanFillsTheBuffer,
];

/// Every fault.
pub fn all() -> impl Iterator<Item = PartFault> {
    REPLIES.into_iter().chain(OTHERS)
}

/// The model of an ADS7953 with a fault.
#[derive(Clone, Copy, Debug)]
pub struct PartMutant {
    fault: PartFault,
}

/// The lowest channel of a list, if it has one.
fn lowest(list: u16) -> Option<u8> {
    (list != 0).then(|| list.trailing_zeros() as u8)
}

/// What a word that is no mode's asks for.
fn going_on(s: Ads7953) -> u8 {
    let s = Ads7953 {
        programming: false,
        ..s
    };
    ads7953::frame(s, 0x0000, 0).2.ordered
}

impl PartMutant {
    pub fn new(fault: PartFault) -> PartMutant {
        PartMutant { fault }
    }

    fn has(&self, fault: PartFault) -> bool {
        self.fault == fault
    }

    /// The state as the fault has it: a channel that it does not judge fits.
    fn judged(&self, s: &Ads7953) -> Ads7953 {
        let mut judged = *s;
        match self.fault {
            PartFault::WideChannelTaken => judged.channel &= 15,
            PartFault::WideOrderedTaken => judged.ordered &= 15,
            PartFault::WideLastTaken => judged.last &= 15,
            _ => {}
        }
        judged
    }

    /// What the model is given in place of a frame's state and word.
    fn given(&self, s: &Ads7953, word: u16) -> (Ads7953, u16) {
        let mut given = self.judged(s);
        let top = word >> 12;
        if s.programming {
            let word = match self.fault {
                PartFault::ListOfEightBits => word & 0x00FF,
                PartFault::ListReversed => word.reverse_bits(),
                _ => word,
            };
            if self.has(PartFault::ListDecodedAsCommand) {
                given.programming = false;
                given.list = word;
            }
            return (given, word);
        }
        let enters = |mode: Mode| s.mode != mode;
        match (self.fault, top) {
            (PartFault::KeptResetLost, 2 | 3) => given.counter_reset = false,
            (PartFault::EnteringCountsOn, 2) => given.mode = Mode::Auto1,
            (PartFault::EnteringCountsOn, 3) => given.mode = Mode::Auto2,
            // From one auto mode to the other.
            (PartFault::ComingBackCountsOn, 2) if s.mode == Mode::Auto2 => given.mode = Mode::Auto1,
            (PartFault::ComingBackCountsOn, 3) if s.mode == Mode::Auto1 => given.mode = Mode::Auto2,
            (PartFault::ModeWordAlwaysStarts, 2) if !enters(Mode::Auto1) => {
                given.mode = Mode::Manual;
            }
            (PartFault::ModeWordAlwaysStarts, 3) if !enters(Mode::Auto2) => {
                given.mode = Mode::Manual;
            }
            (PartFault::ResetWithoutDi11, 2 | 3) => given.counter_reset = word & 0x0400 != 0,
            (PartFault::RangeWithoutDi11, 1..=3) => given.range2 = word & 0x0040 != 0,
            (PartFault::FourToSevenAsTheirLowBits, 4..=7) => return (given, word & 0x3FFF),
            (PartFault::ElevenAsNine, 11) => return (given, word & 0xDFFF),
            (PartFault::LastFromDi10, 9) => return (given, 0x9000 | (word & 0x0FFF) >> 1),
            _ => {}
        }
        (given, word)
    }

    /// A frame's next state as the fault leaves it: those of its faults that
    /// are about when a word acts.
    fn timed(&self, s: &Ads7953, word: u16, next: &mut Ads7953) {
        match self.fault {
            PartFault::LagOfOneFrame => next.channel = next.ordered,
            PartFault::ListActsInItsOwnFrame if s.programming => next.channel = next.ordered,
            PartFault::NewListOneFrameLater if s.programming => next.ordered = going_on(*s),
            PartFault::NewLastOneFrameLater if !s.programming && word >> 12 == 9 => {
                next.ordered = going_on(*s);
            }
            PartFault::ListStopsTheRound if s.programming => next.ordered = s.ordered,
            PartFault::FirstWordStopsTheRound if next.programming => next.ordered = s.ordered,
            PartFault::ListsOneAfterTheOther if s.programming => next.programming = true,
            PartFault::FirstReplyForEver => next.first = s.first,
            _ => {}
        }
    }

    /// Those that are about rounds.
    fn counted(&self, s: &Ads7953, word: u16, next: &mut Ads7953) {
        let top = if s.programming { 16 } else { word >> 12 };
        let empty = next.mode == Mode::Auto1 && next.list == 0;
        let goes_on = s.mode == next.mode && !(matches!(top, 2 | 3) && next.counter_reset);
        let counts_2 = next.mode == Mode::Auto2 && goes_on;
        match self.fault {
            PartFault::ZeroOrdersChannelZero if top == 0 => next.ordered = 0,
            PartFault::EmptyListToChannelZero if empty => next.ordered = 0,
            PartFault::EmptyListCountsOn if empty => next.ordered = (s.ordered + 1) % 16,
            PartFault::ResetToChannelZero if top == 2 && next.counter_reset => next.ordered = 0,
            PartFault::ResetActsOnZeroWords if top == 0 && next.counter_reset => {
                next.ordered = match next.mode {
                    Mode::Manual => next.ordered,
                    Mode::Auto1 => lowest(next.list).unwrap_or(next.ordered),
                    Mode::Auto2 => 0,
                };
            }
            PartFault::Auto2OnePast if counts_2 && s.ordered == next.last => {
                next.ordered = (s.ordered + 1) % 16;
            }
            PartFault::Auto2EndsAtEqualAlone if counts_2 && s.ordered != next.last => {
                next.ordered = (s.ordered + 1) % 16;
            }
            _ => {}
        }
    }

    /// Those that are about what a command sets.
    fn set(&self, s: &Ads7953, word: u16, next: &mut Ads7953) {
        let top = if s.programming { 16 } else { word >> 12 };
        let programs = word & 0x0800 != 0;
        match (self.fault, top) {
            (PartFault::Di11KeepsTheManualChannel, 1) if !programs => next.ordered = s.ordered,
            (PartFault::ManualTouchesReset, 1) if programs => {
                next.counter_reset = word & 0x0400 != 0;
            }
            (PartFault::ManualClearsReset, 1) => next.counter_reset = false,
            (PartFault::RangeFromAutoLost, 2 | 3) => next.range2 = s.range2,
            (PartFault::ManualForgetsTheList, 1) => next.list = 0xFFFF,
            (PartFault::GpioWordResets, 4) if word & 0x0200 != 0 => *next = ads7953::power_up(),
            (PartFault::AlarmWordTakesAList, 12..=15) => next.programming = true,
            (PartFault::Di05PowersDown, 1..=3) if programs && word & 0x0020 != 0 => {
                next.first = true;
            }
            _ => {}
        }
    }

    /// A frame that the model refuses, as the fault answers it.
    fn refused(&self, s: Ads7953, word: u16, code: u16, refusal: u8) -> (u8, u16, Ads7953) {
        let taken = || ads7953::frame(s, word, code & 0x0FFF);
        match (self.fault, refusal) {
            (PartFault::CodeOf4096Taken, 11) if code == 4096 => taken(),
            (PartFault::CodeCutTo12Bits, 11) => taken(),
            (PartFault::CodeBeforeState, 13) if code > 4095 => (11, 0, s),
            (PartFault::RefusedFrameMovesTheMultiplexer, 11) => {
                let channel = s.ordered;
                (11, 0, Ads7953 { channel, ..s })
            }
            (PartFault::RefusedFrameTakesTheWord, 11) => (11, 0, taken().2),
            _ => (refusal, 0, s),
        }
    }

    /// What a plan's call is judged by, as the fault has it.
    fn planner(&self, s: &Ads7953, party: u32) -> (Ads7953, u32) {
        let mut judged = self.judged(s);
        if self.has(PartFault::ProgrammingPlanned) {
            judged.programming = false;
        }
        let party = match (self.fault, party) {
            (PartFault::PartyEightMayPlan, 8) => 0,
            (PartFault::PartyNineKnown, 9) => 8,
            (PartFault::PartyCutToByte, _) => party & 0xFF,
            _ => party,
        };
        (judged, party)
    }
}

impl SixteenChannels for PartMutant {
    fn power_up(&self) -> Ads7953 {
        ads7953::power_up()
    }

    fn frame(&self, s: Ads7953, word: u16, code: u16) -> (u8, u16, Ads7953) {
        let (given, seen) = self.given(&s, word);
        let (refusal, mut reply, mut next) = ads7953::frame(given, seen, code);
        if refusal != 0 {
            return self.refused(s, word, code, refusal);
        }
        self.timed(&given, seen, &mut next);
        self.counted(&given, seen, &mut next);
        self.set(&given, seen, &mut next);
        match self.fault {
            PartFault::ReplyOfTheNextChannel if !s.first => {
                reply = u16::from(s.ordered) << 12 | code;
            }
            PartFault::FirstReplyOfChannelZero if s.first => reply = code,
            PartFault::AddressInTheLowBits => reply = reply.rotate_left(4),
            PartFault::Di04HidesTheAddress if word & 0x0810 == 0x0810 && !s.programming => {
                reply &= 0x0FFF;
            }
            _ => {}
        }
        (0, reply, next)
    }

    fn plan_list(
        &self,
        s: Ads7953,
        party: u32,
        list: u16,
        tx: &mut [u8],
        at: usize,
    ) -> (u8, usize) {
        let (judged, party) = self.planner(&s, party);
        let wanted = match self.fault {
            PartFault::LowByteFirst => list.swap_bytes(),
            // Any other list: its bytes are put right below.
            PartFault::EmptyListPlanned => list.max(1),
            _ => list,
        };
        let (refusal, length) = ads7953::plan_list(judged, party, wanted, tx, at);
        match (self.fault, refusal) {
            (PartFault::EmptyListPlanned, 0) => {
                tx[at + 2..at + 4].copy_from_slice(&list.to_be_bytes());
            }
            (PartFault::EmptyListAfterProgramming, 16) if s.programming => return (8, 0),
            (PartFault::EmptyListBeforeOwner, 6) if list == 0 => return (16, 0),
            (PartFault::RoomOfThree, 9) if tx.len().checked_sub(at) == Some(3) => {
                tx[at..].copy_from_slice(&[0x80, 0x00, list.to_be_bytes()[0]]);
                return (0, 4);
            }
            (PartFault::PlaceWrapsRound, 9) if at.wrapping_add(4) <= tx.len() => return (0, 4),
            (PartFault::RefusedPlanWrites, 9) => {
                if let Some(byte) = tx.get_mut(at) {
                    *byte = 0x80;
                }
            }
            (PartFault::PlanFillsTheBuffer, 0) => tx[at + 4..].fill(0x00),
            _ => {}
        }
        (refusal, length)
    }
}
