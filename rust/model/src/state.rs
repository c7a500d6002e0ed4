//! The converter's whole state, its power-up rule and its soundness check.

use crate::refusal::{ensure, Refusal};
use crate::registers;

pub const CHANNELS: usize = 8;
pub const FRAME_LENGTH: usize = 27;
/// Highest party number; 0 is the administrator, 1 to 8 are tenants.
pub const LAST_PARTY: u8 = 8;
pub const ADMINISTRATOR: u32 = 0;

#[derive(Clone, Copy, Debug, PartialEq, Eq)]
pub enum Direction {
    Read,
    Write,
}

/// A register read or write under way.
#[derive(Clone, Copy, Debug, PartialEq, Eq)]
pub struct Transfer {
    pub direction: Direction,
    /// Next address; may run past the last register.
    pub address: u8,
    /// Data bytes left; has no meaning (0 by rule) while the command is held.
    pub remaining: u8,
}

/// Where the converter stands in a command.
#[derive(Clone, Copy, Debug, PartialEq, Eq)]
pub enum Phase {
    Waiting,
    /// First byte taken, the count byte is due.
    Held(Transfer),
    /// Data bytes are due.
    Counting(Transfer),
}

#[derive(Clone, Copy, Debug, PartialEq, Eq)]
pub struct Converter {
    pub registers: [u8; registers::COUNT],
    /// Owner of channel n at index n - 1.
    pub owners: [u8; CHANNELS],
    pub latest: [u8; FRAME_LENGTH],
    /// Place of the next byte of `shifting` to go out, if any is pending.
    pub output: Option<u8>,
    pub continuous: bool,
    pub standby: bool,
    pub converting: bool,
    /// The frame being shifted out; without meaning while `output` is `None`.
    pub shifting: [u8; FRAME_LENGTH],
    pub phase: Phase,
}

impl Converter {
    /// The state right after power-up, whatever the ID.
    pub(crate) fn fresh(id: u8) -> Converter {
        let mut registers = registers::POWER_UP;
        registers[registers::ID] = id;
        Converter {
            registers,
            owners: [0; CHANNELS],
            latest: [0; FRAME_LENGTH],
            output: None,
            continuous: true,
            standby: false,
            converting: false,
            shifting: [0; FRAME_LENGTH],
            phase: Phase::Waiting,
        }
    }

    /// Refuses a state no rule of the bench may work on.
    pub fn check(&self) -> Result<(), Refusal> {
        let may_hold_command = !self.continuous && !self.standby && self.output.is_none();
        let phase_sound = match self.phase {
            Phase::Waiting => true,
            Phase::Held(held) => may_hold_command && held.address <= 31,
            Phase::Counting(counting) => {
                may_hold_command
                    && (1..=32).contains(&counting.remaining)
                    && u32::from(counting.address) + u32::from(counting.remaining) <= 63
            }
        };
        let sound = id_is_legal(self.registers[registers::ID])
            && self.owners.iter().all(|&owner| owner <= LAST_PARTY)
            && self
                .output
                .is_none_or(|place| usize::from(place) < FRAME_LENGTH)
            && phase_sound;
        ensure(sound, Refusal::BadState)
    }

    pub(crate) fn owner(&self, channel: usize) -> u32 {
        u32::from(self.owners[channel - 1])
    }
}

pub(crate) fn id_is_legal(id: u8) -> bool {
    id & 0x1F == 0x1E
}

/// A new converter; an illegal ID is refused and shown as 00.
pub fn power_up(id: u8) -> (u8, Converter) {
    if id_is_legal(id) {
        (0, Converter::fresh(id))
    } else {
        (Refusal::BadState.number(), Converter::fresh(0))
    }
}

/// A known party number.
pub(crate) fn check_party(party: u32) -> Result<(), Refusal> {
    ensure(party <= u32::from(LAST_PARTY), Refusal::UnknownParty)
}

/// A channel number 1 to 8, as an index base for frames and owners.
pub(crate) fn check_channel(channel: u32) -> Result<usize, Refusal> {
    match usize::try_from(channel) {
        Ok(number) if (1..=CHANNELS).contains(&number) => Ok(number),
        _ => Err(Refusal::WrongChannel),
    }
}
