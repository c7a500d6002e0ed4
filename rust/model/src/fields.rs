//! The settings a request can name: where they lie and what they may hold.

use crate::refusal::{ensure, Refusal};
use crate::registers;
use crate::request::{CHANNEL_FIELDS, WHOLE_CHANNEL};
use crate::state::{check_channel, Converter, ADMINISTRATOR};

/// A run of bits in one register, and the one value of that width it must
/// not take, if any.
#[derive(Clone, Copy, Debug, PartialEq, Eq)]
pub struct Field {
    pub register: u8,
    pub low: u8,
    pub width: u8,
    pub barred: Option<u32>,
}

const fn field(register: u8, low: u8, width: u8) -> Field {
    Field {
        register,
        low,
        width,
        barred: None,
    }
}

const fn barring(value: u32, field: Field) -> Field {
    Field {
        barred: Some(value),
        ..field
    }
}

const FIRST_SHARED: u32 = 10;

/// Fields 10 to 26, owned by the administrator.
const SHARED: [Field; 17] = [
    field(0x01, 6, 1),             // 10 read-back
    field(0x01, 5, 1),             // 11 clock output
    barring(7, field(0x01, 0, 3)), // 12 data rate
    field(0x02, 4, 1),             // 13 INT_CAL
    field(0x02, 2, 1),             // 14 CAL_AMP
    barring(2, field(0x02, 0, 2)), // 15 CAL_FREQ
    field(0x03, 7, 1),             // 16 to 20 CONFIG3
    field(0x03, 4, 1),
    field(0x03, 3, 1),
    field(0x03, 2, 1),
    field(0x03, 1, 1),
    field(0x04, 5, 3), // 21 comparator level
    field(0x04, 2, 2), // 22 lead-off current
    field(0x04, 0, 2), // 23 lead-off frequency
    field(0x15, 5, 1), // 24 SRB1
    field(0x17, 3, 1), // 25 single shot
    field(0x17, 1, 1), // 26 comparators on
];

/// The fields that a field number and a channel name, in the order of their
/// values, with the party that may set them.
#[derive(Clone, Debug, PartialEq, Eq)]
pub struct Setting {
    pub fields: Vec<Field>,
    pub owner: u32,
}

/// Whether the field number exists, and if so, whether it is per channel.
pub fn per_channel(number: u32) -> Option<bool> {
    match number {
        1..=9 | WHOLE_CHANNEL => Some(true),
        10..=26 => Some(false),
        _ => None,
    }
}

fn channel_field(number: u32, channel: usize) -> Field {
    let settings = (registers::CH1SET + channel - 1) as u8;
    match number {
        1 => field(settings, 7, 1),
        2 => barring(7, field(settings, 4, 3)),
        3 => field(settings, 3, 1),
        4 => field(settings, 0, 3),
        // 5 to 9: one bit per channel in registers 0Dh to 11h.
        _ => {
            let register = registers::BIAS_SENSP + number as usize - 5;
            field(register as u8, (channel - 1) as u8, 1)
        }
    }
}

/// What a channel field's number sets of a channel 1 to 8.
pub(crate) fn of_channel(number: u32, channel: usize) -> Vec<Field> {
    match number {
        WHOLE_CHANNEL => (1..=CHANNEL_FIELDS as u32)
            .map(|each| channel_field(each, channel))
            .collect(),
        _ => vec![channel_field(number, channel)],
    }
}

/// What a shared field's number, 10 to 26, sets.
pub(crate) fn shared(number: u32) -> Vec<Field> {
    vec![SHARED[(number - FIRST_SHARED) as usize]]
}

/// Finds a setting; refuses an unknown field, then a channel that does not fit.
pub fn find(c: &Converter, number: u32, channel: u32) -> Result<Setting, Refusal> {
    if per_channel(number).ok_or(Refusal::UnknownField)? {
        let channel = check_channel(channel)?;
        Ok(Setting {
            fields: of_channel(number, channel),
            owner: c.owner(channel),
        })
    } else {
        ensure(channel == 0, Refusal::WrongChannel)?;
        Ok(Setting {
            fields: shared(number),
            owner: ADMINISTRATOR,
        })
    }
}

impl Field {
    pub fn admits(&self, value: u32) -> bool {
        value < 1 << self.width && self.barred != Some(value)
    }

    /// The bits the field covers in its register.
    pub fn mask(&self) -> u8 {
        (((1u32 << self.width) - 1) << self.low) as u8
    }

    pub fn get(&self, registers: &[u8; registers::COUNT]) -> u32 {
        u32::from((registers[usize::from(self.register)] & self.mask()) >> self.low)
    }

    /// Replaces the field and no other bit; the value must fit.
    pub fn set(&self, registers: &mut [u8; registers::COUNT], value: u32) {
        let register = &mut registers[usize::from(self.register)];
        *register = (*register & !self.mask()) | ((value << self.low) as u8 & self.mask());
    }
}
