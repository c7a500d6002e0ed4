//! The settings once more, as one flat table of the harness's own; and which
//! of several converters a channel number means.

use crate::Request;

/// One setting of one channel (channel 0 for shared settings).
#[derive(Clone, Copy, Debug, PartialEq, Eq)]
pub struct Cell {
    pub field: u32,
    pub channel: u32,
    pub register: usize,
    pub low: u32,
    pub width: u32,
}

/// Field, register, highest and lowest bit of the shared settings.
const SHARED: [(u32, usize, u32, u32); 17] = [
    (10, 0x01, 6, 6),
    (11, 0x01, 5, 5),
    (12, 0x01, 2, 0),
    (13, 0x02, 4, 4),
    (14, 0x02, 2, 2),
    (15, 0x02, 1, 0),
    (16, 0x03, 7, 7),
    (17, 0x03, 4, 4),
    (18, 0x03, 3, 3),
    (19, 0x03, 2, 2),
    (20, 0x03, 1, 1),
    (21, 0x04, 7, 5),
    (22, 0x04, 3, 2),
    (23, 0x04, 1, 0),
    (24, 0x15, 5, 5),
    (25, 0x17, 3, 3),
    (26, 0x17, 1, 1),
];

/// Field, highest and lowest bit of the settings in CHnSET.
const IN_CHANNEL_REGISTER: [(u32, u32, u32); 4] = [(1, 7, 7), (2, 6, 4), (3, 3, 3), (4, 2, 0)];

/// Field and register of the settings with one bit for each channel.
const BIT_PER_CHANNEL: [(u32, usize); 5] = [(5, 0x0D), (6, 0x0E), (7, 0x0F), (8, 0x10), (9, 0x11)];

/// The field number that names fields 1 to 9 of a channel together.
const WHOLE: u32 = 30;

/// Values of the right width that are refused all the same.
const BARRED: [(u32, u32); 3] = [(2, 7), (12, 7), (15, 2)];

/// The setting a field and channel number name.
pub fn find(field: u32, channel: u32) -> Option<Cell> {
    let cell = |register, high, low| Cell {
        field,
        channel,
        register,
        low,
        width: high - low + 1,
    };
    match channel {
        0 => {
            let &(_, register, high, low) = SHARED.iter().find(|row| row.0 == field)?;
            Some(cell(register, high, low))
        }
        1..=8 => {
            if let Some(&(_, high, low)) = IN_CHANNEL_REGISTER.iter().find(|row| row.0 == field) {
                return Some(cell(0x04 + channel as usize, high, low));
            }
            let &(_, register) = BIT_PER_CHANNEL.iter().find(|row| row.0 == field)?;
            Some(cell(register, channel - 1, channel - 1))
        }
        _ => None,
    }
}

/// Which of several converters a channel number belongs to, and its number
/// there. Each converter's eight channels come first, one converter's behind
/// the other's. The shared settings of the first converter go by 0, those of
/// the others by the numbers behind the last channel.
pub fn locate(converters: usize, channel: u32) -> Option<(usize, u32)> {
    let number = channel as usize;
    let behind = number.saturating_sub(8 * converters);
    match (number, behind) {
        (0, _) => Some((0, 0)),
        (_, 0) => Some(((number - 1) / 8, (channel - 1) % 8 + 1)),
        _ if behind < converters => Some((behind, 0)),
        _ => None,
    }
}

/// The number that `locate` takes for a converter's channel, or for its shared
/// settings (channel 0).
pub fn channel_number(converters: usize, converter: usize, channel: u32) -> u32 {
    match (converter, channel) {
        (0, 0) => 0,
        (_, 0) => (8 * converters + converter) as u32,
        _ => 8 * converter as u32 + channel,
    }
}

/// The converter a request is for, and the request as that converter alone
/// would have it.
pub fn localised(converters: usize, request: &Request) -> Option<(usize, Request)> {
    let (converter, channel) = locate(converters, request.channel)?;
    let local = Request {
        channel,
        ..*request
    };
    Some((converter, local))
}

/// Whether a field number names anything with some channel.
pub fn is_known(field: u32) -> bool {
    matches!(field, 1..=26 | WHOLE)
}

/// Whether a field lies in a register that has a bit for each channel.
pub fn has_bit_for_each_channel(field: u32) -> bool {
    BIT_PER_CHANNEL.iter().any(|row| row.0 == field)
}

/// The settings a request names, each with its value; none where field and
/// channel do not go together.
pub fn named(request: &Request) -> Vec<(Cell, u32)> {
    let Request {
        field,
        channel,
        values,
    } = *request;
    let fields = if field == WHOLE { 1..=9 } else { field..=field };
    fields
        .zip(values)
        .filter_map(|(field, value)| Some((find(field, channel)?, value)))
        .collect()
}

/// Whether every value a request names a setting for is legal there.
pub fn admitted(request: &Request) -> bool {
    let named = named(request);
    named.iter().all(|(cell, value)| cell.admits(*value))
}

/// All settings.
pub fn all() -> Vec<Cell> {
    (0..=8)
        .flat_map(|channel| (1..=26).filter_map(move |field| find(field, channel)))
        .collect()
}

impl Cell {
    pub fn mask(&self) -> u8 {
        (((1u32 << self.width) - 1) << self.low) as u8
    }

    pub fn value(&self, registers: &[u8; 24]) -> u32 {
        u32::from(registers[self.register]) >> self.low & ((1 << self.width) - 1)
    }

    pub fn store(&self, registers: &mut [u8; 24], value: u32) {
        let register = &mut registers[self.register];
        *register = *register & !self.mask() | (value << self.low) as u8;
    }

    pub fn admits(&self, value: u32) -> bool {
        value >> self.width == 0 && !BARRED.contains(&(self.field, value))
    }

    /// The party that may set it, given the channels' owners.
    pub fn owner(&self, owners: &[u8; 8]) -> u32 {
        match self.channel {
            0 => 0,
            channel => u32::from(owners[channel as usize - 1]),
        }
    }
}
