//! The register file: power-up values, writable bits, bounds.

pub const COUNT: usize = 24;

pub const ID: usize = 0x00;
pub const CONFIG1: usize = 0x01;
pub const CH1SET: usize = 0x05;
pub const BIAS_SENSP: usize = 0x0D;
pub const LOFF_STATP: usize = 0x12;
pub const LOFF_STATN: usize = 0x13;
pub const GPIO: usize = 0x14;

/// CONFIG1 bit: an output frame starts over after its last byte.
pub const READ_BACK: u8 = 0x40;
/// CHnSET bit: the channel is powered down.
pub const POWER_DOWN: u8 = 0x80;

/// Values at power-up; the ID entry is replaced by the given ID. CHnSET by
/// document 02, No. 2: gain 24, inputs shorted.
pub const POWER_UP: [u8; COUNT] = [
    0x00, 0x96, 0xC0, 0x60, 0x00, // ID, CONFIG1, CONFIG2, CONFIG3, LOFF
    0x61, 0x61, 0x61, 0x61, 0x61, 0x61, 0x61, 0x61, // CH1SET to CH8SET
    0x00, 0x00, 0x00, 0x00, 0x00, // BIAS_SENSP/N, LOFF_SENSP/N, LOFF_FLIP
    0x00, 0x00, 0x0F, // LOFF_STATP, LOFF_STATN, GPIO
    0x00, 0x00, 0x00, // MISC1, MISC2, CONFIG4
];

/// Bits a register write can change.
pub const WRITABLE: [u8; COUNT] = [
    0x00, 0x67, 0x17, 0x9E, 0xEF, //
    0xFF, 0xFF, 0xFF, 0xFF, 0xFF, 0xFF, 0xFF, 0xFF, //
    0xFF, 0xFF, 0xFF, 0xFF, 0xFF, //
    0x00, 0x00, 0xFF, //
    0x20, 0x00, 0x0A, //
];

/// A register's value; 0 past the last register.
pub fn read(registers: &[u8; COUNT], address: u8) -> u8 {
    registers.get(usize::from(address)).copied().unwrap_or(0)
}

/// Changes the writable bits; nothing past the last register.
pub fn write(registers: &mut [u8; COUNT], address: u8, data: u8) {
    let index = usize::from(address);
    if let Some(register) = registers.get_mut(index) {
        let mask = WRITABLE[index];
        *register = (*register & !mask) | (data & mask);
    }
}
