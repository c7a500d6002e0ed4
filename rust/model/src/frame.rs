//! 24-bit codes, frames and samples.

use crate::refusal::{ensure, Refusal};
use crate::registers;
use crate::state::{Converter, CHANNELS, FRAME_LENGTH};

pub const CODE_MIN: i32 = -8_388_608;
pub const CODE_MAX: i32 = 8_388_607;

/// Which end of the range a code is, if it is one.
#[derive(Clone, Copy, Debug, PartialEq, Eq)]
pub enum Rail {
    Neither,
    Lowest,
    Highest,
}

fn rail(code: i32) -> Rail {
    match code {
        CODE_MIN => Rail::Lowest,
        CODE_MAX => Rail::Highest,
        _ => Rail::Neither,
    }
}

/// Two's complement, high byte first; for codes in range.
pub fn encode(code: i32) -> [u8; 3] {
    let [_, high, middle, low] = code.to_be_bytes();
    [high, middle, low]
}

/// The signed code in three bytes, and its rail.
pub fn decode(bytes: [u8; 3]) -> (i32, Rail) {
    let [high, middle, low] = bytes;
    let code = i32::from_be_bytes([high, middle, low, 0]) >> 8;
    (code, rail(code))
}

/// The frame of a sample, for the registers as they stand.
pub fn build(
    registers: &[u8; registers::COUNT],
    codes: &[i32; CHANNELS],
    p: u8,
    n: u8,
) -> [u8; FRAME_LENGTH] {
    let mut frame = [0; FRAME_LENGTH];
    frame[0] = 0xC0 | p >> 4;
    frame[1] = p << 4 | n >> 4;
    frame[2] = n << 4 | registers[registers::GPIO] >> 4;
    for (index, &code) in codes.iter().enumerate() {
        let powered_down = registers[registers::CH1SET + index] & registers::POWER_DOWN != 0;
        let shown = if powered_down { 0 } else { code };
        frame[3 + 3 * index..6 + 3 * index].copy_from_slice(&encode(shown));
    }
    frame
}

/// Bit `channel - 1` of the frame's two comparator bytes.
pub(crate) fn lead_off(frame: &[u8; FRAME_LENGTH], channel: usize) -> (bool, bool) {
    let p = frame[0] << 4 | frame[1] >> 4;
    let n = frame[1] << 4 | frame[2] >> 4;
    let bit = 1 << (channel - 1);
    (p & bit != 0, n & bit != 0)
}

fn accept(c: &Converter, codes: &[i32]) -> Result<[i32; CHANNELS], Refusal> {
    c.check()?;
    ensure(c.converting && !c.standby, Refusal::NotSampling)?;
    let codes: [i32; CHANNELS] = codes.try_into().map_err(|_| Refusal::BadSample)?;
    let in_range = codes
        .iter()
        .all(|code| (CODE_MIN..=CODE_MAX).contains(code));
    ensure(in_range, Refusal::BadSample)?;
    Ok(codes)
}

/// Takes a sample: (refusal, next state).
pub fn sample(c: Converter, codes: &[i32], p: u8, n: u8) -> (u8, Converter) {
    let codes = match accept(&c, codes) {
        Ok(codes) => codes,
        Err(refusal) => return (refusal.number(), c),
    };
    let mut next = c;
    next.registers[registers::LOFF_STATP] = p;
    next.registers[registers::LOFF_STATN] = n;
    next.latest = build(&next.registers, &codes, p, n);
    if next.continuous {
        next.shifting = next.latest;
        next.output = Some(0);
    }
    (0, next)
}
