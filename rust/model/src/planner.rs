//! From a setting request to the bytes that carry it out.

use crate::fields::{self, Field};
use crate::refusal::{ensure, Refusal};
use crate::registers;
use crate::request::{Request, WHOLE_CHANNEL};
use crate::state::{check_party, Converter, Phase};
use crate::step::step;

pub const PLAN_MAX: usize = 14;

const WAKEUP: u8 = 0x02;
const STANDBY: u8 = 0x04;
const RDATAC: u8 = 0x10;
const SDATAC: u8 = 0x11;
const WREG: u8 = 0x40;

/// Whether each field may hold its value of the request.
pub(crate) fn admitted(fields: &[Field], request: &Request) -> bool {
    fields
        .iter()
        .zip(request.values)
        .all(|(field, value)| field.admits(value))
}

/// The fields a request sets, once everything but the room is judged.
fn accept(c: &Converter, party: u32, request: &Request) -> Result<Vec<Field>, Refusal> {
    c.check()?;
    check_party(party)?;
    let setting = fields::find(c, request.field, request.channel)?;
    ensure(setting.owner == party, Refusal::NotOwner)?;
    ensure(admitted(&setting.fields, request), Refusal::BadValue)?;
    ensure(c.phase == Phase::Waiting, Refusal::NotWaiting)?;
    Ok(setting.fields)
}

/// One write command for neighbouring registers, with what they are to hold.
fn write_run(registers: &[u8; registers::COUNT], first: usize, count: usize) -> Vec<u8> {
    let mut bytes = vec![WREG | first as u8, count as u8 - 1];
    bytes.extend(&registers[first..first + count]);
    bytes
}

/// What is sent in command mode.
fn writes(c: &Converter, request: &Request, fields: &[Field]) -> Vec<u8> {
    let mut registers = c.registers;
    for (field, value) in fields.iter().zip(request.values) {
        field.set(&mut registers, value);
    }
    let mut bytes = write_run(&registers, usize::from(fields[0].register), 1);
    if request.field == WHOLE_CHANNEL {
        bytes.extend(write_run(&registers, registers::BIAS_SENSP, 5));
    }
    bytes
}

/// The bytes that set the fields and lead back to the present modes.
fn bytes_for(c: &Converter, request: &Request, fields: &[Field]) -> Vec<u8> {
    let mut bytes = Vec::with_capacity(PLAN_MAX);
    if c.standby {
        bytes.push(WAKEUP);
    }
    if c.continuous {
        bytes.push(SDATAC);
    }
    bytes.extend(writes(c, request, fields));
    if c.continuous {
        bytes.push(RDATAC);
    }
    if c.standby {
        bytes.push(STANDBY);
    }
    bytes
}

/// Writes an accepted request's plan from place `at` on, where there is room:
/// (plan length, state after the plan).
pub(crate) fn carry_out(
    c: &Converter,
    request: &Request,
    fields: &[Field],
    tx: &mut [u8],
    at: usize,
) -> Result<(usize, Converter), Refusal> {
    let bytes = bytes_for(c, request, fields);
    let target = tx
        .get_mut(at..)
        .and_then(|rest| rest.get_mut(..bytes.len()))
        .ok_or(Refusal::NoRoom)?;
    target.copy_from_slice(&bytes);
    let after = bytes.iter().fold(*c, |state, &byte| step(state, byte).2);
    Ok((bytes.len(), after))
}

/// Plans a request into the transmit buffer from place `at` on:
/// (refusal, plan length, state after the plan).
pub fn plan(
    c: Converter,
    party: u32,
    request: Request,
    tx: &mut [u8],
    at: usize,
) -> (u8, usize, Converter) {
    let planned =
        accept(&c, party, &request).and_then(|fields| carry_out(&c, &request, &fields, tx, at));
    match planned {
        Ok((length, after)) => (0, length, after),
        Err(refusal) => (refusal.number(), 0, c),
    }
}
