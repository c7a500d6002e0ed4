//! Setting requests (documents 01 and 02: slips) and their wire form.

use crate::refusal::{ensure, Refusal};

/// Largest number two seven-bit groups can hold.
pub const NUMBER_MAX: u32 = 16_383;
/// The field that stands for all fields of a channel at once.
pub const WHOLE_CHANNEL: u32 = 30;
/// How many fields a channel has, numbered from 1.
pub const CHANNEL_FIELDS: usize = 9;

const MORE: u8 = 0x80;

#[derive(Clone, Copy, Debug, PartialEq, Eq)]
pub struct Request {
    pub field: u32,
    pub channel: u32,
    /// Those of fields 1 to 9 in a whole channel's request. In every other
    /// the first is the value, and the rest mean nothing.
    pub values: [u32; CHANNEL_FIELDS],
}

impl Request {
    /// One field's request.
    pub fn one(field: u32, channel: u32, value: u32) -> Request {
        let mut values = [0; CHANNEL_FIELDS];
        values[0] = value;
        Request {
            field,
            channel,
            values,
        }
    }

    /// A channel's request for all its fields, in their order.
    pub fn whole_channel(channel: u32, values: [u32; CHANNEL_FIELDS]) -> Request {
        Request {
            field: WHOLE_CHANNEL,
            channel,
            values,
        }
    }

    /// The values that mean something.
    pub fn meant(&self) -> &[u32] {
        &self.values[..value_count(self.field)]
    }

    /// The numbers of the wire form, in order.
    pub fn numbers(&self) -> Vec<u32> {
        [&[self.field, self.channel], self.meant()].concat()
    }
}

/// How many values follow field and channel; the channel has no say in it.
fn value_count(field: u32) -> usize {
    match field {
        WHOLE_CHANNEL => CHANNEL_FIELDS,
        _ => 1,
    }
}

/// Takes numbers from the front of bytes.
struct Reader<'a> {
    bytes: &'a [u8],
    used: usize,
}

impl Reader<'_> {
    fn byte(&mut self) -> Result<u8, Refusal> {
        let &byte = self.bytes.get(self.used).ok_or(Refusal::RequestTruncated)?;
        self.used += 1;
        Ok(byte)
    }

    fn number(&mut self) -> Result<u32, Refusal> {
        let first = self.byte()?;
        if first & MORE == 0 {
            return Ok(u32::from(first));
        }
        let second = self.byte()?;
        ensure(second != 0 && second & MORE == 0, Refusal::RequestMalformed)?;
        Ok(u32::from(first & !MORE) | u32::from(second) << 7)
    }
}

fn parse(bytes: &[u8]) -> Result<(Request, usize), Refusal> {
    let mut reader = Reader { bytes, used: 0 };
    let field = reader.number()?;
    let channel = reader.number()?;
    let mut values = [0; CHANNEL_FIELDS];
    for value in &mut values[..value_count(field)] {
        *value = reader.number()?;
    }
    let request = Request {
        field,
        channel,
        values,
    };
    Ok((request, reader.used))
}

/// Reads a request: (refusal, request, bytes used).
pub fn request_read(bytes: &[u8]) -> (u8, Request, usize) {
    match parse(bytes) {
        Ok((request, used)) => (0, request, used),
        Err(refusal) => (refusal.number(), Request::one(0, 0, 0), 0),
    }
}

fn write_numbers(numbers: &[u32], buffer: &mut [u8]) -> Result<usize, Refusal> {
    let in_range = numbers.iter().all(|&number| number <= NUMBER_MAX);
    ensure(in_range, Refusal::BadValue)?;
    let mut bytes = Vec::with_capacity(2 * numbers.len());
    for number in numbers {
        let (low, high) = ((number & 0x7F) as u8, (number >> 7) as u8);
        if high == 0 {
            bytes.push(low);
        } else {
            bytes.extend([low | MORE, high]);
        }
    }
    let target = buffer.get_mut(..bytes.len()).ok_or(Refusal::NoRoom)?;
    target.copy_from_slice(&bytes);
    Ok(bytes.len())
}

/// Writes a request to the buffer's start: (refusal, bytes used).
pub fn request_write(request: Request, buffer: &mut [u8]) -> (u8, usize) {
    match write_numbers(&request.numbers(), buffer) {
        Ok(used) => (0, used),
        Err(refusal) => (refusal.number(), 0),
    }
}
