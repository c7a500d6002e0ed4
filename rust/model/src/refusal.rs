//! Refusal numbers.

/// Why a call was refused; the discriminant is the number handed out.
#[derive(Clone, Copy, Debug, PartialEq, Eq)]
#[repr(u8)]
pub enum Refusal {
    RequestTruncated = 1,
    RequestMalformed = 2,
    UnknownParty = 3,
    UnknownField = 4,
    WrongChannel = 5,
    NotOwner = 6,
    BadValue = 7,
    NotWaiting = 8,
    NoRoom = 9,
    NotSampling = 10,
    BadSample = 11,
    BadFrame = 12,
    BadState = 13,
    InputTooLong = 14,
    EmptyList = 16,
}

impl Refusal {
    pub fn number(self) -> u8 {
        self as u8
    }
}

/// `Err(refusal)` unless the condition holds.
pub fn ensure(condition: bool, refusal: Refusal) -> Result<(), Refusal> {
    if condition {
        Ok(())
    } else {
        Err(refusal)
    }
}
