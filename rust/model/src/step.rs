//! One byte in, one byte out; and the select line.

use crate::registers;
use crate::state::{Converter, Direction, Phase, Transfer, FRAME_LENGTH};

#[derive(Clone, Copy, Debug, PartialEq, Eq)]
enum Command {
    Wakeup,
    Standby,
    Reset,
    Start,
    Stop,
    Rdatac,
    Sdatac,
    Rdata,
    Register(Direction, u8),
}

impl Command {
    fn decode(byte: u8) -> Option<Command> {
        Some(match byte {
            0x02 => Command::Wakeup,
            0x04 => Command::Standby,
            0x06 => Command::Reset,
            0x08 => Command::Start,
            0x0A => Command::Stop,
            0x10 => Command::Rdatac,
            0x11 => Command::Sdatac,
            0x12 => Command::Rdata,
            0x20..=0x3F => Command::Register(Direction::Read, byte & 0x1F),
            0x40..=0x5F => Command::Register(Direction::Write, byte & 0x1F),
            _ => return None,
        })
    }

    /// Whether the command does anything in this state.
    fn acts_on(self, c: &Converter) -> bool {
        if c.standby {
            return self == Command::Wakeup;
        }
        match self {
            Command::Wakeup => false,
            Command::Standby | Command::Reset => true,
            Command::Start => !c.converting,
            Command::Stop => c.converting,
            Command::Sdatac => c.continuous,
            Command::Rdatac | Command::Rdata | Command::Register(..) => !c.continuous,
        }
    }
}

impl Converter {
    /// Takes the next output byte and moves the place on.
    fn shift_out(&mut self) -> u8 {
        let Some(place) = self.output else {
            return 0;
        };
        let last = usize::from(place) == FRAME_LENGTH - 1;
        let starts_over = self.registers[registers::CONFIG1] & registers::READ_BACK != 0;
        self.output = match (last, starts_over) {
            (false, _) => Some(place + 1),
            (true, true) => Some(0),
            (true, false) => None,
        };
        self.shifting[usize::from(place)]
    }

    /// Carries out a command byte, unless it is to be ignored.
    fn obey(&mut self, byte: u8) {
        let Some(command) = Command::decode(byte).filter(|command| command.acts_on(self)) else {
            return;
        };
        self.output = None;
        match command {
            Command::Wakeup => self.standby = false,
            Command::Standby => self.standby = true,
            Command::Reset => {
                let owners = self.owners;
                *self = Converter {
                    owners,
                    ..Converter::fresh(self.registers[registers::ID])
                };
            }
            Command::Start => self.converting = true,
            Command::Stop => self.converting = false,
            Command::Rdatac => self.continuous = true,
            Command::Sdatac => self.continuous = false,
            Command::Rdata => {
                self.shifting = self.latest;
                self.output = Some(0);
            }
            Command::Register(direction, address) => {
                self.phase = Phase::Held(Transfer {
                    direction,
                    address,
                    remaining: 0,
                });
            }
        }
    }

    /// Moves one register byte; gives the byte that goes out meanwhile.
    fn transfer(&mut self, transfer: Transfer, byte: u8) -> u8 {
        let out = match transfer.direction {
            Direction::Read => registers::read(&self.registers, transfer.address),
            Direction::Write => {
                registers::write(&mut self.registers, transfer.address, byte);
                0
            }
        };
        self.phase = match transfer.remaining {
            1 => Phase::Waiting,
            more => Phase::Counting(Transfer {
                address: transfer.address + 1,
                remaining: more - 1,
                ..transfer
            }),
        };
        out
    }
}

/// Exchanges one byte: (refusal, byte out, next state).
pub fn step(c: Converter, byte: u8) -> (u8, u8, Converter) {
    if let Err(refusal) = c.check() {
        return (refusal.number(), 0, c);
    }
    let mut next = c;
    let out = match c.phase {
        Phase::Waiting => {
            let out = next.shift_out();
            next.obey(byte);
            out
        }
        Phase::Held(held) => {
            next.phase = match byte {
                0..=31 => Phase::Counting(Transfer {
                    remaining: byte + 1,
                    ..held
                }),
                _ => Phase::Waiting,
            };
            0
        }
        Phase::Counting(counting) => next.transfer(counting, byte),
    };
    (0, out, next)
}

/// Raises the select line: (refusal, next state).
pub fn deselect(c: Converter) -> (u8, Converter) {
    match c.check() {
        Ok(()) => (
            0,
            Converter {
                output: None,
                phase: Phase::Waiting,
                ..c
            },
        ),
        Err(refusal) => (refusal.number(), c),
    }
}
