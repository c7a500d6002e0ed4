//! Converter states: any that is sound, reachable ones, and damaged ones.

use crate::calls::{self, Script};
use crate::random::Random;
use crate::{Converter, Direction, OneConverter, Phase, Transfer};

fn direction(random: &mut Random) -> Direction {
    if random.flag() {
        Direction::Read
    } else {
        Direction::Write
    }
}

pub fn legal_id(random: &mut Random) -> u8 {
    if random.flag() {
        0x3E
    } else {
        random.byte() & 0xE0 | 0x1E
    }
}

/// Of the places where a state can be damaged: mostly one, otherwise several.
pub fn places_to_damage<const PLACES: usize>(random: &mut Random) -> [bool; PLACES] {
    let mut places = [false; PLACES];
    let several = random.chance(25);
    for _ in 0..if several { 3 } else { 1 } {
        places[random.below(PLACES)] = true;
    }
    places
}

fn held(random: &mut Random) -> Phase {
    let remaining = if random.chance(70) { 0 } else { random.byte() };
    Phase::Held(Transfer {
        direction: direction(random),
        address: random.below(32) as u8,
        remaining,
    })
}

fn counting(random: &mut Random) -> Phase {
    let remaining = random.edge_or(&[1, 2, 31, 32], 1, 32);
    let furthest = 63 - remaining;
    let address = random.edge_or(&[0, 23, 24, 31, furthest], 0, furthest);
    Phase::Counting(Transfer {
        direction: direction(random),
        address: address.min(furthest) as u8,
        remaining: remaining as u8,
    })
}

/// Opens a command in a state, with all that must then hold.
fn open_command(c: &mut Converter, phase: Phase) {
    c.phase = phase;
    c.continuous = false;
    c.standby = false;
    c.output = None;
}

fn frame(random: &mut Random) -> [u8; 27] {
    let mut frame = [0; 27];
    if random.chance(90) {
        random.fill(&mut frame);
        if random.chance(80) {
            frame[0] = 0xC0 | frame[0] & 0x0F;
        }
    }
    frame
}

/// A state that passes every condition of refusal 13, reachable or not.
pub fn valid(random: &mut Random) -> Converter {
    let mut registers = [0; 24];
    if random.chance(30) {
        registers = model::registers::POWER_UP;
        registers[random.below(24)] = random.byte();
    } else {
        random.fill(&mut registers);
    }
    registers[0] = legal_id(random);
    if random.flag() {
        // Half the time no channel is powered down.
        registers[5..13]
            .iter_mut()
            .for_each(|register| *register &= 0x7F);
    }
    let parties = random.between(0, 8);
    let mut c = Converter {
        registers,
        owners: std::array::from_fn(|_| random.between(0, parties) as u8),
        latest: frame(random),
        output: None,
        continuous: random.flag(),
        standby: random.chance(35),
        converting: random.chance(60),
        shifting: frame(random),
        phase: Phase::Waiting,
    };
    if random.flag() {
        let place = random.edge_or(&[0, 1, 25, 26], 0, 26);
        c.output = Some(place as u8);
    }
    match random.below(10) {
        0..=1 => {
            let phase = held(random);
            open_command(&mut c, phase);
        }
        2..=4 => {
            let phase = counting(random);
            open_command(&mut c, phase);
        }
        _ => {}
    }
    c
}

/// A state the implementation itself arrives at from power-up.
pub fn reachable(bench: &impl OneConverter, random: &mut Random) -> Converter {
    let mut c = bench.power_up(legal_id(random)).1;
    let mut script = Script::default();
    for _ in 0..random.between(0, 120) {
        let call = calls::next(random, &c, &mut script);
        c = calls::perform(bench, c, &call).state;
    }
    c
}

/// The ways to break refusal 13's conditions, one at a time.
#[derive(Clone, Copy, Debug, PartialEq, Eq)]
pub enum Damage {
    Id,
    Owner,
    HeldAddress,
    CountZero,
    CountAbove32,
    SumAbove63,
    SumAbove255,
    OutputPlace,
    CommandWhileContinuous,
    CommandInStandby,
    CommandWithOutput,
}

pub const DAMAGES: [Damage; 11] = [
    Damage::Id,
    Damage::Owner,
    Damage::HeldAddress,
    Damage::CountZero,
    Damage::CountAbove32,
    Damage::SumAbove63,
    Damage::SumAbove255,
    Damage::OutputPlace,
    Damage::CommandWhileContinuous,
    Damage::CommandInStandby,
    Damage::CommandWithOutput,
];

fn count(c: &mut Converter, random: &mut Random, address: usize, remaining: usize) {
    let direction = direction(random);
    let transfer = Transfer {
        direction,
        address: address as u8,
        remaining: remaining as u8,
    };
    open_command(c, Phase::Counting(transfer));
}

/// A state that breaks exactly the one condition named.
pub fn damaged(random: &mut Random, damage: Damage) -> Converter {
    let mut c = valid(random);
    match damage {
        Damage::Id => {
            let edges = [0x00, 0x1F, 0x3D, 0x3F, 0x0E, 0x16, 0x3C];
            let id = random.edge_or(&edges, 0x00, 0xFF) as u8;
            c.registers[0] = if id & 0x1F == 0x1E {
                id ^ 1 << random.below(5)
            } else {
                id
            };
        }
        Damage::Owner => {
            let owner = random.edge_or(&[9, 10, 16, 128, 255], 9, 255);
            c.owners[random.below(8)] = owner as u8;
        }
        Damage::HeldAddress => {
            let address = random.edge_or(&[32, 33, 63, 64, 128, 255], 32, 255) as u8;
            open_command(
                &mut c,
                Phase::Held(Transfer {
                    direction: direction(random),
                    address,
                    remaining: 0,
                }),
            );
        }
        Damage::CountZero => {
            let address = random.edge_or(&[0, 31, 63], 0, 63);
            count(&mut c, random, address, 0);
        }
        Damage::CountAbove32 => {
            let remaining = random.edge_or(&[33, 34, 62, 63], 33, 63);
            let address = random.between(0, 63 - remaining);
            count(&mut c, random, address, remaining);
        }
        Damage::SumAbove63 => {
            let remaining = random.between(1, 32);
            let least = 64 - remaining;
            let address = random.edge_or(&[least, least + 1], least, 255 - remaining);
            count(&mut c, random, address, remaining);
        }
        Damage::SumAbove255 => {
            let remaining = random.between(1, 32);
            let address = random.edge_or(&[256 - remaining, 255], 256 - remaining, 255);
            count(&mut c, random, address, remaining);
        }
        Damage::OutputPlace => {
            c.phase = Phase::Waiting;
            c.output = Some(random.edge_or(&[27, 28, 32, 128, 255], 27, 255) as u8);
        }
        Damage::CommandWhileContinuous | Damage::CommandInStandby | Damage::CommandWithOutput => {
            let phase = if random.flag() {
                held(random)
            } else {
                counting(random)
            };
            open_command(&mut c, phase);
            match damage {
                Damage::CommandWhileContinuous => c.continuous = true,
                Damage::CommandInStandby => c.standby = true,
                _ => c.output = Some(random.below(27) as u8),
            }
        }
    }
    c
}
