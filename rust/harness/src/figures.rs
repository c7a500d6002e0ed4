//! Fixed figures: document 01's own (rows `fig`), the checks drawn from it
//! rule by rule (rows named after the rule), and those of document 02's No. 1
//! to No. 3 (rows `no1` to `no3`). Bytes for a fresh channel register are as
//! No. 2 has them. Each panics on a mismatch.

use crate::cells;
use crate::{Converter, Direction, OneConverter, Phase, Rail, Request, Transfer};

const NOTHING_READ: Request = Request {
    field: 0,
    channel: 0,
    values: [0; 9],
};

pub(crate) const SOME_CODES: [i32; 8] = [8_388_607, -8_388_608, -1, 0, 1, -2, 65_536, -65_537];

fn fresh(bench: &impl OneConverter) -> Converter {
    let (refusal, c) = bench.power_up(0x3E);
    assert_eq!(refusal, 0, "power-up");
    c
}

/// Sends bytes that must all be taken; gives the bytes out and the state.
fn send(bench: &impl OneConverter, c: Converter, bytes: &[u8]) -> (Vec<u8>, Converter) {
    crate::laws::send(bench, c, bytes).expect("no byte may be refused")
}

fn after(bench: &impl OneConverter, c: Converter, bytes: &[u8]) -> Converter {
    send(bench, c, bytes).1
}

fn command_mode(bench: &impl OneConverter) -> Converter {
    after(bench, fresh(bench), &[0x11])
}

/// In command mode, converting, with one sample taken.
fn sampled(bench: &impl OneConverter) -> Converter {
    let c = after(bench, command_mode(bench), &[0x08]);
    take(bench, c, &SOME_CODES, 0xA5, 0x3C)
}

fn take(bench: &impl OneConverter, c: Converter, codes: &[i32], p: u8, n: u8) -> Converter {
    let (refusal, next) = bench.sample(c, codes, p, n);
    assert_eq!(refusal, 0, "sample");
    next
}

/// A plan for one field into a buffer of exactly `room` bytes: number, plan,
/// state.
fn plan(
    bench: &impl OneConverter,
    c: Converter,
    [party, field, channel, value]: [u32; 4],
    room: usize,
) -> (u8, Vec<u8>, Converter) {
    plan_request(bench, c, party, Request::one(field, channel, value), room)
}

/// The same for any request.
fn plan_request(
    bench: &impl OneConverter,
    c: Converter,
    party: u32,
    request: Request,
    room: usize,
) -> (u8, Vec<u8>, Converter) {
    let mut tx = vec![0xEE; room];
    let (refusal, length, next) = bench.plan(c, party, request, &mut tx, 0);
    if refusal != 0 {
        assert_eq!(
            (length, &tx, next),
            (0, &vec![0xEE; room], c),
            "refused plan"
        );
    }
    tx.truncate(length);
    (refusal, tx, next)
}

fn number(bench: &impl OneConverter, c: Converter, request: [u32; 4]) -> u8 {
    plan(bench, c, request, 7).0
}

fn granted(bench: &impl OneConverter, c: Converter, receiver: u32, channel: u32) -> Converter {
    let (refusal, next) = bench.grant(c, 0, receiver, channel);
    assert_eq!(refusal, 0, "grant");
    next
}

pub(crate) fn counting(
    c: Converter,
    direction: Direction,
    address: u8,
    remaining: u8,
) -> Converter {
    Converter {
        phase: Phase::Counting(Transfer {
            direction,
            address,
            remaining,
        }),
        ..c
    }
}

pub(crate) fn held(c: Converter, direction: Direction, address: u8, remaining: u8) -> Converter {
    Converter {
        phase: Phase::Held(Transfer {
            direction,
            address,
            remaining,
        }),
        ..c
    }
}

/// All that a refused reading tells.
pub(crate) fn unread(refusal: u8) -> (u8, i32, Rail, bool, bool) {
    (refusal, 0, Rail::Neither, false, false)
}

pub(crate) fn frame_with(first: [u8; 3], channel: usize, code: [u8; 3]) -> [u8; 27] {
    let mut frame = [0; 27];
    frame[..3].copy_from_slice(&first);
    frame[3 * channel..3 * channel + 3].copy_from_slice(&code);
    frame
}

// Document 01's own figures.

pub fn fig01_to_04_plans(bench: &impl OneConverter) {
    let gain = [0, 2, 3, 4];
    let c = command_mode(bench);
    assert_eq!(plan(bench, c, gain, 3).1, [0x47, 0x00, 0x41]);
    let c = after(bench, c, &[0x04]);
    assert_eq!(plan(bench, c, gain, 5).1, [0x02, 0x47, 0x00, 0x41, 0x04]);
    let c = after(bench, fresh(bench), &[0x04]);
    let (refusal, bytes, next) = plan(bench, c, gain, 7);
    assert_eq!(
        (refusal, bytes),
        (0, vec![0x02, 0x11, 0x47, 0x00, 0x41, 0x10, 0x04])
    );
    assert!(next.standby && next.continuous && next.registers[7] == 0x41);
    assert_eq!(plan(bench, c, gain, 6).0, 9);
}

pub fn fig05_others_bits_kept(bench: &impl OneConverter) {
    let c = after(bench, command_mode(bench), &[0x4D, 0x00, 0x12]);
    assert_eq!(plan(bench, c, [0, 5, 3, 1], 3).1, [0x4D, 0x00, 0x16]);
}

pub fn fig06_masked_write(bench: &impl OneConverter) {
    let c = after(bench, command_mode(bench), &[0x41, 0x00, 0xFF]);
    assert_eq!(c.registers[1], 0xF7);
}

pub fn fig07_write_in_continuous_mode_resets(bench: &impl OneConverter) {
    let c = after(bench, command_mode(bench), &[0x45, 0x00, 0x81, 0x08, 0x10]);
    let c = granted(bench, granted(bench, c, 5, 2), 1, 8);
    let c = take(bench, c, &SOME_CODES, 0x55, 0x66);
    assert!(c.converting && c.output == Some(0) && c.registers[5] == 0x81);
    let expected = Converter {
        owners: [0, 5, 0, 0, 0, 0, 0, 1],
        ..fresh(bench)
    };
    assert_eq!(after(bench, c, &[0x45, 0x00, 0x06]), expected);
}

pub fn fig08_register_read(bench: &impl OneConverter) {
    let c = command_mode(bench);
    let (out, next) = send(bench, c, &[0x20, 0x01, 0x00, 0x00]);
    assert_eq!(out, [0x00, 0x00, 0x3E, 0x96]);
    assert_eq!(next, c);
}

pub fn fig09_to_11_codes(bench: &impl OneConverter) {
    let rows = [
        ([0x7F, 0xFF, 0xFF], 8_388_607, Rail::Highest),
        ([0x80, 0x00, 0x00], -8_388_608, Rail::Lowest),
        ([0xFF, 0xFF, 0xFF], -1, Rail::Neither),
        ([0x00, 0x00, 0x00], 0, Rail::Neither),
        ([0x00, 0x00, 0x01], 1, Rail::Neither),
        ([0xFF, 0xFF, 0xFE], -2, Rail::Neither),
    ];
    let c = after(bench, command_mode(bench), &[0x08]);
    for (bytes, code, rail) in rows {
        for channel in 1..=8 {
            let frame = frame_with([0xC0, 0, 0], channel, bytes);
            let reading = bench.read_channel(c, 0, channel as u32, &frame);
            assert_eq!(reading, (0, code, rail, false, false));
            let mut codes = [0; 8];
            codes[channel - 1] = code;
            let built = take(bench, c, &codes, 0, 0).latest;
            assert_eq!(built, frame);
        }
    }
}

pub fn fig12_frame_start(bench: &impl OneConverter) {
    let c = take(
        bench,
        after(bench, fresh(bench), &[0x08]),
        &[0; 8],
        0x01,
        0x80,
    );
    assert_eq!(c.latest[..3], [0xC0, 0x18, 0x00]);
}

pub fn fig15_to_18_parties_and_values(bench: &impl OneConverter) {
    let c = granted(bench, fresh(bench), 1, 3);
    assert_eq!(number(bench, c, [2, 2, 3, 4]), 6);
    assert_eq!(number(bench, c, [0, 12, 0, 6]), 0);
    assert_eq!(number(bench, c, [0, 12, 0, 7]), 7);
    assert_eq!(number(bench, c, [0, 15, 0, 2]), 7);
    assert_eq!(number(bench, c, [0, 15, 0, 3]), 0);
    assert_eq!(number(bench, c, [8, 2, 3, 4]), 6);
    assert_eq!(number(bench, granted(bench, c, 8, 3), [8, 2, 3, 4]), 0);
    assert_eq!(number(bench, c, [9, 2, 3, 4]), 3);
    assert_eq!(bench.grant(c, 0, 9, 3), (3, c));
}

pub fn fig19_request_reading(bench: &impl OneConverter) {
    let rows: [(&[u8], u8); 9] = [
        (&[0x83, 0x00], 2),
        (&[0x83, 0x80], 2),
        (&[0x83], 1),
        (&[], 1),
        (&[0x01, 0x83, 0x00], 2),
        (&[0x01, 0x02, 0x83], 1),
        (&[0x01, 0x02], 1),
        (&[0x83, 0x00, 0x83], 2),
        (&[0x01, 0x02, 0x83, 0xFF, 0x00], 2),
    ];
    for (bytes, refusal) in rows {
        assert_eq!(
            bench.request_read(bytes),
            (refusal, NOTHING_READ, 0),
            "{bytes:02x?}"
        );
    }
    assert_eq!(
        bench.request_read(&[0xAC, 0x02, 0x80, 0x01, 0xFF, 0x7F, 0x83]),
        (0, Request::one(300, 128, 16_383), 6)
    );
    assert_eq!(
        bench.request_read(&[1, 2, 3, 0x83, 0x00]),
        (0, Request::one(1, 2, 3), 3)
    );
    assert_eq!(
        bench.request_read(&[0, 127, 0x81, 0x01]),
        (0, Request::one(0, 127, 129), 4)
    );
}

pub fn fig20_program_case(bench: &impl OneConverter) {
    let output = bench.console(&[0x01, 0x02, 0x03, 0x04, 0x02, 0x03, 0x07, 0x02]);
    assert_eq!(output, b"0 11 47 00 41 10\n7\n1\n");
}

// Registers and power-up.

const POWER_UP: [u8; 24] = [
    0x3E, 0x96, 0xC0, 0x60, 0x00, 0x61, 0x61, 0x61, 0x61, 0x61, 0x61, 0x61, 0x61, 0x00, 0x00, 0x00,
    0x00, 0x00, 0x00, 0x00, 0x0F, 0x00, 0x00, 0x00,
];
const MASKS: [u8; 24] = [
    0x00, 0x67, 0x17, 0x9E, 0xEF, 0xFF, 0xFF, 0xFF, 0xFF, 0xFF, 0xFF, 0xFF, 0xFF, 0xFF, 0xFF, 0xFF,
    0xFF, 0xFF, 0x00, 0x00, 0xFF, 0x20, 0x00, 0x0A,
];

pub fn reg1_reg2_reg8_power_up(bench: &impl OneConverter) {
    let expected = Converter {
        registers: POWER_UP,
        owners: [0; 8],
        latest: [0; 27],
        output: None,
        continuous: true,
        standby: false,
        converting: false,
        shifting: [0; 27],
        phase: Phase::Waiting,
    };
    assert_eq!(fresh(bench), expected);
    let mut bytes = vec![0x20, 0x17];
    bytes.extend([0xFF; 24]);
    let (out, _) = send(bench, command_mode(bench), &bytes);
    assert_eq!(out[2..], POWER_UP);
}

pub fn reg3_reg4_masks(bench: &impl OneConverter) {
    for (address, mask) in MASKS.into_iter().enumerate() {
        for filling in [0x00, 0xFF, 0x5A] {
            let mut c = command_mode(bench);
            c.registers[1..].fill(filling);
            for data in [0xFF, 0x00, 0xA7] {
                let mut expected = c;
                expected.registers[address] = c.registers[address] & !mask | data & mask;
                let next = after(bench, c, &[0x40 | address as u8, 0x00, data]);
                assert_eq!(next, expected, "register {address:02x}");
            }
        }
    }
}

pub fn reg5_past_the_last_register(bench: &impl OneConverter) {
    let c = command_mode(bench);
    let (_, next) = send(bench, c, &[0x57, 0x02, 0xFF, 0xFF, 0xFF]);
    let mut expected = c;
    expected.registers[0x17] = 0x0A;
    assert_eq!(next, expected);
    let mut read = vec![0x3F, 0x1F];
    read.extend([0x06; 32]);
    let (out, next) = send(bench, c, &read);
    assert_eq!((out, next), (vec![0; 34], c));
    let mut write = vec![0x5F, 0x1F];
    write.extend([0xFF; 32]);
    assert_eq!(after(bench, c, &write), c);
    assert_ne!(after(bench, c, &write[..33]).phase, Phase::Waiting);
}

pub fn reg7_reg9_ids(bench: &impl OneConverter) {
    for id in 0..=255u8 {
        let legal = [0x1E, 0x3E, 0x5E, 0x7E, 0x9E, 0xBE, 0xDE, 0xFE].contains(&id);
        let mut expected = fresh(bench);
        expected.registers[0] = if legal { id } else { 0 };
        let refusal = if legal { 0 } else { 13 };
        assert_eq!(bench.power_up(id), (refusal, expected), "ID {id:02x}");
    }
}

// Settings.

pub fn fld1_to_fld4_every_setting(bench: &impl OneConverter) {
    for mode in [vec![0x11], vec![], vec![0x04], vec![0x11, 0x04]] {
        for start in [0x00, 0xFF, 0x5A] {
            let mut c = fresh(bench);
            c.registers[1..].fill(start);
            let c = after(bench, c, &mode);
            for cell in cells::all() {
                for value in (0..=9).chain([16, 127, 256, 258, 65_536, u32::MAX]) {
                    let (refusal, _, next) =
                        plan(bench, c, [0, cell.field, cell.channel, value], 7);
                    let mut expected = c;
                    if cell.admits(value) {
                        cell.store(&mut expected.registers, value);
                    }
                    let refused = if cell.admits(value) { 0 } else { 7 };
                    assert_eq!(
                        (refusal, next),
                        (refused, expected),
                        "{cell:?} value {value}"
                    );
                }
            }
        }
    }
}

pub fn fld5_settings_fill_the_masks(_bench: &impl OneConverter) {
    let cells = cells::all();
    assert_eq!(cells.len(), 89);
    let mut covered = [0u8; 24];
    for cell in &cells {
        assert_eq!(covered[cell.register] & cell.mask(), 0, "{cell:?} overlaps");
        covered[cell.register] |= cell.mask();
    }
    for (address, (&covered, &mask)) in covered.iter().zip(&MASKS).enumerate() {
        assert_eq!(
            covered,
            if address == 0x14 { 0 } else { mask },
            "register {address:02x}"
        );
    }
}

// Bytes.

pub fn byt2_byte_out_before_acting(bench: &impl OneConverter) {
    let c = sampled(bench);
    let mut bytes = vec![0x12];
    bytes.extend([0x00; 11]);
    bytes.push(0x06);
    let (out, _) = send(bench, c, &bytes);
    assert_eq!(out[0], 0x00);
    assert_eq!(out[1..], c.latest[..12]);
}

/// The state a single byte must lead to from waiting, short of a frame's end.
fn expected_after(c: Converter, byte: u8) -> Converter {
    let running_on = Converter {
        output: c.output.map(|place| place + 1),
        ..c
    };
    let emptied = Converter { output: None, ..c };
    let transfer = |direction| held(emptied, direction, byte & 0x1F, 0);
    if c.standby {
        return if byte == 0x02 {
            Converter {
                standby: false,
                ..emptied
            }
        } else {
            running_on
        };
    }
    match byte {
        0x04 => Converter {
            standby: true,
            ..emptied
        },
        0x06 => Converter {
            registers: POWER_UP,
            latest: [0; 27],
            shifting: [0; 27],
            continuous: true,
            converting: false,
            ..emptied
        },
        0x08 if !c.converting => Converter {
            converting: true,
            ..emptied
        },
        0x0A if c.converting => Converter {
            converting: false,
            ..emptied
        },
        0x10 if !c.continuous => Converter {
            continuous: true,
            ..emptied
        },
        0x11 if c.continuous => Converter {
            continuous: false,
            ..emptied
        },
        0x12 if !c.continuous => Converter {
            shifting: c.latest,
            output: Some(0),
            ..emptied
        },
        0x20..=0x3F if !c.continuous => transfer(Direction::Read),
        0x40..=0x5F if !c.continuous => transfer(Direction::Write),
        _ => running_on,
    }
}

pub fn byt3_byt10_to_byt20_every_byte(bench: &impl OneConverter) {
    for modes in 0..16 {
        let mut c = sampled(bench);
        c.owners = [0, 1, 2, 3, 4, 5, 6, 7];
        c.registers[0x17] = 0x0A;
        c.shifting = [0x77; 27];
        c.output = if modes & 8 != 0 { Some(4) } else { None };
        c.continuous = modes & 1 != 0;
        c.standby = modes & 2 != 0;
        c.converting = modes & 4 != 0;
        for byte in 0..=255 {
            let out = if c.output.is_some() { 0x77 } else { 0x00 };
            let expected = (0, out, expected_after(c, byte));
            assert_eq!(bench.step(c, byte), expected, "byte {byte:02x} on {c:x?}");
        }
    }
}

pub fn byt4_byt16_dropped_command(bench: &impl OneConverter) {
    let c = command_mode(bench);
    for second in 32..=255 {
        let next = after(bench, c, &[0x41, second]);
        assert_eq!(next, c, "second byte {second:02x}");
    }
    assert_eq!(after(bench, c, &[0x41, 0x20, 0x06]), fresh(bench));
    let (out, _) = send(bench, sampled(bench), &[0x12, 0x00, 0x41, 0x20, 0x00]);
    assert_eq!(out, [0x00, 0xCA, 0x53, 0x00, 0x00]);
}

pub fn byt5_byt6_registers_change_at_their_own_byte(bench: &impl OneConverter) {
    let c = command_mode(bench);
    let third = after(bench, c, &[0x45, 0x01, 0x12]);
    assert_eq!((third.registers[5], third.registers[6]), (0x12, 0x61));
    assert_eq!(
        third,
        counting(
            Converter {
                registers: third.registers,
                ..c
            },
            Direction::Write,
            6,
            1
        )
    );
    let fourth = after(bench, third, &[0x34]);
    assert_eq!((fourth.registers[5], fourth.registers[6]), (0x12, 0x34));
    assert_eq!(fourth.phase, Phase::Waiting);
    let second = after(bench, c, &[0x45, 0x01]);
    assert_eq!(second, counting(c, Direction::Write, 5, 2));
    let first = after(bench, c, &[0x45]);
    assert_eq!(first, held(c, Direction::Write, 5, 0));
}

pub fn byt7_no_decoding_during_a_read(bench: &impl OneConverter) {
    let c = sampled(bench);
    let (out, next) = send(bench, c, &[0x20, 0x03, 0x06, 0x04, 0x12, 0x41]);
    assert_eq!((out, next), (vec![0, 0, 0x3E, 0x96, 0xC0, 0x60], c));
}

pub fn byt8_registers_read_as_they_stand(bench: &impl OneConverter) {
    let c = after(bench, sampled(bench), &[0x32, 0x01]);
    let c = take(bench, c, &[0; 8], 0x55, 0x00);
    let (out_p, c) = send(bench, c, &[0x00]);
    let c = take(bench, c, &[0; 8], 0x00, 0x66);
    let (out_n, c) = send(bench, c, &[0x00]);
    assert_eq!((out_p[0], out_n[0], c.phase), (0x55, 0x66, Phase::Waiting));
}

pub fn byt15_acting_empties_output(bench: &impl OneConverter) {
    let c = after(bench, sampled(bench), &[0x0A, 0x12, 0x00, 0x00, 0x00]);
    let (out, _) = send(bench, c, &[0x08, 0x00]);
    assert_eq!(out, [0x7F, 0x00]);
    let (out, _) = send(bench, c, &[0x0A, 0x00]);
    assert_eq!(out, [0x7F, 0xFF]);
}

pub fn byt17_byt18_rdata_restarts_rdatac_does_not_load(bench: &impl OneConverter) {
    let c = after(bench, sampled(bench), &[0x12, 0, 0, 0, 0, 0]);
    let (out, c) = send(bench, c, &[0x12, 0x00, 0x00]);
    assert_eq!(out[1..], [0xCA, 0x53]);
    let (out, _) = send(bench, c, &[0x10, 0x00, 0x00]);
    assert_eq!(out[1..], [0x00, 0x00]);
}

pub fn byt21_frame_start_over(bench: &impl OneConverter) {
    for continuous in [false, true] {
        let start = if continuous {
            after(bench, sampled(bench), &[0x10])
        } else {
            sampled(bench)
        };
        for read_back in [false, true] {
            let mut c = start;
            c.registers[1] = if read_back { 0x40 } else { 0xBF };
            c.shifting = std::array::from_fn(|index| index as u8 + 1);
            c.output = Some(0);
            let (out, next) = send(bench, c, &[0x00; 54]);
            assert_eq!(out[..27], c.shifting);
            let second = if read_back { c.shifting } else { [0; 27] };
            assert_eq!(out[27..], second);
            let output = if read_back { Some(0) } else { None };
            assert_eq!(next, Converter { output, ..c });
        }
    }
}

pub fn byt22_zeros_lead_back_to_waiting(bench: &impl OneConverter) {
    let c = command_mode(bench);
    for direction in [Direction::Read, Direction::Write] {
        for address in 0..=62 {
            for remaining in 1..=32.min(63 - address) {
                let open = counting(c, direction, address, remaining);
                let zeros = vec![0; usize::from(remaining)];
                assert_ne!(after(bench, open, &zeros[1..]).phase, Phase::Waiting);
                assert_eq!(after(bench, open, &zeros).phase, Phase::Waiting);
            }
        }
        for address in 0..=31 {
            let next = after(bench, held(c, direction, address, 0), &[0, 0]);
            assert_eq!(next.phase, Phase::Waiting);
        }
    }
}

/// States that break one condition of refusal 13 each.
pub(crate) fn broken_states(bench: &impl OneConverter) -> Vec<Converter> {
    use Direction::{Read, Write};
    let c = sampled(bench);
    let mut broken = Vec::new();
    for id in [0x3D, 0x1F, 0x00] {
        let mut c = c;
        c.registers[0] = id;
        broken.push(c);
    }
    for index in 0..8 {
        let mut c = c;
        c.owners[index] = 9;
        broken.push(c);
    }
    broken.push(held(c, Read, 32, 0));
    broken.push(held(c, Write, 255, 0));
    broken.push(counting(c, Read, 0, 0));
    broken.push(counting(c, Write, 0, 33));
    broken.push(counting(c, Read, 40, 24));
    broken.push(counting(c, Write, 250, 30));
    broken.push(counting(c, Write, 255, 1));
    broken.push(Converter {
        output: Some(27),
        ..c
    });
    broken.push(Converter {
        output: Some(255),
        ..c
    });
    for open in [held(c, Read, 5, 0), counting(c, Write, 5, 1)] {
        broken.push(Converter {
            continuous: true,
            ..open
        });
        broken.push(Converter {
            standby: true,
            ..open
        });
        broken.push(Converter {
            output: Some(0),
            ..open
        });
    }
    broken
}

pub fn byt23_sel2_tot3_broken_states_refused(bench: &impl OneConverter) {
    let frame = frame_with([0xCF, 0xFF, 0xFF], 1, [0xFF; 3]);
    for c in broken_states(bench) {
        assert_eq!(bench.step(c, 0x06), (13, 0, c));
        assert_eq!(bench.deselect(c), (13, c));
        assert_eq!(bench.sample(c, &SOME_CODES, 1, 2), (13, c));
        assert_eq!(bench.sample(c, &[], 1, 2), (13, c));
        assert_eq!(bench.grant(c, 0, 1, 1), (13, c));
        assert_eq!(bench.grant(c, 9, 9, 9), (13, c));
        assert_eq!(bench.read_channel(c, 0, 1, &frame), unread(13));
        assert_eq!(bench.read_channel(c, 9, 9, &[]), unread(13));
        assert_eq!(bench.channel_bytes(c, 0, 1, &frame), 0..0);
        assert_eq!(number(bench, c, [0, 2, 3, 4]), 13);
        assert_eq!(number(bench, c, [9, 27, 9, 99]), 13);
    }
}

pub fn rule13_edges_pass(bench: &impl OneConverter) {
    use Direction::{Read, Write};
    let c = sampled(bench);
    let mut odd = c;
    odd.registers[1..].fill(0xFF);
    odd.owners = [8; 8];
    let sound = [
        counting(c, Read, 62, 1),
        counting(c, Write, 40, 23),
        counting(c, Write, 31, 32),
        held(c, Read, 31, 0),
        held(c, Write, 31, 7),
        held(c, Write, 31, 255),
        Converter {
            output: Some(26),
            ..c
        },
        Converter {
            output: Some(26),
            standby: true,
            continuous: true,
            ..c
        },
        odd,
    ];
    for c in sound {
        assert_eq!(
            bench.deselect(c),
            (
                0,
                Converter {
                    output: None,
                    phase: Phase::Waiting,
                    ..c
                }
            )
        );
        assert_eq!(bench.step(c, 0x00).0, 0);
        assert_eq!(bench.grant(c, 0, 0, 1).0, 0);
    }
}

// Select line.

pub fn sel1_sel3_select_rise(bench: &impl OneConverter) {
    let c = after(bench, sampled(bench), &[0x45, 0x01, 0x12]);
    let (refusal, next) = bench.deselect(c);
    assert_eq!(
        (refusal, next),
        (
            0,
            Converter {
                phase: Phase::Waiting,
                ..c
            }
        )
    );
    assert_eq!((next.registers[5], next.registers[6]), (0x12, 0x61));
    assert_eq!(bench.deselect(next), (0, next));
    let pending = Converter {
        output: Some(7),
        standby: true,
        continuous: true,
        ..next
    };
    assert_eq!(
        bench.deselect(pending),
        (
            0,
            Converter {
                output: None,
                ..pending
            }
        )
    );
}

// Samples and frames.

pub fn smp1_smp2_judging(bench: &impl OneConverter) {
    let running = after(bench, command_mode(bench), &[0x08]);
    let sleeping = after(bench, running, &[0x04]);
    let stopped = command_mode(bench);
    for c in [sleeping, stopped] {
        for codes in [&[][..], &[0; 7], &[0; 8], &[i32::MAX; 8]] {
            assert_eq!(bench.sample(c, codes, 1, 1), (10, c));
        }
    }
    for length in [0, 1, 7, 9, 16] {
        assert_eq!(bench.sample(running, &vec![0; length], 1, 1), (11, running));
    }
    let mut half_down = running;
    half_down.registers[5] = 0x80;
    for c in [running, half_down] {
        for index in 0..8 {
            for (code, refusal) in [
                (8_388_607, 0),
                (-8_388_608, 0),
                (8_388_608, 11),
                (-8_388_609, 11),
                (i32::MIN, 11),
                (i32::MAX, 11),
            ] {
                let mut codes = [0; 8];
                codes[index] = code;
                assert_eq!(bench.sample(c, &codes, 1, 1).0, refusal, "code {code}");
            }
        }
    }
}

pub fn smp3_status_registers(bench: &impl OneConverter) {
    let (out, _) = send(bench, sampled(bench), &[0x32, 0x01, 0x00, 0x00]);
    assert_eq!(out[2..], [0xA5, 0x3C]);
}

pub fn smp4_smp5_frame_bytes(bench: &impl OneConverter) {
    let c = after(
        bench,
        command_mode(bench),
        &[0x08, 0x54, 0x00, 0x8F, 0x46, 0x00, 0xE0],
    );
    let frame = take(bench, c, &[-1, 5, 0x12_3456, 4, 5, 6, 7, -8], 0xA5, 0x3C).latest;
    let expected = [
        0xCA, 0x53, 0xC8, 0xFF, 0xFF, 0xFF, 0, 0, 0, 0x12, 0x34, 0x56, 0, 0, 4, 0, 0, 5, 0, 0, 6,
        0, 0, 7, 0xFF, 0xFF, 0xF8,
    ];
    assert_eq!(frame, expected);
}

pub fn smp6_smp7_what_a_sample_changes(bench: &impl OneConverter) {
    let base = after(bench, sampled(bench), &[0x57, 0x00, 0x08]);
    let at_place = after(bench, base, &[0x12, 0, 0, 0]);
    let open = after(bench, base, &[0x45, 0x01, 0x12]);
    let continuous = Converter {
        output: Some(9),
        ..after(bench, base, &[0x10])
    };
    for c in [base, at_place, open, continuous] {
        let next = take(bench, c, &[1, 2, 3, 4, 5, 6, 7, 8], 0x11, 0x22);
        let mut expected = c;
        expected.registers[0x12] = 0x11;
        expected.registers[0x13] = 0x22;
        expected.latest = next.latest;
        if c.continuous {
            expected.output = Some(0);
            expected.shifting = next.latest;
        }
        assert_eq!(next, expected);
        assert_eq!(next.latest[..6], [0xC1, 0x12, 0x20, 0, 0, 1]);
    }
}

// Reading.

pub fn rdr2_order_and_owner(bench: &impl OneConverter) {
    let c = granted(bench, fresh(bench), 1, 3);
    let good = frame_with([0xCF, 0xFF, 0xFF], 3, [0xFF; 3]);
    let mut wrong_start = good;
    wrong_start[0] = 0x8F;
    let rows: [(u32, u32, &[u8], u8); 12] = [
        (9, 0, &[], 3),
        (256 + 1, 3, &good, 3),
        (1, 0, &[], 5),
        (1, 9, &good, 5),
        (1, 256 + 3, &good, 5),
        (2, 3, &[], 6),
        (0, 3, &good, 6),
        (1, 4, &good, 6),
        (1, 3, &[], 12),
        (1, 3, &good[..26], 12),
        (1, 3, &wrong_start, 12),
        (1, 3, &[0xC0; 28], 12),
    ];
    for (party, channel, frame, refusal) in rows {
        let reading = bench.read_channel(c, party, channel, frame);
        assert_eq!(reading, unread(refusal), "{party} {channel}");
        assert_eq!(bench.channel_bytes(c, party, channel, frame), 0..0);
    }
    let reading = bench.read_channel(c, 1, 3, &good);
    assert_eq!(reading, (0, -1, Rail::Neither, true, true));
    assert_eq!(bench.channel_bytes(c, 1, 3, &good), 9..12);
    assert_eq!(bench.read_channel(c, 1, 3, &c.latest).0, 12);
}

pub fn rdr3_lead_off_bits(bench: &impl OneConverter) {
    let base = after(bench, command_mode(bench), &[0x08]);
    for bit in 0..8 {
        for (p, n) in [(1u8 << bit, 0), (0, 1u8 << bit)] {
            let c = take(bench, base, &[0; 8], p, n);
            let frame = c.latest;
            let later = take(bench, c, &[0; 8], !p, !n);
            for channel in 1..=8u32 {
                let own = channel - 1 == bit;
                let expected = (0, 0, Rail::Neither, own && p != 0, own && n != 0);
                assert_eq!(bench.read_channel(later, 0, channel, &frame), expected);
            }
        }
    }
}

pub fn rdr5_parts(bench: &impl OneConverter) {
    let frame = frame_with([0xC0, 0, 0], 1, [1, 2, 3]);
    for channel in 1..=8 {
        let start = 3 * channel as usize;
        assert_eq!(
            bench.channel_bytes(fresh(bench), 0, channel, &frame),
            start..start + 3
        );
    }
}

// Planning.

pub fn pln3_every_set_of_faults(bench: &impl OneConverter) {
    for faults in 0..256u32 {
        let has = |bit: u32| faults >> bit & 1 == 1;
        let mut c = command_mode(bench);
        c.owners[2] = if has(4) { 2 } else { 1 };
        if has(0) {
            c.owners[7] = 9;
        }
        if has(6) {
            c = held(c, Direction::Write, 1, 0);
        }
        let party = if has(1) { 9 } else { 1 };
        let field = if has(2) { 27 } else { 2 };
        let channel = if has(3) { 9 } else { 3 };
        let value = if has(5) { 7 } else { 4 };
        let room = if has(7) { 2 } else { 3 };
        let numbers = [13, 3, 4, 5, 6, 7, 8, 9];
        let expected = (0..8)
            .find(|&bit| has(bit))
            .map_or(0, |bit| numbers[bit as usize]);
        let (refusal, bytes, _) = plan(bench, c, [party, field, channel, value], room);
        assert_eq!(refusal, expected, "faults {faults:08b}");
        assert_eq!(bytes.len(), if expected == 0 { 3 } else { 0 });
    }
}

pub fn pln4_no_further_refusals(bench: &impl OneConverter) {
    let c = after(bench, command_mode(bench), &[0x08, 0x47, 0x00, 0xF0]);
    assert_eq!(number(bench, c, [0, 2, 3, 4]), 0);
    assert_eq!(number(bench, c, [0, 1, 3, 1]), 0);
    assert_eq!(number(bench, c, [0, 10, 0, 0]), 0);
    assert_eq!(number(bench, c, [0, 0, 0, 0]), 4);
    assert_eq!(number(bench, c, [0, 10, 1, 0]), 5);
    assert_eq!(number(bench, c, [0, 9, 0, 0]), 5);
    assert_eq!(number(bench, c, [1, 10, 0, 0]), 6);
    assert_eq!(number(bench, c, [0, 256 + 10, 0, 0]), 4);
    assert_eq!(number(bench, c, [256, 10, 0, 0]), 3);
    assert_eq!(number(bench, c, [0, 10, 256, 0]), 5);
    assert_eq!(number(bench, c, [0, 10, 0, 256]), 7);
    let all_ones = granted(bench, c, 1, 3);
    assert_eq!(number(bench, all_ones, [0, 2, 3, 4]), 6);
}

pub fn pln7_pln8_pln9_places(bench: &impl OneConverter) {
    let c = after(bench, fresh(bench), &[0x04]);
    let gain = Request::one(2, 3, 4);
    let before: Vec<u8> = (0..12).map(|index| 0xA0 + index).collect();
    let beyond_u32 = usize::try_from(1u64 << 32).unwrap_or(usize::MAX);
    let places = (0..15).chain([
        beyond_u32,
        beyond_u32 + 1,
        usize::MAX - 6,
        usize::MAX - 1,
        usize::MAX,
    ]);
    for at in places {
        let mut tx = before.clone();
        let (refusal, length, next) = bench.plan(c, 0, gain, &mut tx, at);
        if at <= 5 {
            assert_eq!((refusal, length, next.registers[7]), (0, 7, 0x41));
            let mut expected = before.clone();
            expected[at..at + 7].copy_from_slice(&[0x02, 0x11, 0x47, 0x00, 0x41, 0x10, 0x04]);
            assert_eq!(tx, expected);
        } else {
            assert_eq!(
                (refusal, length, next, tx),
                (9, 0, c, before.clone()),
                "place {at}"
            );
        }
    }
    assert_eq!(bench.plan(c, 0, gain, &mut [], 0), (9, 0, c));
}

pub fn pln10_pln13_state_after(bench: &impl OneConverter) {
    for modes in 0..8 {
        let mut c = sampled(bench);
        c.registers[1..].fill(0xFF);
        c.shifting = [0x99; 27];
        c.output = Some(26);
        c.continuous = modes & 1 != 0;
        c.standby = modes & 2 != 0;
        c.converting = modes & 4 != 0;
        let (refusal, bytes, next) = plan(bench, c, [0, 2, 3, 4], 7);
        let mut expected = Converter { output: None, ..c };
        expected.registers[7] = 0xCF;
        assert_eq!((refusal, next), (0, expected));
        assert_eq!(after(bench, c, &bytes), expected);
    }
}

// Requests as bytes.

pub fn slw1_to_slw4_writer(bench: &impl OneConverter) {
    let mut buffer = [0xEE; 8];
    let request = Request::one(300, 0, 16_383);
    assert_eq!(bench.request_write(request, &mut buffer), (0, 5));
    assert_eq!(buffer, [0xAC, 0x02, 0x00, 0xFF, 0x7F, 0xEE, 0xEE, 0xEE]);
    let mut exact = [0xEE; 6];
    let request = Request::one(128, 255, 256);
    assert_eq!(bench.request_write(request, &mut exact), (0, 6));
    assert_eq!(exact, [0x80, 0x01, 0xFF, 0x01, 0x80, 0x02]);
    for length in 0..6 {
        let mut short = vec![0xEE; length];
        assert_eq!(bench.request_write(request, &mut short), (9, 0));
        assert_eq!(short, vec![0xEE; length]);
    }
    for [field, channel, value] in [[16_384, 0, 0], [0, 16_384, 0], [0, 0, u32::MAX]] {
        for length in [0, 8] {
            let mut buffer = vec![0xEE; length];
            let answer = bench.request_write(Request::one(field, channel, value), &mut buffer);
            assert_eq!((answer, buffer), ((7, 0), vec![0xEE; length]));
        }
    }
}

pub fn slr3_slr5_round_trips(bench: &impl OneConverter) {
    for number in (0..=16_383).step_by(7).chain([127, 128, 16_383]) {
        let numbers = [number, 16_383 - number, number / 2];
        let request = Request::one(numbers[0], numbers[1], numbers[2]);
        let mut buffer = [0; 6];
        let (refusal, used) = bench.request_write(request, &mut buffer);
        let two_groups = numbers.iter().filter(|&&number| number > 127).count();
        assert_eq!((refusal, used), (0, 3 + two_groups));
        assert_eq!(bench.request_read(&buffer), (0, request, used));
        let cut = bench.request_read(&buffer[..used - 1]);
        assert_eq!(cut, (1, NOTHING_READ, 0));
    }
}

// Grants.

pub fn grt1_to_grt4_grants(bench: &impl OneConverter) {
    let c = Converter {
        output: Some(3),
        standby: true,
        ..sampled(bench)
    };
    let rows = [
        ([9, 1, 0], 3),
        ([0, 9, 0], 3),
        ([1, 9, 3], 3),
        ([256, 1, 3], 3),
        ([0, 257, 3], 3),
        ([1, 1, 0], 5),
        ([1, 1, 9], 5),
        ([0, 1, 256 + 3], 5),
        ([1, 1, 3], 6),
        ([8, 8, 8], 6),
    ];
    for ([caller, receiver, channel], refusal) in rows {
        assert_eq!(bench.grant(c, caller, receiver, channel), (refusal, c));
    }
    for c in [c, held(sampled(bench), Direction::Read, 3, 0)] {
        for channel in 1..=8 {
            for receiver in 0..=8 {
                let mut expected = c;
                expected.owners[channel as usize - 1] = receiver as u8;
                assert_eq!(bench.grant(c, 0, receiver, channel), (0, expected));
            }
        }
    }
}

// The program.

pub fn prg1_to_prg6_program(bench: &impl OneConverter) {
    let rows: [(&[u8], &str); 17] = [
        (&[], "1\n"),
        (&[0x01], ""),
        (&[0xFF], ""),
        (&[0x00, 0x0C, 0x00, 0x06], "0 11 41 00 96 10\n"),
        (&[0x00, 0x0F, 0x00, 0x03], "0 11 42 00 C3 10\n"),
        (&[0x00, 0x02, 0x03, 0x04], "6\n"),
        (&[0x02, 0x02, 0x03, 0x04], "6\n"),
        (&[0x08, 0x02, 0x03, 0x04], "6\n"),
        (&[0x09, 0x02, 0x03, 0x04], "3\n"),
        (&[0x81, 0x02, 0x03, 0x04, 0x02, 0x03, 0x04], "3\n3\n"),
        (&[0x01, 0x83, 0x00], "2\n"),
        (&[0x01, 0x83, 0x00, 0x02, 0x03, 0x04], "2\n"),
        (&[0x09, 0x83], "1\n"),
        (
            &[0x01, 0x05, 0x03, 0x01, 0x05, 0x08, 0x01],
            "0 11 4D 00 04 10\n0 11 4D 00 84 10\n",
        ),
        (
            &[0x01, 0x1B, 0x00, 0x00, 0x02, 0x09, 0x00, 0x02, 0x01, 0x05],
            "4\n5\n0 11 45 00 51 10\n",
        ),
        (
            &[0x01, 0x02, 0x01, 0x80, 0x01, 0x01, 0x01, 0x01],
            "7\n0 11 45 00 E1 10\n",
        ),
        (
            &[0x00, 0x0C, 0x00, 0x06, 0x0C, 0x00],
            "0 11 41 00 96 10\n1\n",
        ),
    ];
    for (input, output) in rows {
        let text = String::from_utf8(bench.console(input)).expect("plain text");
        assert_eq!(text, output, "input {input:02x?}");
    }
}

pub fn prg5_input_limit(bench: &impl OneConverter) {
    let mut input = vec![0x01];
    for _ in 0..1365 {
        input.extend([0x02, 0x03, 0x04]);
    }
    assert_eq!(input.len(), 4096);
    let line = "0 11 47 00 41 10\n";
    assert_eq!(bench.console(&input), line.repeat(1365).into_bytes());
    input.push(0x02);
    assert_eq!(bench.console(&input), b"14\n");
    assert_eq!(bench.console(&[0; 10_000]), b"14\n");
    assert_eq!(
        bench.console(&input[..4095]),
        (line.repeat(1364) + "1\n").into_bytes()
    );
}

// Document 02's No. 1: requests for a whole channel.

/// Powered down, gain 4, SRB2, input 5; then bits 1, 0, 1, 0, 1.
pub(crate) const CHANNEL_VALUES: [u32; 9] = [1, 4, 1, 5, 1, 0, 1, 0, 1];

/// Registers 0Dh to 11h before, with neighbours' bits set.
pub(crate) const RUN_BEFORE: [u8; 5] = [0x12, 0xFF, 0x00, 0x04, 0x80];

/// What sets channel 3 to `CHANNEL_VALUES` on `RUN_BEFORE`.
const CHANNEL_3_WRITES: [u8; 10] = [0x47, 0x00, 0xCD, 0x4D, 0x04, 0x16, 0xFB, 0x04, 0x00, 0x84];

fn channel_3() -> Request {
    Request::whole_channel(3, CHANNEL_VALUES)
}

/// Command mode, channel 3 party 1's, neighbours' bits set.
fn shared_run(bench: &impl OneConverter) -> Converter {
    let mut c = granted(bench, command_mode(bench), 1, 3);
    c.registers[0x0D..=0x11].copy_from_slice(&RUN_BEFORE);
    c
}

/// Standby and continuous, and what is then sent before and after the writes.
pub(crate) type Around = (bool, bool, &'static [u8], &'static [u8]);

/// Each pair of modes.
pub(crate) const AROUND: [Around; 4] = [
    (false, false, &[], &[]),
    (true, false, &[0x02], &[0x04]),
    (false, true, &[0x11], &[0x10]),
    (true, true, &[0x02, 0x11], &[0x10, 0x04]),
];

pub fn no1_plans_in_every_mode(bench: &impl OneConverter) {
    for (standby, continuous, before, after_writes) in AROUND {
        let c = Converter {
            standby,
            continuous,
            output: Some(5),
            ..shared_run(bench)
        };
        let expected = [before, &CHANNEL_3_WRITES, after_writes].concat();
        let length = 10 + 2 * before.len();
        assert_eq!(expected.len(), length);
        let (refusal, bytes, next) = plan_request(bench, c, 1, channel_3(), length);
        assert_eq!((refusal, &bytes), (0, &expected));
        let mut set = Converter { output: None, ..c };
        set.registers[0x07] = 0xCD;
        set.registers[0x0D..=0x11].copy_from_slice(&[0x16, 0xFB, 0x04, 0x00, 0x84]);
        assert_eq!(next, set);
        assert_eq!(after(bench, c, &bytes), set);
        for room in 0..length {
            assert_eq!(plan_request(bench, c, 1, channel_3(), room).0, 9);
        }
    }
}

pub fn no1_every_channel_and_filling(bench: &impl OneConverter) {
    for start in [0x00, 0xFF, 0x5A] {
        let mut c = command_mode(bench);
        c.registers[1..].fill(start);
        for channel in 1..=8 {
            for values in [CHANNEL_VALUES, [0, 6, 0, 0, 0, 1, 0, 1, 0]] {
                let request = Request::whole_channel(channel, values);
                let (refusal, bytes, next) = plan_request(bench, c, 0, request, 14);
                let mut expected = c;
                for (cell, value) in cells::named(&request) {
                    cell.store(&mut expected.registers, value);
                }
                assert_eq!((refusal, next), (0, expected));
                let own = expected.registers[4 + channel as usize];
                let run = &expected.registers[0x0D..=0x11];
                let command = 0x44 + channel as u8;
                assert_eq!(bytes, [&[command, 0x00, own, 0x4D, 0x04], run].concat());
            }
        }
    }
}

pub fn no1_places(bench: &impl OneConverter) {
    let c = Converter {
        standby: true,
        continuous: true,
        ..shared_run(bench)
    };
    let before = [0xA5; 20];
    for at in (0..23).chain([usize::MAX - 13, usize::MAX]) {
        let mut tx = before;
        let (refusal, length, next) = bench.plan(c, 1, channel_3(), &mut tx, at);
        if at <= 6 {
            let plan = [&[0x02, 0x11], &CHANNEL_3_WRITES[..], &[0x10, 0x04]].concat();
            let mut expected = before;
            expected[at..at + 14].copy_from_slice(&plan);
            assert_eq!((refusal, length, tx), (0, 14, expected));
            assert_eq!(send(bench, c, &plan).1, next, "place {at}");
        } else {
            assert_eq!((refusal, length, next, tx), (9, 0, c, before), "place {at}");
        }
    }
}

pub fn no1_every_value_is_judged(bench: &impl OneConverter) {
    let c = shared_run(bench);
    for index in 0..9 {
        let cell = cells::find(index as u32 + 1, 3).expect("a channel's field");
        for value in (0..=9).chain([128, 255, 256, 257, 16_383, 16_384, 65_536, u32::MAX]) {
            let mut request = channel_3();
            request.values[index] = value;
            let expected = if cell.admits(value) { 0 } else { 7 };
            let refusal = plan_request(bench, c, 1, request, 14).0;
            assert_eq!(refusal, expected, "field {} value {value}", index + 1);
        }
    }
}

pub fn no1_every_set_of_faults(bench: &impl OneConverter) {
    for (faults, bad) in (0..256u32).flat_map(|faults| (0..9).map(move |bad| (faults, bad))) {
        let has = |bit: u32| faults >> bit & 1 == 1;
        let mut c = shared_run(bench);
        if has(0) {
            c.registers[0] = 0x3F;
        }
        if has(6) {
            c = counting(c, Direction::Read, 1, 2);
        }
        let party = if has(1) { 9 } else { 1 + u32::from(has(4)) };
        let mut request = channel_3();
        if has(2) {
            request.field = [27, 28, 29, 31, 286, 30 | 0x8000_0000][bad % 6];
        }
        if has(3) {
            request.channel = [0, 9, 259][bad % 3];
        }
        if has(5) {
            request.values[bad] = if bad == 1 { 7 } else { 8 };
        }
        let room = if has(7) { 9 } else { 10 };
        let numbers = [13, 3, 4, 5, 6, 7, 8, 9];
        let expected = (0..8)
            .find(|&bit| has(bit))
            .map_or(0, |bit| numbers[bit as usize]);
        let (refusal, bytes, _) = plan_request(bench, c, party, request, room);
        assert_eq!(refusal, expected, "faults {faults:08b}, {request:?}");
        assert_eq!(bytes.len(), if expected == 0 { 10 } else { 0 });
    }
}

pub fn no1_a_stranger_learns_nothing(bench: &impl OneConverter) {
    let c = shared_run(bench);
    for bad in [[1, 7, 1, 5, 1, 0, 1, 0, 1], [1, 4, 1, 5, 1, 0, 1, 0, 2]] {
        let request = Request::whole_channel(3, bad);
        assert_eq!(plan_request(bench, c, 2, request, 14).0, 6);
        assert_eq!(plan_request(bench, c, 0, request, 14).0, 6);
        assert_eq!(plan_request(bench, c, 1, request, 14).0, 7);
    }
}

pub fn no1_other_fields_use_one_value(bench: &impl OneConverter) {
    let c = shared_run(bench);
    for rest in [0, 1, 7, 16_384, u32::MAX] {
        let mut request = Request::one(2, 3, 4);
        request.values[1..].fill(rest);
        let (refusal, bytes, _) = plan_request(bench, c, 1, request, 3);
        assert_eq!((refusal, bytes), (0, vec![0x47, 0x00, 0x41]));
        let mut buffer = [0xEE; 4];
        assert_eq!(bench.request_write(request, &mut buffer), (0, 3));
        assert_eq!(buffer, [0x02, 0x03, 0x04, 0xEE]);
    }
}

/// Field 30 and channel as bytes, nine values of one byte each.
fn short_request(channel: u8, values: [u8; 9]) -> Vec<u8> {
    [&[0x1E, channel], &values[..]].concat()
}

pub fn no1_reader(bench: &impl OneConverter) {
    let values = [1, 2, 3, 4, 5, 6, 7, 8, 9];
    for channel in [0, 3, 9, 127] {
        let mut bytes = short_request(channel, values);
        bytes.extend([0x83, 0x00]);
        let request = Request::whole_channel(channel.into(), values.map(u32::from));
        assert_eq!(bench.request_read(&bytes), (0, request, 11));
        for length in 0..11 {
            let cut = bench.request_read(&bytes[..length]);
            assert_eq!(cut, (1, NOTHING_READ, 0), "{length} bytes");
        }
    }
    let mut longest = vec![0x1E];
    longest.extend([0xFF, 0x7F].repeat(10));
    let request = Request::whole_channel(16_383, [16_383; 9]);
    assert_eq!(bench.request_read(&longest), (0, request, 21));
    assert_eq!(bench.request_read(&longest[..20]), (1, NOTHING_READ, 0));
}

pub fn no1_reader_from_left_to_right(bench: &impl OneConverter) {
    for place in 1..11 {
        let mut bytes = short_request(3, [0; 9]);
        bytes[place] = 0x83;
        // Then a 0 follows, or nothing behind the last.
        let expected = if place == 10 { 1 } else { 2 };
        assert_eq!(bench.request_read(&bytes), (expected, NOTHING_READ, 0));
        bytes.insert(place + 1, 0xFF);
        assert_eq!(bench.request_read(&bytes), (2, NOTHING_READ, 0));
        bytes.truncate(place + 1);
        assert_eq!(bench.request_read(&bytes), (1, NOTHING_READ, 0));
    }
    // No other field has nine values; 30 in a longer form is none.
    for field in [0x01, 0x1D, 0x1F] {
        let bytes = [field, 0x03, 0x04, 0x05, 0x06];
        let request = Request::one(field.into(), 3, 4);
        assert_eq!(bench.request_read(&bytes), (0, request, 3));
    }
    let longer_form = [&[0x9E, 0x00], &[0x01; 10][..]].concat();
    assert_eq!(bench.request_read(&longer_form), (2, NOTHING_READ, 0));
    let field_158 = [0x9E, 0x01, 0x03, 0x04, 0x05];
    let request = Request::one(158, 3, 4);
    assert_eq!(bench.request_read(&field_158), (0, request, 4));
}

pub fn no1_writer(bench: &impl OneConverter) {
    let numbers = [300, 0, 127, 128, 1, 16_383, 2, 3, 4];
    let request = Request::whole_channel(9, numbers);
    let bytes = [
        0x1E, 0x09, 0xAC, 0x02, 0x00, 0x7F, 0x80, 0x01, 0x01, 0xFF, 0x7F, 0x02, 0x03, 0x04,
    ];
    let mut buffer = [0xEE; 16];
    assert_eq!(bench.request_write(request, &mut buffer), (0, 14));
    assert_eq!(buffer[..14], bytes);
    assert_eq!(buffer[14..], [0xEE, 0xEE]);
    assert_eq!(bench.request_read(&buffer), (0, request, 14));
    for length in 0..14 {
        let mut short = vec![0xEE; length];
        assert_eq!(bench.request_write(request, &mut short), (9, 0));
        assert_eq!(short, vec![0xEE; length]);
    }
    for (request, used) in [
        (Request::whole_channel(0, [0; 9]), 11),
        (Request::whole_channel(16_383, [128; 9]), 21),
    ] {
        let mut exact = vec![0xEE; used];
        assert_eq!(bench.request_write(request, &mut exact), (0, used));
        assert_eq!(bench.request_read(&exact), (0, request, used));
        assert_eq!(bench.request_write(request, &mut exact[1..]), (9, 0));
    }
}

pub fn no1_writer_judges_all_numbers(bench: &impl OneConverter) {
    for place in 0..10 {
        for number in [16_384, 65_536, u32::MAX] {
            let mut request = Request::whole_channel(3, [0; 9]);
            match place {
                0 => request.channel = number,
                _ => request.values[place - 1] = number,
            }
            for length in [0, 10, 24] {
                let mut buffer = vec![0xEE; length];
                assert_eq!(bench.request_write(request, &mut buffer), (7, 0));
                assert_eq!(buffer, vec![0xEE; length]);
            }
        }
    }
}

pub fn no1_program(bench: &impl OneConverter) {
    let accepted = short_request(3, [1, 4, 1, 5, 1, 0, 1, 0, 1]);
    let line = "0 11 47 00 CD 4D 04 04 00 04 00 04 10\n";
    let wrong_channel = short_request(9, [0x02; 9]);
    let bad_gain = short_request(3, [0, 7, 0, 0, 0, 0, 0, 0, 0]);
    let bad_ninth = short_request(3, [0, 0, 0, 0, 0, 0, 0, 0, 2]);
    let ends_inside = [&accepted[..10], &[0x83]].concat();
    let malformed = [&accepted[..10], &[0x83, 0x00, 0x02]].concat();
    let single = [0x06, 0x08, 0x01];
    let rows: [(u8, Vec<&[u8]>, String); 8] = [
        (1, vec![&accepted], line.to_string()),
        (
            1,
            vec![&accepted, &single, &accepted],
            format!("{line}0 11 4E 00 80 10\n0 11 47 00 CD 4D 04 04 80 04 00 04 10\n"),
        ),
        (
            1,
            vec![&wrong_channel, &bad_gain, &bad_ninth, &accepted],
            format!("5\n7\n7\n{line}"),
        ),
        (2, vec![&bad_gain, &accepted], "6\n6\n".to_string()),
        (9, vec![&wrong_channel], "3\n".to_string()),
        (1, vec![&accepted, &ends_inside], format!("{line}1\n")),
        (1, vec![&malformed, &accepted], "2\n".to_string()),
        (1, vec![&[0x1E, 0x03, 0x04]], "1\n".to_string()),
    ];
    for (party, requests, output) in rows {
        let input = [&[party], &requests.concat()[..]].concat();
        let text = String::from_utf8(bench.console(&input)).expect("plain text");
        assert_eq!(text, output, "input {input:02x?}");
    }
}

pub fn no1_program_input_limit(bench: &impl OneConverter) {
    let mut input = vec![0x01];
    for _ in 0..372 {
        input.extend(short_request(3, [1, 4, 1, 5, 1, 0, 1, 0, 1]));
    }
    let lines = "0 11 47 00 CD 4D 04 04 00 04 00 04 10\n".repeat(372);
    // Three bytes are left for one more request.
    input.extend([0x02, 0x03, 0x04]);
    assert_eq!(input.len(), 4096);
    let expected = lines + "0 11 47 00 CD 10\n";
    assert_eq!(bench.console(&input), expected.into_bytes());
    input.push(0x1E);
    assert_eq!(bench.console(&input), b"14\n");
}

// Document 02's No. 2: fresh channel registers.

/// What a read of CH1SET to CH8SET brings from a converter in command mode.
fn channel_registers(bench: &impl OneConverter, c: Converter) -> Vec<u8> {
    let bytes = [&[0x25, 0x07], &[0x00; 8][..]].concat();
    send(bench, c, &bytes).0[2..].to_vec()
}

pub fn no2_read_back(bench: &impl OneConverter) {
    for id in [0x1E, 0x3E, 0xFE] {
        let c = after(bench, bench.power_up(id).1, &[0x11]);
        assert_eq!(channel_registers(bench, c), [0x61; 8]);
    }
    assert_eq!(bench.power_up(0x3D).1.registers[5..13], [0x61; 8]);
}

pub fn no2_reset_is_power_up(bench: &impl OneConverter) {
    for data in [0x00, 0x60, 0x9E, 0xFF] {
        let write = [&[0x45, 0x07], &[data; 8][..]].concat();
        let written = after(bench, sampled(bench), &write);
        assert_eq!(channel_registers(bench, written), [data; 8]);
        for before in [&[][..], &[0x10], &[0x04, 0x02]] {
            let c = after(bench, written, &[before, &[0x06]].concat());
            assert_eq!(c, fresh(bench));
            let c = after(bench, c, &[0x11]);
            assert_eq!(channel_registers(bench, c), [0x61; 8]);
        }
    }
}

pub fn no2_fields_of_a_fresh_channel(bench: &impl OneConverter) {
    let c = command_mode(bench);
    for channel in 1..=8 {
        for (field, value) in (1..).zip([0, 6, 0, 1, 0, 0, 0, 0, 0]) {
            let cell = cells::find(field, channel).expect("a channel's field");
            assert_eq!(cell.value(&c.registers), value, "{cell:?}");
            // To set it to what it is changes nothing.
            let (refusal, _, next) = plan(bench, c, [0, field, channel, value], 3);
            assert_eq!((refusal, next), (0, c));
        }
    }
}

pub fn no2_plans(bench: &impl OneConverter) {
    let c = command_mode(bench);
    let rows = [
        (1, 1, 0xE1),
        (2, 0, 0x01),
        (2, 4, 0x41),
        (3, 1, 0x69),
        (4, 0, 0x60),
        (4, 5, 0x65),
    ];
    for channel in 1..=8 {
        for (field, value, data) in rows {
            let bytes = plan(bench, c, [0, field, channel, value], 3).1;
            assert_eq!(bytes, [0x44 + channel as u8, 0x00, data]);
        }
    }
}

pub fn no2_program(bench: &impl OneConverter) {
    for channel in 1..=8 {
        let text = bench.console(&[0x01, 0x04, channel, 0x00, 0x01, channel, 0x01]);
        let command = 0x44 + channel;
        let expected = format!("0 11 {command:02X} 00 60 10\n0 11 {command:02X} 00 E0 10\n");
        assert_eq!(text, expected.into_bytes());
    }
}

// Document 02's No. 3: codes on the rail.

const TOP: [u8; 3] = [0x7F, 0xFF, 0xFF];
const BOTTOM: [u8; 3] = [0x80, 0x00, 0x00];

/// Both ends of the range, each with its rail.
const ENDS: [(i32, Rail); 2] = [(8_388_607, Rail::Highest), (-8_388_608, Rail::Lowest)];

/// A frame with every comparator bit set and these bytes for each channel.
fn frame_full_of(bytes: [u8; 3]) -> [u8; 27] {
    let mut frame = [0xFF; 27];
    frame[0] = 0xCF;
    for part in frame[3..].chunks_exact_mut(3) {
        part.copy_from_slice(&bytes);
    }
    frame
}

/// Powers a channel of party 0 down (1) or up (0).
fn powered(bench: &impl OneConverter, c: Converter, channel: u32, down: u32) -> Converter {
    let (refusal, _, next) = plan(bench, c, [0, 1, channel, down], 3);
    assert_eq!(refusal, 0, "power-down field");
    next
}

/// Code and rail of a channel of party 0, lead-off bits off.
fn shown(bench: &impl OneConverter, c: Converter, channel: u32, frame: &[u8]) -> (i32, Rail) {
    let (refusal, code, rail, p, n) = bench.read_channel(c, 0, channel, frame);
    assert_eq!((refusal, p, n), (0, false, false), "channel {channel}");
    (code, rail)
}

pub fn no3_rails(bench: &impl OneConverter) {
    let rows = [
        (TOP, 8_388_607, Rail::Highest),
        ([0x7F, 0xFF, 0xFE], 8_388_606, Rail::Neither),
        (BOTTOM, -8_388_608, Rail::Lowest),
        ([0x80, 0x00, 0x01], -8_388_607, Rail::Neither),
        ([0xFF, 0xFF, 0xFF], -1, Rail::Neither),
        ([0x00, 0x00, 0x00], 0, Rail::Neither),
    ];
    let c = fresh(bench);
    for others in [TOP, BOTTOM] {
        for (bytes, code, rail) in rows {
            for channel in 1..=8 {
                let mut frame = frame_full_of(others);
                frame[3 * channel..3 * channel + 3].copy_from_slice(&bytes);
                let reading = bench.read_channel(c, 0, channel as u32, &frame);
                assert_eq!(reading, (0, code, rail, true, true), "{bytes:02x?}");
            }
        }
    }
}

pub fn no3_powered_down_before_the_frame(bench: &impl OneConverter) {
    let running = after(bench, command_mode(bench), &[0x08]);
    for (code, rail) in ENDS {
        for down in 1..=8 {
            let c = powered(bench, running, down, 1);
            let c = take(bench, c, &[code; 8], 0, 0);
            let up = powered(bench, c, down, 0);
            for channel in 1..=8 {
                let expected = if channel == down {
                    (0, Rail::Neither)
                } else {
                    (code, rail)
                };
                assert_eq!(shown(bench, c, channel, &c.latest), expected);
                // The frame stays what it was when it was built.
                assert_eq!(shown(bench, up, channel, &c.latest), expected);
            }
            let next = take(bench, up, &[code; 8], 0, 0);
            assert_eq!(shown(bench, next, down, &next.latest), (code, rail));
        }
    }
}

pub fn no3_powered_down_after_the_frame(bench: &impl OneConverter) {
    let running = after(bench, command_mode(bench), &[0x08]);
    for (code, rail) in ENDS {
        let c = take(bench, running, &[code; 8], 0, 0);
        for channel in 1..=8 {
            let down = powered(bench, c, channel, 1);
            assert_eq!(shown(bench, down, channel, &c.latest), (code, rail));
            let next = take(bench, down, &[code; 8], 0, 0);
            let reading = shown(bench, next, channel, &next.latest);
            assert_eq!(reading, (0, Rail::Neither));
        }
    }
}

pub fn no3_refusals_are_neither(bench: &impl OneConverter) {
    let c = granted(bench, fresh(bench), 1, 3);
    for bytes in [TOP, BOTTOM] {
        let good = frame_full_of(bytes);
        let long = [&good[..], &bytes].concat();
        let rows: [(u32, u32, &[u8], u8); 10] = [
            (9, 3, &good, 3),
            (256 + 1, 3, &good, 3),
            (1, 0, &good, 5),
            (1, 9, &good, 5),
            (1, 256 + 3, &good, 5),
            (0, 3, &good, 6),
            (2, 3, &good, 6),
            (1, 3, &good[..26], 12),
            (1, 3, &long, 12),
            (1, 3, &bytes.repeat(9), 12),
        ];
        for (party, channel, frame, refusal) in rows {
            let reading = bench.read_channel(c, party, channel, frame);
            assert_eq!(reading, unread(refusal), "{party} {channel}");
        }
        for broken in broken_states(bench) {
            assert_eq!(bench.read_channel(broken, 0, 3, &good), unread(13));
        }
        assert_ne!(bench.read_channel(c, 1, 3, &good).2, Rail::Neither);
    }
}

/// Hands the name of every figure to a macro.
#[macro_export]
macro_rules! for_each_figure {
    ($action:path, $bench:expr) => {
        $action! { use $crate::figures; $bench;
            fig01_to_04_plans
            fig05_others_bits_kept
            fig06_masked_write
            fig07_write_in_continuous_mode_resets
            fig08_register_read
            fig09_to_11_codes
            fig12_frame_start
            fig15_to_18_parties_and_values
            fig19_request_reading
            fig20_program_case
            reg1_reg2_reg8_power_up
            reg3_reg4_masks
            reg5_past_the_last_register
            reg7_reg9_ids
            fld1_to_fld4_every_setting
            fld5_settings_fill_the_masks
            byt2_byte_out_before_acting
            byt3_byt10_to_byt20_every_byte
            byt4_byt16_dropped_command
            byt5_byt6_registers_change_at_their_own_byte
            byt7_no_decoding_during_a_read
            byt8_registers_read_as_they_stand
            byt15_acting_empties_output
            byt17_byt18_rdata_restarts_rdatac_does_not_load
            byt21_frame_start_over
            byt22_zeros_lead_back_to_waiting
            byt23_sel2_tot3_broken_states_refused
            rule13_edges_pass
            sel1_sel3_select_rise
            smp1_smp2_judging
            smp3_status_registers
            smp4_smp5_frame_bytes
            smp6_smp7_what_a_sample_changes
            rdr2_order_and_owner
            rdr3_lead_off_bits
            rdr5_parts
            pln3_every_set_of_faults
            pln4_no_further_refusals
            pln7_pln8_pln9_places
            pln10_pln13_state_after
            slw1_to_slw4_writer
            slr3_slr5_round_trips
            grt1_to_grt4_grants
            prg1_to_prg6_program
            prg5_input_limit
            no1_plans_in_every_mode
            no1_every_channel_and_filling
            no1_places
            no1_every_value_is_judged
            no1_every_set_of_faults
            no1_a_stranger_learns_nothing
            no1_other_fields_use_one_value
            no1_reader
            no1_reader_from_left_to_right
            no1_writer
            no1_writer_judges_all_numbers
            no1_program
            no1_program_input_limit
            no2_read_back
            no2_reset_is_power_up
            no2_fields_of_a_fresh_channel
            no2_plans
            no2_program
            no3_rails
            no3_powered_down_before_the_frame
            no3_powered_down_after_the_frame
            no3_refusals_are_neither
        }
    };
}

/// Defines one `#[test]` for each figure, on the implementation given.
#[macro_export]
macro_rules! figure_tests {
    ($bench:expr) => {
        $crate::for_each_figure! { $crate::test_each, $bench }
    };
}

/// All figures; panics at the first mismatch.
pub fn all(bench: &impl OneConverter) {
    for_each_figure! { crate::each_figure::run_each, bench }
}
