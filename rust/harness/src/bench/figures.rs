//! Fixed figures of document 02's No. 4, a bench of four converters (rows
//! `no4`). Each panics on a mismatch.

use std::collections::BTreeSet;

use super::laws::send;
use super::states::with;
use super::{FourConverters, CONVERTERS};
use crate::figures::{
    broken_states, counting, frame_with, held, unread, Around, AROUND, CHANNEL_VALUES, RUN_BEFORE,
    SOME_CODES,
};
use crate::{cells, Bench, Converter, Direction, OneConverter, Phase, Rail, Request};

const IDS: [u8; CONVERTERS] = [0x3E, 0x1E, 0x5E, 0xFE];

/// Numbers that are no converter's, some of which look like one's once cut to
/// fewer bits.
const NO_CONVERTER: [u32; 12] = [
    4,
    5,
    7,
    8,
    255,
    256,
    257,
    256 + 3,
    0x1_0000,
    0x1_0002,
    0x8000_0001,
    u32::MAX,
];

/// The same for channels 1 to 32.
const NO_CHANNEL: [u32; 15] = [
    0,
    33,
    34,
    35,
    36,
    37,
    40,
    64,
    255,
    256,
    256 + 1,
    256 + 9,
    0x1_0000 + 32,
    0x8000_0011,
    u32::MAX,
];

/// The same for the numbers that name shared fields.
const NOT_SHARED: [u32; 9] = [
    36,
    37,
    64,
    255,
    256,
    256 + 33,
    0x1_0000 + 34,
    0x8000_0023,
    u32::MAX,
];

/// Each converter's number for its shared fields, with its own.
const SHARED: [(u32, usize); CONVERTERS] = [(0, 0), (33, 1), (34, 2), (35, 3)];

fn fresh(bench: &impl FourConverters) -> Bench {
    let (refusal, b) = bench.power_up(IDS);
    assert_eq!(refusal, 0, "power-up");
    b
}

/// Sends bytes that must all be taken by a converter; gives those that came
/// out, and the bench.
fn sent(bench: &impl FourConverters, b: Bench, number: u32, bytes: &[u8]) -> (Vec<u8>, Bench) {
    send(bench, b, number, bytes).expect("no byte may be refused")
}

fn after(bench: &impl FourConverters, b: Bench, number: u32, bytes: &[u8]) -> Bench {
    sent(bench, b, number, bytes).1
}

fn command_mode(bench: &impl FourConverters) -> Bench {
    (0..4).fold(fresh(bench), |b, number| after(bench, b, number, &[0x11]))
}

/// In command mode and converting, with registers, output and owners of their
/// own: channel n is party n % 9's.
fn busy(bench: &impl FourConverters) -> Bench {
    let mut b = command_mode(bench);
    for (number, c) in b.converters.iter_mut().enumerate() {
        let mark = 0x11 * (number as u8 + 1);
        c.registers[0x0D..=0x11].fill(mark);
        c.owners = std::array::from_fn(|place| ((8 * number + place + 1) % 9) as u8);
        c.latest = frame_with([0xC0, mark, 0x00], number + 1, [mark; 3]);
        c.shifting = [mark; 27];
        c.output = Some(number as u8);
        c.converting = true;
    }
    b
}

/// What a plan answers, and its bytes.
type Planned = (u8, u32, Vec<u8>, Bench);

/// A plan for one field into a buffer of exactly `room` bytes.
fn plan(
    bench: &impl FourConverters,
    b: Bench,
    [party, field, channel, value]: [u32; 4],
    room: usize,
) -> Planned {
    plan_request(bench, b, party, Request::one(field, channel, value), room)
}

/// The same for any request.
fn plan_request(
    bench: &impl FourConverters,
    b: Bench,
    party: u32,
    request: Request,
    room: usize,
) -> Planned {
    let mut tx = vec![0xEE; room];
    let (refusal, number, length, next) = bench.plan(b, party, request, &mut tx, 0);
    if refusal != 0 {
        let untouched = (0, 0, &vec![0xEE; room], b);
        assert_eq!((number, length, &tx, next), untouched, "refused plan");
    }
    tx.truncate(length);
    (refusal, number, tx, next)
}

fn number(bench: &impl FourConverters, b: Bench, request: [u32; 4]) -> u8 {
    plan(bench, b, request, 7).0
}

/// The first of the faults that are there, by number.
fn first_of(numbers: &[u8], has: impl Fn(u32) -> bool) -> u8 {
    let mut faults = (0..).zip(numbers).filter(|(bit, _)| has(*bit));
    faults.next().map_or(0, |(_, number)| *number)
}

/// The bench with a bad owner in one of its converters.
fn spoilt(mut b: Bench, place: usize) -> Bench {
    b.converters[place].owners[7] = 9;
    b
}

pub fn no4_power_up(bench: &impl FourConverters) {
    for ids in [IDS, [0x3E; 4], [0xFE, 0x9E, 0xBE, 0xDE]] {
        let converters = ids.map(|id| bench.one().power_up(id).1);
        assert_eq!(bench.power_up(ids), (0, Bench { converters }));
        let shown = bench.power_up(ids).1.converters.map(|c| c.registers[0]);
        assert_eq!(shown, ids);
    }
}

pub fn no4_one_bad_id_refuses_all(bench: &impl FourConverters) {
    let converters = [bench.one().power_up(0x00).1; 4];
    for bad in [0x00, 0x3D, 0x3F, 0x1F, 0x0E, 0x16, 0xFF] {
        for places in 1..16u8 {
            let is_bad = |place: usize| places >> place & 1 == 1;
            let ids = std::array::from_fn(|place| if is_bad(place) { bad } else { IDS[place] });
            let (refusal, b) = bench.power_up(ids);
            assert_eq!((refusal, b), (13, Bench { converters }), "IDs {ids:02x?}");
            assert_eq!(b.converters.map(|c| c.registers[0]), [0x00; 4]);
        }
    }
}

pub fn no4_every_channel(bench: &impl FourConverters) {
    let b = busy(bench);
    let mut channel = 0;
    for converter in 0..4 {
        for place in 1..=8 {
            channel += 1;
            let answer = plan(bench, b, [channel % 9, 2, channel, 4], 3);
            let mut expected = b;
            expected.converters[converter].registers[4 + place] = 0x41;
            expected.converters[converter].output = None;
            let bytes = vec![0x44 + place as u8, 0x00, 0x41];
            assert_eq!(answer, (0, converter as u32, bytes, expected));
            let stranger = [(channel + 1) % 9, 2, channel, 4];
            assert_eq!(number(bench, b, stranger), 6, "channel {channel}");
        }
    }
    assert_eq!(channel, 32);
}

pub fn no4_ends_of_the_ranges(bench: &impl FourConverters) {
    let b = command_mode(bench);
    let rows = [
        (1, 0, 0x45),
        (8, 0, 0x4C),
        (9, 1, 0x45),
        (16, 1, 0x4C),
        (17, 2, 0x45),
        (24, 2, 0x4C),
        (25, 3, 0x45),
        (32, 3, 0x4C),
    ];
    for (channel, converter, command) in rows {
        let (refusal, number, bytes, _) = plan(bench, b, [0, 2, channel, 4], 3);
        let expected = (0, converter, vec![command, 0x00, 0x41]);
        assert_eq!((refusal, number, bytes), expected, "channel {channel}");
    }
    for channel in NO_CHANNEL {
        for field in [1, 2, 9] {
            assert_eq!(number(bench, b, [0, field, channel, 1]), 5, "{channel}");
        }
        let whole = Request::whole_channel(channel, CHANNEL_VALUES);
        assert_eq!(plan_request(bench, b, 0, whole, 14).0, 5, "{channel}");
        assert_eq!(bench.grant(b, 0, 1, channel), (5, b), "{channel}");
        for by in 0..4 {
            let reading = bench.read_channel(b, by, 0, channel, &[0xC0; 27]);
            assert_eq!(reading, unread(5), "{channel}");
            assert_eq!(bench.channel_bytes(b, by, 0, channel, &[0xC0; 27]), 0..0);
        }
    }
}

pub fn no4_gain_of_channel_9(bench: &impl FourConverters) {
    let gain = [0, 2, 9, 4];
    let b = fresh(bench);
    let mut expected = b;
    expected.converters[1].registers[0x05] = 0x41;
    let bytes = vec![0x11, 0x45, 0x00, 0x41, 0x10];
    assert_eq!(plan(bench, b, gain, 5), (0, 1, bytes, expected));
    let b = after(bench, b, 1, &[0x04]);
    let bytes = vec![0x02, 0x11, 0x45, 0x00, 0x41, 0x10, 0x04];
    assert_eq!(plan(bench, b, gain, 7).2, bytes);
    assert_eq!(plan(bench, b, gain, 6).0, 9);
}

pub fn no4_shared_fields(bench: &impl FourConverters) {
    let b = busy(bench);
    for (channel, converter) in SHARED {
        let answer = plan(bench, b, [0, 12, channel, 5], 3);
        let mut expected = b;
        expected.converters[converter].registers[0x01] = 0x95;
        expected.converters[converter].output = None;
        let bytes = vec![0x41, 0x00, 0x95];
        assert_eq!(answer, (0, converter as u32, bytes, expected));
        assert_eq!(number(bench, b, [1, 12, channel, 5]), 6);
        for field in 10..=26 {
            let cell = cells::find(field, 0).expect("a shared field");
            let next = plan(bench, b, [0, field, channel, 1], 3).3;
            let mut expected = b.converters[converter];
            cell.store(&mut expected.registers, 1);
            expected.output = None;
            assert_eq!(next, with(&b, converter, expected), "{field}");
        }
    }
    for channel in (1..=32).chain(NOT_SHARED) {
        for field in [10, 12, 26] {
            assert_eq!(number(bench, b, [0, field, channel, 1]), 5, "{channel}");
        }
    }
}

pub fn no4_shared_field_by_34(bench: &impl FourConverters) {
    // CONFIG4 of converter 2: 34 names it with a shared field alone.
    let b = command_mode(bench);
    let (refusal, number_of, bytes, next) = plan(bench, b, [0, 25, 34, 1], 3);
    assert_eq!((refusal, number_of, bytes), (0, 2, vec![0x57, 0x00, 0x08]));
    assert_eq!(next.converters.map(|c| c.registers[0x17]), [0, 0, 8, 0]);
    assert_eq!(number(bench, b, [0, 9, 34, 1]), 5);
}

/// All fields of all converters, each by a name of its own.
pub fn no4_every_setting(bench: &impl FourConverters) {
    let mut b = command_mode(bench);
    for (number, c) in b.converters.iter_mut().enumerate() {
        c.registers[1..].fill([0x00, 0xFF, 0x5A, 0xA5][number]);
    }
    let mut names = BTreeSet::new();
    for number in 0..CONVERTERS {
        for cell in cells::all() {
            let channel = cells::channel_number(CONVERTERS, number, cell.channel);
            names.insert((cell.field, channel));
            for value in (0..=8).filter(|&value| cell.admits(value)) {
                let (refusal, by, _, next) = plan(bench, b, [0, cell.field, channel, value], 3);
                let mut expected = b;
                cell.store(&mut expected.converters[number].registers, value);
                let answer = (0, number as u32, expected);
                assert_eq!((refusal, by, next), answer, "{cell:?} of {number}");
            }
        }
    }
    assert_eq!(names.len(), 4 * 89);
}

pub fn no4_only_the_named_must_wait(bench: &impl FourConverters) {
    for open in 0..4 {
        for phase in [
            held(busy(bench).converters[open], Direction::Write, 5, 0).phase,
            counting(busy(bench).converters[open], Direction::Read, 5, 2).phase,
        ] {
            let mut b = busy(bench);
            b.converters[open].output = None;
            b.converters[open].phase = phase;
            for channel in 1..=32 {
                let own = (channel as usize - 1) / 8 == open;
                let expected = if own { 8 } else { 0 };
                let request = [channel % 9, 2, channel, 4];
                assert_eq!(number(bench, b, request), expected, "{channel}");
            }
            for (channel, converter) in SHARED {
                let expected = if converter == open { 8 } else { 0 };
                assert_eq!(number(bench, b, [0, 12, channel, 5]), expected);
            }
        }
    }
}

/// 13 from every call, whatever else is wrong with it.
fn refused_whole(bench: &impl FourConverters, b: Bench) {
    let frame = frame_with([0xCF, 0xFF, 0xFF], 1, [0xFF; 3]);
    for by in [0, 1, 2, 3, 4, u32::MAX] {
        assert_eq!(bench.step(b, by, 0x06), (13, 0, b));
        assert_eq!(bench.deselect(b, by), (13, b));
        assert_eq!(bench.sample(b, by, &SOME_CODES, 1, 2), (13, b));
        assert_eq!(bench.sample(b, by, &[], 1, 2), (13, b));
        for (party, channel) in [(0, 1), (0, 9), (0, 32), (9, 33)] {
            let reading = bench.read_channel(b, by, party, channel, &frame);
            assert_eq!(reading, unread(13));
            let part = bench.channel_bytes(b, by, party, channel, &frame);
            assert_eq!(part, 0..0);
        }
    }
    for channel in [0, 1, 9, 17, 25, 32, 33, 36] {
        assert_eq!(bench.grant(b, 0, 1, channel), (13, b));
        assert_eq!(number(bench, b, [0, 2, channel, 4]), 13);
        assert_eq!(number(bench, b, [0, 12, channel, 5]), 13);
        assert_eq!(number(bench, b, [9, 27, channel, 99]), 13);
    }
}

pub fn no4_broken_converter_refuses_all(bench: &impl FourConverters) {
    for place in 0..4 {
        for broken in broken_states(bench.one()) {
            refused_whole(bench, with(&fresh(bench), place, broken));
        }
    }
}

pub fn no4_a_byte_reaches_one(bench: &impl FourConverters) {
    let b = busy(bench);
    for by in 0..4 {
        let place = by as usize;
        let c = b.converters[place];
        for byte in 0..=255 {
            let (refusal, out, next) = bench.one().step(c, byte);
            let expected = (refusal, out, with(&b, place, next));
            assert_eq!(bench.step(b, by, byte), expected, "byte {byte:02x}");
            assert_eq!(out, 0x11 * (by as u8 + 1));
        }
        let read = sent(bench, command_mode(bench), by, &[0x20, 0x01, 0x00, 0x00]);
        let expected = vec![0x00, 0x00, IDS[place], 0x96];
        assert_eq!(read, (expected, command_mode(bench)));
        let reset = after(bench, b, by, &[0x06]);
        let mut expected = fresh(bench).converters[place];
        expected.owners = c.owners;
        assert_eq!(reset, with(&b, place, expected));
    }
}

pub fn no4_numbers_above_3(bench: &impl FourConverters) {
    let frame = frame_with([0xC0, 0, 0], 1, [1, 2, 3]);
    for b in [fresh(bench), command_mode(bench), busy(bench)] {
        for by in NO_CONVERTER {
            for byte in [0x00, 0x06, 0x11] {
                assert_eq!(bench.step(b, by, byte), (5, 0, b), "number {by}");
            }
            assert_eq!(bench.deselect(b, by), (5, b), "number {by}");
            for codes in [&SOME_CODES[..], &[], &[i32::MAX; 8]] {
                assert_eq!(bench.sample(b, by, codes, 1, 2), (5, b), "number {by}");
            }
            for channel in [1, 9, 17, 25] {
                let party = b.converters[channel as usize / 8].owners[0].into();
                let reading = bench.read_channel(b, by, party, channel, &frame);
                assert_eq!(reading, unread(5), "number {by}");
                let part = bench.channel_bytes(b, by, party, channel, &frame);
                assert_eq!(part, 0..0, "number {by}");
            }
        }
    }
}

pub fn no4_lines_do_not_mix(bench: &impl FourConverters) {
    // Half a write to 1, a whole read of 2, half a write to 0; then the rest.
    let b = command_mode(bench);
    let (_, b) = sent(bench, b, 1, &[0x45, 0x01, 0x12]);
    let (out, b) = sent(bench, b, 2, &[0x20, 0x01, 0x00, 0x00]);
    assert_eq!(out, [0x00, 0x00, IDS[2], 0x96]);
    let (_, b) = sent(bench, b, 0, &[0x45]);
    let (_, b) = sent(bench, b, 1, &[0x34]);
    let (_, b) = sent(bench, b, 0, &[0x00, 0x56]);
    let mut expected = command_mode(bench);
    expected.converters[0].registers[0x05] = 0x56;
    expected.converters[1].registers[0x05..=0x06].copy_from_slice(&[0x12, 0x34]);
    assert_eq!(b, expected);
    // A frame goes on where it was, from its fourth byte to its last, while
    // another line is in use.
    let b = busy(bench);
    let (out, b) = sent(bench, b, 3, &[0x00, 0x00]);
    assert_eq!(out, [0x44, 0x44]);
    let b = after(bench, b, 0, &[0x06, 0x11]);
    let (out, b) = sent(bench, b, 3, &[0x00; 22]);
    assert_eq!((out, b.converters[3].output), (vec![0x44; 22], None));
}

pub fn no4_select_rise(bench: &impl FourConverters) {
    let open = |b, by| after(bench, b, by, &[0x45, 0x01, 0x12]);
    let all_open = (0..4).fold(command_mode(bench), open);
    for by in 0..4 {
        let c = Converter {
            phase: Phase::Waiting,
            ..all_open.converters[by as usize]
        };
        let expected = with(&all_open, by as usize, c);
        assert_eq!(bench.deselect(all_open, by), (0, expected));
        assert_eq!(bench.deselect(expected, by), (0, expected));
        let b = busy(bench);
        let mut expected = b;
        expected.converters[by as usize].output = None;
        assert_eq!(bench.deselect(b, by), (0, expected));
    }
}

pub fn no4_rise_after_a_plan(bench: &impl FourConverters) {
    for (standby, continuous, _, _) in AROUND {
        let mut b = busy(bench);
        for c in &mut b.converters {
            (c.standby, c.continuous) = (standby, continuous);
        }
        let channels = (1..=32).map(|channel| [channel % 9, 9, channel, 1]);
        let shared = SHARED.map(|(channel, _)| [0, 21, channel, 5]);
        for request in channels.chain(shared) {
            let (refusal, by, bytes, next) = plan(bench, b, request, 7);
            assert_eq!(refusal, 0, "{request:?}");
            assert_eq!(after(bench, b, by, &bytes), next, "{request:?}");
            assert_eq!(bench.deselect(next, by), (0, next), "{request:?}");
        }
    }
}

/// Each converter in other modes, in one order and in the other.
pub fn no4_modes_of_the_named(bench: &impl FourConverters) {
    let mut around = AROUND;
    modes_of_the_named(bench, around);
    around.reverse();
    modes_of_the_named(bench, around);
}

fn modes_of_the_named(bench: &impl FourConverters, around: [Around; 4]) {
    let mut b = command_mode(bench);
    for (c, (standby, continuous, _, _)) in b.converters.iter_mut().zip(around) {
        (c.standby, c.continuous) = (standby, continuous);
    }
    for (converter, (_, _, before, behind)) in around.into_iter().enumerate() {
        let channel = 8 * converter as u32 + 3;
        let bytes = [before, &[0x47, 0x00, 0x41], behind].concat();
        let length = bytes.len();
        let mut expected = b;
        expected.converters[converter].registers[0x07] = 0x41;
        let answer = plan(bench, b, [0, 2, channel, 4], length);
        assert_eq!(answer, (0, converter as u32, bytes, expected));
        for room in 0..length {
            assert_eq!(plan(bench, b, [0, 2, channel, 4], room).0, 9);
        }
    }
}

pub fn no4_places(bench: &impl FourConverters) {
    let b = fresh(bench);
    let gain = Request::one(2, 27, 4);
    for at in (0..12).chain([usize::MAX - 4, usize::MAX]) {
        let mut tx = [0xA5; 10];
        let (refusal, by, length, next) = bench.plan(b, 0, gain, &mut tx, at);
        if at <= 5 {
            let mut expected = [0xA5; 10];
            expected[at..at + 5].copy_from_slice(&[0x11, 0x47, 0x00, 0x41, 0x10]);
            assert_eq!((refusal, by, length, tx), (0, 3, 5, expected));
            assert_eq!(next.converters.map(|c| c.registers[0x07])[3], 0x41);
        } else {
            let untouched = (9, 0, 0, [0xA5; 10], b);
            assert_eq!((refusal, by, length, tx, next), untouched, "place {at}");
        }
    }
}

pub fn no4_whole_channels(bench: &impl FourConverters) {
    let mut b = command_mode(bench);
    for c in &mut b.converters {
        c.registers[0x0D..=0x11].copy_from_slice(&RUN_BEFORE);
    }
    for converter in 0..4 {
        // Its third channel, on neighbours' bits.
        let request = Request::whole_channel(8 * converter + 3, CHANNEL_VALUES);
        let answer = plan_request(bench, b, 0, request, 10);
        let run = [0x16, 0xFB, 0x04, 0x00, 0x84];
        let mut expected = b;
        let c = &mut expected.converters[converter as usize];
        c.registers[0x07] = 0xCD;
        c.registers[0x0D..=0x11].copy_from_slice(&run);
        let bytes = [&[0x47, 0x00, 0xCD, 0x4D, 0x04], &run[..]].concat();
        assert_eq!(answer, (0, converter, bytes, expected));
        assert_eq!(plan_request(bench, b, 0, request, 9).0, 9);
    }
}

pub fn no4_every_set_of_faults(bench: &impl FourConverters) {
    for (faults, converter) in (0..256u32).flat_map(|faults| (0..4).map(move |k| (faults, k))) {
        let has = |bit: u32| faults >> bit & 1 == 1;
        let mut b = busy(bench);
        let c = &mut b.converters[converter];
        c.output = None;
        c.owners[2] = if has(4) { 2 } else { 1 };
        if has(6) {
            *c = held(*c, Direction::Write, 1, 0);
        }
        if has(0) {
            // In another converter than the request names.
            b = spoilt(b, (converter + 1 + faults as usize % 3) % 4);
        }
        let party = if has(1) { 9 } else { 1 };
        let field = if has(2) { 27 } else { 2 };
        let own = 8 * converter as u32 + 3;
        let channel = if has(3) { 33 + converter as u32 } else { own };
        let value = if has(5) { 7 } else { 4 };
        let room = if has(7) { 2 } else { 3 };
        let expected = first_of(&[13, 3, 4, 5, 6, 7, 8, 9], has);
        let (refusal, by, bytes, _) = plan(bench, b, [party, field, channel, value], room);
        assert_eq!(refusal, expected, "faults {faults:08b} at {converter}");
        let accepted = if expected == 0 {
            (converter as u32, 3)
        } else {
            (0, 0)
        };
        assert_eq!((by, bytes.len()), accepted);
    }
}

pub fn no4_samples(bench: &impl FourConverters) {
    for by in 0..4 {
        let b = after(bench, fresh(bench), by, &[0x08]);
        let (refusal, next) = bench.sample(b, by, &SOME_CODES, 0x01, 0x80);
        let own = next.converters[by as usize];
        assert_eq!((refusal, &own.latest[..3]), (0, &[0xC0, 0x18, 0x00][..]));
        assert_eq!(with(&next, by as usize, b.converters[by as usize]), b);
        for (channel, code) in (8 * by + 1..).zip(SOME_CODES) {
            let (p, n) = (channel % 8 == 1, channel % 8 == 0);
            let rail = crate::laws::rail_of(code);
            let reading = bench.read_channel(next, by, 0, channel, &own.latest);
            assert_eq!(reading, (0, code, rail, p, n), "channel {channel}");
            for other in (0..4).filter(|&other| other != by) {
                let reading = bench.read_channel(next, other, 0, channel, &own.latest);
                assert_eq!(reading, unread(5), "channel {channel} by {other}");
            }
        }
        for other in (0..4).filter(|&other| other != by) {
            assert_eq!(bench.sample(b, other, &SOME_CODES, 1, 2), (10, b));
            assert_eq!(bench.sample(b, other, &[0; 7], 1, 2), (10, b));
        }
        assert_eq!(bench.sample(b, by, &[0; 7], 1, 2), (11, b));
        assert_eq!(bench.sample(b, by, &[8_388_608; 8], 1, 2), (11, b));
    }
}

pub fn no4_sample_faults(bench: &impl FourConverters) {
    for (faults, by) in (0..16u32).flat_map(|faults| (0..4).map(move |by| (faults, by))) {
        let has = |bit: u32| faults >> bit & 1 == 1;
        let mut b = busy(bench);
        b.converters[by as usize].standby = has(2);
        if has(0) {
            b = spoilt(b, (by as usize + 1 + faults as usize % 3) % 4);
        }
        let number = if has(1) { 4 + by } else { by };
        let codes = if has(3) {
            &SOME_CODES[..7]
        } else {
            &SOME_CODES
        };
        let (refusal, next) = bench.sample(b, number, codes, 1, 2);
        assert_eq!(refusal, first_of(&[13, 5, 10, 11], has), "{faults:04b}");
        assert_eq!(next == b, refusal != 0);
    }
}

pub fn no4_channel_9_by_number_0(bench: &impl FourConverters) {
    let b = bench.grant(fresh(bench), 0, 1, 9).1;
    let frame = frame_with([0xCF, 0xFF, 0xFF], 1, [0xFF; 3]);
    assert_eq!(bench.read_channel(b, 0, 1, 9, &frame), unread(5));
    assert_eq!(bench.channel_bytes(b, 0, 1, 9, &frame), 0..0);
    let reading = bench.read_channel(b, 1, 1, 9, &frame);
    assert_eq!(reading, (0, -1, Rail::Neither, true, true));
    assert_eq!(bench.channel_bytes(b, 1, 1, 9, &frame), 3..6);
    assert_eq!(bench.read_channel(b, 0, 0, 1, &frame).0, 0);
    assert_eq!(bench.read_channel(b, 1, 0, 1, &frame), unread(5));
}

pub fn no4_readings(bench: &impl FourConverters) {
    let b = busy(bench);
    for channel in 1..=32u32 {
        let (converter, place) = ((channel - 1) / 8, (channel as usize - 1) % 8 + 1);
        let frame = frame_with([0xC0, 0x00, 0x00], place, [0x12, 0x34, 0x56]);
        let expected = (0, 0x12_3456, Rail::Neither, false, false);
        for by in (0..4).chain(NO_CONVERTER) {
            let reading = bench.read_channel(b, by, channel % 9, channel, &frame);
            let part = bench.channel_bytes(b, by, channel % 9, channel, &frame);
            if by == converter {
                assert_eq!(reading, expected, "channel {channel}");
                assert_eq!(part, 3 * place..3 * place + 3);
            } else {
                assert_eq!((reading, part), (unread(5), 0..0), "{channel} by {by}");
            }
        }
    }
}

/// Each fault of a reading; 5 in three ways.
pub fn no4_reading_faults(bench: &impl FourConverters) {
    let good = frame_with([0xCF, 0xFF, 0xFF], 3, [0xFF; 3]);
    for (faults, converter) in (0..128u32).flat_map(|faults| (0..4).map(move |k| (faults, k))) {
        let has = |bit: u32| faults >> bit & 1 == 1;
        let mut b = busy(bench);
        b.converters[converter as usize].owners[2] = 1;
        if has(0) {
            b = spoilt(b, (converter as usize + 1 + faults as usize % 3) % 4);
        }
        let party = match (has(1), has(5)) {
            (true, _) => 9,
            (false, other) => 1 + u32::from(other),
        };
        let own = 8 * converter + 3;
        let channel = if has(2) { 33 + converter } else { own };
        let number = match (has(3), has(4)) {
            (true, _) => converter + 4,
            (false, true) => (converter + 1) % 4,
            _ => converter,
        };
        let frame = if has(6) { &good[..26] } else { &good };
        let expected = first_of(&[13, 3, 5, 5, 5, 6, 12], has);
        let reading = bench.read_channel(b, number, party, channel, frame);
        let part = bench.channel_bytes(b, number, party, channel, frame);
        if expected == 0 {
            assert_eq!(reading, (0, -1, Rail::Neither, true, true));
            assert_eq!(part, 9..12);
        } else {
            assert_eq!((reading, part), (unread(expected), 0..0), "{faults:07b}");
        }
    }
}

pub fn no4_grants(bench: &impl FourConverters) {
    let b = fresh(bench);
    let granted = bench.grant(b, 0, 1, 9).1;
    assert_eq!(granted.converters[1].owners, [1, 0, 0, 0, 0, 0, 0, 0]);
    let granted = bench.grant(b, 0, 8, 32).1;
    assert_eq!(granted.converters[3].owners, [0, 0, 0, 0, 0, 0, 0, 8]);
    let mut b = busy(bench);
    b.converters[2] = held(b.converters[2], Direction::Read, 3, 0);
    b.converters[2].output = None;
    for channel in 1..=32 {
        for receiver in 0..=8 {
            let mut expected = b;
            let c = &mut expected.converters[(channel - 1) / 8];
            c.owners[(channel - 1) % 8] = receiver;
            let answer = bench.grant(b, 0, receiver.into(), channel as u32);
            assert_eq!(answer, (0, expected), "channel {channel}");
        }
    }
}

pub fn no4_grant_faults(bench: &impl FourConverters) {
    let channels = [(3, 33), (9, 36), (20, 0), (32, u32::MAX)];
    for (faults, (channel, none)) in (0..32u32).flat_map(|faults| channels.map(|c| (faults, c))) {
        let has = |bit: u32| faults >> bit & 1 == 1;
        let mut b = busy(bench);
        if has(0) {
            b = spoilt(b, (channel as usize / 8 + 2) % 4);
        }
        let caller = match (has(1), has(4)) {
            (true, _) => 9,
            (false, stranger) => u32::from(stranger),
        };
        let receiver = if has(2) { 9 } else { 4 };
        let named = if has(3) { none } else { channel };
        let (refusal, next) = bench.grant(b, caller, receiver, named);
        assert_eq!(refusal, first_of(&[13, 3, 3, 5, 6], has), "{faults:05b}");
        assert!(refusal == 0 || next == b);
    }
}

pub fn no4_one_converter_keeps_its_ranges(bench: &impl FourConverters) {
    let one = bench.one();
    let rows: [(&[u8], &str); 5] = [
        (&[0x01, 0x02, 0x08, 0x04], "0 11 4C 00 41 10\n"),
        (&[0x01, 0x02, 0x09, 0x04], "5\n"),
        (&[0x01, 0x02, 0x20, 0x04], "5\n"),
        (&[0x00, 0x0C, 0x00, 0x06], "0 11 41 00 96 10\n"),
        (&[0x00, 0x0C, 0x21, 0x06], "5\n"),
    ];
    for (input, output) in rows {
        let text = String::from_utf8(one.console(input)).expect("plain text");
        assert_eq!(text, output, "input {input:02x?}");
    }
    let c = one.power_up(0x3E).1;
    for channel in [9, 16, 32, 33, 35, 36] {
        for field in [2, 12] {
            let request = Request::one(field, channel, 4);
            assert_eq!(one.plan(c, 0, request, &mut [0; 7], 0), (5, 0, c));
        }
        assert_eq!(one.grant(c, 0, 1, channel), (5, c));
    }
}

/// Hands the name of every figure of a bench to a macro.
#[macro_export]
macro_rules! for_each_bench_figure {
    ($action:path, $bench:expr) => {
        $action! { use $crate::bench::figures; $bench;
            no4_power_up
            no4_one_bad_id_refuses_all
            no4_every_channel
            no4_ends_of_the_ranges
            no4_gain_of_channel_9
            no4_shared_fields
            no4_shared_field_by_34
            no4_every_setting
            no4_only_the_named_must_wait
            no4_broken_converter_refuses_all
            no4_a_byte_reaches_one
            no4_numbers_above_3
            no4_lines_do_not_mix
            no4_select_rise
            no4_rise_after_a_plan
            no4_modes_of_the_named
            no4_places
            no4_whole_channels
            no4_every_set_of_faults
            no4_samples
            no4_sample_faults
            no4_channel_9_by_number_0
            no4_readings
            no4_reading_faults
            no4_grants
            no4_grant_faults
            no4_one_converter_keeps_its_ranges
        }
    };
}

/// Defines one `#[test]` for each figure of a bench, on the implementation
/// given.
#[macro_export]
macro_rules! bench_figure_tests {
    ($bench:expr) => {
        $crate::for_each_bench_figure! { $crate::test_each, $bench }
    };
}

/// All figures of a bench; panics at the first mismatch.
pub fn all(bench: &impl FourConverters) {
    for_each_bench_figure! { crate::each_figure::run_each, bench }
}
