//! Fixed figures of document 02's No. 6, an ADS7953 (rows `no6`). Each panics
//! on a mismatch.

use super::calls::LIKE_COMMANDS;
use super::states::MODES;
use super::{Mode, SixteenChannels};
use crate::Ads7953;

/// Sends words, each of them with its code; gives the replies and the states
/// after them. None may be refused.
fn sent(
    part: &impl SixteenChannels,
    s: Ads7953,
    words: &[u16],
    code: impl Fn(usize) -> u16,
) -> (Vec<u16>, Vec<Ads7953>) {
    let mut present = s;
    let frames = words.iter().enumerate().map(|(i, &word)| {
        let (refusal, reply, next) = part.frame(present, word, code(i));
        assert_eq!(refusal, 0, "word {word:04x}");
        present = next;
        (reply, next)
    });
    frames.unzip()
}

/// The state after words.
fn after(part: &impl SixteenChannels, s: Ads7953, words: &[u16]) -> Ads7953 {
    let states = sent(part, s, words, |_| 0).1;
    states.last().copied().unwrap_or(s)
}

/// What words ask for, one by one.
fn asked(part: &impl SixteenChannels, s: Ads7953, words: &[u16]) -> Vec<u8> {
    let states = sent(part, s, words, |_| 0).1;
    states.iter().map(|s| s.ordered).collect()
}

/// Frames from power-up, the code of frame i being 100h + i.
fn replies(part: &impl SixteenChannels, words: &[u16]) -> Vec<u16> {
    sent(part, part.power_up(), words, |i| 0x100 + i as u16).0
}

/// A state of which every number differs from power-up's.
fn busy(mode: Mode) -> Ads7953 {
    Ads7953 {
        mode,
        channel: 7,
        ordered: 3,
        list: 0x0218,
        last: 12,
        range2: true,
        counter_reset: false,
        programming: false,
        first: false,
    }
}

pub fn no6_power_up(part: &impl SixteenChannels) {
    let expected = Ads7953 {
        mode: Mode::Manual,
        channel: 0,
        ordered: 0,
        list: 0xFFFF,
        last: 15,
        range2: false,
        counter_reset: false,
        programming: false,
        first: true,
    };
    assert_eq!(part.power_up(), expected);
}

pub fn no6_first_reply(part: &impl SixteenChannels) {
    let fresh = part.power_up();
    for (word, code) in [(0x0000, 0x0FFF), (0x1280, 0x0001), (0x8000, 0x0ABC)] {
        let (refusal, reply, next) = part.frame(fresh, word, code);
        assert_eq!((refusal, reply, next.first), (0, 0x0000, false));
        assert_eq!(part.frame(next, 0x0000, code).1, code);
    }
    let s = Ads7953 {
        first: true,
        ..busy(Mode::Auto1)
    };
    let (_, reply, next) = part.frame(s, 0x0000, 0x0123);
    assert_eq!((reply, next.channel, next.ordered), (0x0000, 3, 4));
    assert_eq!(part.frame(next, 0x0000, 0x0123).1, 0x3123);
}

pub fn no6_manual(part: &impl SixteenChannels) {
    let row = [0x1280, 0x0000, 0x0000, 0x0000];
    assert_eq!(replies(part, &row), [0x0000, 0x0101, 0x5102, 0x5103]);
    for channel in 0..16 {
        // DI11 says nothing about the channel.
        for word in [0x1000, 0x1800, 0x107F, 0x187F] {
            let row = [word | channel << 7, 0x0000, 0x0000, 0x0FFF];
            let top = channel << 12;
            let expected = [0x0000, 0x0101, top | 0x0102, top | 0x0103];
            assert_eq!(replies(part, &row), expected, "{row:04x?}");
        }
    }
    let row = [0x1280, 0x1480, 0x1000, 0x0000, 0x0000];
    let expected = [0x0000, 0x0101, 0x5102, 0x9103, 0x0104];
    assert_eq!(replies(part, &row), expected);
}

/// The word is asked for in its own frame, selected in the next and replied in
/// the one after.
pub fn no6_lag_shows_in_the_state(part: &impl SixteenChannels) {
    let row = [0x1280, 0x0000, 0x1480, 0x0000, 0x0000];
    let (replies, states) = sent(part, part.power_up(), &row, |_| 0x0AAA);
    let shown: Vec<_> = states.iter().map(|s| (s.ordered, s.channel)).collect();
    assert_eq!(shown, [(5, 0), (5, 5), (9, 5), (9, 9), (9, 9)]);
    assert_eq!(replies, [0x0000, 0x0AAA, 0x5AAA, 0x5AAA, 0x9AAA]);
}

pub fn no6_auto_1(part: &impl SixteenChannels) {
    let row = [0x8000, 0x0012, 0x2800, 0, 0, 0, 0, 0];
    let expected = [
        0x0000, 0x0101, 0x0102, 0x0103, 0x1104, 0x4105, 0x1106, 0x4107,
    ];
    assert_eq!(replies(part, &row), expected);
    // All channels after power-up.
    let mut row = vec![0x2000];
    row.resize(40, 0x0000);
    for (n, reply) in replies(part, &row).into_iter().enumerate().skip(2) {
        assert_eq!(reply >> 12, (n as u16 - 2) % 16, "frame {n}");
    }
}

pub fn no6_auto_2(part: &impl SixteenChannels) {
    let row = [0x9080, 0x3800, 0, 0, 0, 0, 0, 0];
    let expected = [
        0x0000, 0x0101, 0x0102, 0x0103, 0x1104, 0x2105, 0x0106, 0x1107,
    ];
    assert_eq!(replies(part, &row), expected);
    for last in 0..16 {
        let mut row = vec![0x9000 | last << 6, 0x3000];
        row.resize(40, 0x0000);
        for (n, reply) in replies(part, &row).into_iter().enumerate().skip(3) {
            assert_eq!(reply >> 12, (n as u16 - 3) % (last + 1), "last {last}");
        }
    }
}

pub fn no6_list_during_auto_1(part: &impl SixteenChannels) {
    let row = [0x2800, 0, 0, 0x8000, 0x0208, 0, 0, 0, 0];
    let expected = [
        0x0000, 0x0101, 0x0102, 0x1103, 0x2104, 0x3105, 0x9106, 0x3107, 0x9108,
    ];
    assert_eq!(replies(part, &row), expected);
    // The list acts on what its own word asks for, and on no frame before.
    let s = busy(Mode::Auto1);
    assert_eq!(asked(part, s, &[0x8000, 0x0003, 0, 0]), [4, 0, 1, 0]);
    assert_eq!(asked(part, s, &[0x8000, 0xF000, 0, 0]), [4, 12, 13, 14]);
    assert_eq!(asked(part, s, &[0x8000, 0x0010, 0, 0]), [4, 4, 4, 4]);
}

pub fn no6_last_during_auto_2(part: &impl SixteenChannels) {
    let row = [0x3800, 0, 0, 0, 0, 0, 0x9080, 0, 0, 0, 0];
    let expected = [0x4106, 0x5107, 0x0108, 0x1109, 0x210A];
    assert_eq!(replies(part, &row)[6..], expected);
    let s = busy(Mode::Auto2);
    assert_eq!(asked(part, s, &[0x9100, 0, 0]), [4, 0, 1]);
    assert_eq!(asked(part, s, &[0x90C0, 0, 0]), [0, 1, 2]);
    assert_eq!(asked(part, s, &[0x9000, 0, 0]), [0, 0, 0]);
}

/// The second word is a list, whatever it looks like, and all 16 bits of it.
pub fn no6_lists_like_commands(part: &impl SixteenChannels) {
    let listed = after(part, part.power_up(), &[0x8000, 0x8000]);
    assert_eq!((listed.list, listed.programming), (0x8000, false));
    assert_eq!(asked(part, listed, &[0x2800, 0, 0]), [15, 15, 15]);
    for mode in MODES {
        let s = after(part, busy(mode), &[0x8000]);
        for list in LIKE_COMMANDS.into_iter().chain([0x0000, 0xFFFF, 0x00FF]) {
            let next = after(part, s, &[list]);
            let expected = Ads7953 {
                list,
                programming: false,
                channel: s.ordered,
                ordered: next.ordered,
                ..s
            };
            assert_eq!(next, expected, "list {list:04x}");
            // A third word is a command again.
            assert_eq!(after(part, next, &[0x1780]).ordered, 15);
        }
    }
}

pub fn no6_counter_reset(part: &impl SixteenChannels) {
    let fresh = part.power_up();
    let row = [0x2800, 0, 0, 0x2C00, 0x2000, 0x2000, 0x0000, 0x0000];
    assert_eq!(asked(part, fresh, &row), [0, 1, 2, 0, 0, 0, 1, 2]);
    let row = [0x3800, 0, 0, 0x3C00, 0x3000, 0x3000, 0x0000, 0x0000];
    assert_eq!(asked(part, fresh, &row), [0, 1, 2, 0, 0, 0, 1, 2]);
    let row = [0x8000, 0x0A40, 0x2C00, 0, 0x2000, 0x2000, 0];
    assert_eq!(asked(part, fresh, &row)[2..], [6, 9, 6, 6, 9]);
    // DI11 = 1 with DI10 = 0 ends it; DI11 = 0 with DI10 = 1 does not begin it.
    let row = [0x2C00, 0, 0x2800, 0x2000, 0x2400, 0x2400];
    assert_eq!(asked(part, fresh, &row), [0, 1, 2, 3, 4, 5]);
    // It is kept over manual mode, whose own DI10 is a bit of its channel, and
    // from one auto mode to the other.
    let row = [0x2C00, 0x1800, 0x1C00, 0x2000, 0, 0x2000, 0];
    assert_eq!(asked(part, fresh, &row), [0, 0, 8, 0, 1, 0, 1]);
    let row = [0x2800, 0x1FC0, 0x1480, 0x2000, 0, 0x2000, 0];
    assert_eq!(asked(part, fresh, &row), [0, 15, 9, 0, 1, 2, 3]);
    let row = [0x2C00, 0x3000, 0, 0x3000, 0x3800, 0x3000];
    assert_eq!(asked(part, fresh, &row), [0, 0, 1, 0, 1, 2]);
}

/// DI06 is kept where DI11 is 0, and by every word that is no mode's.
pub fn no6_range_is_kept(part: &impl SixteenChannels) {
    for top in [0x1000, 0x2000, 0x3000] {
        let set = after(part, part.power_up(), &[top | 0x0840]);
        assert!(set.range2, "{top:04x}");
        for kept in [0x1000, 0x2000, 0x3000, 0x0000, 0x0FBF, 0x9000, 0xF800] {
            assert!(after(part, set, &[kept]).range2, "{kept:04x}");
        }
        assert!(after(part, set, &[0x8000, 0x1800]).range2);
        for cleared in [0x1800, 0x2800, 0x3800] {
            let next = after(part, set, &[cleared]);
            assert!(!next.range2, "{cleared:04x}");
            for kept in [0x1040, 0x2040, 0x3040, 0x0840, 0x9840, 0x4840] {
                assert!(!after(part, next, &[kept]).range2, "{kept:04x}");
            }
        }
    }
}

/// A round starts where its mode begins, and goes on where its word comes
/// again.
pub fn no6_entering_a_mode(part: &impl SixteenChannels) {
    for word in [0x2000, 0x2800] {
        assert_eq!(asked(part, busy(Mode::Manual), &[word, word]), [3, 4]);
        assert_eq!(asked(part, busy(Mode::Auto2), &[word, word]), [3, 4]);
        assert_eq!(asked(part, busy(Mode::Auto1), &[word, word]), [4, 9]);
    }
    for word in [0x3000, 0x3800] {
        assert_eq!(asked(part, busy(Mode::Manual), &[word, word]), [0, 1]);
        assert_eq!(asked(part, busy(Mode::Auto1), &[word, word]), [0, 1]);
        assert_eq!(asked(part, busy(Mode::Auto2), &[word, word]), [4, 5]);
    }
    // A mode is left and entered with its register as it was.
    let row = [0x2000, 0, 0x1280, 0x3000, 0x1280, 0x2000, 0, 0];
    let asked = asked(part, busy(Mode::Manual), &row);
    assert_eq!(asked, [3, 4, 5, 0, 5, 3, 4, 9]);
    let s = after(part, busy(Mode::Manual), &row);
    assert_eq!((s.list, s.last), (0x0218, 12));
}

/// Auto-1 with an empty list keeps its channel.
pub fn no6_empty_list(part: &impl SixteenChannels) {
    let row = [0x1280, 0x8000, 0x0000, 0x2800, 0, 0x2C00, 0x2000, 0];
    assert_eq!(asked(part, part.power_up(), &row), [5; 8]);
    let row = [0x8000, 0x0000, 0, 0x8000, 0x0042, 0];
    assert_eq!(asked(part, busy(Mode::Auto1), &row), [4, 4, 4, 4, 6, 1]);
    let s = Ads7953 {
        list: 0x0000,
        ..busy(Mode::Auto2)
    };
    assert_eq!(asked(part, s, &[0x2000, 0, 0x3000, 0]), [3, 3, 0, 1]);
}

/// Words that are not wanted act as 0000h, whatever their low bits.
pub fn no6_words_that_continue(part: &impl SixteenChannels) {
    for s in MODES.map(busy).into_iter().chain([part.power_up()]) {
        let expected = part.frame(s, 0x0000, 0x0ABC);
        for top in [0, 4, 5, 6, 7, 10, 11, 12, 13, 14, 15] {
            for low in [0x0000, 0x0200, 0x0280, 0x0840, 0x0C00, 0x0FFF] {
                let word = top << 12 | low;
                assert_eq!(part.frame(s, word, 0x0ABC), expected, "{word:04x}");
            }
        }
    }
}

/// Bits that a word does not have, GPIO and power-down among them.
pub fn no6_bits_not_looked_at(part: &impl SixteenChannels) {
    let rows = [
        (0x1280, 0x007F),
        (0x1AC0, 0x003F),
        (0x2000, 0x07FF),
        (0x2C40, 0x03BF),
        (0x2800, 0x03BF),
        (0x3000, 0x07FF),
        (0x3C40, 0x03BF),
        (0x8000, 0x0FFF),
        (0x9140, 0x0C3F),
    ];
    for (word, ignored) in rows {
        for mode in MODES {
            let expected = part.frame(busy(mode), word, 0x0123);
            for bit in (0..16).filter(|bit| ignored >> bit & 1 == 1) {
                let other = word | 1 << bit;
                assert_eq!(part.frame(busy(mode), other, 0x0123), expected);
            }
            assert_eq!(part.frame(busy(mode), word | ignored, 0x0123), expected);
            // Nor does the next frame show them.
            let next = after(part, busy(mode), &[word | ignored]);
            assert_eq!(part.frame(next, 0x0000, 0x0123).1, 0x3123);
        }
    }
}

pub fn no6_codes(part: &impl SixteenChannels) {
    let s = busy(Mode::Auto1);
    for (code, reply) in [(0, 0x7000), (1, 0x7001), (0x0800, 0x7800), (4095, 0x7FFF)] {
        assert_eq!(part.frame(s, 0, code).0, 0);
        assert_eq!(part.frame(s, 0, code).1, reply);
    }
    for code in [4096, 4097, 8191, 0x7000, 0x8000, 0xF123, u16::MAX] {
        for s in [s, part.power_up()] {
            for word in [0x0000, 0x1280, 0x8000] {
                assert_eq!(part.frame(s, word, code), (11, 0, s), "code {code}");
            }
        }
    }
}

/// A way to make a state bad.
type Damage = fn(&mut Ads7953, u8);
const DAMAGES: [Damage; 3] = [
    |s, channel| s.channel = channel,
    |s, channel| s.ordered = channel,
    |s, channel| s.last = channel,
];

pub fn no6_channels_too_wide(part: &impl SixteenChannels) {
    for (mode, damage) in MODES.into_iter().flat_map(|m| DAMAGES.map(|d| (m, d))) {
        for channel in [0, 15] {
            let mut s = busy(mode);
            damage(&mut s, channel);
            assert_eq!(part.frame(s, 0x0000, 0).0, 0);
            assert_eq!(part.plan_list(s, 0, 1, &mut [0; 4], 0), (0, 4));
        }
        for channel in [16, 17, 31, 128, 255] {
            let mut s = busy(mode);
            damage(&mut s, channel);
            for (word, code) in [(0x0000, 0), (0x1280, 1), (0x9000, 4095), (0x2C00, 4096)] {
                assert_eq!(part.frame(s, word, code), (13, 0, s));
            }
            let mut tx = [0xEE; 4];
            assert_eq!(part.plan_list(s, 0, 1, &mut tx, 0), (13, 0));
            assert_eq!(tx, [0xEE; 4]);
        }
    }
}

pub fn no6_plan(part: &impl SixteenChannels) {
    for s in MODES.map(busy).into_iter().chain([part.power_up()]) {
        for (list, bytes) in [
            (0x0208, [0x80, 0x00, 0x02, 0x08]),
            (0x0001, [0x80, 0x00, 0x00, 0x01]),
            (0x8000, [0x80, 0x00, 0x80, 0x00]),
            (0xFFFF, [0x80, 0x00, 0xFF, 0xFF]),
            (0x00FF, [0x80, 0x00, 0x00, 0xFF]),
        ] {
            let mut tx = [0xEE; 4];
            assert_eq!(part.plan_list(s, 0, list, &mut tx, 0), (0, 4));
            assert_eq!(tx, bytes);
        }
    }
}

pub fn no6_plan_places(part: &impl SixteenChannels) {
    let s = part.power_up();
    for length in 0..=9 {
        for at in (0..=11).chain([255, 256, usize::MAX / 2, usize::MAX - 3, usize::MAX]) {
            let mut tx: Vec<u8> = (0xE0..).take(length).collect();
            let mut expected = tx.clone();
            let answer = part.plan_list(s, 0, 0x0208, &mut tx, at);
            if at <= length && length - at >= 4 {
                expected[at..at + 4].copy_from_slice(&[0x80, 0x00, 0x02, 0x08]);
                assert_eq!(answer, (0, 4), "{length} bytes, place {at}");
            } else {
                assert_eq!(answer, (9, 0), "{length} bytes, place {at}");
            }
            assert_eq!(tx, expected);
        }
    }
}

pub fn no6_plan_parties(part: &impl SixteenChannels) {
    let s = part.power_up();
    let number = |party| part.plan_list(s, party, 0x0208, &mut [0; 4], 0).0;
    assert_eq!(number(0), 0);
    for party in 1..=8 {
        assert_eq!(number(party), 6, "party {party}");
    }
    for party in [9, 10, 16, 255, 256, 0x1_0000, 0x8000_0000, u32::MAX] {
        assert_eq!(number(party), 3, "party {party}");
    }
}

/// Every set of faults: the first in order is the answer, and the buffer stays.
pub fn no6_plan_faults(part: &impl SixteenChannels) {
    let order = [13, 3, 6, 16, 8, 9];
    for (faults, mode) in (0..64u32).flat_map(|faults| MODES.map(|mode| (faults, mode))) {
        let has = |bit: usize| faults >> bit & 1 == 1;
        let mut s = busy(mode);
        if has(0) {
            DAMAGES[faults as usize % 3](&mut s, 16);
        }
        let party = match (has(1), has(2)) {
            (true, stranger) => 9 + u32::from(stranger),
            (false, stranger) => 8 * u32::from(stranger),
        };
        let list = if has(3) { 0x0000 } else { 0x0208 };
        s.programming = has(4);
        let room = if has(5) { 3 } else { 4 };
        let mut tx = vec![0xEE; 1 + room];
        let answer = part.plan_list(s, party, list, &mut tx, 1);
        let first = (0..6).find(|&bit| has(bit));
        let refusal = first.map_or(0, |bit| order[bit]);
        assert_eq!(answer.0, refusal, "faults {faults:06b}");
        if refusal != 0 {
            assert_eq!((answer.1, tx), (0, vec![0xEE; 1 + room]));
        }
    }
}

/// The plan's two words set that list; all else is as after 0000h twice, in
/// auto-1 what is asked for apart.
pub fn no6_plan_sent(part: &impl SixteenChannels) {
    for s in MODES.map(busy).into_iter().chain([part.power_up()]) {
        for list in [0x0208, 0x8000, 0x1280, 0xFFFF] {
            let mut tx = [0; 4];
            assert_eq!(part.plan_list(s, 0, list, &mut tx, 0), (0, 4));
            let words = [[tx[0], tx[1]], [tx[2], tx[3]]].map(u16::from_be_bytes);
            let code = |i: usize| 0x0F00 + i as u16;
            let (replies, states) = sent(part, s, &words, code);
            let (plain_replies, plain_states) = sent(part, s, &[0, 0], code);
            assert_eq!(replies, plain_replies);
            let mut expected = Ads7953 {
                list,
                ..plain_states[1]
            };
            if s.mode == Mode::Auto1 {
                expected.ordered = states[1].ordered;
                assert!(list >> states[1].ordered & 1 == 1);
            }
            assert_eq!(states[1], expected);
        }
    }
}

/// Hands the name of every figure of an ADS7953 to a macro.
#[macro_export]
macro_rules! for_each_ads7953_figure {
    ($action:path, $part:expr) => {
        $action! { use $crate::ads7953::figures; $part;
            no6_power_up
            no6_first_reply
            no6_manual
            no6_lag_shows_in_the_state
            no6_auto_1
            no6_auto_2
            no6_list_during_auto_1
            no6_last_during_auto_2
            no6_lists_like_commands
            no6_counter_reset
            no6_range_is_kept
            no6_entering_a_mode
            no6_empty_list
            no6_words_that_continue
            no6_bits_not_looked_at
            no6_codes
            no6_channels_too_wide
            no6_plan
            no6_plan_places
            no6_plan_parties
            no6_plan_faults
            no6_plan_sent
        }
    };
}

/// Defines one `#[test]` for each figure of an ADS7953, on the implementation
/// given.
#[macro_export]
macro_rules! ads7953_figure_tests {
    ($part:expr) => {
        $crate::for_each_ads7953_figure! { $crate::test_each, $part }
    };
}

/// All figures of an ADS7953; panics at the first mismatch.
pub fn all(part: &impl SixteenChannels) {
    for_each_ads7953_figure! { crate::each_figure::run_each, part }
}
