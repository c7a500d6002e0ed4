//! The proved library's ADS7953 against the independent model, and on its own.

use differential::ads7953::{flat_part, spoilt_parts};
use differential::{agree, Proved};
use harness::ads7953::{check_all, states};
use harness::random::Random;
use harness::{ads7953_figure_tests, settings};
use rimevelvet::ads7953::{
    self, Ads7953, Channel, InvalidState, Mode, Range, Reply, Sequence, State, Word, LIST_PLAN,
};

ads7953_figure_tests! { Proved }

/// Every answer, buffer and state of all entry points, after every call; every word; the laws.
#[test]
fn library_and_model_agree() {
    agree(check_all, |stats| stats.calls);
}

/// Nothing else that is wrong is looked at, and every byte comes back.
fn is_refused(s: State, random: &mut Random) {
    for code in [0, 4095, 4096, u16::MAX] {
        let word = Word::Raw(random.word() as u16);
        let framed = ads7953::frame(s, word, code);
        let answer = (framed.refusal, framed.reply.to_bits(), framed.next);
        assert_eq!(answer, (13, 0, s));
    }
    for (party, list, at) in [
        (0, 1, 0),
        (9, 1, 0),
        (1, 0, 0),
        (0, 0, 1),
        (0, 1, usize::MAX),
    ] {
        let mut tx = [0xAA; LIST_PLAN];
        let planned = ads7953::plan_list(s, party, list, &mut tx, at);
        let answer = (planned.refusal, planned.length, tx);
        assert_eq!(answer, (13, 0, [0xAA; LIST_PLAN]));
    }
}

/// Bytes that stand for no state are refused by 13 and handed back as they came.
#[test]
fn bytes_of_no_state_are_refused() {
    let mut random = Random::new(settings::seed());
    for _ in 0..2_000 {
        let sound = states::valid(&mut random);
        let places = states::places_to_damage(&mut random);
        let damaged = states::damaged(&mut random, places);
        for s in [sound, damaged].map(flat_part) {
            for spoilt in spoilt_parts(s) {
                assert_eq!(Ads7953::try_from(spoilt), Err(InvalidState));
                is_refused(spoilt, &mut random);
            }
        }
        is_refused(flat_part(damaged), &mut random);
    }
}

/// The typed state has exactly the states that 13 lets pass.
#[test]
fn typed_states_are_the_sound_ones() {
    let mut random = Random::new(settings::seed());
    for _ in 0..20_000 {
        let sound = flat_part(states::valid(&mut random));
        let typed = Ads7953::try_from(sound).expect("a sound state");
        assert_eq!(State::from(typed), sound);
        let places = states::places_to_damage(&mut random);
        let damaged = flat_part(states::damaged(&mut random, places));
        assert_eq!(Ads7953::try_from(damaged), Err(InvalidState));
    }
    let fresh = Ads7953::try_from(ads7953::power_up()).expect("a sound state");
    assert_eq!((fresh.mode, fresh.list), (Mode::Manual, 0xFFFF));
    assert_eq!((fresh.range, fresh.last.number()), (Range::Range1, 15));
}

fn channel(number: u8) -> Channel {
    Channel::new(number).expect("a channel")
}

/// A word's bits are of its own kind, and where they stand is where the part looks for them.
#[test]
fn words_are_what_they_say() {
    for number in 0..=255 {
        assert_eq!(Channel::new(number).is_some(), number < 16);
    }
    let both = [Range::Range1, Range::Range2];
    for (number, range) in (0..16).flat_map(|number| both.map(|range| (number, range))) {
        let wide = u16::from(number);
        let di06 = if range == Range::Range2 { 0x0040 } else { 0 };
        let asked = channel(number);
        for (program, bits) in [(None, 0x1000), (Some(range), 0x1800 | di06)] {
            let word = Word::Manual {
                channel: asked,
                program,
            };
            assert_eq!(word.to_bits(), bits | wide << 7);
        }
        assert_eq!(Word::ProgramLast(asked).to_bits(), 0x9000 | wide << 6);
        let reply = Reply::from_bits(wide << 12 | 0x0ABC);
        assert_eq!((reply.channel(), reply.code()), (asked, 0x0ABC));
        for counter_reset in [false, true] {
            let program = Some(Sequence {
                counter_reset,
                range,
            });
            let bits = 0x0800 | u16::from(counter_reset) << 10 | di06;
            assert_eq!(Word::Auto1 { program }.to_bits(), 0x2000 | bits);
            assert_eq!(Word::Auto2 { program }.to_bits(), 0x3000 | bits);
        }
    }
    assert_eq!(Word::Auto1 { program: None }.to_bits(), 0x2000);
    assert_eq!(Word::Auto2 { program: None }.to_bits(), 0x3000);
    assert_eq!(Word::Continue.to_bits(), 0x0000);
    assert_eq!(Word::ProgramList.to_bits(), 0x8000);
    assert_eq!(Word::List(0x1208).to_bits(), 0x1208);
    assert_eq!(Word::Raw(0x4FFF).to_bits(), 0x4FFF);
}

/// What the typed words set, by the typed state.
#[test]
fn words_set_what_they_say() {
    let program = Some(Sequence {
        counter_reset: true,
        range: Range::Range2,
    });
    let words = [
        Word::ProgramList,
        Word::List(0x0208),
        Word::ProgramLast(channel(6)),
        Word::Auto1 { program },
    ];
    let sent = words.into_iter().fold(ads7953::power_up(), |state, word| {
        ads7953::frame(state, word, 0).next
    });
    let expected = Ads7953 {
        mode: Mode::Auto1,
        channel: channel(0),
        ordered: channel(3),
        list: 0x0208,
        last: channel(6),
        range: Range::Range2,
        counter_reset: true,
        programming: false,
        first: false,
    };
    assert_eq!(Ads7953::try_from(sent), Ok(expected));
    let word = Word::Manual {
        channel: channel(9),
        program: Some(Range::Range1),
    };
    let manual = Ads7953::try_from(ads7953::frame(sent, word, 0).next).expect("a sound state");
    assert_eq!((manual.mode, manual.ordered), (Mode::Manual, channel(9)));
    assert_eq!((manual.range, manual.counter_reset), (Range::Range1, true));
}
