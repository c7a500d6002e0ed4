//! The proved library's bench against the independent model, and on its own.

use differential::bench::flat_bench;
use differential::{agree, full_frame, spoilt, Proved, NOTHING_READ};
use harness::bench::{check_all, states};
use harness::random::Random;
use harness::{bench_figure_tests, settings};
use rimevelvet::bench::{self, Bench};
use rimevelvet::{Request, LONGEST_PLAN};

bench_figure_tests! { Proved }

/// Every answer, buffer and bench of all entry points, after every call; demand 3; the laws.
#[test]
fn library_and_model_agree() {
    agree(check_all, |stats| stats.calls);
}

/// The longest plan is as long on a bench.
#[test]
fn longest_plan_is_reached() {
    let fresh = bench::power_up([0x3E; bench::CONVERTERS]).bench;
    let standby = bench::step(fresh, 3, 0x04).next;
    let request = Request::whole_channel(32, [1; 9]);
    let planned = bench::plan(standby, 0, request, &mut [0; LONGEST_PLAN], 0);
    let answer = (planned.refusal, planned.converter, planned.length);
    assert_eq!(answer, (0, 3, LONGEST_PLAN));
}

/// Readings from bytes that stand for no bench: by the owner of each converter's first channel.
fn nothing_is_read(b: Bench) {
    let frame = full_frame();
    for (number, c) in (0..).zip(b.converters) {
        let (party, channel) = (c.owners[0].into(), 8 * number + 1);
        let reading = bench::read_channel(b, number, party, channel, &frame);
        assert_eq!(reading, NOTHING_READ);
        assert!(bench::channel_bytes(b, number, party, channel, &frame).is_empty());
    }
}

/// Calls that change a bench, on bytes that stand for none.
fn nothing_changes(b: Bench, random: &mut Random) {
    for number in [0, 1, 2, 3, 4, u32::MAX] {
        let stepped = bench::step(b, number, random.byte());
        assert_eq!((stepped.refusal, stepped.out, stepped.next), (13, 0, b));
        let moved = bench::deselect(b, number);
        assert_eq!((moved.refusal, moved.next), (13, b));
        let moved = bench::sample(b, number, &[0; 8], 0, 0);
        assert_eq!((moved.refusal, moved.next), (13, b));
    }
    for channel in [0, 1, 9, 17, 25, 33, 36] {
        let moved = bench::grant(b, 0, 1, channel);
        assert_eq!((moved.refusal, moved.next), (13, b));
        for field in [2, 12, 30] {
            let request = Request::one(field, channel, 0);
            let mut tx = [0xAA; LONGEST_PLAN];
            let planned = bench::plan(b, 0, request, &mut tx, 0);
            let numbers = (planned.refusal, planned.converter, planned.length);
            assert_eq!((numbers, tx), ((13, 0, 0), [0xAA; LONGEST_PLAN]));
            assert_eq!(planned.next, b);
        }
    }
}

/// A bench of which one converter's bytes stand for no state is refused by 13 and handed back as it came.
#[test]
fn bytes_of_no_state_are_refused() {
    let mut random = Random::new(settings::seed());
    for _ in 0..100 {
        let sound = flat_bench(states::valid(&mut random));
        for (place, way) in (0..bench::CONVERTERS).flat_map(|p| (0..9).map(move |way| (p, way))) {
            let mut b = sound;
            b.converters[place] = spoilt(b.converters[place], way);
            nothing_is_read(b);
            nothing_changes(b, &mut random);
        }
    }
}
