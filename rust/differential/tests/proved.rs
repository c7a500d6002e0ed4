//! The proved library against the independent model, and on its own.

use differential::{agree, flat, full_frame, spoilt, Proved, NOTHING_READ};
use harness::random::Random;
use harness::{figure_tests, settings, states};
use rimevelvet::{Request, State, LONGEST_PLAN, LONGEST_REQUEST};

figure_tests! { Proved }

/// Every answer, buffer and state of all entry points, after every call; demand 3; the laws.
#[test]
fn library_and_model_agree() {
    agree(harness::check_all, |stats| stats.calls);
}

/// The lengths that callers take for their buffers.
#[test]
fn longest_lengths_are_reached() {
    let mut buffer = [0; LONGEST_REQUEST];
    let request = Request::whole_channel(16_383, [16_383; 9]);
    let written = rimevelvet::request_write(request, &mut buffer);
    assert_eq!((written.refusal, written.used), (0, LONGEST_REQUEST));
    assert_eq!(rimevelvet::request_read(&buffer).request, request);
    let fresh = rimevelvet::power_up(0x3E).converter;
    let standby = rimevelvet::step(fresh, 0x04).next;
    let request = Request::whole_channel(8, [1; 9]);
    let planned = rimevelvet::plan(standby, 0, request, &mut [0; LONGEST_PLAN], 0);
    assert_eq!((planned.refusal, planned.length), (0, LONGEST_PLAN));
}

/// An owner's reading from bytes that stand for no state.
fn nothing_is_read(s: State) {
    let reading = rimevelvet::read_channel(s, s.owners[0].into(), 1, &full_frame());
    assert_eq!(reading, NOTHING_READ);
}

/// Bytes that stand for no state are refused by 13 and handed back as they came.
#[test]
fn bytes_of_no_state_are_refused() {
    let mut random = Random::new(settings::seed());
    for _ in 0..2_000 {
        let sound = flat(states::valid(&mut random));
        for way in 0..9 {
            let s = spoilt(sound, way);
            nothing_is_read(s);
            let stepped = rimevelvet::step(s, random.byte());
            assert_eq!((stepped.refusal, stepped.out, stepped.next), (13, 0, s));
            let moved = rimevelvet::deselect(s);
            assert_eq!((moved.refusal, moved.next), (13, s));
            for request in [
                Request::one(2, 3, 4),
                Request::whole_channel(3, [0, 4, 0, 0, 1, 1, 1, 1, 1]),
            ] {
                let mut tx = [0xAA; LONGEST_PLAN];
                let planned = rimevelvet::plan(s, 0, request, &mut tx, 0);
                assert_eq!(
                    (planned.refusal, planned.length, planned.next, tx),
                    (13, 0, s, [0xAA; LONGEST_PLAN])
                );
            }
        }
    }
}
