//! Plans a gain for channel 3 and then the whole channel, sends the plans to a second converter, reads the channel out
//! of a frame, and shows which codes sit on a rail. Then a bench of four converters: a request and a
//! sample for one of them, and a shared field of another.

use rimevelvet::bench::{self, Bench};
use rimevelvet::{Planned, Request, State, LONGEST_PLAN};

fn hex(bytes: &[u8]) -> String {
    bytes
        .iter()
        .map(|byte| format!("{byte:02X}"))
        .collect::<Vec<_>>()
        .join(" ")
}

/// The state that bytes lead to, sent one by one.
fn sent(state: State, bytes: &[u8]) -> State {
    bytes
        .iter()
        .fold(state, |state, byte| rimevelvet::step(state, *byte).next)
}

/// Prints a plan, and whether its bytes lead to the state that the planner answered.
fn show(before: State, planned: &Planned, tx: &[u8]) {
    let plan = &tx[..planned.length];
    println!("refusal {}, plan {}", planned.refusal, hex(plan));
    println!(
        "the bytes lead there: {}",
        sent(before, plan) == planned.next
    );
}

/// Requests for a whole channel: written, read, planned, and refused for one bad value.
fn whole_channel(converter: State) -> State {
    // Power-down, gain, SRB2 and input of channel 3, then its bits of the bias and lead-off registers.
    let request = Request::whole_channel(3, [0, 6, 1, 0, 1, 1, 0, 1, 0]);
    let mut bytes = [0; rimevelvet::LONGEST_REQUEST];
    let written = rimevelvet::request_write(request, &mut bytes);
    println!("written {}", hex(&bytes[..written.used]));
    let read = rimevelvet::request_read(&bytes);
    println!(
        "read back: {}",
        read.request == request && read.used == written.used
    );

    let mut tx = [0; LONGEST_PLAN];
    let planned = rimevelvet::plan(converter, 1, request, &mut tx, 0);
    show(converter, &planned, &tx);

    // One bad value refuses all nine, and a stranger is not told so.
    let bad = Request::whole_channel(3, [0, 6, 1, 0, 1, 1, 0, 1, 2]);
    for party in [1, 2] {
        let refused = rimevelvet::plan(converter, party, bad, &mut tx, 0);
        println!("party {party} with a bad ninth value: {}", refused.refusal);
    }
    planned.next
}

/// Codes at both ends of their range, one next to an end, and one at an end while its channel is powered down.
fn rails(converting: State) {
    let mut tx = [0; LONGEST_PLAN];
    let power_down = Request::one(1, 5, 1);
    let converter = rimevelvet::plan(converting, 0, power_down, &mut tx, 0).next;
    let codes = [8_388_607, -8_388_608, 0, 8_388_606, 8_388_607, 0, 0, 0];
    let sampled = rimevelvet::sample(converter, &codes, 0x00, 0x00).next;
    for channel in [1, 2, 4, 5] {
        let reading = rimevelvet::read_channel(sampled, 0, channel, &sampled.latest);
        println!(
            "channel {channel}: code {}, rail {:?}",
            reading.code, reading.rail
        );
    }
}

/// The IDs that a bench's converters show.
fn ids(bench: &Bench) -> String {
    hex(&bench.converters.map(|converter| converter.registers[0]))
}

/// Plans a request for a bench; prints which converter the bytes are for, and whether they lead, one by one, to the
/// bench that the planner answered.
fn plan_for(bench: Bench, party: u32, request: Request) -> Bench {
    let mut tx = [0; LONGEST_PLAN];
    let planned = bench::plan(bench, party, request, &mut tx, 0);
    let (number, plan) = (planned.converter, &tx[..planned.length]);
    println!(
        "refusal {}, for converter {number}: {}",
        planned.refusal,
        hex(plan)
    );
    let sent = plan
        .iter()
        .fold(bench, |bench, byte| bench::step(bench, number, *byte).next);
    let risen = bench::deselect(sent, number).next;
    println!("the bytes lead there: {}", sent == planned.next);
    println!("the line's rise changes nothing: {}", risen == sent);
    planned.next
}

/// Four converters with one line each. Channel 9 is the first of converter 1, and 34 names converter 2's shared fields.
fn four_converters() {
    let refused = bench::power_up([0x3E, 0x3E, 0x3F, 0x3E]);
    println!("refusal {}, IDs {}", refused.refusal, ids(&refused.bench));
    let powered = bench::power_up([0x3E, 0x1E, 0x5E, 0x9E]);
    println!("refusal {}, IDs {}", powered.refusal, ids(&powered.bench));

    // 33 is no channel: it names converter 1's shared fields.
    let granted = bench::grant(powered.bench, 0, 1, 9);
    let no_channel = bench::grant(powered.bench, 0, 1, 33);
    println!(
        "channel 9 granted: {}, channel 33: {}",
        granted.refusal, no_channel.refusal
    );
    let set = plan_for(granted.next, 1, Request::one(2, 9, 4));

    // A sample of converter 1. Its frame goes with its number, and with no other.
    let converting = bench::step(set, 1, 0x08).next;
    let sampled = bench::sample(converting, 1, &[-9, 10, 11, 12, 13, 14, 15, 16], 0x01, 0x00).next;
    let frame = sampled.converters[1].latest;
    for number in [1, 0] {
        let reading = bench::read_channel(sampled, number, 1, 9, &frame);
        let part = bench::channel_bytes(sampled, number, 1, 9, &frame);
        println!(
            "channel 9 by number {number}: refusal {}, code {}, P {}, N {}, bytes [{}]",
            reading.refusal,
            reading.code,
            reading.p,
            reading.n,
            hex(part)
        );
    }

    plan_for(sampled, 0, Request::one(12, 34, 5));
}

fn main() {
    // All channels are the administrator's (party 0) after power-up; channel 3 goes to party 1.
    let fresh = rimevelvet::power_up(0x3E).converter;
    println!("fresh channel registers {}", hex(&fresh.registers[5..13]));
    let converter = rimevelvet::grant(fresh, 0, 1, 3).next;

    // Party 1 sets gain field 2 of channel 3 to 4. The plan goes into the transmit buffer.
    let gain = Request::one(2, 3, 4);
    let mut tx = [0; 16];
    let planned = rimevelvet::plan(converter, 1, gain, &mut tx, 0);
    show(converter, &planned, &tx);

    // Party 2 is a stranger to channel 3.
    println!(
        "a stranger's refusal: {}",
        rimevelvet::plan(converter, 2, gain, &mut tx, 0).refusal
    );

    // All nine fields of the channel at once.
    let set = whole_channel(planned.next);

    // A sample, and channel 3 out of its frame.
    let converting = rimevelvet::step(set, 0x08).next;
    let sampled = rimevelvet::sample(converting, &[1, 2, -3, 4, 5, 6, 7, 8], 0x04, 0x00).next;
    let reading = rimevelvet::read_channel(sampled, 1, 3, &sampled.latest);
    let part = rimevelvet::channel_bytes(sampled, 1, 3, &sampled.latest);
    println!("frame starts {}", hex(&sampled.latest[..3]));
    println!(
        "channel 3: code {}, rail {:?}, P {}, N {}, bytes {}",
        reading.code,
        reading.rail,
        reading.p,
        reading.n,
        hex(part)
    );

    rails(converting);

    four_converters();
}
