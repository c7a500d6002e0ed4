//! The administrator plans a channel list for a fresh ADS7953 and sends it; then the part goes through the listed
//! channels. Each frame is printed with what its word asks for and with its reply, so that the lag is seen.

use rimevelvet::ads7953::{self, Ads7953, Channel, Range, Sequence, State, Word, LIST_PLAN};

/// Sends words in frames numbered from `first` on; the code 100h + n is sampled in frame n.
fn sent(state: State, first: u16, words: &[Word]) -> State {
    (first..).zip(words).fold(state, |state, (number, word)| {
        let framed = ads7953::frame(state, *word, 0x100 + number);
        println!(
            "frame {number}: word {:04X} asks for channel {}, reply of channel {}: {:03X}",
            word.to_bits(),
            framed.next.ordered,
            framed.reply.channel().number(),
            framed.reply.code()
        );
        framed.next
    })
}

/// Plans a list for a party, and prints the answer.
fn planned(state: State, party: u32, list: u16) -> [u8; LIST_PLAN] {
    let mut tx = [0; LIST_PLAN];
    let planned = ads7953::plan_list(state, party, list, &mut tx, 0);
    let plan = &tx[..planned.length];
    println!(
        "list {list:04X} by party {party}: refusal {}, plan {plan:02X?}",
        planned.refusal
    );
    tx
}

fn main() {
    let fresh = ads7953::power_up();
    let [a, b, c, d] = planned(fresh, 0, 0x0208);
    planned(fresh, 1, 0x0208);
    planned(fresh, 0, 0x0000);

    // The plan's four bytes are two words: 8000h, and the list itself.
    let words = [[a, b], [c, d]].map(|bytes| Word::Raw(u16::from_be_bytes(bytes)));
    let half = sent(fresh, 0, &words[..1]);
    planned(half, 0, 0x0208);
    let listed = sent(half, 1, &words[1..]);

    // Auto-1 begins with its lowest channel, which is replied two frames later.
    let begin = Word::Auto1 {
        program: Some(Sequence {
            counter_reset: false,
            range: Range::Range1,
        }),
    };
    let mut words = vec![begin];
    words.resize(6, Word::Continue);
    let running = sent(listed, 2, &words);

    // Back to manual mode; the list stays.
    let channel = Channel::new(5).expect("channels are 0 to 15");
    let manual = Word::Manual {
        channel,
        program: Some(Range::Range2),
    };
    let state = sent(running, 8, &[manual, Word::Continue, Word::Continue]);
    match Ads7953::try_from(state) {
        Ok(s) => println!("{:?}, list {:04X}, {:?}", s.mode, s.list, s.range),
        Err(fault) => println!("{fault}"),
    }
    println!(
        "a code of 4,096: refusal {}",
        ads7953::frame(state, Word::Continue, 4096).refusal
    );
}
