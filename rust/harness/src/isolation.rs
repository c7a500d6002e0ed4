//! Isolation between parties: whatever way their requests are interleaved,
//! each party gets the same answers and its settings end the same. For one
//! converter, and for several with one line each.

mod reference;

use std::ops::Range;

use crate::cells::{self, Cell};
use crate::random::Random;
use crate::states::{self, DAMAGES};
use crate::{calls, Converter, OneConverter, Phase, Request, WHOLE_CHANNEL};
use reference::Reference;

/// Parties that send requests; 9 to 12 are unknown.
pub const PARTIES: u32 = 13;

/// Several converters that take plans and bytes, each by its number.
pub(crate) trait Converters<const N: usize> {
    /// (refusal, number of the plan's converter, plan length, states after)
    fn plan(
        &self,
        states: [Converter; N],
        submission: &Submission,
        tx: &mut [u8],
    ) -> (u8, u32, usize, [Converter; N]);
    /// The states after a byte, unless it is refused.
    fn step(&self, states: [Converter; N], number: u32, byte: u8) -> Option<[Converter; N]>;
    /// The states after a select rise, unless it is refused.
    fn deselect(&self, states: [Converter; N], number: u32) -> Option<[Converter; N]>;
    /// The same for one converter by itself.
    fn one(&self) -> &impl OneConverter;
}

/// One converter, which has number 0.
struct Single<'a, B>(&'a B);

impl<B: OneConverter> Converters<1> for Single<'_, B> {
    fn plan(
        &self,
        [c]: [Converter; 1],
        submission: &Submission,
        tx: &mut [u8],
    ) -> (u8, u32, usize, [Converter; 1]) {
        let Submission {
            party, request, at, ..
        } = *submission;
        let (refusal, length, next) = self.0.plan(c, party, request, tx, at);
        (refusal, 0, length, [next])
    }

    fn step(&self, [c]: [Converter; 1], _: u32, byte: u8) -> Option<[Converter; 1]> {
        let (refusal, _, next) = self.0.step(c, byte);
        (refusal == 0).then_some([next])
    }

    fn deselect(&self, [c]: [Converter; 1], _: u32) -> Option<[Converter; 1]> {
        let (refusal, next) = self.0.deselect(c);
        (refusal == 0).then_some([next])
    }

    fn one(&self) -> &impl OneConverter {
        self.0
    }
}

/// A party's setting request with a transmit buffer of its own.
#[derive(Clone, Debug)]
pub(crate) struct Submission {
    pub(crate) party: u32,
    pub(crate) request: Request,
    tx: Vec<u8>,
    pub(crate) at: usize,
}

impl Submission {
    fn is_whole_channel(&self) -> bool {
        self.request.field == WHOLE_CHANNEL
    }

    fn room(&self) -> usize {
        self.tx.len().saturating_sub(self.at)
    }

    /// What it would set of its converter, of so many.
    fn settings(&self, converters: usize) -> Vec<(Cell, u32)> {
        let local = cells::localised(converters, &self.request);
        local.map_or(Vec::new(), |(_, request)| cells::named(&request))
    }
}

/// What one submission got.
#[derive(Clone, Debug, PartialEq, Eq)]
struct Answer {
    refusal: u8,
    /// Of the converter that the plan is for.
    number: u32,
    plan: Vec<u8>,
}

/// How much a run covered.
#[derive(Clone, Copy, Debug, Default, PartialEq, Eq)]
pub struct Coverage {
    pub rounds: u64,
    pub requests: u64,
    /// Requests by the refusal number they got.
    pub refusals: [u64; 14],
    pub accepted: u64,
    /// Accepted requests by their converter's number.
    pub by_converter: [u64; 4],
    /// Accepted requests for a whole channel.
    pub whole_channels: u64,
    /// Plans whose data bytes differed between the two merges.
    pub differing_plans: u64,
    /// Those of whole channels among them.
    pub differing_whole_channels: u64,
}

impl Coverage {
    fn note_accepted(&mut self, submission: &Submission, number: u32, plans_differ: bool) {
        let whole = submission.is_whole_channel();
        self.accepted += 1;
        self.by_converter[number as usize] += 1;
        self.whole_channels += u64::from(whole);
        self.differing_plans += u64::from(plans_differ);
        self.differing_whole_channels += u64::from(whole && plans_differ);
    }
}

/// Converters of all kinds, at times one of them damaged.
fn first_state<const N: usize>(one: &impl OneConverter, random: &mut Random) -> [Converter; N] {
    let damaged = (random.below(20) == 0).then(|| random.below(N));
    std::array::from_fn(|number| match random.below(19) {
        _ if damaged == Some(number) => {
            let damage = random.pick(&DAMAGES);
            states::damaged(random, damage)
        }
        0..=3 => states::reachable(one, random),
        4..=5 => states::valid(random),
        _ => {
            let mut c = states::valid(random);
            c.phase = Phase::Waiting;
            c.owners = std::array::from_fn(|_| random.between(0, 8) as u8);
            c
        }
    })
}

fn channels_of(states: &[Converter], party: u32) -> Vec<u32> {
    let owners = states.iter().flat_map(|c| c.owners);
    (1..)
        .zip(owners)
        .filter(|&(_, owner)| u32::from(owner) == party)
        .map(|(channel, _)| channel)
        .collect()
}

/// A request for one of the party's own channels, mostly legal.
fn own_request(random: &mut Random, own: &[u32]) -> Request {
    let channel = random.pick(own);
    if random.chance(35) {
        return Request::whole_channel(channel, calls::channel_values(random));
    }
    let field = if random.chance(60) {
        random.between(5, 9)
    } else {
        random.between(1, 9)
    };
    let bound = if random.chance(80) { 2 } else { 9 };
    Request::one(field as u32, channel, random.below(bound) as u32)
}

/// Any request, for one of so many converters.
fn any_request(random: &mut Random, converters: usize) -> Request {
    let mut request = calls::request(random);
    if request.channel <= 8 {
        let number = random.below(converters);
        request.channel = cells::channel_number(converters, number, request.channel);
    }
    request
}

fn submission(random: &mut Random, converters: usize, own: &[u32], party: u32) -> Submission {
    let request = if !own.is_empty() && random.chance(75) {
        own_request(random, own)
    } else {
        any_request(random, converters)
    };
    let length = if random.chance(8) {
        random.below(15)
    } else {
        random.between(14, 19)
    };
    let at = match random.below(12) {
        0 => random.between(0, length),
        1 => random.pick(&[length, length + 1, usize::MAX]),
        _ => random.below(length.saturating_sub(13).max(1)),
    };
    Submission {
        party,
        request,
        tx: random.bytes(length),
        at,
    }
}

/// An order of all requests (party, index) that keeps each party's own.
fn merge(random: &mut Random, lists: &[Vec<Submission>]) -> Vec<(usize, usize)> {
    let mut taken = vec![0; lists.len()];
    let mut order = Vec::new();
    let stay = random.pick(&[0, 0, 50, 90]);
    let mut last = None;
    loop {
        let open: Vec<usize> = (0..lists.len())
            .filter(|&p| taken[p] < lists[p].len())
            .collect();
        if open.is_empty() {
            return order;
        }
        let party = match last.filter(|p| open.contains(p)) {
            Some(party) if random.chance(stay) => party,
            _ => random.pick(&open),
        };
        order.push((party, taken[party]));
        taken[party] += 1;
        last = Some(party);
    }
}

/// Plans a submission and checks the answer against the reference.
fn submit<const N: usize>(
    bench: &impl Converters<N>,
    reference: &mut Reference<N>,
    states: [Converter; N],
    submission: &Submission,
) -> Result<(Answer, [Converter; N]), String> {
    let mut tx = submission.tx.clone();
    let (refusal, number, length, next) = bench.plan(states, submission, &mut tx);
    let (got, expected) = ((refusal, number, length), reference.answer(submission));
    if got != expected {
        return Err(format!("{submission:?} got {got:?}, not {expected:?}"));
    }
    let plan = if refusal == 0 {
        tx[submission.at..submission.at + length].to_vec()
    } else if tx != submission.tx || next != states {
        return Err(format!("refused {submission:?} left a trace"));
    } else {
        Vec::new()
    };
    let answer = Answer {
        refusal,
        number,
        plan,
    };
    Ok((answer, next))
}

/// The states after a plan's bytes. Then the plan's own line rises, and
/// nothing changes.
fn sent<const N: usize>(
    bench: &impl Converters<N>,
    states: [Converter; N],
    answer: &Answer,
) -> Result<[Converter; N], String> {
    let mut bytes = answer.plan.iter();
    let after = bytes
        .try_fold(states, |states, &byte| {
            bench.step(states, answer.number, byte)
        })
        .ok_or("an accepted plan was refused as bytes")?;
    if bench.deselect(after, answer.number) != Some(after) {
        return Err(format!("a rise after {answer:02x?} changed {after:x?}"));
    }
    Ok(after)
}

/// Answers by party and index, and the end.
type Run<const N: usize> = (Vec<Vec<Answer>>, [Converter; N]);

/// Sends the lists in the given order and checks each answer and the end
/// state against the reference.
fn run<const N: usize>(
    bench: &impl Converters<N>,
    first: [Converter; N],
    lists: &[Vec<Submission>],
    order: &[(usize, usize)],
) -> Result<Run<N>, String> {
    let mut reference = Reference::new(bench.one(), first);
    let mut answers: Vec<Vec<Answer>> = vec![Vec::new(); lists.len()];
    let (mut states, mut twin) = (first, first);
    for &(party, index) in order {
        let answer;
        (answer, states) = submit(bench, &mut reference, states, &lists[party][index])?;
        if answer.refusal == 0 {
            twin = sent(bench, twin, &answer)?;
        }
        answers[party].push(answer);
    }
    let end = reference.end();
    if states != end {
        return Err(format!("ends as {states:x?}, not {end:x?}"));
    }
    if twin != states {
        return Err(format!("plans' bytes lead to {twin:x?}, not {states:x?}"));
    }
    Ok((answers, states))
}

/// Each setting holds its owner's last accepted value, or its first.
fn owners_last_values<const N: usize>(
    first: &[Converter; N],
    lists: &[Vec<Submission>],
    (answers, end): &Run<N>,
) -> Result<(), String> {
    let mut expected = first.map(|c| c.registers);
    let all = lists.iter().flatten().zip(answers.iter().flatten());
    for (submission, answer) in all.filter(|(_, answer)| answer.refusal == 0) {
        let number = answer.number as usize;
        for (cell, value) in submission.settings(N) {
            if cell.owner(&first[number].owners) == submission.party {
                cell.store(&mut expected[number], value);
            }
        }
    }
    for (number, (c, expected)) in end.iter().zip(expected).enumerate() {
        let wrong = |cell: &Cell| cell.value(&c.registers) != cell.value(&expected);
        if let Some(cell) = cells::all().into_iter().find(wrong) {
            let (held, last) = (cell.value(&c.registers), cell.value(&expected));
            return Err(format!(
                "{cell:?} of {number} holds {held}, not its owner's {last}"
            ));
        }
    }
    Ok(())
}

/// The bits of channels of others, in a register with a bit for each.
fn foreign_bits(first: &Converter, party: u32) -> u8 {
    let owners = first.owners.iter().enumerate();
    owners
        .filter(|(_, &owner)| u32::from(owner) != party)
        .fold(0, |bits, (bit, _)| bits | 1 << bit)
}

/// Where a plan's bytes of registers with a bit for each channel lie.
fn shared_bytes(first: &Converter, submission: &Submission) -> Range<usize> {
    let start = usize::from(first.standby) + usize::from(first.continuous);
    if submission.is_whole_channel() {
        // Behind CHnSET's write, the run's command and its count.
        return start + 5..start + 10;
    }
    if cells::has_bit_for_each_channel(submission.request.field) {
        start + 2..start + 3
    } else {
        0..0
    }
}

/// Two plans of one submission: alike but for bits of channels of others, of
/// the same converter. Tells whether they differ.
fn plans_agree(
    first: &[Converter],
    submission: &Submission,
    one: &Answer,
    other: &Answer,
) -> Result<bool, String> {
    let c = &first[one.number as usize];
    let foreign = foreign_bits(c, submission.party);
    let shared = shared_bytes(c, submission);
    let mut bytes = one.plan.iter().zip(&other.plan).enumerate();
    let agree = (one.refusal, one.number, one.plan.len())
        == (other.refusal, other.number, other.plan.len())
        && bytes.all(|(index, (a, b))| {
            let may_differ = if shared.contains(&index) { foreign } else { 0 };
            (a ^ b) & !may_differ == 0
        });
    if agree {
        Ok(one.plan != other.plan)
    } else {
        Err(format!("{submission:?}: {one:02x?} and {other:02x?}"))
    }
}

fn round<const N: usize>(
    bench: &impl Converters<N>,
    random: &mut Random,
    coverage: &mut Coverage,
) -> Result<(), String> {
    let first: [Converter; N] = first_state(bench.one(), random);
    let lists: Vec<Vec<Submission>> = (0..PARTIES)
        .map(|party| {
            let own = channels_of(&first, party);
            let most = if own.is_empty() { 3 } else { 9 };
            (0..random.between(0, most))
                .map(|_| submission(random, N, &own, party))
                .collect()
        })
        .collect();
    let (order_one, order_two) = (merge(random, &lists), merge(random, &lists));
    let one = run(bench, first, &lists, &order_one)?;
    let two = run(bench, first, &lists, &order_two)?;
    if one.1 != two.1 {
        return Err(format!("merges end as {:x?} and {:x?}", one.1, two.1));
    }
    owners_last_values(&first, &lists, &one)?;
    let answers = one.0.iter().flatten().zip(two.0.iter().flatten());
    for (submission, (a, b)) in lists.iter().flatten().zip(answers) {
        let differ = plans_agree(&first, submission, a, b)?;
        coverage.requests += 1;
        coverage.refusals[usize::from(a.refusal)] += 1;
        if a.refusal == 0 {
            coverage.note_accepted(submission, a.number, differ);
        }
    }
    coverage.rounds += 1;
    Ok(())
}

/// Random lists of all parties, each round merged in two ways.
pub(crate) fn check_converters<const N: usize>(
    bench: &impl Converters<N>,
    rounds: u64,
    seed: u64,
) -> Result<Coverage, String> {
    let mut random = Random::new(seed);
    let mut coverage = Coverage::default();
    for number in 0..rounds {
        round(bench, &mut random, &mut coverage)
            .map_err(|fault| format!("seed {seed:#x}, round {number}: {fault}"))?;
    }
    Ok(coverage)
}

/// The same for one converter.
pub fn check(bench: &impl OneConverter, rounds: u64, seed: u64) -> Result<Coverage, String> {
    check_converters(&Single(bench), rounds, seed)
}
