//! What the benchmark measures: each call on the memories of a scripted run.

use crate::archive::{self, PLANES};
use crate::call::{Call, Done};
use crate::conductor::{Conducted, Plan};
use crate::filled::{by_rank, everyone, fill, Known};
use crate::long_runs::{go_through, CatchUp};
use crate::memories::{bit, Memories, FIND, IDLE, ONE, STATE, ZERO};
use crate::numbers::{Numbers, Sort, ROUNDS};
use crate::random::Random;
use crate::refusal::Refusal;
use crate::rules::{Advanced, Ran, Stop, Submitted};
use crate::script::{order, Fill, Script};
use crate::step_file::Form;

pub enum Work {
    FillStrip {
        start: usize,
    },
    Call(Call),
    /// One after the other, all accepted.
    Steps(Vec<Call>),
    /// Lent its one record.
    Crash {
        who: usize,
    },
    Play {
        file: Vec<u8>,
    },
    /// Lent the ballots as its output, and no other memory.
    ToPlanes {
        entries: Vec<u64>,
    },
    /// Lent the orders as its output, and no other memory.
    ToEntries {
        stored: Vec<u8>,
    },
}

pub type Answered = Result<Done, Refusal>;

/// A call that is ready to be made.
pub struct Case {
    pub name: String,
    pub numbers: Numbers,
    /// The memories before the call.
    pub memories: Memories,
    pub work: Work,
    /// Whether the call did what it is measured for.
    pub does: fn(&Answered) -> bool,
}

/// A kind of case. `--callgrind` takes its name; the measurements show its words.
pub struct Kind {
    pub name: &'static str,
    pub words: &'static str,
    prepare: fn(&Numbers, Fill) -> (Script, Work),
    does: fn(&Answered) -> bool,
}

impl Kind {
    pub fn all() -> impl Iterator<Item = &'static Kind> {
        KINDS.iter().chain(&LONG_KINDS).chain(&ARCHIVE_KINDS)
    }

    pub fn named(name: &str) -> Option<&'static Kind> {
        Kind::all().find(|kind| kind.name == name)
    }

    pub fn case(&self, numbers: &Numbers, fill: Fill) -> Case {
        let (Script { memories, refused, .. }, work) = (self.prepare)(numbers, fill);
        let name = format!("{}, {numbers:?}, {fill:?}", self.name);
        assert_eq!(refused, None, "{name}");
        Case { name, numbers: *numbers, memories, work, does: self.does }
    }
}

const fn kind(
    name: &'static str,
    words: &'static str,
    prepare: fn(&Numbers, Fill) -> (Script, Work),
    does: fn(&Answered) -> bool,
) -> Kind {
    Kind { name, words, prepare, does }
}

/// The refused submit shows what a step costs before its own rule: the boundary and refusals 3, 2, 4, 5.
pub static KINDS: [Kind; 24] = [
    kind("fill-strip", "fill_strip", fill_strip, |_| true),
    kind("open", "open", open, |did| matches!(did, Ok(Done::Opened(_)))),
    kind("submit-blank", "submit, blank tag (refused)", submit_blank, |did| *did == Err(Refusal::BlankTag)),
    kind("submit-new", "submit, new tag", submit_new, |did| *did == Ok(Done::Submitted(Submitted::New))),
    kind("submit-known", "submit, known tag", submit_known, |did| {
        *did == Ok(Done::Submitted(Submitted::Known))
    }),
    kind("relay", "relay", relay, |did| *did == Ok(Done::Relayed)),
    kind("begin", "begin", begin, |did| matches!(did, Ok(Done::Begun(_)))),
    kind("hear-proposal", "hear, proposal", hear_proposal, |did| *did == Ok(Done::Heard)),
    kind("hear-state", "hear, state", hear_state, |did| *did == Ok(Done::Heard)),
    kind("hear-vote", "hear, vote", hear_vote, |did| *did == Ok(Done::Heard)),
    kind("hear-notice", "hear, notice", hear_notice, |did| *did == Ok(Done::Heard)),
    kind("exchange", "advance, exchange, one tag heard", exchange, |did| {
        *did == Ok(Done::Advanced(Advanced::Exchanged(ONE)))
    }),
    kind("exchange-apart", "advance, exchange, n tags heard", exchange_apart, |did| {
        *did == Ok(Done::Advanced(Advanced::Exchanged(ZERO)))
    }),
    kind("state", "advance, state round", state, |did| *did == Ok(Done::Advanced(Advanced::Voted(ONE)))),
    kind("vote-close", "advance, vote round, closing", vote_close, |did| {
        matches!(did, Ok(Done::Advanced(Advanced::ClosedWith(_))))
    }),
    kind("vote-coin", "advance, vote round, going on by coin", vote_coin, |did| {
        matches!(did, Ok(Done::Advanced(Advanced::NextByCoin(_))))
    }),
    kind("find", "advance, find round", find, |did| matches!(did, Ok(Done::Advanced(Advanced::Found(_))))),
    kind("notice-idle", "advance, by notice, idle", notice_idle, |did| {
        matches!(did, Ok(Done::Advanced(Advanced::ByNotice { round: IDLE, .. })))
    }),
    kind("notice-state", "advance, by notice, state round", notice_state, |did| {
        matches!(did, Ok(Done::Advanced(Advanced::ByNotice { round: STATE, .. })))
    }),
    kind("run-on", "run on, a whole slot", run_on, |did| {
        matches!(did, Ok(Done::RanOn(Ran { advances: 3, stop: Stop::Closed(_) })))
    }),
    kind("conduct", "conduct, a whole slot", conduct, |did| {
        matches!(did, Ok(Done::Conducted(Conducted { relays: 1.., .. })))
    }),
    kind("conduct-steps", "the same steps, one by one", conduct_steps, |_| true),
    kind("crash", "crash", crash, |_| true),
    kind("play", "play, the step file of such a run", play, |_| true),
];

/// Those of the longest run. "In order" are tags that were submitted in the order of their ranks, which is that of the logs.
pub static LONG_KINDS: [Kind; 8] = [
    kind("begin-in-order", "begin, in order", begin_in_order, |did| matches!(did, Ok(Done::Begun(_)))),
    kind("begin-shuffled", "begin, shuffled", begin_shuffled, |did| matches!(did, Ok(Done::Begun(_)))),
    kind("submit-last", "submit, the last new tag", submit_last, |did| {
        *did == Ok(Done::Submitted(Submitted::New))
    }),
    kind("submit-held", "submit, held (refused)", submit_held, |did| *did == Err(Refusal::Held)),
    kind("conduct-in-order", "conduct, a whole slot, in order", conduct_in_order, |did| {
        matches!(did, Ok(Done::Conducted(Conducted { relays: 1.., .. })))
    }),
    kind("conduct-shuffled", "conduct, a whole slot, shuffled", conduct_shuffled, |did| {
        matches!(did, Ok(Done::Conducted(Conducted { relays: 1.., .. })))
    }),
    kind("play-full", "play, the step file of such a run", play_full, |_| true),
    kind("play-long", "play, a step file of few tags", play_long, |_| true),
];

/// Those of the archive, with a log of as many entries as slots are closed.
pub static ARCHIVE_KINDS: [Kind; 2] = [
    kind("to-planes", "to_planes", to_planes, |_| true),
    kind("to-entries", "to_entries", to_entries, |_| true),
];

/// From another start than the script's, so that cells change.
fn fill_strip(numbers: &Numbers, fill: Fill) -> (Script, Work) {
    (Script::filled(numbers, fill), Work::FillStrip { start: 100 })
}

fn open(numbers: &Numbers, fill: Fill) -> (Script, Work) {
    (Script::filled(numbers, fill), Work::Call(Call::Open { plan: *numbers, start: 100 }))
}

fn submit_blank(numbers: &Numbers, fill: Fill) -> (Script, Work) {
    (Script::filled(numbers, fill), Work::Call(Call::Submit { who: 1, tag: 0 }))
}

fn submit_new(numbers: &Numbers, fill: Fill) -> (Script, Work) {
    let call = Call::Submit { who: 1, tag: order(fill.known + 1) };
    (Script::filled(numbers, fill), Work::Call(call))
}

fn submit_known(numbers: &Numbers, fill: Fill) -> (Script, Work) {
    let call = Call::Submit { who: 1, tag: order(fill.known) };
    (Script::unrelayed(numbers, fill), Work::Call(call))
}

fn relay(numbers: &Numbers, fill: Fill) -> (Script, Work) {
    let call = Call::Relay { who: 1, tag: order(fill.known) };
    (Script::unrelayed(numbers, fill), Work::Call(call))
}

fn begin(numbers: &Numbers, fill: Fill) -> (Script, Work) {
    (Script::filled(numbers, fill), Work::Call(Call::Begin { who: 0 }))
}

fn hear(numbers: &Numbers, fill: Fill, sort: Sort) -> (Script, Work) {
    let mut script = Script::filled(numbers, fill);
    script.send_up_to(sort);
    let call = script.hearing(0, 1, sort);
    (script, Work::Call(call))
}

fn hear_proposal(numbers: &Numbers, fill: Fill) -> (Script, Work) {
    hear(numbers, fill, Sort::Proposal)
}

fn hear_state(numbers: &Numbers, fill: Fill) -> (Script, Work) {
    hear(numbers, fill, Sort::State)
}

fn hear_vote(numbers: &Numbers, fill: Fill) -> (Script, Work) {
    hear(numbers, fill, Sort::Vote)
}

fn hear_notice(numbers: &Numbers, fill: Fill) -> (Script, Work) {
    let script = left_idle(numbers, fill);
    let call = script.hearing(0, 1, Sort::Notice);
    (script, Work::Call(call))
}

/// The others close a slot in which replica 0 has not begun.
fn left_idle(numbers: &Numbers, fill: Fill) -> Script {
    let mut script = Script::filled(numbers, fill);
    script.begin(1..numbers.n);
    script.go_on(1..numbers.n, &ROUNDS);
    script
}

/// Replica 0 has heard the highest sender's notice alone, so that an advance looks at every sender's.
fn by_notice(mut script: Script) -> (Script, Work) {
    let last = script.numbers.n - 1;
    script.hear(0, [last], Sort::Notice);
    (script, Work::Call(Call::Advance { who: 0 }))
}

fn notice_idle(numbers: &Numbers, fill: Fill) -> (Script, Work) {
    by_notice(left_idle(numbers, fill))
}

/// The others close without replica 0, which sends its state and hears no other.
fn notice_state(numbers: &Numbers, fill: Fill) -> (Script, Work) {
    let mut script = Script::filled(numbers, fill);
    script.send_up_to(Sort::State);
    script.go_on(1..numbers.n, &[Sort::State, Sort::Vote]);
    by_notice(script)
}

/// Replica 0 advances with all n messages of the sort heard.
fn advance_on(mut script: Script, sort: Sort) -> (Script, Work) {
    script.send_up_to(sort);
    script.all_hear(sort);
    (script, Work::Call(Call::Advance { who: 0 }))
}

fn exchange(numbers: &Numbers, fill: Fill) -> (Script, Work) {
    advance_on(Script::filled(numbers, fill), Sort::Proposal)
}

fn exchange_apart(numbers: &Numbers, fill: Fill) -> (Script, Work) {
    let mut script = Script::filled(numbers, fill);
    script.share_apart();
    advance_on(script, Sort::Proposal)
}

fn state(numbers: &Numbers, fill: Fill) -> (Script, Work) {
    advance_on(Script::filled(numbers, fill), Sort::State)
}

fn vote_close(numbers: &Numbers, fill: Fill) -> (Script, Work) {
    advance_on(Script::filled(numbers, fill), Sort::Vote)
}

/// Replica 0 hears of its own camp alone, the others of both: one state 1 among zeros. Each then hears a quorum of
/// states with both values in it, so that all vote `?`.
fn vote_coin(numbers: &Numbers, fill: Fill) -> (Script, Work) {
    let (n, others) = (numbers.n, numbers.quorum() - 1);
    let mut script = Script::filled(numbers, fill);
    script.share_in_camps([1, 2]);
    script.begin(0..n);
    script.hear(0, 1..=others, Sort::Proposal);
    for who in 1..n {
        script.hear(who, (0..n).rev().filter(|&sender| sender != who).take(others), Sort::Proposal);
    }
    script.advance(0..n);
    for who in 0..n {
        script.hear(who, (0..n).filter(|&sender| sender != who).take(others), Sort::State);
    }
    script.advance(0..n);
    script.all_hear(Sort::Vote);
    (script, Work::Call(Call::Advance { who: 0 }))
}

/// The last replica learns of the outcome from states and votes, and of the tag only later.
fn find(numbers: &Numbers, fill: Fill) -> (Script, Work) {
    let last = numbers.n - 1;
    let mut script = Script::filled(numbers, fill);
    script.share_in_camps([1, 2]);
    script.leave_in(FIND);
    script.hear(last, 0..numbers.n - numbers.quorum(), Sort::Proposal);
    (script, Work::Call(Call::Advance { who: last }))
}

/// The others go ahead without replica 0, which then hears all at once.
fn run_on(numbers: &Numbers, fill: Fill) -> (Script, Work) {
    let others = 1..numbers.n;
    let mut script = Script::filled(numbers, fill);
    script.begin(0..numbers.n);
    script.go_on(others.clone(), &[Sort::Proposal, Sort::State]);
    for sort in ROUNDS {
        script.hear(0, others.clone(), sort);
    }
    (script, Work::Call(Call::RunOn { who: 0 }))
}

/// Replica 0 alone holds the oldest order.
fn held_by_one(numbers: &Numbers, fill: Fill) -> Script {
    let mut script = Script::filled(numbers, Fill { known: fill.known - 1, ..fill });
    script.share(1, [0]);
    script
}

fn conduct(numbers: &Numbers, fill: Fill) -> (Script, Work) {
    (held_by_one(numbers, fill), Work::Call(Call::Conduct))
}

fn conduct_steps(numbers: &Numbers, fill: Fill) -> (Script, Work) {
    let script = held_by_one(numbers, fill);
    let plan = Plan::of(numbers, &script.memories).expect("a level rack");
    let steps = plan.relays().chain(plan.steps()).collect();
    (script, Work::Steps(steps))
}

fn crash(numbers: &Numbers, fill: Fill) -> (Script, Work) {
    (Script::filled(numbers, fill), Work::Crash { who: 0 })
}

/// The file of the whole script, which the opening in it starts anew.
fn play(numbers: &Numbers, fill: Fill) -> (Script, Work) {
    let script = Script::filled(numbers, fill);
    let file = script.file(|| Form::Old);
    (script, Work::Play { file })
}

/// How the tags of a long run were submitted.
#[derive(PartialEq)]
enum Submits {
    InOrder,
    Shuffled,
}

/// The first-ranked tags stand in the closed slots; the others are held by these.
fn long(numbers: &Numbers, Fill { known, closed }: Fill, submits: Submits, holders: u16) -> Script {
    let mut script = Script::open(numbers);
    let mut tags: Vec<Known> = (1..=known).map(|second| (order(second), holders)).collect();
    if submits == Submits::Shuffled {
        Random::new(1).shuffle(&mut tags);
    }
    fill(numbers, &tags, &by_rank(&tags, closed), &mut script.memories);
    script
}

fn begin_in_order(numbers: &Numbers, fill: Fill) -> (Script, Work) {
    (long(numbers, fill, Submits::InOrder, everyone(numbers)), Work::Call(Call::Begin { who: 0 }))
}

fn begin_shuffled(numbers: &Numbers, fill: Fill) -> (Script, Work) {
    (long(numbers, fill, Submits::Shuffled, everyone(numbers)), Work::Call(Call::Begin { who: 0 }))
}

fn submit_last(numbers: &Numbers, fill: Fill) -> (Script, Work) {
    let call = Call::Submit { who: 1, tag: order(fill.known + 1) };
    (long(numbers, fill, Submits::InOrder, everyone(numbers)), Work::Call(call))
}

fn submit_held(numbers: &Numbers, fill: Fill) -> (Script, Work) {
    let call = Call::Submit { who: 1, tag: order(fill.known) };
    (long(numbers, fill, Submits::InOrder, everyone(numbers)), Work::Call(call))
}

/// Replica 0 alone holds the tag that is left.
fn conduct_in_order(numbers: &Numbers, fill: Fill) -> (Script, Work) {
    (long(numbers, fill, Submits::InOrder, bit(0)), Work::Call(Call::Conduct))
}

fn conduct_shuffled(numbers: &Numbers, fill: Fill) -> (Script, Work) {
    (long(numbers, fill, Submits::Shuffled, bit(0)), Work::Call(Call::Conduct))
}

/// All the steps of a run of three, in records of the new kinds.
fn play_full(numbers: &Numbers, fill: Fill) -> (Script, Work) {
    let script = Script::filled(&Numbers { n: 3, f: 1, ..*numbers }, fill);
    let file = script.file(|| Form::New);
    (script, Work::Play { file })
}

/// Three replicas through so many slots, most of them empty; records of the new kinds.
fn play_long(numbers: &Numbers, fill: Fill) -> (Script, Work) {
    let mut script = Script::open(&Numbers { n: 3, f: 1, ..*numbers });
    go_through(&mut script, 0..fill.closed, CatchUp::Advance);
    let file = script.file(|| Form::New);
    (script, Work::Play { file })
}

/// An order a second, and what the archive keeps of them.
fn log_and_planes(closed: usize) -> (Vec<u64>, Vec<u8>) {
    let entries: Vec<u64> = (1..=closed).map(order).collect();
    let mut stored = vec![0; PLANES * closed];
    archive::to_planes(&entries, &mut stored).expect("a log within the limits");
    (entries, stored)
}

fn to_planes(numbers: &Numbers, fill: Fill) -> (Script, Work) {
    let (entries, stored) = log_and_planes(fill.closed);
    let output = Memories { ballots: vec![0; stored.len()], ..Memories::default() };
    (Script::going_on(numbers, output), Work::ToPlanes { entries })
}

fn to_entries(numbers: &Numbers, fill: Fill) -> (Script, Work) {
    let (entries, stored) = log_and_planes(fill.closed);
    let output = Memories { orders: vec![0; entries.len()], ..Memories::default() };
    (Script::going_on(numbers, output), Work::ToEntries { stored })
}

#[cfg(test)]
mod tests {
    use super::*;
    use crate::step_file::REHEARSAL_BYTES;

    #[test]
    fn calls_do_what_they_are_measured_for() {
        for n in 3..=15 {
            let numbers = Numbers { n, f: (n - 1) / 2, slots: 4, phases: 2, room: 32 };
            for kind in Kind::all() {
                let Case { name, mut memories, work, does, .. } =
                    kind.case(&numbers, Fill { known: 4, closed: 2 });
                if let Work::Call(call) = work {
                    assert!(does(&call.make(&numbers, &mut memories)), "{name}");
                }
            }
        }
    }

    /// All its slots are closed, and it fills more bytes than the rehearsal program takes.
    #[test]
    fn the_long_file_is_one() {
        let numbers = Numbers { n: 3, f: 1, slots: 1024, phases: 16, room: 1024 };
        let (script, work) = play_long(&numbers, Fill { known: 8, closed: 1024 });
        assert_eq!((script.memories.known(), script.slot(0), script.slot(2)), (8, 1024, 1024));
        assert!(matches!(work, Work::Play { file } if file.len() >= REHEARSAL_BYTES && file[0] == 8));
    }
}
