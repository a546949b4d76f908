//! The inputs that every comparison of direct calls starts with: check points of the documents, asked of the library, and runs
//! that drawn calls would seldom come to.

use crate::busy::{be_busy, busy_script, settle};
use crate::call::{Answer, Call, Done};
use crate::coin::{pattern, PATTERN};
use crate::compare::{compare_strip, Difference, Pair};
use crate::conductor::Conducted;
use crate::counted::{self, close_last, recounted, Counted};
use crate::library;
use crate::long_runs::{go_through, CatchUp};
use crate::memories::Memories;
use crate::numbers::{Numbers, Sort, LARGEST, MOST_PHASES, MOST_ROOM, MOST_SLOTS};
use crate::rank::{RANKED, URGENT};
use crate::refusal::Refusal;
use crate::script::{order, Script};
use crate::tally::Tally;

/// All of them, one after the other. The tally is told of runs.
pub fn compare_fixed(tally: &mut Tally) -> Result<(), Difference> {
    compare_pattern()?;
    compare_further()?;
    compare_left_behind()?;
    compare_phase_limits()?;
    compare_busy_days(tally)?;
    compare_conductor()?;
    compare_ranks()?;
    compare_band_limits()?;
    compare_long_lengths()?;
    compare_late_slots(tally)?;
    compare_counts(tally)?;
    compare_count_limits(tally)
}

/// Makes the script's calls of both, and tells the tally.
fn replay(script: &Script, pair: &mut Pair, tally: &mut Tally) -> Result<(), Difference> {
    for call in &script.calls {
        let result = pair.call(call, &script.numbers)?;
        tally.note_events(call, &script.numbers, &result, &pair.ours);
    }
    Ok(())
}

/// The O.150 pattern: every start, with the largest strip and smaller ones. Both must give its entries as the recurrence
/// does, which no packed table has gone through.
fn compare_pattern() -> Result<(), Difference> {
    let entries = pattern();
    for (slots, phases) in [(MOST_SLOTS, MOST_PHASES), (1, 1), (1, 32), (MOST_SLOTS, 1), (3, 5), (16, 8)] {
        for start in 0..PATTERN {
            let mut strip = vec![7; slots * phases + 3];
            let result = compare_strip(slots, phases, start, &mut strip)?;
            let entry = |cell: usize| entries[(start + 32 * (cell / phases) + cell % phases) % PATTERN];
            let coins: Vec<u8> = (0..slots * phases).map(entry).chain([7; 3]).collect();
            if result.is_err() || strip != coins {
                return Err(format!("strip of {slots} slots, {phases} phases from {start}: not the pattern"));
            }
        }
    }
    Ok(())
}

/// Document 01's "Further" check points, asked of the library; 65 slots now open.
fn compare_further() -> Result<(), Difference> {
    let mut memories = Memories::of_run(&LARGEST);
    let mut ask = |n, f, slots, start, answer| {
        let plan = Numbers { n, f, slots, phases: 4, room: 4 };
        let refusal = library::make(&Call::Open { plan, start }, &plan, &mut memories).refusal;
        let right = refusal == answer;
        right.then_some(plan).ok_or(format!("opening of {plan:?} from {start}: answer {refusal}"))
    };
    ask(4, 2, 1, 0, Refusal::BadPlan.number())?;
    ask(1, 0, 65, 0, 0)?;
    ask(1, 0, 64, 511, Refusal::BadPlan.number())?;
    ask(1, 0, 64, 510, 0)?;
    let run = ask(5, 2, 1, 0, 0)?;
    let mut answer = |call: Call| library::make(&call, &run, &mut memories).refusal;
    let hear = |phase, sort| Call::Hear { receiver: 0, sender: 0, sort, slot: 0, phase };
    let answers = [
        answer(hear(0, 1)),
        answer(Call::Submit { who: 0, tag: 7 }),
        answer(Call::Begin { who: 0 }),
        answer(hear(0, 1)),
        answer(hear(1, 2)),
    ];
    let right = answers == [17, 0, 0, 18, 17];
    right.then_some(()).ok_or(format!("a replica that hears itself: answers {answers:?}"))
}

/// Request 1's rack of three, asked of the library: two close slot 0 in phase 1, and the third waits in phase 2 until it
/// hears a notice.
fn compare_left_behind() -> Result<(), Difference> {
    let run = Numbers { n: 3, f: 1, slots: 2, phases: 4, room: 4 };
    let mut memories = Memories::of_run(&run);
    let mut answer = |call: Call| library::make(&call, &run, &mut memories).refusal;
    let hear = |receiver, sender, sort, phase| Call::Hear { receiver, sender, sort, slot: 0, phase };
    let mut accepted = vec![Call::Open { plan: run, start: 0 }, Call::Submit { who: 0, tag: 5 }];
    accepted.extend([Call::Relay { who: 1, tag: 5 }, Call::Submit { who: 2, tag: 9 }]);
    accepted.extend([0, 1, 2].map(|who| Call::Begin { who }));
    for (sort, phase) in [(1, 0), (2, 1), (3, 1)] {
        accepted.extend([hear(0, 1, sort, phase), hear(1, 0, sort, phase), hear(2, 0, sort, phase)]);
        accepted.extend([0, 1, 2].map(|who| Call::Advance { who }));
    }
    if let Some(call) = accepted.into_iter().find(|&call| answer(call) != 0) {
        return Err(format!("left behind: {call:?} is refused"));
    }
    let (advance, notice) = (Call::Advance { who: 2 }, hear(2, 1, 4, 0));
    let calls =
        [advance, hear(2, 1, 4, 1), hear(2, 1, 5, 0), hear(1, 2, 4, 0), notice, notice, advance, advance];
    let answers = calls.map(answer);
    let right = answers == [14, 16, 16, 17, 0, 18, 0, 13] && memories.log(&run, 2, 1) == [5];
    right.then_some(()).ok_or(format!("left behind: answers {answers:?}"))
}

/// Request 2, asked of the library: what a phase limit stands for in an opening, and that 0 is none elsewhere.
fn compare_phase_limits() -> Result<(), Difference> {
    let mut memories = Memories::of_run(&LARGEST);
    let plan = |phases| Numbers { n: 3, f: 1, slots: 2, phases, room: 4 };
    for (asked, opened) in [(0, 16), (1, 1), (8, 8), (16, 16), (17, 17), (32, 32)] {
        let answer = library::make(&Call::Open { plan: plan(asked), start: 0 }, &plan(asked), &mut memories);
        if answer != (Answer { numbers: plan(opened), ..Answer::default() }) {
            return Err(format!("opening with a phase limit of {asked}: {answer:?}"));
        }
    }
    let mut refusal = |call: Call, numbers| library::make(&call, &numbers, &mut memories).refusal;
    let beyond = refusal(Call::Open { plan: plan(33), start: 0 }, plan(33));
    let step = refusal(Call::Submit { who: 0, tag: 5 }, plan(0));
    let strip = library::fill_strip(2, 0, 0, &mut [7; 64]);
    let right = [beyond, step, strip] == [1, 3, 1];
    right.then_some(()).ok_or(format!("33 phases, a step and a strip of none: {beyond}, {step}, {strip}"))
}

/// Request 2's busy days, from every start of the coin and with a phase limit of 0: one on which nothing is decided until the
/// advances of phase 16 are refused, and one that ends in phase 10 to 16.
fn compare_busy_days(tally: &mut Tally) -> Result<(), Difference> {
    let plan = Numbers { n: 3, f: 1, slots: 2, phases: 0, room: 4 };
    for start in 0..PATTERN {
        let undecided = 9 + start % 7;
        let mut ending = busy_script(&plan, start, undecided);
        settle(&mut ending, undecided + 1);
        for script in [ending, busy_script(&plan, start, 16)] {
            replay(&script, &mut Pair::of(Memories::of_run(&script.numbers)), tally)?;
        }
    }
    Ok(())
}

/// Request 3's counts, asked of the library: three slots with orders that the highest lit replica alone holds, of
/// which the first-ranked is to come first. All n are lit, a quorum of them, or some number between.
fn compare_conductor() -> Result<(), Difference> {
    let racks = [(1, 0, 1, 4), (3, 1, 3, 30), (3, 1, 2, 14), (5, 2, 5, 80), (5, 2, 4, 52), (15, 7, 15, 690)];
    for (n, f, lit, steps) in racks {
        let mut script = Script::open(&Numbers { n, f, slots: 3, phases: 1, room: 3 });
        script.crash(lit..n);
        for tag in [order(3), order(1), URGENT + order(2)] {
            script.share(tag, [lit - 1]);
        }
        let numbers = script.numbers;
        let answers = [(); 4].map(|()| library::make(&Call::Conduct, &numbers, &mut script.memories));
        let conducted = Answer { conducted: Conducted { steps, relays: lit - 1 }, ..Answer::default() };
        let full = Answer { refusal: Refusal::LogFull.number(), ..Answer::default() };
        let log = script.memories.log(&numbers, 0, 3);
        if answers != [conducted, conducted, conducted, full]
            || log != [URGENT + order(2), order(1), order(3)]
        {
            return Err(format!("conductor, {lit} of {n} lit: {answers:?}, {log:?}"));
        }
    }
    Ok(())
}

/// C10 and request 5's ranks, asked of the library: which of two tags is proposed, whichever was submitted first, and that
/// the other follows in the next slot.
fn compare_ranks() -> Result<(), Difference> {
    let steps = [Call::Begin { who: 0 }, Call::RunOn { who: 0 }, Call::Begin { who: 0 }];
    for (first, other) in RANKED {
        for tags in [[first, other], [other, first]] {
            let mut script = Script::open(&Numbers { n: 1, f: 0, slots: 2, phases: 1, room: 2 });
            tags.into_iter().for_each(|tag| script.share(tag, [0]));
            let Script { numbers, mut memories, .. } = script;
            let answers = steps.map(|step| library::make(&step, &numbers, &mut memories).refusal);
            let proposed = [0, 1].map(|slot| memories.orders[numbers.proposal_cell(slot, 0)]);
            if (answers, proposed) != ([0; 3], [first, other]) {
                return Err(format!("pending {tags:?}: answers {answers:?}, {proposed:?} are proposed"));
            }
        }
    }
    Ok(())
}

/// Request 6's limits, asked of both: of openings, of steps and crashes with such numbers, and of strips.
fn compare_band_limits() -> Result<(), Difference> {
    let plan = |slots, room| Numbers { n: 3, f: 1, slots, phases: 2, room };
    let mut pair = Pair::of(Memories::of_run(&plan(MOST_SLOTS, MOST_ROOM)));
    let within = [64, 65, 255, 256, 257, MOST_SLOTS].map(|number| (number, [0, 0, 0]));
    let beyond = [MOST_SLOTS + 1, 65_535, 65_536 + 64].map(|number| (number, [1, 3, 3]));
    for (number, right) in within.into_iter().chain(beyond) {
        for plan in [plan(number, 4), plan(4, number), plan(number, number)] {
            let steps = [Call::Submit { who: 0, tag: 5 }, Call::Crash { who: 0 }];
            let calls = [Call::Open { plan, start: 0 }].into_iter().chain(steps);
            let answers: Result<Vec<_>, Difference> =
                calls.map(|call| Ok(Answer::from(&pair.call(&call, &plan)?).refusal)).collect();
            if answers? != right {
                return Err(format!("open, submit and crash of {plan:?}: not {right:?}"));
            }
        }
        let strip = compare_strip(number, 1, 0, &mut [7; MOST_SLOTS + 1])?;
        if strip.is_ok() != (right[0] == 0) {
            return Err(format!("strip of {number} slots: {strip:?}"));
        }
    }
    Ok(())
}

/// The longest runs want every element of each memory: one less of any gets 2.
fn compare_long_lengths() -> Result<(), Difference> {
    let shorten: [fn(&mut Memories); 4] = [
        |memories| memories.words.truncate(memories.words.len() - 1),
        |memories| memories.orders.truncate(memories.orders.len() - 1),
        |memories| memories.ballots.truncate(memories.ballots.len() - 1),
        |memories| memories.strip.truncate(memories.strip.len() - 1),
    ];
    for plan in [LARGEST, Numbers { n: 1, f: 0, ..LARGEST }] {
        let (whole, opening) = (Memories::of_run(&plan), Call::Open { plan, start: 0 });
        for shorten in shorten {
            let mut memories = whole.clone();
            shorten(&mut memories);
            let result = Pair::of(memories).call(&opening, &plan)?;
            if result != Err(Refusal::ShortTable) {
                return Err(format!("{opening:?} on a memory that is short by one: {result:?}"));
            }
        }
        let result = Pair::of(whole).call(&opening, &plan)?;
        if result != Ok(Done::Opened(plan)) {
            return Err(format!("{opening:?}: {result:?}"));
        }
    }
    Ok(())
}

/// The last slot of long runs, from many starts of the coin, whose bytes are even and odd and not just 0 and 1: all are busy in
/// the slot or the third closes it by a notice, and what is refused behind it.
fn compare_late_slots(tally: &mut Tally) -> Result<(), Difference> {
    let late = [63, 64, 254, 255, 256, 510, 511, 1022, 1023];
    for (start, slot) in (0..PATTERN).step_by(5).zip(late.into_iter().cycle()) {
        let mut script = Script::opened(&Numbers { n: 3, f: 1, slots: slot + 1, phases: 4, room: 16 }, start);
        go_through(&mut script, 0..slot, CatchUp::Advance);
        let coins = script.memories.strip.iter_mut();
        coins.zip((0..=254).step_by(2).cycle()).for_each(|(coin, even)| *coin += even);
        let mut pair = Pair::of(script.memories.clone());
        let mut script = Script::going_on(&script.numbers, script.memories);
        match start % 4 {
            0 => go_through(&mut script, slot..slot + 1, CatchUp::Advance),
            1 => go_through(&mut script, slot..slot + 1, CatchUp::RunOn),
            _ => {
                be_busy(&mut script, 2);
                settle(&mut script, 3);
            }
        }
        script.begin([0, 1, 2]);
        script.advance([0, 1, 2]);
        script.hear_of(slot + 1, 0, 0, 1, Sort::Notice);
        replay(&script, &mut pair, tally)?;
    }
    Ok(())
}

/// Request 8's cases, and runs of 1,024 slots that end: the counts that each replica must have, asked of the library.
fn compare_counts(tally: &mut Tally) -> Result<(), Difference> {
    let whole =
        counted::runs().into_iter().map(|counted| (Memories::of_run(&counted.script.numbers), counted));
    let last = counted::last_slots().into_iter().map(|mut counted| {
        let memories = counted.script.memories.clone();
        close_last(&mut counted.script);
        (memories, counted)
    });
    for (memories, Counted { name, script, counts }) in whole.chain(last) {
        let mut pair = Pair::of(memories);
        replay(&script, &mut pair, tally)?;
        let of = |who| pair.theirs.record(who).map(|record| (record.empty, record.fast));
        let theirs: Vec<_> = (0..counts.len()).filter_map(of).collect();
        if theirs != counts {
            return Err(format!("{name}: counts {theirs:?} and not {counts:?}"));
        }
    }
    Ok(())
}

/// Request 8's refusal, asked of both: each kind of call, with counts of each replica at its one closed slot and above it. A
/// crash reads the record of replica 0 alone.
fn compare_count_limits(tally: &mut Tally) -> Result<(), Difference> {
    let within = [(0, 0), (1, 0), (0, 1), (1, 1)].map(|counts| (counts, false));
    let above = [(2, 0), (0, 2), (2, 2), (257, 1), (1, 257), (65_535, 0), (0, 65_535)];
    for (who, ((empty, fast), exceeds)) in (0..3).flat_map(|who| {
        within.into_iter().chain(above.map(|counts| (counts, true))).map(move |row| (who, row))
    }) {
        for call in counted::calls() {
            let mut pair = Pair::of(recounted(who, empty, fast));
            let result = pair.call(&call, &counted::RACK)?;
            tally.note_events(&call, &counted::RACK, &result, &pair.ours);
            let right = exceeds && (who == 0 || call != Call::Crash { who: 0 });
            if (result == Err(Refusal::SpoiledRecord)) != right {
                return Err(format!("{call:?} with counts {empty} and {fast} of {who}: {result:?}"));
            }
        }
    }
    Ok(())
}
