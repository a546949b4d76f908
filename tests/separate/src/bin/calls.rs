//! `calls [--seed N] [--runs K]`: at least K direct calls of the library beside the separate implementation, on
//! ordinary and damaged memories. Answers, values and every cell of every memory must be equal after each, and each
//! refusal of each call, each event and each kind of damage must have occurred.

use separate::archived::compare_log;
use separate::bands;
use separate::call::{Call, Done};
use separate::coin::PATTERN;
use separate::compare::{compare_play, compare_strip, Difference, Pair};
use separate::conducted;
use separate::counts;
use separate::damage::{any_record, lent, Damage, DAMAGES, LEVEL_DAMAGES};
use separate::fixed::compare_fixed;
use separate::generate::{
    broken_session, left_behind_session, likely_call, limit_plan, session, small_plan, start, strange_call,
    strange_numbers, strip_numbers, wild_session, Habits,
};
use separate::library;
use separate::long_runs::{self, bring_forward, is_long, LARGE};
use separate::memories::Memories;
use separate::notices;
use separate::numbers::{Message, Numbers, Sort, LARGEST, MOST_REPLICAS, MOST_SLOTS, USUAL_PHASES};
use separate::options::number;
use separate::outcomes::{advances, Outcomes};
use separate::phases;
use separate::planes;
use separate::racks::{lead_on, LEADS};
use separate::random::Random;
use separate::refusal::Refusal;
use separate::rules::{self, Advanced};
use separate::script::Script;
use separate::strips;
use separate::tally::{answer_name, Tally, EVENTS};
use separate::urgent;
use std::process::ExitCode;

/// Which refusals each call can give; 0 is accepted.
const REFUSALS: [(&str, &[usize]); 10] = [
    ("strip", &[0, 1, 2]),
    ("open", &[0, 1, 2]),
    ("submit", &[0, 2, 3, 4, 5, 6, 7, 8]),
    ("relay", &[0, 2, 3, 4, 5, 6, 7, 9]),
    ("begin", &[0, 2, 3, 4, 5, 10, 11, 12]),
    ("hear", &[0, 2, 3, 4, 5, 16, 17, 18]),
    ("advance", &[0, 2, 3, 4, 5, 13, 14, 15]),
    ("run on", &[0, 2, 3, 4, 5, 13, 14, 15]),
    ("crash", &[0, 2, 3, 4, 5]),
    ("conduct", &[0, 2, 3, 11, 12, 22, 23]),
];

/// Events of damaged memories only: an own message counts as heard, and its mark is missing.
const UNMARKED: [&str; 2] = ["advanced without its own mark", "refused 18 without its own mark"];

/// Events of the conductor that a single call's memories do not tell.
const CONDUCTED: [&str; 2] = ["conducted in a run, by 3L² + L steps", "conducted three slots in a row"];

/// Most runs are small, so that they end; some have the usual phases or masks of 15 bits; a few are `LARGE`, or long.
const SMALL: Numbers = Numbers { n: 5, f: 2, slots: 3, phases: 4, room: 6 };
const USUAL: Numbers = Numbers { n: 4, f: 1, slots: 2, phases: USUAL_PHASES, room: 6 };
const WIDE: Numbers = Numbers { n: MOST_REPLICAS, f: 7, slots: 2, phases: 3, room: 20 };

fn main() -> ExitCode {
    let (seed, runs) = (number("--seed", 1), number("--runs", 1_000_000));
    let mut tally = Tally::expecting(expected());
    if let Err(difference) = compare_fixed(&mut tally) {
        println!("difference: {difference}");
        return ExitCode::FAILURE;
    }
    let (mut calls, mut run_seed) = (0, seed);
    while calls < runs {
        match Trial::new(run_seed, &mut tally).carry_out() {
            Ok(made) => calls += made,
            Err(difference) => {
                println!("difference at --seed {run_seed} --runs 1: {difference}");
                return ExitCode::FAILURE;
            }
        }
        run_seed += 1;
    }
    println!("{calls} calls in {} runs, no difference", run_seed - seed);
    tally.verdict()
}

fn expected() -> impl Iterator<Item = String> {
    let refusals = REFUSALS.iter().flat_map(|(call, refusals)| {
        refusals.iter().map(|&refusal| answer_name(call, refusal)).collect::<Vec<_>>()
    });
    let damages = DAMAGES.iter().chain(&LEVEL_DAMAGES).map(|(name, _)| format!("damage: {name}"));
    let racks = LEADS.iter().map(|(name, _)| format!("rack: {name}"));
    let others = ["other numbers than the run's", "played a step file"].into_iter();
    let noticed = notices::EVENTS.into_iter().chain(notices::EVENTS_OF_DAMAGE);
    let conducted = conducted::EVENTS.into_iter().chain(conducted::EVENTS_OF_DAMAGE).chain(CONDUCTED);
    let events =
        EVENTS.into_iter().chain(noticed).chain(phases::EVENTS).chain(strips::EVENTS).chain(conducted);
    let bands = bands::EVENTS.into_iter().chain(bands::EVENTS_OF_CALLS);
    let counts = counts::EVENTS.into_iter().chain(counts::EVENTS_OF_CALLS);
    let others = others.chain(UNMARKED).chain(planes::EVENTS_OF_RUNS).chain(counts);
    let events = events.chain(urgent::EVENTS).chain(bands).chain(others).map(str::to_string);
    refusals.chain(events).chain(damages).chain(racks)
}

/// The message of the caller's own that a call rests on: the one that it would hear, or one that its advance counts.
fn own_message(call: &Call, memories: &Memories) -> Option<(usize, Message)> {
    match *call {
        Call::Hear { receiver, sender, sort, slot, phase } if receiver == sender => {
            Some((receiver, Message { sort: Sort::numbered(sort)?, slot, phase }))
        }
        Call::Advance { who } => Some((who, memories.record(who)?.awaited())),
        _ => None,
    }
}

/// One run: opened, used, damaged in the middle and used further.
struct Trial<'a> {
    random: Random,
    tally: &'a mut Tally,
    /// What the memories were lent for.
    plan: Numbers,
    numbers: Numbers,
    refused_in_a_row: usize,
    habits: Habits,
    pair: Pair,
    /// The memories before a damage or a call with other numbers, and the calls left until they come back.
    whole: Option<(Memories, usize)>,
    /// Whether no damage was kept since the opening: then the whole memories are those of a run.
    is_run: bool,
    /// What the accepted advances of the run say.
    outcomes: Outcomes,
    /// The odds of racks that are made for the conductor.
    rack_odds: usize,
    conducted_in_a_row: usize,
}

impl Trial<'_> {
    fn new(seed: u64, tally: &mut Tally) -> Trial<'_> {
        let mut random = Random::new(seed);
        let plan = match random.below(128) {
            0 => small_plan(&mut random, &LARGE),
            1..12 => small_plan(&mut random, &WIDE),
            12..24 => small_plan(&mut random, &USUAL),
            24..29 => long_runs::plan(&mut random),
            _ => small_plan(&mut random, &SMALL),
        };
        let numbers = rules::planned(&plan, 0).unwrap_or(plan);
        let pair = Pair::of(lent(&mut random, &numbers));
        let habits = Habits::draw(&mut random, plan.n);
        let rack_odds = match random.below(6) {
            _ if is_long(&plan) => 40,
            0 => 2,
            _ => usize::MAX,
        };
        Trial {
            random,
            tally,
            plan,
            numbers,
            refused_in_a_row: 0,
            habits,
            pair,
            whole: None,
            is_run: false,
            outcomes: Outcomes::after(0, &numbers),
            rack_odds,
            conducted_in_a_row: 0,
        }
    }

    /// Answers how many calls were made.
    fn carry_out(&mut self) -> Result<u64, Difference> {
        self.open()?;
        let steps = if self.plan == LARGEST { 20 } else { self.random.pick(&[20, 200, 500]) };
        for _ in 0..steps {
            self.mend();
            if self.whole.is_none() && self.random.one_in(self.rack_odds) {
                self.conduct_rack()?;
            }
            if self.random.one_in(24) {
                self.damage(&DAMAGES);
            }
            self.step()?;
        }
        self.end_run()?;
        Ok(steps + 1)
    }

    fn open(&mut self) -> Result<(), Difference> {
        let opening = Call::Open { plan: self.plan, start: self.random.below(PATTERN) };
        let numbers = self.numbers;
        self.call(&opening, &numbers)
    }

    fn step(&mut self) -> Result<(), Difference> {
        let random = &mut self.random;
        let mut numbers = self.numbers;
        if random.one_in(24) {
            numbers = strange_numbers(random, &numbers);
            self.tally.note("other numbers than the run's");
            self.whole.get_or_insert((self.pair.ours.clone(), 0));
        }
        let stuck = self.whole.is_none() && self.refused_in_a_row > 20;
        match random.below(256) {
            0 => self.compare_play(),
            1..4 => self.compare_strip(),
            4..12 => self.compare_crash(&numbers),
            12..28 => {
                let call = strange_call(random, &numbers);
                self.call(&call, &numbers)
            }
            28..32 => self.call(&Call::Conduct, &numbers),
            draw if draw == 32 || stuck => {
                let call = opening(random, &self.plan);
                self.call(&call, &numbers)
            }
            _ => {
                let call = likely_call(random, &self.numbers, &self.habits, &self.pair.ours);
                self.call(&call, &numbers)
            }
        }
    }

    /// A new run that is made for the conductor, damaged half the time, and conducted.
    fn conduct_rack(&mut self) -> Result<(), Difference> {
        self.numbers = rules::planned(&self.plan, 0).unwrap_or(self.plan);
        self.pair = Pair::of(lent(&mut self.random, &self.numbers));
        self.open()?;
        let opened = Script::going_on(&self.numbers, self.pair.ours.clone());
        let (leads, script) = lead_on(&mut self.random, opened);
        leads.iter().for_each(|name| self.tally.note(&format!("rack: {name}")));
        script.calls.iter().try_for_each(|call| self.call(call, &script.numbers))?;
        match self.random.below(8) {
            0 => self.damage(&DAMAGES),
            1..4 => self.damage(&LEVEL_DAMAGES),
            _ => {}
        }
        let conducts = self.random.between(1, 4);
        (0..conducts).try_for_each(|_| self.call(&Call::Conduct, &script.numbers))
    }

    /// Whether the memories are those of a run.
    fn in_run(&self) -> bool {
        self.is_run && self.whole.is_none()
    }

    /// In a run the counts' claim must hold after each call.
    fn call(&mut self, call: &Call, numbers: &Numbers) -> Result<(), Difference> {
        let taken = if self.in_run() { advances(call, numbers, &self.pair.ours) } else { Vec::new() };
        match call {
            Call::Conduct => self.conduct(numbers)?,
            _ => self.make(call, numbers)?,
        }
        taken.into_iter().for_each(|advance| self.outcomes.note(advance));
        if self.in_run() {
            let claim = counts::claim(&self.numbers, &self.pair.ours, &self.outcomes);
            claim.map_err(|wrong| format!("{call:?}, the counts' claim: {wrong}"))?;
        }
        Ok(())
    }

    fn make(&mut self, call: &Call, numbers: &Numbers) -> Result<(), Difference> {
        self.conducted_in_a_row = 0;
        let own = own_message(call, &self.pair.ours);
        let counted = self.in_run() && counts::are_counted(&self.numbers, &self.pair.ours);
        let result = self.pair.call(call, numbers)?;
        self.note_answer(call.name(), result.map(|_| ()));
        if let Some((who, message)) = own {
            self.note_unmarked(who, message, numbers, &result);
        }
        self.tally.note_events(call, numbers, &result, &self.pair.ours);
        self.refused_in_a_row += 1;
        if let Ok(done) = result {
            self.refused_in_a_row = 0;
            if let Done::Opened(numbers) = done {
                counted.then(|| self.tally.note("opened over a run's counts"));
                self.start_run(numbers);
            }
        }
        Ok(())
    }

    /// The first slots of a long run are like those of a small one, so it is taken over later.
    fn start_run(&mut self, numbers: Numbers) {
        self.numbers = numbers;
        self.whole = None;
        self.is_run = true;
        let mut closed = 0;
        if is_long(&numbers) {
            closed = bring_forward(&mut self.random, &numbers, &mut self.pair.ours);
            self.pair.theirs.clone_from(&self.pair.ours);
        }
        self.outcomes = Outcomes::after(closed, &numbers);
    }

    /// In a run the conductor's claim must hold.
    fn conduct(&mut self, numbers: &Numbers) -> Result<(), Difference> {
        let before = self.pair.ours.clone();
        let result = self.pair.call(&Call::Conduct, numbers)?;
        self.note_answer(Call::Conduct.name(), result.map(|_| ()));
        let events = conducted::met(numbers, &result, &before, &self.pair.ours);
        let counted = counts::met(&Call::Conduct, numbers, &result, &self.pair.ours);
        events.into_iter().chain(counted).for_each(|event| self.tally.note(event));
        let Ok(Done::Conducted(counts)) = result else { return Ok(()) };
        self.refused_in_a_row = 0;
        self.conducted_in_a_row += 1;
        if self.conducted_in_a_row == 3 {
            self.tally.note(CONDUCTED[1]);
        }
        if self.in_run() {
            let claim = conducted::claim(numbers, &before, &self.pair.ours, counts);
            claim.map_err(|wrong| format!("the conductor's claim: {wrong}"))?;
            self.tally.note(CONDUCTED[0]);
        }
        Ok(())
    }

    /// No call that ends so changes the message or its mark. A close by a notice rests on no message of one's own.
    fn note_unmarked(
        &mut self,
        who: usize,
        message: Message,
        numbers: &Numbers,
        result: &Result<Done, Refusal>,
    ) {
        let name = match result {
            Ok(Done::Advanced(Advanced::ByNotice { .. })) => return,
            Ok(Done::Advanced(_)) => UNMARKED[0],
            Err(Refusal::Heard) => UNMARKED[1],
            _ => return,
        };
        let memories = &self.pair.ours;
        if memories.was_sent(numbers, message, who) && !memories.is_marked(numbers, message, who, who) {
            self.tally.note(name);
        }
    }

    fn note_answer(&mut self, call: &str, result: Result<(), Refusal>) {
        self.tally.note(&answer_name(call, result.map_or_else(Refusal::number, |()| 0)));
    }

    /// In a run every replica's log is stored and read back. What it has in it is no damage's, nor are its counts.
    fn end_run(&mut self) -> Result<(), Difference> {
        let memories = self.whole.as_ref().map_or(&self.pair.ours, |(whole, _)| whole);
        for who in (0..self.numbers.n).filter(|_| self.is_run) {
            let log = memories.log(&self.numbers, who, memories.slot(who));
            compare_log(log).map_err(|difference| format!("the log of {who}: {difference}"))?;
            let events = planes::met_in_run(log).into_iter().chain(counts::met_in_run(memories, who));
            events.for_each(|event| self.tally.note(event));
        }
        Ok(())
    }

    /// A damage is used for a few calls; then the whole memories come back, so that the run can go on. So they do after one
    /// call with other numbers, which move the sections, so that it may write across the run.
    fn damage(&mut self, kinds: &[(&'static str, Damage)]) {
        let (name, damage) = self.random.pick(kinds);
        self.tally.note(&format!("damage: {name}"));
        let mut memories = self.pair.ours.clone();
        let calls = self.random.between(1, 12);
        self.whole.get_or_insert((memories.clone(), calls));
        damage(&mut self.random, &self.numbers, &mut memories);
        self.pair = Pair::of(memories);
    }

    /// Brings the whole memories back in time. Now and then damaged ones that can be used are kept.
    fn mend(&mut self) {
        let Some((whole, left)) = self.whole.take() else { return };
        let usable = self.pair.ours.fit(&self.numbers) && !self.pair.ours.are_spoiled(&self.numbers);
        if left > 0 {
            self.whole = Some((whole, left - 1));
        } else if usable && self.random.one_in(3) {
            self.is_run = false;
        } else {
            self.pair = Pair::of(whole);
        }
    }

    /// A crash is lent any record here.
    fn compare_crash(&mut self, numbers: &Numbers) -> Result<(), Difference> {
        let lent = any_record(&mut self.random, numbers);
        let who = self.random.around(numbers.n.min(MOST_REPLICAS));
        let (mut ours, mut theirs) = (lent, lent);
        let result = rules::crash(numbers, who, &mut ours);
        let refusal = library::crash(numbers, who, &mut theirs);
        self.note_answer("crash", result);
        counts::met_by_crash(numbers, lent, result).into_iter().for_each(|event| self.tally.note(event));
        if (result.map_or_else(Refusal::number, |()| 0), ours) == (refusal, theirs) {
            return Ok(());
        }
        let shown = format!("crash of {who} with {lent:?} in {numbers:?}");
        Err(format!("{shown}\nours {result:?}, {ours:?}\nlibrary's {refusal}, {theirs:?}"))
    }

    fn compare_strip(&mut self) -> Result<(), Difference> {
        let random = &mut self.random;
        let (slots, phases, start) = strip_numbers(random);
        let needed = slots.min(MOST_SLOTS + 6) * phases.min(40);
        let mut strip = vec![random.word() as u8; (needed + 2).saturating_sub(random.below(4))];
        let result = compare_strip(slots, phases, start, &mut strip)?;
        self.note_answer("strip", result);
        if result.is_ok() {
            strips::met(slots, phases, start).into_iter().for_each(|event| self.tally.note(event));
        }
        Ok(())
    }

    fn compare_play(&mut self) -> Result<(), Difference> {
        let random = &mut self.random;
        let most = if random.one_in(4) { strange_numbers(random, &SMALL) } else { SMALL };
        let file = match random.below(4) {
            0 => session(random, &SMALL),
            1 => broken_session(random, &SMALL),
            2 => left_behind_session(random, &SMALL),
            _ => wild_session(random, &SMALL),
        };
        let mut memories = lent(random, &SMALL);
        if random.one_in(2) {
            random.pick(&DAMAGES).1(random, &SMALL, &mut memories);
        }
        let room = random.pick(&[0, 30, 100, 100_000]);
        self.tally.note("played a step file");
        compare_play(&most, &file, room, memories)
    }
}

/// Mostly the run that the memories were lent for, else one that they may or may not hold.
fn opening(random: &mut Random, plan: &Numbers) -> Call {
    let (plan, start) = match random.below(8) {
        0 => (limit_plan(random), start(random)),
        1 => (strange_numbers(random, plan), start(random)),
        2 => (small_plan(random, &SMALL), start(random)),
        _ => (*plan, random.below(PATTERN)),
    };
    Call::Open { plan, start }
}
