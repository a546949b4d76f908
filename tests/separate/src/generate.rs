//! Draws calls and step files by a seed. They are steered by the rules themselves: a drawn call is tried first, and
//! mostly accepted ones are kept.

use crate::busy::{busy_script, settle};
use crate::call::Call;
use crate::coin::PATTERN;
use crate::long_runs::is_long;
use crate::memories::{Memories, FIND, IDLE};
use crate::numbers::{
    Message, Numbers, Sort, MOST_PHASES, MOST_REPLICAS, MOST_ROOM, MOST_SLOTS, ROUNDS, USUAL_PHASES,
};
use crate::orders::Orders;
use crate::random::Random;
use crate::rank::URGENT;
use crate::rules;
use crate::script::{order, Script};
use crate::step_file::{body_length, write_record, Form, REHEARSAL_BYTES};

/// What differs from one session to the next, so that agreement, quarrel, crashes and stragglers all occur.
pub struct Habits {
    /// How many different orders are about, and what they are like.
    tags: usize,
    orders: Orders,
    /// A bare majority of the replicas has one order and the others another: views differ most.
    camps: bool,
    /// Replicas advance as soon as a quorum is heard.
    hasty: bool,
    crash_odds: usize,
    /// A replica that hears all and advances seldom; none if the number is n or more.
    straggler: usize,
    /// The odds of hearing what the replica does not wait for.
    stray_odds: usize,
    /// The odds of listening for notices: where they are heard at once, few replicas go through all rounds, and a
    /// straggler never runs on far.
    notice_odds: usize,
}

/// Which of the messages of its slot a replica listens for.
enum Listening {
    ToAwaited,
    ToNotices,
    ToAllButNotices,
}

impl Habits {
    pub fn draw(random: &mut Random, n: usize) -> Habits {
        Habits {
            tags: random.pick(&[1, 2, 3, 5, 12, 300]),
            orders: Orders::draw(random),
            camps: random.one_in(2),
            hasty: random.one_in(2),
            crash_odds: random.pick(&[50, 500, usize::MAX, usize::MAX]),
            straggler: random.below(2 * n),
            stray_odds: random.pick(&[1, 4, 40]),
            notice_odds: random.pick(&[2, 6, 30, usize::MAX, usize::MAX]),
        }
    }

    fn listening(&self, random: &mut Random, straggles: bool) -> Listening {
        if random.one_in(self.notice_odds) && (!straggles || random.one_in(8)) {
            Listening::ToNotices
        } else if straggles || random.one_in(self.stray_odds) {
            Listening::ToAllButNotices
        } else {
            Listening::ToAwaited
        }
    }

    fn tag(&self, random: &mut Random, numbers: &Numbers, who: usize) -> u64 {
        let drawn = random.below(self.tags);
        let camp = usize::from(self.camps && who >= numbers.majority());
        self.orders.tag(random, 1 + 2 * drawn + camp)
    }
}

/// Numbers of a run that `most` lets in; small limits are frequent, since runs reach them.
pub fn small_plan(random: &mut Random, most: &Numbers) -> Numbers {
    let n = if random.one_in(6) { random.between(1, most.n) } else { random.between(most.n.min(3), most.n) };
    let most_crashes = (n - 1) / 2;
    let f = if random.one_in(4) { random.between(0, most_crashes) } else { most_crashes };
    let slots = if random.one_in(8) { most.slots } else { random.between(1, most.slots.min(3)) };
    let phases = if random.one_in(8) { most.phases } else { random.between(1, most.phases.min(4)) };
    let room = if random.one_in(2) { most.room } else { random.between(1, most.room.min(4)) };
    let usual = most.phases >= USUAL_PHASES && random.one_in(4);
    Numbers { n, f, slots, phases: if usual { 0 } else { phases }, room }
}

/// One of the numbers at, around or far beyond its limit.
pub fn strange_numbers(random: &mut Random, numbers: &Numbers) -> Numbers {
    let mut strange = *numbers;
    match random.below(5) {
        0 => strange.n = random.around(MOST_REPLICAS),
        1 => strange.f = random.around(numbers.n / 2),
        2 => strange.slots = random.around(MOST_SLOTS),
        3 => strange.phases = random.around(MOST_PHASES),
        _ => strange.room = random.around(MOST_ROOM),
    }
    strange
}

/// Numbers at and past each limit, mostly slots: of document 01, of the rehearsal program and of document 02.
pub fn limit_plan(random: &mut Random) -> Numbers {
    let mut plan = small_plan(random, &Numbers { n: 7, f: 3, slots: 4, phases: 4, room: 4 });
    match random.below(10) {
        0 => plan.n = random.pick(&[0, 7, 8, MOST_REPLICAS, MOST_REPLICAS + 1, 255]),
        1 => plan.f = random.pick(&[plan.n / 2, plan.n / 2 + 1, plan.n, 127, 128, 255]),
        2 | 3 => plan.phases = random.pick(&[0, 16, 17, MOST_PHASES, MOST_PHASES + 1, 255]),
        4 | 5 => plan.room = random.pick(&[0, 64, 65, 256, 257, MOST_ROOM, MOST_ROOM + 1, 65_535]),
        _ => plan.slots = random.pick(&[0, 16, 17, 17, 64, 65, 255, 256, MOST_SLOTS, MOST_SLOTS + 1, 65_535]),
    }
    plan
}

/// A coin start at and past its limit, or an ordinary one.
pub fn start(random: &mut Random) -> usize {
    random.pick(&[0, 1, 510, 511, 65_535, PATTERN / 2, PATTERN / 3, PATTERN / 5])
}

/// Slots, phases and start of a strip: one of them may be at or beyond its limit. A third of the strips end on the coin
/// table's last entry, where that can be, half of these in rows of a byte at most.
pub fn strip_numbers(random: &mut Random) -> (usize, usize, usize) {
    let most = random.pick(&[64, MOST_SLOTS]);
    let (mut slots, mut phases, mut start) =
        (random.between(1, most), random.between(1, MOST_PHASES), random.below(PATTERN));
    match random.below(6) {
        0 => slots = random.around(MOST_SLOTS),
        1 => phases = random.around(MOST_PHASES),
        2 => start = random.around(PATTERN),
        3 => (slots, start) = ending_last(slots, phases),
        4 => {
            phases = phases.div_ceil(4);
            (slots, start) = ending_last(slots, phases);
        }
        _ => {}
    }
    (slots, phases, start)
}

/// 16 slots at most, and the start from which they end on the table's last entry. 16 of 32 phases go one further.
fn ending_last(slots: usize, phases: usize) -> (usize, usize) {
    let slots = slots.min(1 + slots % 16);
    (slots, PATTERN.saturating_sub(32 * (slots - 1) + phases))
}

/// A call that the run accepts, if a few draws find one. The draws can share a copy: a refused call changes nothing.
pub fn likely_call(random: &mut Random, numbers: &Numbers, habits: &Habits, memories: &Memories) -> Call {
    let mut call = drawn_call(random, numbers, habits, memories);
    let mut copy = None;
    for _ in 0..random.below(6) {
        if call.make(numbers, copy.get_or_insert_with(|| memories.clone())).is_ok() {
            break;
        }
        call = drawn_call(random, numbers, habits, memories);
    }
    call
}

fn drawn_call(random: &mut Random, numbers: &Numbers, habits: &Habits, memories: &Memories) -> Call {
    let who = random.below(numbers.n);
    if random.one_in(habits.crash_odds) && (crashed(numbers, memories) < numbers.f || random.one_in(8)) {
        return Call::Crash { who };
    }
    let tag = habits.tag(random, numbers, who);
    let idle = memories.record(who).is_none_or(|record| record.round == IDLE);
    let straggles = who == habits.straggler;
    match random.below(8) {
        0 if idle => Call::Submit { who, tag },
        1 if idle => Call::Relay { who, tag },
        2 | 3 if idle => Call::Begin { who },
        4 if idle => random.pick(&[Call::Advance { who }, Call::RunOn { who }]),
        5 if idle && random.one_in(4) => any_hear(random, numbers, habits, who, memories),
        0 if !straggles => Call::Advance { who },
        1 if !straggles || random.one_in(12) => Call::RunOn { who },
        2 if random.one_in(2) => any_hear(random, numbers, habits, who, memories),
        3..6 if habits.hasty && !straggles && !idle => Call::Advance { who },
        _ => {
            let listening = habits.listening(random, straggles);
            let other = match (idle, straggles) {
                (true, _) => Call::Submit { who, tag },
                (false, true) => any_hear(random, numbers, habits, who, memories),
                (false, false) => Call::Advance { who },
            };
            unheard(random, numbers, who, listening, memories).unwrap_or(other)
        }
    }
}

/// How many replicas have crashed.
fn crashed(numbers: &Numbers, memories: &Memories) -> usize {
    (0..numbers.n)
        .filter(|&replica| memories.record(replica).is_some_and(|record| record.crashed != 0))
        .count()
}

/// One of the messages of the receiver's slot that were sent, that it has not heard and that it listens for.
fn unheard(
    random: &mut Random,
    numbers: &Numbers,
    receiver: usize,
    listening: Listening,
    memories: &Memories,
) -> Option<Call> {
    let record = memories.record(receiver)?;
    if !memories.fit(numbers) {
        return None;
    }
    let mut calls = Vec::new();
    for message in numbers.messages(usize::from(record.slot)) {
        let Message { sort, slot, phase } = message;
        let listens = match listening {
            Listening::ToAwaited => message == record.awaited(),
            Listening::ToNotices => sort == Sort::Notice,
            Listening::ToAllButNotices => sort != Sort::Notice,
        };
        if !listens {
            continue;
        }
        let wanted = |&sender: &usize| {
            memories.was_sent(numbers, message, sender)
                && !memories.was_heard(numbers, message, sender, receiver)
        };
        let hear = |sender| Call::Hear { receiver, sender, sort: sort as usize, slot, phase };
        calls.extend((0..numbers.n).filter(wanted).map(hear));
    }
    (!calls.is_empty()).then(|| random.pick(&calls))
}

/// Any message of a low phase, whether it was sent or not, mostly of the receiver's slot.
fn any_hear(
    random: &mut Random,
    numbers: &Numbers,
    habits: &Habits,
    receiver: usize,
    memories: &Memories,
) -> Call {
    let record = memories.record(receiver).unwrap_or_default();
    let sender = random.below(numbers.n);
    let sort = if random.one_in(habits.notice_odds) {
        Sort::Notice
    } else {
        random.pick(&[Sort::Proposal, Sort::State, Sort::Vote])
    };
    let slot = if random.one_in(2) { usize::from(record.slot) } else { any_slot(random, numbers) };
    let phase = any_phase(random, sort, numbers.phases.min(3));
    Call::Hear { receiver, sender, sort: sort as usize, slot, phase }
}

/// Any slot; half the time in a long run one of its edges, or the one behind the last.
pub fn any_slot(random: &mut Random, numbers: &Numbers) -> usize {
    if is_long(numbers) && random.one_in(2) {
        random.pick(&[1, 63, 64, 255, 256, numbers.slots - 1, numbers.slots])
    } else {
        random.below(numbers.slots)
    }
}

/// A phase that a message of the sort can have, `most` at the most.
pub fn any_phase(random: &mut Random, sort: Sort, most: usize) -> usize {
    if sort.has_phases() {
        random.between(1, most)
    } else {
        0
    }
}

/// A call with arguments at, around and far beyond their limits.
pub fn strange_call(random: &mut Random, numbers: &Numbers) -> Call {
    let n = numbers.n.min(MOST_REPLICAS);
    let who = random.around(n);
    let tag = random.around(8) as u64;
    match random.below(16) {
        0 | 1 => Call::Submit { who, tag },
        2 | 3 => Call::Relay { who, tag },
        4 | 5 => Call::Begin { who },
        6 | 7 => Call::Advance { who },
        8 | 9 => Call::RunOn { who },
        10 => Call::Crash { who },
        _ => strange_hear(random, numbers, n),
    }
}

/// One argument is strange, the others lie within the run's numbers.
fn strange_hear(random: &mut Random, numbers: &Numbers, n: usize) -> Call {
    let (slots, phases) = (numbers.slots.clamp(1, MOST_SLOTS), numbers.phases.clamp(1, MOST_PHASES));
    let (mut receiver, mut sender) = (random.below(n.max(1)), random.below(n.max(1)));
    let drawn = random.pick(&[Sort::Proposal, Sort::State, Sort::Vote, Sort::Notice]);
    let mut sort = drawn as usize;
    let mut slot = random.below(slots);
    let mut phase = any_phase(random, drawn, phases);
    match random.below(5) {
        0 => receiver = random.around(n),
        1 => sender = random.around(n),
        2 => sort = random.around(Sort::Notice as usize),
        3 => slot = random.around(slots),
        _ => phase = random.around(phases),
    }
    Call::Hear { receiver, sender, sort, slot, phase }
}

/// A mostly valid session of a run that `most` lets in.
pub fn session(random: &mut Random, most: &Numbers) -> Vec<u8> {
    let script = Script::opened(&small_plan(random, most), random.below(PATTERN));
    let steps = random.pick(&[30, 200, 600, 1200]);
    drawn_on(random, script, steps)
}

/// A session of three replicas that are busy in slot 0, mostly up to the last phase, and then go on as drawn.
pub fn busy_session(random: &mut Random, most: &Numbers) -> Vec<u8> {
    let phases = if random.one_in(2) { 0 } else { random.between(1, most.phases) };
    let plan = Numbers { n: 3, f: 1, slots: random.between(1, most.slots.min(3)), phases, room: 4 };
    let start = random.below(PATTERN);
    let last = rules::planned(&plan, start).expect("a plan within the limits").phases;
    let busy = if random.one_in(3) { random.between(1, last) } else { last };
    let mut script = busy_script(&plan, start, busy);
    if busy < last && random.one_in(2) {
        settle(&mut script, busy + 1);
    }
    // the last phase is one, and behind it is none
    for phase in [last, last + 1] {
        script.hear_in(phase, random.below(3), random.below(3), random.pick(&[Sort::State, Sort::Vote]));
    }
    let steps = random.below(100);
    drawn_on(random, script, steps)
}

/// Either form of a record that has two, so that a file mixes them.
pub fn form(random: &mut Random) -> Form {
    random.pick(&[Form::Old, Form::New])
}

/// The script's calls, and so many that are drawn, most of them accepted.
pub fn drawn_on(random: &mut Random, script: Script, steps: usize) -> Vec<u8> {
    let (numbers, mut file) = (script.numbers, script.file(|| form(random)));
    let mut memories = script.memories;
    let habits = Habits::draw(random, numbers.n);
    for _ in 0..steps {
        let strange = random.one_in(100);
        let call = if strange {
            strange_call(random, &numbers)
        } else {
            likely_call(random, &numbers, &habits, &memories)
        };
        if call.make(&numbers, &mut memories).is_ok() || random.one_in(16) {
            write_record(&mut file, &call, form(random));
        }
    }
    file
}

/// A session in which a majority closes slots and leaves the last replica behind, in any round; this one then hears
/// notices. Drawn steps seldom leave a replica in the find round. Half the time all close a slot together before.
pub fn left_behind_session(random: &mut Random, most: &Numbers) -> Vec<u8> {
    let n = random.between(3, most.n);
    let (slots, phases) = (random.between(1, most.slots.min(4)), random.between(1, most.phases.min(4)));
    let room = most.room.min(slots + 1 + n);
    let mut script = Script::open(&Numbers { n, f: (n - 1) / 2, slots, phases, room });
    let together = usize::from(slots > 1 && random.one_in(2));
    (0..together).for_each(|_| close_together(random, &mut script));
    script.share_in_camps(random.pick(&[[1, 2], [1, URGENT + 1], [URGENT + 1, 1], [URGENT, u64::MAX]]));
    let (round, camp) = (random.between(usize::from(IDLE), usize::from(FIND)) as u16, script.camp());
    script.leave_in(round);
    script.go_on(camp.clone(), &[Sort::Vote]);
    if random.one_in(2) {
        catch_up(random, &mut script, round);
    }
    for further in 1..random.between(1, slots - together) {
        script.share(order(further), camp.clone());
        script.begin(camp.clone());
        script.go_on(camp.clone(), &ROUNDS);
    }
    let mut file = script.file(|| form(random));
    for _ in 0..random.between(4, 16) {
        write_record(&mut file, &call_left_behind(random, slots, camp.end, n), form(random));
    }
    file
}

/// With an order or empty, by all in phase 1.
fn close_together(random: &mut Random, script: &mut Script) {
    let Numbers { n, slots, .. } = script.numbers;
    if random.one_in(2) {
        script.share(order(slots), 0..n);
    } else {
        script.share_apart();
    }
    script.begin(0..n);
    script.go_on(0..n, &ROUNDS);
}

/// The last replica closes the slot that it was left in, by notices or, in the find round, by the proposals that it lacks.
fn catch_up(random: &mut Random, script: &mut Script, round: u16) {
    let (n, quorum) = (script.numbers.n, script.numbers.quorum());
    let sort = if round == FIND && random.one_in(2) { Sort::Proposal } else { Sort::Notice };
    script.hear(n - 1, 0..n - quorum, sort);
    script.advance([n - 1]);
}

/// Of a replica outside the camp, mostly the last. Whether it is accepted is left to the run.
fn call_left_behind(random: &mut Random, slots: usize, camp: usize, n: usize) -> Call {
    let who = if random.one_in(4) { random.between(camp, n - 1) } else { n - 1 };
    let sender = random.below(camp);
    match random.below(16) {
        0 => Call::Crash { who: sender },
        1 => Call::Begin { who },
        2..5 => Call::Advance { who },
        5..8 => Call::RunOn { who },
        _ => Call::Hear {
            receiver: who,
            sender,
            sort: Sort::Notice as usize,
            slot: random.below(slots),
            phase: 0,
        },
    }
}

/// Random records, most of them after an opening.
pub fn wild_session(random: &mut Random, most: &Numbers) -> Vec<u8> {
    let mut file = Vec::new();
    if !random.one_in(4) {
        let plan = if random.one_in(3) { limit_plan(random) } else { small_plan(random, most) };
        write_record(&mut file, &Call::Open { plan, start: random.below(PATTERN) }, form(random));
    }
    for _ in 0..random.below(80) {
        let kind = if random.one_in(200) { random.below(256) } else { random.below(10) };
        file.push(kind as u8);
        for _ in 0..body_length(kind as u8).unwrap_or(3) {
            let byte = if random.one_in(6) { random.below(256) } else { random.below(5) };
            file.push(byte as u8);
        }
    }
    file
}

/// A session that is broken in one of the ways a step file can be.
pub fn broken_session(random: &mut Random, most: &Numbers) -> Vec<u8> {
    let mut file = session(random, most);
    match random.below(6) {
        0 => cut(random, &mut file),
        1 => drop(file.drain(..record_places(&file)[1])),
        2 => file.push(unknown_kind(random)),
        3 => put_in(random, &mut file),
        4 => file = [openings(random), file].concat(),
        _ => {
            let place = random.below(file.len());
            file[place] = random.below(256) as u8;
        }
    }
    file
}

/// At the start, anywhere, or within a new opening or hear that is put at the end.
fn cut(random: &mut Random, file: &mut Vec<u8>) {
    match random.below(4) {
        0 => file.clear(),
        1 => file.truncate(random.below(file.len() + 1)),
        _ => {
            let kind = random.pick(&[8, 9]);
            let whole = body_length(kind).expect("a known kind");
            file.push(kind);
            file.resize(file.len() + random.below(whole), 0);
        }
    }
}

/// Mostly the first one.
fn unknown_kind(random: &mut Random) -> u8 {
    if random.one_in(2) {
        10
    } else {
        random.between(10, 255) as u8
    }
}

/// Openings at and past the limits.
fn openings(random: &mut Random) -> Vec<u8> {
    let mut file = Vec::new();
    for _ in 0..random.between(1, 12) {
        let plan = limit_plan(random);
        write_record(&mut file, &Call::Open { plan, start: start(random) }, form(random));
    }
    file
}

/// Puts an opening or an unknown kind at the start of a record in the middle.
fn put_in(random: &mut Random, file: &mut Vec<u8>) {
    let place = random.pick(&record_places(file));
    let extra = if random.one_in(4) { vec![unknown_kind(random)] } else { openings(random) };
    file.splice(place..place, extra);
}

/// Where records start, and where the last whole one ends.
pub fn record_places(file: &[u8]) -> Vec<usize> {
    let mut places = vec![0];
    let mut place = 0;
    while let Some(length) = file.get(place).copied().and_then(body_length) {
        place += 1 + length;
        if place > file.len() {
            break;
        }
        places.push(place);
    }
    places
}

/// A file with more bytes than the rehearsal program takes, or exactly as many. A record ends at that place, or one
/// straddles it.
pub fn long_session(random: &mut Random, most: &Numbers) -> Vec<u8> {
    let mut file = session(random, most);
    while file.len() + 40 < REHEARSAL_BYTES {
        let call = if random.one_in(3) {
            Call::Advance { who: random.below(9) }
        } else {
            Call::Submit { who: random.below(9), tag: random.below(90) as u64 }
        };
        write_record(&mut file, &call, Form::Old);
    }
    pad_to(&mut file, REHEARSAL_BYTES - random.pick(&[0, 0, 2, 3, 5, 8, 9]));
    for _ in 0..random.below(6) {
        write_record(&mut file, &Call::Submit { who: 0, tag: random.word() }, Form::Old);
    }
    file
}

/// Pads with records up to a length that is at least 9 away.
fn pad_to(file: &mut Vec<u8>, length: usize) {
    if (length - file.len()) % 2 == 1 {
        write_record(file, &Call::Open { plan: Numbers::default(), start: 0 }, Form::Old);
    }
    while file.len() < length {
        write_record(file, &Call::Begin { who: 0 }, Form::Old);
    }
}
