//! Runs of more slots or tags than document 01 has, as document 02's Point 6 lets them in. They are drawn at slots where a
//! slot's number fills a byte, or where the run ends.

use crate::busy::{be_busy, settle};
use crate::call::Call;
use crate::coin::PATTERN;
use crate::filled::{by_age, by_rank, everyone, fill, Known};
use crate::generate::{any_phase, any_slot, drawn_on, form};
use crate::memories::{bit, Memories};
use crate::numbers::{Numbers, Sort, LARGEST, MOST_ROOM, MOST_SLOTS, ROUNDS};
use crate::random::Random;
use crate::rank::{rank, URGENT};
use crate::script::{order, Script};
use crate::step_file::write_record;
use std::ops::Range;

/// Document 01's largest run.
pub const LARGE: Numbers = Numbers { slots: 64, room: 256, ..LARGEST };

/// Where drawn calls take a run over.
const CLOSED: [usize; 11] = [0, 62, 63, 64, 254, 255, 256, 1021, 1022, 1023, 1024];
/// Slots in which a session of a long run has an order.
const EDGES: [usize; 6] = [1, 63, 64, 255, 256, MOST_SLOTS - 1];

pub fn is_long(numbers: &Numbers) -> bool {
    numbers.slots > LARGE.slots || numbers.room > LARGE.room
}

/// Few replicas as a rule: a call of the largest run takes a thousand times as long to compare as one of a small run.
pub fn plan(random: &mut Random) -> Numbers {
    if random.one_in(16) {
        return LARGEST;
    }
    let n = random.between(1, 5);
    let slots = random.pick(&[65, 255, 256, 257, MOST_SLOTS - 1, MOST_SLOTS, MOST_SLOTS, MOST_SLOTS]);
    let room = random.pick(&[8, 256, 257, MOST_ROOM - 1, MOST_ROOM, MOST_ROOM, MOST_ROOM]);
    Numbers { n, f: (n - 1) / 2, slots, phases: random.pick(&[0, 1, 2, 3, 3, 4, 4]), room }
}

/// Brings a run that has just been opened to a late slot. Half the time nothing is pending there. Answers the slots that all
/// have closed, each by an outcome of phase 1.
pub fn bring_forward(random: &mut Random, numbers: &Numbers, memories: &mut Memories) -> usize {
    let closed = random.pick(&CLOSED).min(numbers.slots).min(numbers.room);
    let more = random.pick(&[closed + 1, closed + 3, 256, numbers.room - 1, numbers.room]);
    let count = if random.one_in(2) { closed } else { more.clamp(closed, numbers.room) };
    let mut known: Vec<Known> = (1..=count).map(|second| drawn_known(random, numbers, second)).collect();
    match random.below(3) {
        0 => random.shuffle(&mut known),
        1 => known.sort_by_key(|&(tag, _)| rank(tag)),
        _ => {}
    }
    let entries = if random.one_in(2) { by_rank(&known, closed) } else { by_age(&known, closed) };
    fill(numbers, &known, &entries, memories);
    closed
}

/// An order, urgent or not, and any holders.
fn drawn_known(random: &mut Random, numbers: &Numbers, second: usize) -> Known {
    let urgent = random.pick(&[0, 0, URGENT]);
    let holders = random.word() as u16 & everyone(numbers) | bit(random.below(numbers.n));
    (order(second) | urgent, holders)
}

/// A step file of three that go through many slots, are busy in a late one and go on as drawn.
pub fn session(random: &mut Random) -> Vec<u8> {
    let slots = if random.one_in(2) { random.pick(&[65, 65, 255, 255, 256, 257]) } else { MOST_SLOTS };
    let room = random.pick(&[16, 257, MOST_ROOM]);
    let plan = Numbers { n: 3, f: 1, slots, phases: random.pick(&[0, 1, 2, 4]), room };
    let mut script = Script::opened(&plan, random.below(PATTERN));
    let closed = if random.one_in(4) {
        random.pick(&[64, 256]).min(slots)
    } else {
        slots - random.pick(&[0, 0, 1, 2])
    };
    go_through(&mut script, 0..closed, random.pick(&[CatchUp::Advance, CatchUp::RunOn]));
    if closed < slots {
        let busy = random.between(1, script.numbers.phases);
        be_busy(&mut script, busy);
        settle(&mut script, busy + 1);
    }
    look_back(random, &mut script);
    if random.one_in(2) {
        fill_room(&mut script);
    }
    script.begin(0..3);
    script.advance(0..3);
    let steps = random.pick(&[20, 60]);
    [refused_openings(random), drawn_on(random, script, steps)].concat()
}

/// How the third replica closes a slot that it has heard of.
#[derive(Clone, Copy, PartialEq, Eq)]
pub enum CatchUp {
    Advance,
    RunOn,
}

/// Replicas 0 and 1 propose orders that differ, so that slots close empty and few tags are known; the third hears of it by a
/// notice. At the edges both have one order.
pub fn go_through(script: &mut Script, slots: Range<usize>, catch_up: CatchUp) {
    if slots.start == 0 {
        script.share(order(1), [0]);
        script.share(order(2), [1]);
    }
    for slot in slots {
        if EDGES.contains(&slot) {
            script.share(URGENT + slot as u64, [0, 1]);
        }
        script.begin([0, 1]);
        script.go_on([0, 1], &ROUNDS);
        script.hear(2, [slot % 2], Sort::Notice);
        match catch_up {
            CatchUp::Advance => script.advance([2]),
            CatchUp::RunOn => script.run_on([2]),
        }
    }
}

/// Messages of any slots, most of which the third has not heard.
fn look_back(random: &mut Random, script: &mut Script) {
    for _ in 0..40 {
        let sort = random.pick(&[Sort::Proposal, Sort::State, Sort::Vote, Sort::Notice, Sort::Notice]);
        let (slot, phase) = (any_slot(random, &script.numbers), any_phase(random, sort, 1));
        script.hear_of(slot, phase, random.between(1, 2), random.below(2), sort);
    }
}

/// Submits orders until there is no room, and one more. Each ranks before the one that was submitted before it.
fn fill_room(script: &mut Script) {
    let (known, room) = (script.memories.known(), script.numbers.room);
    for place in known..=room {
        script.share(URGENT + order(MOST_ROOM + room - place), [2, 0]);
    }
}

/// One number is just past its limit, or far.
fn refused_openings(random: &mut Random) -> Vec<u8> {
    let mut file = Vec::new();
    for _ in 0..random.below(4) {
        let mut plan = Numbers { n: 3, f: 1, slots: 2, phases: 2, room: 4 };
        match random.below(2) {
            0 => plan.slots = random.pick(&[MOST_SLOTS + 1, 65_535]),
            _ => plan.room = random.pick(&[MOST_ROOM + 1, 65_535]),
        }
        write_record(&mut file, &Call::Open { plan, start: 0 }, form(random));
    }
    file
}
