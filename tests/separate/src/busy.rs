//! Busy days: three replicas that go on from phase to phase. What each hears is chosen against the coin, so that no phase
//! brings an outcome.

use crate::numbers::{Numbers, Sort};
use crate::script::Script;

/// The replicas before a state round: two have the state that the phase's coin does not show, and one has the coin's.
#[derive(Clone, Copy)]
struct Sides {
    pair: [usize; 2],
    odd: usize,
}

/// A run of three, opened by this plan and busy in slot 0 for so many phases.
pub fn busy_script(plan: &Numbers, start: usize, phases: usize) -> Script {
    let mut script = Script::opened(plan, start);
    be_busy(&mut script, phases);
    script
}

/// Three replicas that are idle at one slot, where neither tag 5 nor 9 is known and none that is pending ranks before them,
/// are busy in it for so many phases. In the last phase of the run their advances are refused with 15.
pub fn be_busy(script: &mut Script, phases: usize) {
    let mut sides = exchange(script);
    for phase in 1..=phases {
        vote(script, phase, sides);
        sides = go_on(script, phase, sides);
    }
}

/// All hear each other in this phase. Two of the three states are equal: all vote for that, and it is the outcome.
pub fn settle(script: &mut Script, phase: usize) {
    for sort in [Sort::State, Sort::Vote] {
        for (receiver, sender) in [(0, 1), (0, 2), (1, 0), (1, 2), (2, 0), (2, 1)] {
            script.hear_in(phase, receiver, sender, sort);
        }
        script.advance(0..3);
    }
}

/// Of the slot that they are in, 0 or 1. Nobody has closed it.
fn coin(script: &Script, phase: usize) -> Option<u8> {
    script.memories.strip.get(script.numbers.coin_cell(script.slot(0), phase)).map(|coin| coin % 2)
}

/// Each receiver hears one message, with which it has heard a quorum, and all advance.
fn round(script: &mut Script, sort: Sort, phase: usize, heard: [(usize, usize); 3]) {
    for (receiver, sender) in heard {
        script.hear_in(phase, receiver, sender, sort);
    }
    script.advance(0..3);
}

/// Replicas 0 and 1 propose one tag and 2 another: who hears that tag twice has state 1, else 0.
fn exchange(script: &mut Script) -> Sides {
    script.share(5, [0, 1]);
    script.share(9, [2]);
    script.begin(0..3);
    let (heard, sides) = match coin(script, 1) {
        Some(0) => ([(0, 1), (1, 0), (2, 0)], Sides { pair: [0, 1], odd: 2 }),
        _ => ([(0, 1), (1, 2), (2, 0)], Sides { pair: [1, 2], odd: 0 }),
    };
    round(script, Sort::Proposal, 0, heard);
    sides
}

/// The first of the pair hears its own state twice and votes for it; the others hear both and vote `?`.
fn vote(script: &mut Script, phase: usize, sides: Sides) {
    let Sides { pair: [first, second], odd } = sides;
    round(script, Sort::State, phase, [(first, second), (second, odd), (odd, second)]);
}

/// Who hears the one vote goes on with it, and who hears `?` twice with the coin: as many as the next coin asks for.
fn go_on(script: &mut Script, phase: usize, sides: Sides) -> Sides {
    let Sides { pair: [first, second], odd } = sides;
    let (of_second, next) = if coin(script, phase) == coin(script, phase + 1) {
        (first, sides)
    } else {
        (odd, Sides { pair: [second, odd], odd: first })
    };
    round(script, Sort::Vote, phase, [(first, second), (second, of_second), (odd, second)]);
    next
}
