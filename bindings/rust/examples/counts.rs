//! A wasted slot on the controllers' cards. Each of three controllers proposes its own order in slot 0: none has a majority,
//! and controllers 0 and 1 close the slot as empty in phase 1, controller 2 by a notice. Then the conductor relays one order
//! after the other and closes a slot with each. Writes what was closed, and then every card: slots closed, how many of them
//! are empty, and of how many the controller reached the outcome in phase 1 itself.
//!
//!     RUSHHOPPER_LIB=FOLDER cargo run --example counts

use rushhopper::{Message, Numbers, Phase, Plan, Rack, Refusal, Replica, Slot};

const ZERO: Replica = Replica(0);
const ONE: Replica = Replica(1);
const TWO: Replica = Replica(2);

const FIRST: Slot = Slot(0);
const PHASE: Phase = Phase(1);

/// What the controllers send in slot 0, round by round.
const ROUNDS: [Message; 3] =
    [Message::Proposal(FIRST), Message::State(FIRST, PHASE), Message::Vote(FIRST, PHASE)];

/// Controllers 0 and 1 hear each other in every round; controller 2 hears of the end alone.
fn waste(rack: &mut Rack) -> Result<(), Refusal> {
    for (who, order) in [(ZERO, 5), (ONE, 7), (TWO, 9)] {
        rack.submit(who, order)?;
        rack.begin(who)?;
    }
    for message in ROUNDS {
        rack.hear(ZERO, ONE, message)?;
        rack.hear(ONE, ZERO, message)?;
        rack.advance(ZERO)?;
        rack.advance(ONE)?;
    }
    rack.hear(TWO, ZERO, Message::Notice(FIRST))?;
    rack.advance(TWO)
}

/// The entry that controller 0 has for the slot it closed last.
fn print_last(rack: &Rack) {
    let log = rack.log(ZERO);
    let slot = log.len() - 1;
    match log[slot] {
        0 => println!("slot {slot}: empty"),
        order => println!("slot {slot}: order {order}"),
    }
}

fn print_cards(rack: &Rack) {
    for (who, card) in rack.replicas().filter_map(|who| Some((who, rack.record(who)?))) {
        let closed = card.slot.0;
        println!("controller {}: {closed} closed, {} empty, {} in phase 1", who.0, card.empty, card.fast);
    }
}

fn main() -> Result<(), Refusal> {
    // a phase limit of 0 stands for 16
    let numbers = Numbers { n: 3, f: 1, slots: 4, phases: 0, room: 4 };
    let mut rack = Rack::open(Plan { numbers, start: 0 })?;
    waste(&mut rack)?;
    print_last(&rack);
    print_cards(&rack);
    while rack.conduct().is_ok() {
        print_last(&rack);
    }
    print_cards(&rack);
    Ok(())
}
