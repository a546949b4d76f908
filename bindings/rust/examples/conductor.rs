//! Three slots by the conductor alone: five controllers of which one goes dark, and orders handed in at different ones, one
//! of them urgent. Writes an account of each slot, every log, and what the conductor says once nothing is pending.
//!
//!     RUSHHOPPER_LIB=FOLDER cargo run --example conductor

use rushhopper::{Numbers, Plan, Rack, Refusal, Replica, URGENT};

const ZERO: Replica = Replica(0);
const ONE: Replica = Replica(1);
const TWO: Replica = Replica(2);
const THREE: Replica = Replica(3);
const FOUR: Replica = Replica(4);

/// Order 9 is handed in twice, and order 12 is urgent. Controller 2 goes dark before anyone else has its order 3.
fn hand_in(rack: &mut Rack) -> Result<(), Refusal> {
    for (who, order) in [(ZERO, 9), (FOUR, 9), (ONE, URGENT + 12), (THREE, 7), (TWO, 3)] {
        rack.submit(who, order)?;
    }
    rack.crash(TWO)
}

/// An urgent order with a mark instead of its highest bit.
fn shown(tag: u64) -> String {
    format!("{}{}", if tag & URGENT == 0 { "" } else { "!" }, tag & !URGENT)
}

/// The slot that comes next is that of controller 0, which stays lit.
fn conduct(rack: &mut Rack) {
    let slot = rack.log(ZERO).len();
    match rack.conduct() {
        Ok(conducted) => println!(
            "slot {slot}: order {}, {} steps and {} relays",
            shown(rack.log(ZERO)[slot]),
            conducted.steps,
            conducted.relays
        ),
        Err(refusal) => println!("slot {slot}: refused, {}: {refusal}", refusal.number()),
    }
}

fn print_log(rack: &Rack, who: Replica) {
    let crashed = rack.record(who).is_some_and(|record| record.crashed);
    print!("controller {} {}:", who.0, if crashed { "dark" } else { "lit" });
    for &order in rack.log(who) {
        print!(" {}", shown(order));
    }
    println!();
}

fn main() -> Result<(), Refusal> {
    // a phase limit of 0 stands for 16
    let numbers = Numbers { n: 5, f: 2, slots: 4, phases: 0, room: 8 };
    let mut rack = Rack::open(Plan { numbers, start: 0 })?;
    hand_in(&mut rack)?;
    for _ in 0..3 {
        conduct(&mut rack);
    }
    for who in rack.replicas() {
        print_log(&rack, who);
    }
    conduct(&mut rack);
    Ok(())
}
